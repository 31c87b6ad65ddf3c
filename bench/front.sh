#!/bin/sh
# Times what the front adds to a step: from a request's bytes to its command, and from an answer to the
# response's bytes. Usage: bench/front.sh
#
# It makes a small program over copies of fh_front and the crates below it in a folder of its own, which is
# removed at the end, and lets `rt run` prove, build and run it. The request is a put of 100 bytes. It comes
# from memory and the response goes there, so that no time of system calls is in the numbers. The best round
# counts, and the last line is the sum for one put; asked are at most 10 microseconds.
set -eu
here=$(cd "$(dirname "$0")/.." && pwd)
copy=$(mktemp -d)
trap 'rm -rf "$copy"' EXIT
cp "$here/HANDLES" "$copy/"
for crate in fh_base fh_event fh_wire fh_front; do
    mkdir -p "$copy/crates/$crate"
    for part in src specs proofs; do
        cp -r "$here/crates/$crate/$part" "$copy/crates/$crate/"
    done
done
cd "$copy"
grep -E '^(fh_base|fh_event|fh_wire|fh_front):' "$here/crates.txt" > crates.txt
rt new crates/timing start_io > /dev/null
rm -rf crates/timing/proofs crates/timing/specs crates/timing/src/*
printf 'timing: fh_base fh_event fh_wire fh_front anyhow\n' >> crates.txt
cat > crates/timing/src/main.rt <<'PROGRAM'
#![tactic(auto)]

use fh_base::{Failing, FaultPlan, MemorySink, MemorySource};
use fh_event::{Reply, StepFault};
use fh_front::{Routes, command_of, response_of};
use fh_wire::{read_request, write_response};
use std::alloc::Global;
use std::time::Instant;

// No call fails.
fn passing() -> FaultPlan {
    FaultPlan::new(Failing::After { passed: 1_000_000_000 })
}

// Whether the request is read and is a command.
fn is_command(alloc: Global, routes: &Routes, source: &mut MemorySource) -> bool {
    match read_request(alloc, source) {
        Ok(request) => command_of(alloc, routes, &request).is_ok(),
        Err(_) => false,
    }
}

// Whether the answer's response is written.
fn is_answered(alloc: Global, sink: &mut MemorySink, answer: &Result<Reply, StepFault>) -> bool {
    match response_of(alloc, answer) {
        Ok((status, body)) => write_response(alloc, sink, status, body.as_slice()).is_ok(),
        Err(_) => false,
    }
}

// The nanoseconds of so many requests.
fn time_requests(rt: &HostRuntime, routes: &Routes, text: &[u8], each: u32) -> anyhow::Result<u64> {
    let mut passed = 0u32;
    let start = Instant::now(rt)?;
    for _ in 0..each {
        let mut source = MemorySource::new(text.to_vec(rt.alloc())?, passing());
        if is_command(rt.alloc(), routes, &mut source) {
            passed = passed.wrapping_add(1);
        }
    }
    let taken = start.elapsed(rt)?.as_nanos();
    if passed != each {
        println!(rt; "{passed} of {each} requests were commands")?;
    }
    Ok(u64::try_from(taken).unwrap_or(u64::MAX))
}

// The nanoseconds of so many responses.
fn time_responses(rt: &HostRuntime, answer: &Result<Reply, StepFault>, each: u32) -> anyhow::Result<u64> {
    let mut passed = 0u32;
    let start = Instant::now(rt)?;
    for _ in 0..each {
        let mut sink = MemorySink::new(rt.alloc(), passing());
        if is_answered(rt.alloc(), &mut sink, answer) {
            passed = passed.wrapping_add(1);
        }
    }
    let taken = start.elapsed(rt)?.as_nanos();
    if passed != each {
        println!(rt; "{passed} of {each} responses were written")?;
    }
    Ok(u64::try_from(taken).unwrap_or(u64::MAX))
}

// A put of so many bytes.
fn put(rt: &HostRuntime, size: usize) -> anyhow::Result<Vec<u8>> {
    let head = format!(in rt.alloc(); "POST /queues/orders/messages?ttl=-1 HTTP/1.1\r\nHost: 127.0.0.1:7071\r\nUser-Agent: curl/7.88.1\r\nAccept: */*\r\nContent-Length: {size}\r\nContent-Type: application/x-www-form-urlencoded\r\n\r\n")?;
    let mut text = head.into_bytes();
    for _ in 0..size {
        text.push(b'x')?;
    }
    Ok(text)
}

const EACH: u32 = 1000;

fn main(rt: HostRuntime) -> anyhow::Result<()> {
    let text = put(&rt, 100)?;
    let Ok(routes) = Routes::new(rt.alloc()) else {
        println!(rt; "no memory")?;
        return Ok(());
    };
    let answer = Ok(Reply::Stored {
        number: 1000000,
        receipt: 3000000,
    });
    let mut asked = u64::MAX;
    let mut answered = u64::MAX;
    for _ in 0..100 {
        asked = asked.min(time_requests(&rt, &routes, text.as_slice(), EACH)?);
        answered = answered.min(time_responses(&rt, &answer, EACH)?);
    }
    let each = u64::from(EACH);
    let (asked, answered) = (asked / each, answered / each);
    let sum = asked.saturating_add(answered);
    println!(rt; "from bytes to a command: {asked} ns")?;
    println!(rt; "from an answer to bytes: {answered} ns")?;
    println!(rt; "both: {sum} ns")?;
    Ok(())
}
PROGRAM
cd crates/timing
rt run
