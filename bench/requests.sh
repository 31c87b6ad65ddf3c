#!/bin/sh
# Times the reading of requests. Usage: bench/requests.sh
#
# It makes a small program over copies of fh_base and fh_wire in a folder of its own, which is removed at
# the end, and lets `rt run` prove, build and run it. The requests come from memory, so that no time of
# system calls is in the numbers, in whole pieces or one byte at a time. The best round counts.
set -eu
here=$(cd "$(dirname "$0")/.." && pwd)
copy=$(mktemp -d)
trap 'rm -rf "$copy"' EXIT
cp "$here/HANDLES" "$copy/"
for crate in fh_base fh_wire; do
    mkdir -p "$copy/crates/$crate"
    for part in src specs proofs; do
        cp -r "$here/crates/$crate/$part" "$copy/crates/$crate/"
    done
done
cd "$copy"
grep -E '^(fh_base|fh_wire):' "$here/crates.txt" > crates.txt
rt new crates/timing start_io > /dev/null
rm -rf crates/timing/proofs crates/timing/specs crates/timing/src/*
printf 'timing: fh_base fh_wire anyhow\n' >> crates.txt
cat > crates/timing/src/main.rt <<'PROGRAM'
#![tactic(auto)]

ghost use Rattle.std.specs.Prelude.{ℕ, ◌-◌, ◌≤◌, List, Option, None, Bool, true, length};

use fh_base::{Failed, Source};
use fh_wire::read_request;
use std::time::Instant;

// Bytes in memory that come in pieces of at most so many. It tells nothing of them.
#[derive(Drop)]
struct Pieces<'a> {
    left: &'a [u8],
    size: usize,
}

impl<'a> Source for Pieces<'a> {
    ghost left = { λ s. None };

    ghost most = { λ s. length s.left.now };

    ghost read_faults = { λ s. 0 };

    ghost reads_surely = { λ s. true };

    ghost beside_reading = { λ s. (None, 0, true) };

    fn read(&mut self, buf: &mut [u8]) -> Result<usize, Failed> {
        let size = buf.len().min(self.left.len()).min(self.size);
        let (given, left) = self.left.split_at(size);
        buf[..size].copy_from_slice(given);
        self.left = left;
        Ok(size)
    }
}

// The least time of a request, over so many rounds of so many requests each.
fn time(rt: &HostRuntime, name: &str, text: &[u8], size: usize, rounds: u32, each: u32) -> anyhow::Result<()> {
    let mut best = u64::MAX;
    let mut read = 0u32;
    for _ in 0..rounds {
        let start = Instant::now(rt)?;
        for _ in 0..each {
            let mut source = Pieces { left: text, size };
            if read_request(rt.alloc(), &mut source).is_ok() {
                read = read.wrapping_add(1);
            }
        }
        let taken = start.elapsed(rt)?.as_micros();
        best = best.min(u64::try_from(taken).unwrap_or(u64::MAX));
    }
    println!(rt; "{name}: {each} in {best} us ({read} read)")?;
    Ok(())
}

// A request with so many bytes of a body.
fn posted(rt: &HostRuntime, size: usize) -> anyhow::Result<Vec<u8>> {
    let head = format!(in rt.alloc(); "POST /queues/orders/messages?ttl=-1 HTTP/1.1\r\nHost: 127.0.0.1:7071\r\nUser-Agent: curl/7.88.1\r\nAccept: */*\r\nContent-Length: {size}\r\nContent-Type: application/x-www-form-urlencoded\r\n\r\n")?;
    let mut text = head.into_bytes();
    for _ in 0..size {
        text.push(b'x')?;
    }
    Ok(text)
}

// A request whose head alone has so many bytes, in one field.
fn long_head(rt: &HostRuntime, size: usize) -> anyhow::Result<Vec<u8>> {
    let mut text = b"GET / HTTP/1.1\r\nA: ".to_vec(rt.alloc())?;
    for _ in 0..size {
        text.push(b'x')?;
    }
    text.extend_from_slice(b"\r\n\r\n")?;
    Ok(text)
}

fn main(rt: HostRuntime) -> anyhow::Result<()> {
    let small = posted(&rt, 115)?;
    let count = small.len();
    println!(rt; "a small request has {count} bytes")?;
    time(&rt, "small, whole", small.as_slice(), 65536, 100, 1000)?;
    time(&rt, "small, byte by byte", small.as_slice(), 1, 100, 100)?;
    let large = posted(&rt, 2096000)?;
    time(&rt, "2 MiB of body, whole", large.as_slice(), 65536, 30, 1)?;
    time(&rt, "2 MiB of body, byte by byte", large.as_slice(), 1, 10, 1)?;
    let long = long_head(&rt, 2096000)?;
    time(&rt, "2 MiB of head, whole", long.as_slice(), 65536, 30, 1)?;
    time(&rt, "2 MiB of head, byte by byte", long.as_slice(), 1, 10, 1)?;
    Ok(())
}
PROGRAM
cd crates/timing
rt run
