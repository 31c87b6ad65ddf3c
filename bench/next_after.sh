#!/bin/sh
# Times a look-up of a schedule's next second. Usage: bench/next_after.sh
#
# It makes a small program over a copy of fh_ncrontab in a folder of its own, which is removed at
# the end, and lets `rt run` prove, build and run it. Each case is looked up from many seconds in a row,
# and its time is the mean of one call.
set -eu
here=$(cd "$(dirname "$0")/.." && pwd)
copy=$(mktemp -d)
trap 'rm -rf "$copy"' EXIT
cp "$here/HANDLES" "$copy/"
mkdir -p "$copy/crates/fh_ncrontab"
for part in src specs proofs; do
    cp -r "$here/crates/fh_ncrontab/$part" "$copy/crates/fh_ncrontab/"
done
cd "$copy"
printf 'fh_ncrontab: jiff_core\n' > crates.txt
rt new crates/timing start_io > /dev/null
rm -rf crates/timing/proofs crates/timing/specs crates/timing/src/*
printf 'timing: fh_ncrontab anyhow\n' >> crates.txt
cat > crates/timing/src/main.rt <<'PROGRAM'
#![tactic(auto)]

use fh_ncrontab::Schedule;
use std::time::Instant;

// The text, the first second to look up from, and how many seconds.
const CASES: [(&str, i64, u32); 5] = [
    ("0 */5 * * * *", 1767262500, 1000000),
    ("0 0 9 * * MON-FRI", 1767262500, 1000000),
    ("0 0 0 29 2 MON", 1767225600, 100000),
    ("0 0 0 29 2 MON", 3223929600, 100000),
    ("0 0 0 29 2 MON", 253240000000, 100000),
];

// Texts to read, of which the last two never run.
const TEXTS: [&str; 3] = ["0 0 0 29 2 MON", "0 0 0 30 2 *", "0 0 0 31 2,4,6,9,11 *"];

fn main(rt: HostRuntime) -> anyhow::Result<()> {
    for (text, from, count) in CASES {
        let Ok(schedule) = Schedule::read(text) else {
            continue;
        };
        if from < 0 || from > 253400000000 || count > 1000000 {
            continue;
        }
        let start = Instant::now(&rt)?;
        let mut sum = 0;
        for step in 0..count {
            sum ^= schedule.next_after(from + step as i64).unwrap_or(0);
        }
        let taken = start.elapsed(&rt)?.as_micros();
        println!(rt; "{count} look-ups of {text} from {from}: {taken} us in all ({sum})")?;
    }
    for text in TEXTS {
        let start = Instant::now(&rt)?;
        let mut is_read = false;
        for _ in 0..1000 {
            is_read = Schedule::read(text).is_ok();
        }
        let taken = start.elapsed(&rt)?.as_micros();
        println!(rt; "1000 readings of {text}: {taken} us in all (read: {is_read})")?;
    }
    Ok(())
}
PROGRAM
cd crates/timing
rt run
