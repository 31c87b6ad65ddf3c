#!/usr/bin/env bash
# Compares the cost of a put, a take and a delete beside 1,000, 10,000 and 99,999 live messages, and that of a
# mounted entry. Usage: bench/growth.sh [turns] [rounds]
#
# A journal is filled with so many puts of 100 bytes, and then so many turns take the first message, delete it
# and put another one. What counts is the time in user mode of the best round, less that of the same run with
# no turns; the kernel's time is left out. A mounted entry is timed by as many runs that answer no line as make
# 100,000 entries, less as many runs over an empty journal. The last lines are the ratios of the last store to
# the first. TMPDIR should name a folder in memory, and the machine be idle: with few turns the ratios differ by a
# third from run to run.
set -eu
top=$(cd "$(dirname "$0")/.." && pwd)
turns=${1:-300000}
rounds=${2:-5}
folder=$(mktemp -d "${TMPDIR:-/tmp}/growth.XXXXXX")
trap 'rm -rf "$folder"' EXIT
# The program itself is timed, once it is built, and not the script that looks for changed sources.
"$top/bin/fnhost" > /dev/null < /dev/null || true
program=${FNHOST:-$top/crates/fnhost/out/fnhost}
text=$(printf 'x%.0s' {1..100})

# Lines that fill a queue.
fill() {
    awk -v live="$1" -v text="$text" 'BEGIN {
        print "queue orders"
        for (n = 0; n < live; n++) print "put orders 0 -1 " text
    }'
}

# Lines that take the first message, delete it and put another one.
turn() {
    awk -v live="$1" -v turns="$turns" -v text="$text" 'BEGIN {
        for (n = 0; n < turns; n++) {
            print "take orders - -"
            print "delete orders " n + 1 " " live + 2 * n + 1
            print "put orders 0 -1 " text
        }
    }'
}

# The time in user mode that a command takes, in milliseconds; it fails where a line was refused.
user_time() {
    local taken
    taken=$({
        TIMEFORMAT=%3U
        time "$@" > "$folder/answers"
    } 2>&1)
    if grep -q '^no ' "$folder/answers"; then
        echo 'a line was refused' >&2
        exit 1
    fi
    awk -v s="$taken" 'BEGIN { printf "%d", s * 1000 }'
}

# Answers lines over a copy of a journal.
answer() {
    "$program" script "$folder/run" "$folder/checkpoint" < "$1"
}

# Mounts a journal so many times.
mount_often() {
    local n
    for ((n = 0; n < $2; n++)); do
        "$program" script "$1" "$folder/checkpoint" < "$folder/none"
    done
}

# The least time of all rounds, of turns over a copy of a journal.
best_turns() {
    local least='' taken
    for ((round = 0; round < rounds; round++)); do
        cp "$1" "$folder/run"
        taken=$(user_time answer "$2")
        if [ -z "$least" ] || [ "$taken" -lt "$least" ]; then least=$taken; fi
    done
    echo "$least"
}

# The least time of all rounds, of so many mounts.
best_mounts() {
    local least='' taken
    for ((round = 0; round < rounds; round++)); do
        taken=$(user_time mount_often "$1" "$2")
        if [ -z "$least" ] || [ "$taken" -lt "$least" ]; then least=$taken; fi
    done
    echo "$least"
}

: > "$folder/none"
first_turn=''
for live in 1000 10000 99999; do
    mounts=$((100000 / live))
    fill "$live" > "$folder/fill"
    turn "$live" > "$folder/turn"
    rm -f "$folder/journal" "$folder/empty"
    "$program" script "$folder/journal" "$folder/checkpoint" < "$folder/fill" > "$folder/answers"
    mounted=$(best_mounts "$folder/journal" "$mounts")
    nothing=$(best_mounts "$folder/empty" "$mounts")
    unturned=$(best_turns "$folder/journal" "$folder/none")
    turned=$(best_turns "$folder/journal" "$folder/turn")
    turn=$(awk -v t="$turned" -v m="$unturned" -v n="$turns" 'BEGIN { printf "%.2f", (t - m) * 1000 / n }')
    entry=$(awk -v m="$mounted" -v e="$nothing" -v n="$live" -v r="$mounts" \
        'BEGIN { printf "%.2f", (m - e) * 1000 / (n * r) }')
    echo "$live live: $turn microseconds a put, a take and a delete; $entry a mounted entry"
    if [ -z "$first_turn" ]; then
        first_turn=$turn
        first_entry=$entry
    fi
done
awk -v last="$turn" -v first="$first_turn" 'BEGIN { printf "ratio of a put, a take and a delete %.2f\n", last / first }'
awk -v last="$entry" -v first="$first_entry" 'BEGIN { printf "ratio of a mounted entry %.2f\n", last / first }'
