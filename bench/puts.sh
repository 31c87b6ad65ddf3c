#!/usr/bin/env bash
# Compares the rate of puts with that of a plain loop in C. Usage: bench/puts.sh [puts] [rounds]
#
# Both read the same lines from a pipe, and for each put both write what stands behind the gate, sync the
# file's data, write the gate, sync again and write an answer. They run in turn, over the same file system,
# and the best round of each counts. The last line is the rate of fnhost over that of the loop.
set -eu
top=$(cd "$(dirname "$0")/.." && pwd)
puts=${1:-2000}
rounds=${2:-3}
folder=$(mktemp -d "$top/bench/.puts.XXXXXX")
trap 'rm -rf "$folder"' EXIT
cat > "$folder/loop.c" <<'PROGRAM'
#include <fcntl.h>
#include <stdio.h>
#include <string.h>
#include <unistd.h>

// For each line: a write behind the gate, a sync, a write at the gate, a sync, and an answer.
int main(int count, char **words) {
    static char line[200000], entry[200000];
    unsigned char open_gate = 1;
    long gate = 6, number = 0;
    int file = open(words[1], O_RDWR | O_CREAT, 0644);
    if (count < 2 || file < 0) return 1;
    if (pwrite(file, "FNHJ\0\1\0", 7, 0) != 7 || fdatasync(file)) return 1;
    while (fgets(line, sizeof line, stdin)) {
        size_t text = strlen(line) - 1;
        size_t size = 5 + 26 + text;
        char answer[64];
        memset(entry, 0, size);
        memcpy(entry + 31, line, text);
        if (pwrite(file, entry, size, gate + 1) != (ssize_t)size || fdatasync(file)) return 1;
        if (pwrite(file, &open_gate, 1, gate) != 1 || fdatasync(file)) return 1;
        gate += size;
        number++;
        int written = snprintf(answer, sizeof answer, "ok %ld %ld\n", number, number);
        if (write(1, answer, written) != written) return 1;
    }
    return 0;
}
PROGRAM
cc -O2 -o "$folder/loop" "$folder/loop.c"
# The program itself is timed, once it is built, and not the script that looks for changed sources.
"$top/bin/fnhost" > /dev/null < /dev/null || true
program=$top/crates/fnhost/out/fnhost
{
    echo 'queue orders'
    for ((i = 0; i < puts; i++)); do echo 'put orders 0 -1 hi'; done
} > "$folder/lines"

now() { date +%s%N; }
best_loop=0
best_host=0
for ((round = 0; round < rounds; round++)); do
    rm -f "$folder/journal"
    start=$(now)
    cat "$folder/lines" | "$folder/loop" "$folder/journal" > /dev/null
    taken=$(($(now) - start))
    if [ "$best_loop" -eq 0 ] || [ "$taken" -lt "$best_loop" ]; then best_loop=$taken; fi
    rm -f "$folder/journal"
    start=$(now)
    cat "$folder/lines" | "$program" script "$folder/journal" "$folder/checkpoint" > /dev/null
    taken=$(($(now) - start))
    if [ "$best_host" -eq 0 ] || [ "$taken" -lt "$best_host" ]; then best_host=$taken; fi
done
awk -v puts="$puts" -v loop="$best_loop" -v host="$best_host" 'BEGIN {
    printf "loop in C: %.0f puts a second\n", puts / (loop / 1e9)
    printf "fnhost:    %.0f puts a second\n", puts / (host / 1e9)
    printf "ratio: %.3f\n", loop / host
}'
