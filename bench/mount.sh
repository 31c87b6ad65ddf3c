#!/usr/bin/env bash
# Times the mounting of a journal of puts. Usage: bench/mount.sh [puts] [bytes] [rounds]
#
# A small program in C writes a journal with one queue and so many puts into it, each with a text of so many
# bytes. Then the program answers no line over it, so that it mounts and ends; the best round counts. The
# plain reading of the same file, byte for byte, is timed beside it, and the last line is the ratio of the two.
set -eu
top=$(cd "$(dirname "$0")/.." && pwd)
puts=${1:-20000}
bytes=${2:-100}
rounds=${3:-3}
folder=$(mktemp -d "$top/bench/.mount.XXXXXX")
trap 'rm -rf "$folder"' EXIT
cat > "$folder/write.c" <<'PROGRAM'
#include <stdio.h>
#include <stdlib.h>
#include <string.h>

static void number(unsigned long n, int width, FILE *to) {
    for (int place = width - 1; place >= 0; place--) fputc((n >> (8 * place)) & 255, to);
}

static void text(const char *bytes, size_t size, FILE *to) {
    number(size, 4, to);
    fwrite(bytes, 1, size, to);
}

// The header, one queue, the puts, and a closed gate.
int main(int count, char **words) {
    long puts = atol(words[1]);
    size_t size = atol(words[2]);
    char *content = malloc(size);
    memset(content, 'x', size);
    fwrite("FNHJ\0\1", 1, 6, stdout);
    fputc(1, stdout);
    number(19, 4, stdout);
    number(0, 8, stdout);
    fputc(1, stdout);
    text("orders", 6, stdout);
    for (long i = 0; i < puts; i++) {
        fputc(1, stdout);
        number(32 + size, 4, stdout);
        number(0, 8, stdout);
        fputc(2, stdout);
        text("orders", 6, stdout);
        number(0, 8, stdout);
        fputc(0, stdout);
        text(content, size, stdout);
    }
    fputc(0, stdout);
    return count == 3 ? 0 : 1;
}
PROGRAM
cc -O2 -o "$folder/write" "$folder/write.c"
"$folder/write" "$puts" "$bytes" > "$folder/journal"
# The program itself is timed, once it is built, and not the script that looks for changed sources.
"$top/bin/fnhost" > /dev/null < /dev/null || true
program=$top/crates/fnhost/out/fnhost

now() { date +%s%N; }
best_mount=0
best_read=0
for ((round = 0; round < rounds; round++)); do
    begin=$(now)
    cksum "$folder/journal" > /dev/null
    end=$(now)
    taken=$((end - begin))
    if ((best_read == 0 || taken < best_read)); then best_read=$taken; fi
    begin=$(now)
    "$program" script "$folder/journal" "$folder/checkpoint" < /dev/null
    end=$(now)
    taken=$((end - begin))
    if ((best_mount == 0 || taken < best_mount)); then best_mount=$taken; fi
done
size=$(wc -c < "$folder/journal")
echo "$puts puts of $bytes bytes, $size bytes: mounted in $((best_mount / 1000000)) ms, read in $((best_read / 1000000)) ms"
awk -v mount="$best_mount" -v read="$best_read" 'BEGIN { printf "ratio %.1f\n", mount / read }'
