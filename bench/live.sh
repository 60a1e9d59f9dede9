#!/usr/bin/env bash
# Runs the built program on scripts of blocks that are never freed: 100,000 of 16 bytes and 4,000 of 2,048. Prints the
# time for each command, beside that of an unverified program with bitmaps, and says whether it is at most four times as
# much. Status 1 where it isn't.
set -euo pipefail
source "$(dirname -- "$(readlink -f -- "${BASH_SOURCE[0]}")")/measure.sh"

# A script of so many blocks of a size.
blocks_of() {
    awk -v blocks="$1" -v size="$2" 'BEGIN {
        print "script bench"
        for (i = 0; i < blocks; i++) print "malloc x " size
        print "end"
    }'
}

printf 'script bench\nend\n' >"$scratch/0"
blocks_of 100000 16 >"$scratch/16"
blocks_of 4000 2048 >"$scratch/2048"

# The microseconds for each block, less a run without commands, by the words after it.
line_of() {
    local blocks=$1 size=$2 bitmaps=$3 base_micros micros
    shift 3
    is_whole "$scratch/$size" "$@"
    base_micros=$(micros_of "$scratch/0" "$@")
    micros=$(micros_of "$scratch/$size" "$@")
    awk -v n="$blocks" -v size="$size" -v words="${*:2}" -v us="$micros" -v us0="$base_micros" -v bitmaps="$bitmaps" 'BEGIN {
        each = (us - us0) / n
        printf "%8d %6d %7s %12.2f %12.1f %8.2f\n", n, size, words, each, bitmaps, each / bitmaps
    }' | tee -a "$scratch/table"
}

printf '%8s %6s %7s %12s %12s %8s\n' blocks bytes words us/command 'by bitmaps' times
for words in '-w 0' '-s 7'; do
    read -ra given <<<"run $words"
    line_of 100000 16 1.5 "${given[@]}"
    line_of 4000 2048 3 "${given[@]}"
done

awk '
    $NF > 4 { failed = 1 }
    $NF > 2 { above = 1 }
    END {
        printf "a command takes at most twice the time of one by bitmaps: %s\n", above ? "no" : "yes"
        printf "a command takes at most four times the time of one by bitmaps: %s\n", failed ? "FAILS" : "holds"
        exit failed
    }' "$scratch/table"
