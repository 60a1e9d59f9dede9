#!/usr/bin/env bash
# Runs the built program on scripts that give one block of 1 to 8 pages another such size, 2,000, 20,000 and 100,000 times.
# With R each of these moves the block, and without letters each leaves it where it is. Prints the time for each, how long
# the copies take by themselves, the memory for each, and how many bytes are copied in a second; and says whether the
# bounds hold. Status 1 where one doesn't.
set -euo pipefail
source "$(dirname -- "$(readlink -f -- "${BASH_SOURCE[0]}")")/measure.sh"

# A run must write its whole output, in which so many reallocs have another address than the one they began with.
has_moves() {
    local script=$1 wanted=$2 found
    shift 2
    is_whole "$script" "$@"
    found=$("$program" "$@" <"$script" | awk '$4 == "realloc" && $9 == "block" && $5 != $10 { moves++ } END { print moves + 0 }')
    if [[ $found != "$wanted" ]]; then
        echo "$found blocks moved by $*, and not $wanted"
        exit 1
    fi
}

# The bytes that the reallocs of a script copy, and the microseconds of these copies alone, between two places of one
# buffer: the fastest of five times, less the loop without bytes.
copies_of() {
    python3 - "$1" <<'END'
import sys
import time

sizes = [int(line.split()[-1]) for line in open(sys.argv[1]) if " x " in line]
lengths = [min(pair) for pair in zip(sizes, sizes[1:])]
memory = memoryview(bytearray(65536))


def micros(lengths):
    here, there = 0, 32768
    began = time.perf_counter()
    for length in lengths:
        memory[there : there + length] = memory[here : here + length]
        here, there = there, here
    return 1e6 * (time.perf_counter() - began)


def fastest(lengths):
    return min(micros(lengths) for _ in range(5))


print(sum(lengths), round(fastest(lengths) - fastest([0] * len(lengths))))
END
}

printf 'script bench\nmalloc x 4096\nend\n' >"$scratch/0"
base_micros=$(micros_of "$scratch/0" run -w 0)
base_peak=$(peak_of "$scratch/0" run -w 0)
printf 'one block: %d us, %d KiB\n' "$base_micros" "$base_peak"
printf '%10s %12s %12s %12s %14s %14s %12s\n' reallocs 'us, R' 'us, stays' 'us, copies' 'bytes, R' 'bytes, stays' 'MB/s, R'

for reallocs in 2000 20000 100000; do
    input=$scratch/$reallocs
    python3 "$top/bench/make_input" $((reallocs + 1)) moves >"$input"
    has_moves "$input" "$reallocs" run -o R -w 0
    has_moves "$input" 0 run -w 0
    read -r copied alone < <(copies_of "$input")
    awk -v n="$reallocs" -v us0="$base_micros" -v kib0="$base_peak" -v copied="$copied" -v alone="$alone" \
        -v moves="$(micros_of "$input" run -o R -w 0)" -v moves_kib="$(peak_of "$input" run -o R -w 0)" \
        -v stays="$(micros_of "$input" run -w 0)" -v stays_kib="$(peak_of "$input" run -w 0)" 'BEGIN {
        printf "%10d %12.3f %12.3f %12.3f %14.1f %14.1f %12.0f\n", n, (moves - us0) / n, (stays - us0) / n, alone / n,
            (moves_kib - kib0) * 1024 / n, (stays_kib - kib0) * 1024 / n, copied / (moves - us0)
    }' | tee -a "$scratch/table"
done

# Each column is less what one block took. Both runs have as many entries, so what a move needs besides shows in their
# difference.
awk '
    function holds(is) { if (!is) failed = 1; return is ? "holds" : "FAILS" }
    $1 == 20000 { before = $2 }
    $1 == 100000 { after = $2; stays = $3; alone = $4; more = $5 - $6 }
    END {
        printf "time for each of 100,000 is %.2f times that of 20,000 (at most 1.5): %s\n", after / before, holds(after <= 1.5 * before)
        printf "it is %.2f times that of the copies alone (at most 5): %s\n", after / alone, holds(after <= 5 * alone)
        printf "a move takes %.1f bytes of memory more than a block that stays (at most 4): %s\n", more, holds(more <= 4)
        exit failed
    }' "$scratch/table"
