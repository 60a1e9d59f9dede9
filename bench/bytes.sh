#!/usr/bin/env bash
# Runs the built program on scripts of 2,000, 20,000 and 200,000 commands that allocate, store, load and free, at junk
# levels 0, 1 and 2, prints the time for each command, and says whether the bounds hold. Status 1 where one doesn't.
set -euo pipefail
source "$(dirname -- "$(readlink -f -- "${BASH_SOURCE[0]}")")/measure.sh"

# The microseconds for each command of a script, less a run without commands.
each_of() {
    local commands=$1 micros
    shift
    is_whole "$@"
    micros=$(micros_of "$@")
    awk -v n="$commands" -v us="$micros" -v us0="$base_micros" 'BEGIN { printf "%.3f\n", (us - us0) / n }'
}

printf 'script bench\nend\n' >"$scratch/0"
base_micros=$(micros_of "$scratch/0" run -w 0)
printf 'without commands: %d us\n' "$base_micros"
python3 "$top/bench/make_input" 200000 >"$scratch/without_bytes"
without_bytes=$(each_of 200000 "$scratch/without_bytes" run -w 0)
printf 'malloc and free alone, 200,000 commands: %s us/command\n' "$without_bytes"

printf '%10s %12s %12s %12s\n' commands 'level 0' 'level 1' 'level 2'
for commands in 2000 20000 200000; do
    input=$scratch/$commands
    python3 "$top/bench/make_input" "$commands" bytes >"$input"
    printf '%10d %12s %12s %12s\n' "$commands" "$(each_of "$commands" "$input" run -o j -w 0)" \
        "$(each_of "$commands" "$input" run -w 0)" "$(each_of "$commands" "$input" run -o J -w 0)" | tee -a "$scratch/table"
done

awk -v us0="$base_micros" -v without="$without_bytes" '
    function holds(is) { if (!is) failed = 1; return is ? "holds" : "FAILS" }
    $1 == 20000 { for (i = 2; i <= 4; i++) before[i] = $i }
    $1 == 200000 { for (i = 2; i <= 4; i++) after[i] = $i }
    END {
        for (i = 2; i <= 4; i++)
            printf "level %d: a command of 200,000 takes %.2f times one of 20,000 (at most 1.5): %s\n", i - 2, after[i] / before[i], holds(after[i] <= 1.5 * before[i])
        printf "level 1: a command takes %.2f times one of malloc and free alone (at most 2): %s\n", after[3] / without, holds(after[3] <= 2 * without)
        printf "a start and an end take %.1f ms (at most 10): %s\n", us0 / 1000, holds(us0 <= 10000)
        exit failed
    }' "$scratch/table"
