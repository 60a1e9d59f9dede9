#!/usr/bin/env bash
# Runs the built program on scripts of 2,000, 20,000 and 200,000 commands that allocate and free blocks of 1 to 8 pages
# with at most 64 of them live, alone and beside 1,000 live blocks of one page. Prints the time for each command, and says
# whether the bounds hold. Status 1 where one doesn't.
set -euo pipefail
source "$(dirname -- "$(readlink -f -- "${BASH_SOURCE[0]}")")/measure.sh"

held=1000

# The microseconds for each command of a script, less a run of what it begins with.
each_of() {
    local commands=$1 began=$2 micros
    shift 2
    is_whole "$@"
    micros=$(micros_of "$@")
    awk -v n="$commands" -v us="$micros" -v us0="$began" 'BEGIN { printf "%.3f\n", (us - us0) / n }'
}

printf 'script bench\nend\n' >"$scratch/0"
base_micros=$(micros_of "$scratch/0" run -w 0)
seed_micros=$(micros_of "$scratch/0" run -s 7)
python3 "$top/bench/make_input" "$held" pages "$held" >"$scratch/held"
is_whole "$scratch/held" run -w 0
held_micros=$(micros_of "$scratch/held" run -w 0)
printf 'without commands: %d us; with 1,000 blocks of one page: %d us\n' "$base_micros" "$held_micros"

printf '%10s %12s %12s %18s\n' commands '-w 0' '-s 7' '-w 0, 1,000 more'
for commands in 2000 20000 200000; do
    python3 "$top/bench/make_input" "$commands" pages >"$scratch/alone"
    python3 "$top/bench/make_input" "$commands" pages "$held" >"$scratch/beside"
    printf '%10d %12s %12s %18s\n' "$commands" "$(each_of "$commands" "$base_micros" "$scratch/alone" run -w 0)" \
        "$(each_of "$commands" "$seed_micros" "$scratch/alone" run -s 7)" \
        "$(each_of "$((commands - held))" "$held_micros" "$scratch/beside" run -w 0)" | tee -a "$scratch/table"
done

awk '
    function holds(is) { if (!is) failed = 1; return is ? "holds" : "FAILS" }
    BEGIN { name[2] = "-w 0"; name[3] = "-s 7"; name[4] = "-w 0, beside 1,000 live blocks" }
    $1 == 20000 { for (i = 2; i <= 4; i++) before[i] = $i }
    $1 == 200000 { for (i = 2; i <= 4; i++) after[i] = $i }
    END {
        for (i = 2; i <= 4; i++)
            printf "%s: a command of 200,000 takes %.2f times one of 20,000 (at most 1.5): %s\n", name[i], after[i] / before[i], holds(after[i] <= 1.5 * before[i])
        printf "beside 1,000 live blocks a command takes %.2f times one without them (at most 2): %s\n", after[4] / after[2], holds(after[4] <= 2 * after[2])
        exit failed
    }' "$scratch/table"
