#!/usr/bin/env bash
# Runs the built program on scripts of 2,000, 20,000 and 200,000 commands, prints time and memory for each
# command, and says whether the bounds hold. Status 1 where one doesn't. The arguments are those given, or
# `run -w 0`.
set -euo pipefail
words=("$@")
if [[ $# == 0 ]]; then words=(run -w 0); fi
source "$(dirname -- "$(readlink -f -- "${BASH_SOURCE[0]}")")/measure.sh"

printf 'script bench\nend\n' >"$scratch/0"
base_micros=$(micros_of "$scratch/0" "${words[@]}")
base_peak=$(peak_of "$scratch/0" "${words[@]}")
printf 'without commands: %d us, %d KiB\n' "$base_micros" "$base_peak"
printf '%10s %12s %16s %10s %18s\n' commands us us/command KiB bytes/command

for commands in 2000 20000 200000; do
    input=$scratch/$commands
    python3 "$top/bench/make_input" "$commands" >"$input"
    is_whole "$input" "${words[@]}"
    micros=$(micros_of "$input" "${words[@]}")
    peak=$(peak_of "$input" "${words[@]}")
    awk -v n="$commands" -v us="$micros" -v us0="$base_micros" -v kib="$peak" -v kib0="$base_peak" 'BEGIN {
        printf "%10d %12d %16.3f %10d %18.1f\n", n, us, (us - us0) / n, kib, (kib - kib0) * 1024 / n
    }' | tee -a "$scratch/table"
done

# Each column is less what the run without commands took.
awk '
    $1 == 20000 { before = $3 }
    $1 == 200000 { after = $3; bytes = $5 }
    END {
        time_holds = after <= 1.5 * before
        memory_holds = bytes < 400
        printf "time per command at 200,000 is %.2f times that at 20,000 (at most 1.5): %s\n", after / before, time_holds ? "holds" : "FAILS"
        printf "memory per command at 200,000 is %.1f bytes (below 400): %s\n", bytes, memory_holds ? "holds" : "FAILS"
        exit !(time_holds && memory_holds)
    }' "$scratch/table"
