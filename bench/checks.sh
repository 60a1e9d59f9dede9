#!/usr/bin/env bash
# Runs the built program on scripts that free small blocks of mixed sizes and ask for others, with 64 of them live, without
# letters, with C, with F and with both. Prints the time for each command, says how much the letters cost, and whether it is
# below three times the time without letters. Status 1 where it isn't.
set -euo pipefail
source "$(dirname -- "$(readlink -f -- "${BASH_SOURCE[0]}")")/measure.sh"

# The microseconds for each command of a script, less a run without commands.
each_of() {
    local commands=$1 base_micros micros
    shift
    is_whole "$@"
    base_micros=$(micros_of "$scratch/0" "${@:2}")
    micros=$(micros_of "$@")
    awk -v n="$commands" -v us="$micros" -v us0="$base_micros" 'BEGIN { printf "%.3f\n", (us - us0) / n }'
}

printf 'script bench\nend\n' >"$scratch/0"
printf '%10s %6s %12s %12s %12s %12s\n' commands words 'no letters' C F CF
for commands in 20000 200000; do
    input=$scratch/$commands
    python3 "$top/bench/make_input" "$commands" full >"$input"
    for words in '-w 0' '-s 7'; do
        read -ra drawn <<<"$words"
        printf '%10d %6s' "$commands" "$words"
        for letters in '' C F CF; do
            printf ' %12s' "$(each_of "$commands" "$input" run -o "$letters" "${drawn[@]}")"
        done
        echo
    done
done | tee "$scratch/table"

awk '
    function holds(is) { if (!is) failed = 1; return is ? "holds" : "FAILS" }
    BEGIN { name[5] = "C"; name[6] = "F"; name[7] = "CF" }
    $1 == 200000 {
        for (i = 5; i <= 7; i++)
            printf "%s, %s %s: a command takes %.2f times one without letters (below 3): %s\n", name[i], $2, $3, $i / $4, holds($i < 3 * $4)
    }
    END { exit failed }' "$scratch/table"
