# What the benches share: the built program, a scratch folder, and the time and the memory of a run. It is sourced.
top=$(dirname -- "$(readlink -f -- "${BASH_SOURCE[0]}")")/..
program=$top/crates/omalloc/out/omalloc
scratch=$(mktemp -d)
trap 'rm -rf -- "$scratch"' EXIT

# Proves and builds the program where that is needed.
"$top/omalloc" run -w 0 <"$top/examples/first.txt" >/dev/null

# The microseconds of the fastest of five runs on a script, by these words.
micros_of() {
    local script=$1 best= began took
    shift
    for _ in 1 2 3 4 5; do
        began=${EPOCHREALTIME//[!0-9]/}
        "$program" "$@" <"$script" >/dev/null
        took=$((${EPOCHREALTIME//[!0-9]/} - began))
        if [[ -z $best || $took -lt $best ]]; then best=$took; fi
    done
    echo "$best"
}

# The most memory that a run has at one time, in KiB.
peak_of() {
    local script=$1
    shift
    if [[ -x /usr/bin/time ]]; then
        /usr/bin/time -f %M -o "$scratch/peak" "$program" "$@" <"$script" >/dev/null
        cat "$scratch/peak"
    else
        python3 -c 'import resource, subprocess, sys
subprocess.run(sys.argv[1:], check=True, stdout=subprocess.DEVNULL)
print(resource.getrusage(resource.RUSAGE_CHILDREN).ru_maxrss)' "$program" "$@" <"$script"
    fi
}

# A run must write its whole output.
is_whole() {
    local script=$1
    shift
    if [[ $("$program" "$@" <"$script" | tail -n 1) != done ]]; then
        echo "the run of $script didn't write its whole output"
        exit 1
    fi
}
