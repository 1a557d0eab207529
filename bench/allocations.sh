#!/bin/sh
# Refuses each allocation of the built program in turn, for some inputs of each mode, and writes how many were
# refused and how those runs ended: silent, with status 5 and nothing written; or same, as with ample memory, where
# the program goes on without: with fewer threads, or without a task for a worker. Any other end is a fault, and then
# the script ends with status 1. It is no part of the gate. Usage: bench/allocations.sh
set -eu
top=$(cd "$(dirname "$0")/.." && pwd)
work=$(mktemp -d)
trap 'rm -rf "$work"' EXIT
faults=0
all_refused=0
all_silent=0
all_same=0

# Runs the program with the allocation of a number refused; 0 refuses none. The rest are the words.
run_refusing() {
    number=$1
    shift
    status=0
    rm -f "$work/refused"
    LD_PRELOAD=$work/shim.so REFUSED=$number REFUSED_FILE=$work/refused \
        "$top/crates/mwt/out/mwt" "$@" <"$work/input" >"$work/answer" || status=$?
}

# Refuses each allocation of a run. The arguments are the input and the words.
try_run() {
    name=$(basename "$1")
    cp "$1" "$work/input"
    shift
    run_refusing 0 "$@"
    cp "$work/answer" "$work/wanted"
    wanted=$status
    silent=0
    same=0
    number=1
    while run_refusing "$number" "$@" && [ -e "$work/refused" ]; do
        if [ "$status" = 5 ] && [ ! -s "$work/answer" ]; then
            silent=$((silent + 1))
        elif [ "$status" = "$wanted" ] && cmp -s "$work/answer" "$work/wanted"; then
            same=$((same + 1))
        else
            faults=$((faults + 1))
            echo "allocation $number of $*: status $status" >&2
        fi
        number=$((number + 1))
    done
    printf '%-22s %-26s %7d %7d %7d\n' "$*" "$name" $((number - 1)) "$silent" "$same"
    all_refused=$((all_refused + number - 1))
    all_silent=$((all_silent + silent))
    all_same=$((all_same + same))
}

cc -O2 -shared -fPIC -o "$work/shim.so" "$top/bench/refuse_allocation.c" -ldl
"$top/mwt" solve <"$top/examples/triangle.tsp" >/dev/null
printf '%-22s %-26s %7s %7s %7s\n' words input refused silent same
for input in "$top"/examples/*.tsp; do
    try_run "$input" solve
    try_run "$input" solve --diamond off
done
for input in "$top"/examples/*.report; do
    try_run "$input" check
done
try_run /dev/null make --points 20
try_run /dev/null trial --points 20
printf '%-49s %7d %7d %7d\n' 'all' "$all_refused" "$all_silent" "$all_same"
[ "$faults" = 0 ]
