#!/bin/sh
# By which method `mwt solve` answers: made sets of random points, the hard sets of bench/hard_sets.py, or the point files
# that are given. Writes a line for each with its points, live edges, method, gap in millionths of the length, and the least
# of five times in seconds; then how many of them decompose. It is no part of the gate. Usage: bench/methods.sh [FILE..]
set -eu
top=$(cd "$(dirname "$0")/.." && pwd)
work=$(mktemp -d)
trap 'rm -rf "$work"' EXIT

"$top/mwt" solve <"$top/examples/triangle.tsp" >/dev/null
program=$top/crates/mwt/out/mwt
if [ $# -eq 0 ]; then
    mkdir "$work/sets"
    for count in 50 100 200 500 1000 2000 5000 10000; do
        for seed in 1 2 3 4 5; do
            "$program" make --points $count --seed $seed >"$work/sets/made_${count}_$seed.tsp"
        done
    done
    "$top/bench/hard_sets.py" "$work/sets"
    set -- "$work/sets"/*.tsp
fi
printf '%-20s %7s %7s %7s %18s %8s\n' set points live method 'gap, millionths' seconds
for file in "$@"; do
    least=
    for round in 1 2 3 4 5; do
        /usr/bin/time -f '%e' -o "$work/time" "$program" solve <"$file" >"$work/report" || true
        seconds=$(tail -n 1 "$work/time")
        least=$(printf '%s\n%s\n' "$seconds" "${least:-$seconds}" | sort -n | head -n 1)
    done
    awk -v name="$(basename "$file" .tsp)" -v seconds="$least" '
        NR == 1 && $1 == "refused" { printf "%-20s %s\n", name, $0; exit }
        $1 == "points" { points = $2 }
        $1 == "live" { live = $2 }
        $1 == "method" { method = $2 }
        $1 == "length" { length_is = $2 }
        $1 == "gap" { printf "%-20s %7d %7d %7s %18.6f %8.2f\n", name, points, live, method, $2 / length_is * 1e6, seconds }
        ' "$work/report" | tee -a "$work/lines"
done
awk '$4 == "faces" { faces++ } $4 == "faces" || $4 == "flips" { all++ } END { printf "%d of %d decompose\n", faces, all }' "$work/lines"
