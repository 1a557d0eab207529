#!/bin/sh
# Times `mwt solve` on made sets of points, up to the limits on candidate edges and empty triangles and past
# them, and writes a table with the memory that each took. It is no part of the gate. Usage: bench/solve.sh
set -eu
top=$(cd "$(dirname "$0")/.." && pwd)
work=$(mktemp -d)
trap 'rm -rf "$work"' EXIT

# Writes a file; the arguments are the number of nodes, and the awk expression of a node's x and y by its
# number i.
make_file() {
    awk -v n="$1" 'BEGIN {
        srand(7)
        print "DIMENSION : " n "\nNODE_COORD_SECTION"
        for (i = 1; i <= n; i++) { '"$2"'; printf "%d %d %d\n", i, x, y }
    }'
}

# The low digits of x are the node's number, so that no two coordinates are equal.
random='x = int(rand() * 90000) * 10000 + i % 10000; y = int(rand() * 900000000)'

# Solves a set with the diamond test on or off, and writes its line of the table: the first line of a refusal, or
# the counts of the report.
time_set() {
    name=$1
    make_file "$2" "$3" >"$work/points.tsp"
    /usr/bin/time -f '%e %M' -o "$work/time" "$top/crates/mwt/out/mwt" solve --diamond "$4" <"$work/points.tsp" >"$work/report" || true
    read -r seconds kilobytes <<END
$(tail -n 1 "$work/time")
END
    answer=$(awk 'NR == 1 && $1 == "refused" { print; exit } $1 == "candidates" || $1 == "live" { printf "%s %s ", $1, $2 }' "$work/report")
    printf '%-16s %4s %7d %8.2f %6d  %s\n' "$name" "$4" "$2" "$seconds" $((kilobytes / 1024)) "$answer"
}

"$top/mwt" solve <"$top/examples/triangle.tsp" >/dev/null
echo "on $(nproc) processors"
printf '%-16s %4s %7s %8s %6s  %s\n' set test points seconds MiB answer
for count in 100 1000 2000 5000 10000; do time_set random "$count" "$random" on; done
time_set grid 10000 'x = i % 100; y = int(i / 100)' on
time_set line_but_one 10000 'x = i; y = (i == n ? 1 : 0)' on
for count in 100 400 800; do time_set random "$count" "$random" off; done
time_set grid 400 'x = i % 20; y = int(i / 20)' off
time_set parabola 289 'x = i; y = i * i' off
time_set parabola 290 'x = i; y = i * i' off
time_set parabola 894 'x = i; y = i * i' off
time_set parabola 895 'x = i; y = i * i' off
