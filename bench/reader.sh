#!/bin/sh
# Times the reading of large point files, and the memory that it takes: inputs of about 64 MiB that the
# program answers with a refusal, which is checked. It is no part of the gate. Usage: bench/reader.sh
set -eu
top=$(cd "$(dirname "$0")/.." && pwd)
work=$(mktemp -d)
trap 'rm -rf "$work"' EXIT

# so many times one byte
repeat() {
    head -c "$2" /dev/zero | tr '\0' "$1"
}

# a header for so many nodes
header() {
    printf 'DIMENSION : %s\nNODE_COORD_SECTION\n' "$1"
}

# Five million node lines with numbers of their own, all at one of ten places.
many_nodes() {
    header "$1"
    awk -v n="$1" 'BEGIN { for (i = 1; i <= n; i++) print i, i % 10, 0 }'
}

# Twelve more nodes than there may be points, each at a place of its own.
many_points() {
    header 10012
    awk 'BEGIN { for (i = 1; i <= 10012; i++) print i, i, (i % 97) ".25" }'
}

{ printf 'NAME : '; repeat x 67108800; echo; } >"$work/long_line.tsp"
repeat ' ' 67108864 >"$work/blanks.tsp"
repeat '\n' 67108864 >"$work/empty_lines.tsp"
many_nodes 5000000 >"$work/five_million_nodes.tsp"
many_points >"$work/many_points.tsp"
{ header 3; printf '1 0 0\n2 3 0\n3 0 '; repeat 9 66000000; echo; } >"$work/long_coordinate.tsp"
{ header 3; printf '1 0 0\n2 3 0\n3 0 1e-'; repeat 9 66000000; echo; } >"$work/long_exponent.tsp"

check() {
    name=$1
    expected=$2
    /usr/bin/time -f '%e %M' -o "$work/time" "$top/crates/mwt/out/mwt" solve <"$work/$name.tsp" >"$work/answer" || true
    read -r seconds kilobytes <<END
$(tail -n 1 "$work/time")
END
    answer=$(head -n 1 "$work/answer")
    [ "$answer" = "$expected" ] || { echo "$name: $answer, not $expected"; exit 1; }
    printf '%-20s %9d %8.2f %8d  %s\n' "$name" "$(wc -c <"$work/$name.tsp")" "$seconds" $((kilobytes / 1024)) "$answer"
}

"$top/mwt" solve <"$top/examples/triangle.tsp" >/dev/null
printf '%-20s %9s %8s %8s  %s\n' input bytes seconds MiB answer
check long_line 'refused 15 NoCoords'
check blanks 'refused 15 NoCoords'
check empty_lines 'refused 15 NoCoords'
check five_million_nodes 'refused 23 Flat'
check many_points 'refused 21 TooMany'
check long_coordinate 'refused 18 TooLarge 5'
check long_exponent 'refused 17 NotWhole 5'
