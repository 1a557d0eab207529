#!/bin/sh
# The greatest request for memory that `mwt check` makes for reports that are cut off after a count: a report that says
# that many lines follow, and has none of them. Writes a line for each count with the greatest request in bytes. Where one is
# above 65,536 bytes, or such a text is not refused, it ends with status 1. It is no part of the gate.
# Usage: bench/requests.sh
set -eu
top=$(cd "$(dirname "$0")/.." && pwd)
work=$(mktemp -d)
trap 'rm -rf "$work"' EXIT
faults=0

cc -O2 -shared -fPIC -o "$work/shim.so" "$top/bench/largest_request.c" -ldl
"$top/mwt" solve <"$top/examples/triangle.tsp" >/dev/null
printf '%-10s %8s %10s %s\n' list count largest answer
# The lists of a report, each with the greatest count that its line may have here.
for list in 'points 10000' 'hull 5' 'live 400000' 'skeleton 400000' 'triangles 20000'; do
    word=${list% *}
    sed "/^$word /q" "$top/examples/five_points.report" | sed "s/^$word .*/$list/" >"$work/cut"
    LD_PRELOAD=$work/shim.so LARGEST_FILE=$work/largest "$top/crates/mwt/out/mwt" check <"$work/cut" >"$work/answer" || true
    largest=$(cat "$work/largest")
    printf '%-10s %8s %10s %s\n' "$word" "${list#* }" "$largest" "$(cat "$work/answer")"
    grep -q '^refused 34 ' "$work/answer" && [ "$largest" -le 65536 ] || faults=$((faults + 1))
done
[ "$faults" = 0 ]
