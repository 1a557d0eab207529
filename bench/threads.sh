#!/bin/sh
# Whether `mwt solve` answers the same text on one processor as on all, for points of more than one block of first
# corners, and how long it takes. The gate cannot choose processors, so this is no part of it. Usage: bench/threads.sh
set -eu
top=$(cd "$(dirname "$0")/.." && pwd)
work=$(mktemp -d)
trap 'rm -rf "$work"' EXIT

"$top/mwt" make --seed 7 --points 10000 >"$work/points.tsp"
for processors in 1 "$(nproc)"; do
    taskset -c "0-$((processors - 1))" /usr/bin/time -f "%e seconds on $processors processors" \
        "$top/crates/mwt/out/mwt" solve <"$work/points.tsp" >"$work/report.$processors"
done
cmp "$work/report.1" "$work/report.$(nproc)"
echo "the same text"
