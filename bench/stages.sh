#!/bin/sh
# Times the stages from points to the skeleton on the files that are given, or on the hard sets of bench/hard_sets.py: of
# each stage the least of seven times, in microseconds. The program, bench/stages/, is proved and built in a copy of the
# repository, since the gate has no use for it; that takes up to an hour. With the first word `off` the diamond test is off.
# Usage: bench/stages.sh [off] [FILE..]
set -eu
top=$(cd "$(dirname "$0")/.." && pwd)
test=
if [ "${1:-}" = off ]; then test=off; shift; fi
work=$(mktemp -d)
trap 'rm -rf "$work"' EXIT

cp -r "$top" "$work/copy"
made="$work/copy/crates/stages"
mkdir -p "$made/src" "$made/proofs/settled"
cp "$top/bench/stages/main.rt.txt" "$made/src/main.rt"
cp "$top/bench/stages/settled.antt.txt" "$made/proofs/settled/Answers.antt"
echo "stages: mwt_base exact_predicates hull_sweep point_grid diamond_edges empty_triangles lmt_network tsplib_points \
edge_marks steal_workers skeleton_faces" >>"$work/copy/crates.txt"

if [ $# -eq 0 ]; then
    mkdir "$work/sets"
    "$top/bench/hard_sets.py" "$work/sets"
    set -- "$work/sets"/*.tsp
fi
for file in "$@"; do
    echo "== $file"
    (cd "$made" && rt run -- $test) <"$file" | awk '
        !($1 in least) { names[++count] = $1; least[$1] = $2 }
        $2 < least[$1] { least[$1] = $2 }
        END { for (i = 1; i <= count; i++) print names[i], least[names[i]] }'
done
