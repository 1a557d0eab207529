#!/bin/sh
# Counts what the documents speak of without a number: crates, their wrong bodies and tests, and the cases of
# mwt_cases by what they want: reports that `solve` writes, refusals, and what `check` says. It builds nothing and is
# no part of the gate. Usage: bench/counts.sh
set -eu
cd "$(dirname "$0")/.."
echo "$(grep -c '^[a-z]' crates.txt) crates"
echo "$(find crates -path '*/must-fail/*.edit' | wc -l) wrong bodies that must be refused"
echo "$(grep -rh --include='*.rt' '^ *#\[test\]' crates | wc -l) tests"
echo "$(find examples -type f | wc -l) files in examples/"
cat crates/mwt_cases/data/*.case | awk '
    /^words/ && !inside { mode = "other words"; for (i = 2; i <= NF; i++) if ($i ~ /^(solve|check|make|trial|explain)$/) mode = $i; inside = 1; next }
    inside == 1 && /^status / { status = $2; next }
    inside && /^output$/ { inside = 2; next }
    inside == 2 {
        inside = 0
        said = $0
        sub(/ .*/, "", said)
        if (said == "mwt") said = "a report"
        if (said == "points") said = "a summary"
        if (said == "NAME") said = "a point file"
        kinds[mode ": " said]++
        all++
    }
    END { printf "%d cases\n", all; for (kind in kinds) printf "  %d %s\n", kinds[kind], kind | "sort -k2" }'
