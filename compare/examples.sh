#!/usr/bin/env bash
# compare/examples.sh [PROGRAM]: compares the table of each order in examples/ with what the proved program prints, on one
# thread and by three workers, that of each set, and the covering of one with what it writes and with the table that it shows. Exits
# with 1 if one differs.
set -euo pipefail
top=$(cd "$(dirname "$0")/.." && pwd)
program=${1:-$top/timetable}
different=0
for order in "$top"/examples/*.json; do
    table=${order%.json}.txt
    for words in plain 'table --workers 3'; do
        # shellcheck disable=SC2086
        if "$program" $words <"$order" | cmp - "$table"; then
            echo "same: ${table##*/} by $words"
        else
            different=1
        fi
    done
done
for set in "$top"/examples/sets/*.json; do
    if "$program" set <"$set" | cmp - "${set%.json}.txt"; then
        echo "same: ${set##*/}"
    else
        different=1
    fi
done
for covering in "$top"/examples/*.cover; do
    if "$program" cover <"${covering%.cover}.json" | cmp - "$covering" && "$program" check <"$covering" | cmp - "${covering%.cover}.txt"; then
        echo "same: ${covering##*/}"
    else
        different=1
    fi
done
exit "$different"
