#!/bin/sh
# Times passes over a large house pile: a row of 16 decks of 16 transistors, each 4,095 steps wide, in
# fingers of 1 step, which are 1,048,320 modules of one class. The bar is 1 second a pass.
# Usage: bench/pile.sh [PASSES]. Build the program first: cd crates/pilelist && rt run
set -e
cd "$(dirname "$0")/.."
program=crates/pilelist/out/pilelist
if [ ! -x "$program" ]; then
    echo "$program is not there: build it with rt run in crates/pilelist" >&2
    exit 1
fi

# begin; 16 unpaired n-channel transistors: body 0, gate 20, source 16, drain 17, width 4,095; end
deck=$(mktemp)
trap 'rm -f "$deck"' EXIT
{
    printf '\020\001'
    tag=0
    while [ "$tag" -lt 16 ]; do
        printf '\040\000\000\000\000\024\000\020\000\021\017\377\000'
        printf "\\$(printf '%03o' "$tag")"
        printf '\000\000\000'
        tag=$((tag + 1))
    done
    printf '\177'
} > "$deck"

pass=1
while [ "$pass" -le "${1:-5}" ]; do
    start=$(date +%s%N)
    totals=$("$program" --row 16 --fold 1 --class 0 --totals < "$deck")
    end=$(date +%s%N)
    echo "pass $pass: $(((end - start) / 1000000)) ms: $totals"
    pass=$((pass + 1))
done
