#!/bin/sh
# Nanoseconds of an uncontended enter and leave of a critical section, beside the same atomic steps in C, in one run.
# Usage: bench/sections.sh [ROUNDS]
set -eu
cd "$(dirname "$0")/.."
. bench/least.sh
rounds=${1:-20}
count=4000000
out=$(mktemp -d)
trap 'rm -rf "$out"' EXIT
gcc -O2 -o "$out/steps" bench/sections.c
(cd crates/sections_bench && rt run -- 1 >"$out/build.log" 2>&1) || { cat "$out/build.log"; exit 1; }
program=crates/sections_bench/out/sections_bench

ours=$(($(least "$program" $count) - $(least "$program" 0)))
theirs=$(($(least "$out/steps" $count) - $(least "$out/steps" 0)))
awk -v a="$ours" -v b="$theirs" -v n="$count" \
    'BEGIN { printf "enter and leave: %.1f ns; the same steps in C: %.1f ns; ratio %.2f\n", a / n, b / n, a / b }'
