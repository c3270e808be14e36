#!/bin/sh
# Nanoseconds of a record, with 1, 2 and 4 writers and an interval every millisecond, beside a C program of the same
# atomic steps, in one run.
#
# The two programs take turns. It prints the median and the least of all runs, and then of those runs whose writers ran
# beside each other throughout: whose processor time is at least nine tenths of their time for each writer. In another the
# system had put writers on one processor for a while, where they do not meet at a word.
# With OTHER, a `recorder_bench` that was built of another state, a third program takes its turn, and the ratio of its time to
# ours is printed too.
# Usage: bench/record.sh [RUNS [OTHER]]
set -eu
cd "$(dirname "$0")/.."
runs=${1:-21}
other=${2:-}
out=$(mktemp -d)
trap 'rm -rf "$out"' EXIT
gcc -O2 -pthread -o "$out/steps" bench/record.c
gcc -O2 -o "$out/timed" bench/timed.c
(cd crates/recorder_bench && rt run -- 1 0 1 >"$out/build.log" 2>&1) || { cat "$out/build.log"; exit 1; }
program=crates/recorder_bench/out/recorder_bench
count=1000000

# the times of the lines "TIME PROCESSOR_TIME" whose processor time is at least this share for each of the writers, in order
counted() {
    awk -v w="$1" -v share="$2" '$2 >= share * w * $1 { print $1 }' "$3" | sort -n
}

# how many times there are, the least and the median
summed() {
    awk '{ t[NR] = $1 } END { if (NR) print NR, t[1], t[int((NR + 1) / 2)]; else print 0, 0, 0 }'
}

echo "steps of a record: 8, or 9 of a sample that failed"
for writers in 1 2 4; do
    : >"$out/ours"
    : >"$out/theirs"
    : >"$out/others"
    i=0
    while [ "$i" -lt "$runs" ]; do
        "$out/timed" 1 "$program" $count 1 $writers >>"$out/ours"
        "$out/timed" 1 "$out/steps" $count $writers >>"$out/theirs"
        [ -z "$other" ] || "$out/timed" 1 "$other" $count 1 $writers >>"$out/others"
        i=$((i + 1))
    done
    for share in 0 0.9; do
        echo "$(counted "$writers" $share "$out/ours" | summed) $(counted "$writers" $share "$out/theirs" | summed)" |
            awk -v n="$((count * writers))" -v w="$writers" -v share="$share" '{
                which = share > 0 ? "beside each other" : "all"
                printf "%d writers, %s, %d and %d runs:", w, which, $1, $4
                if ($1 == 0 || $4 == 0) { print " none"; next }
                printf " median %.1f ns a record, the same steps in C %.1f ns, ratio %.2f;", $3 / n, $6 / n, $3 / $6
                printf " least %.1f and %.1f ns, ratio %.2f\n", $2 / n, $5 / n, $2 / $5
            }'
        [ -z "$other" ] || echo "$(counted "$writers" $share "$out/ours" | summed) $(counted "$writers" $share "$out/others" | summed)" |
            awk -v n="$((count * writers))" -v w="$writers" -v share="$share" '{
                which = share > 0 ? "beside each other" : "all"
                printf "%d writers, %s, the other build, %d runs:", w, which, $4
                if ($1 == 0 || $4 == 0) { print " none"; next }
                printf " median %.1f ns, %.2f times ours; least %.1f ns, %.2f times ours\n", $6 / n, $6 / $3, $5 / n, $5 / $2
            }'
    done
done
