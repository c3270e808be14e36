#!/bin/sh
# How many times a second one core extracts from a body of 1 KiB and of 64 KiB, by each extractor, and how long a byte takes; and the
# same for bodies that are hostile to boundaries, of two sizes each: `left` everywhere and no `right`, and a `left` that nearly matches
# everywhere; and for the first match of expressions with matches everywhere: one that looks to the end again at each of them, and one with
# a hundred groups. Time that is linear in the body shows as the same time a byte. The runner of cases makes the calls.
# Usage: bench/extract.sh [ROUNDS]
set -eu
cd "$(dirname "$0")/.."
. bench/least.sh
rounds=${1:-5}
log=$(mktemp)
lines=$(mktemp)
trap 'rm -f "$log" "$lines"' EXIT
program=crates/reply_cases/out/reply_cases
(cd crates/reply_cases && rt run </dev/null >"$log" 2>&1) || { cat "$log"; exit 1; }

run() { "$program" <"$lines"; }

# `measure NAME BYTES COUNT BODY CALL`: the time of COUNT calls beside that of none.
measure() {
    printf 'reply\t200\t\t\t%s\t0\nrepeat\t0\n%s\n' "$4" "$5" >"$lines"
    none=$(least run)
    printf 'reply\t200\t\t\t%s\t0\nrepeat\t%s\n%s\n' "$4" "$3" "$5" >"$lines"
    all=$(least run)
    awk -v t=$((all - none)) -v n="$3" -v b="$2" -v name="$1" \
        'BEGIN { printf "%-34s %8d bytes: %10.0f a second, %6.2f ns a byte\n", name, b, n * 1e9 / t, t / n / b }'
}

tab=$(printf '\t')
regex="regex${tab}x${tab}token=(\\\\w+)${tab}\$1\$${tab}1${tab}body${tab}0"
json="json${tab}x${tab}\$.token${tab}1${tab}0"
bounds="bounds${tab}x${tab}[${tab}]${tab}1${tab}body${tab}0"
for size in 1024:20000 65536:400; do
    bytes=${size%:*}
    count=${size#*:}
    measure "regular expression, at the end" "$bytes" "$count" "@$((bytes - 10)):x@1: token=abc" "$regex"
    measure "JSON path, at the end" "$bytes" "$count" "@1:{\"a\":\"@$((bytes - 22)):x@1:\",\"token\":\"abc\"}" "$json"
    measure "boundaries, at the end" "$bytes" "$count" "@$((bytes - 5)):x@1:[abc]" "$bounds"
done
for size in 65536:400 1048576:25; do
    bytes=${size%:*}
    count=${size#*:}
    measure "left everywhere and no right" "$bytes" "$count" "@$bytes:[" "$bounds"
    measure "a left that nearly matches" "$bytes" "$count" "@$bytes:a" "bounds${tab}x${tab}@255:a@1:b${tab}]${tab}1${tab}body${tab}0"
    measure "left and right everywhere" "$bytes" "$count" "@$((bytes / 2)):[]" "$bounds"
done
for size in 65536:5000 1048576:1000; do
    bytes=${size%:*}
    count=${size#*:}
    measure "first match, looks to the end" "$bytes" "$count" "@$bytes:a" "regex${tab}x${tab}.*z|a${tab}\$0\$${tab}1${tab}body${tab}0"
    measure "first match, a hundred groups" "$bytes" "$count" "@$bytes:a" "regex${tab}x${tab}@100:()${tab}\$0\$${tab}1${tab}body${tab}0"
done
