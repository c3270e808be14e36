#!/bin/sh
# How long one core takes to read responses and to build a request. The aims: a response of 200 bytes in one piece in at most 1,500 ns, one of
# 1 MiB in pieces of 64 KiB at 1 GB a second at least, a request in at most 1,000 ns; and byte by byte time that is linear, which shows as the
# same time a byte for parts of two sizes. The runner of cases makes the calls.
# Usage: bench/http_text.sh [ROUNDS]
set -eu
cd "$(dirname "$0")/.."
. bench/least.sh
rounds=${1:-5}
log=$(mktemp)
lines=$(mktemp)
trap 'rm -f "$log" "$lines"' EXIT
program=crates/http_cases/out/http_cases
(cd crates/http_cases && rt run </dev/null >"$log" 2>&1) || { cat "$log"; exit 1; }

run() { "$program" <"$lines"; }

# `measure NAME BYTES COUNT CALL`: the time of COUNT calls beside that of one.
measure() {
    printf 'repeat\t1\n%s\n' "$4" >"$lines"
    one=$(least run)
    printf 'repeat\t%s\n%s\n' "$3" "$4" >"$lines"
    all=$(least run)
    awk -v t=$((all - one)) -v n=$(($3 - 1)) -v b="$2" -v name="$1" \
        'BEGIN { printf "%-40s %8d bytes: %10.0f ns each, %7.2f ns a byte, %6.2f GB a second\n", name, b, t / n, t / n / b, n * b / t }'
}

tab=$(printf '\t')
head='HTTP/1.1 200 OK\r\n'
chunked="${head}Transfer-Encoding: chunked\\r\\n\\r\\n"
typical="${head}Server: nginx\\r\\nDate: Sat, 28 Nov 2026 15:00:00 GMT\\r\\nContent-Type: text/plain\\r\\nContent-Length: 64\\r\\nConnection: close\\r\\n\\r\\n"
sized() { printf 'sized\t-\t%s\t%s' "$1" "$2"; }

measure "a response in one piece" 200 500000 "$(sized 200 "@1:$typical@64:b")"
measure "a response in pieces of 64 KiB" 1048620 300 "$(sized 65536 "@1:${head}Content-Length: 1048576\\r\\n\\r\\n@1048576:b")"
kilobytes=$(printf '%4096s' '' | tr ' ' b)
measure "chunks of 4 KiB in pieces of 64 KiB" 1050676 300 "$(sized 65536 "@1:$chunked@256:1000\\r\\n$kilobytes\\r\\n@1:0\\r\\n\\r\\n")"
for size in 16384 65000; do
    measure "byte by byte, a head" "$size" 50 "$(sized 1 "@1:HTTP/1.1 204 x\\r\\na: @$((size - 23)):v@1:\\r\\n\\r\\n")"
    measure "byte by byte, a body" "$size" 50 "$(sized 1 "@1:${head}\\r\\n@$((size - 19)):b")"
    measure "byte by byte, a size line with blanks" "$size" 5 "$(sized 1 "@1:${chunked}1@$((size - 48)): ")"
    measure "byte by byte, a size line's extension" "$size" 5 "$(sized 1 "@1:${chunked}1;@$((size - 49)):e")"
    measure "byte by byte, a trailer part" "$size" 50 "$(sized 1 "@1:${chunked}0\\r\\na: @$((size - 57)):v@1:\\r\\n\\r\\n")"
done
get="request${tab}GET${tab}127.0.0.1${tab}8080${tab}/login${tab}${tab}p:token=abc123${tab}h:Accept=*/*"
post="request${tab}POST${tab}127.0.0.1${tab}8080${tab}/login${tab}${tab}p:token=abc 123${tab}p:user=x${tab}h:Accept=*/*"
measure "a GET with a parameter" 93 200000 "$get"
measure "a POST with two parameters" 172 200000 "$post"
