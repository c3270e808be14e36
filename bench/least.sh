# The least time of some runs of a command, in nanoseconds. `rounds` says how many runs.
least() {
    best=
    i=0
    while [ "$i" -lt "$rounds" ]; do
        from=$(date +%s%N)
        "$@" >/dev/null
        to=$(date +%s%N)
        took=$((to - from))
        if [ -z "$best" ] || [ "$took" -lt "$best" ]; then best=$took; fi
        i=$((i + 1))
    done
    echo "$best"
}

# Runs a runner of cases over the lines of a file.
over() { "$1" <"$2"; }

# How long each of the many times takes that the last line of some cases says, which ends a case `times COUNT ..`:
# `each RUNNER "LINES" "REST" THING`.
each() {
    count=1000000
    out=$(mktemp -d)
    trap 'rm -rf "$out"' EXIT
    (cd "crates/$1" && rt run <stdin >"$out/log" 2>&1) || { cat "$out/log"; exit 1; }
    program=crates/$1/out/$1
    for times in 0 $count; do
        printf '%s\ntimes %s %s\n' "$2" $times "$3" >"$out/$times"
    done
    took=$(($(least over "$program" "$out/$count") - $(least over "$program" "$out/0")))
    awk -v t="$took" -v n="$count" -v thing="$4" 'BEGIN { printf "%.0f ns %s, %.0f a second\n", t / n, thing, n * 1e9 / t }'
}
