#!/bin/sh
# Prints how fast `run` is with 1, 2, 4 and 8 threads over the plan's own replies and an interval of 100 ms, beside `solo` with
# one thread of the same plan in the same minute: samples a second from the start of the process to its exit, and until the
# last report came, which is when the threads have ended and the results are still to be printed; each the best of several, in turn.
# And the peak of its memory for each sample. At first a plain loop, of which a sample is little more than its record and its line; then
# nested loops with an If, a ForEach and templates, as in bench/solo.sh, where a thread has more to do by itself; then a sampler with an
# element of each class in its scope but a timer, for which `run` would wait. Beside them, what the machine gives: how many samples a second two processes of `solo` make at the same time, which share nothing and print at the same time.
# Usage: bench/run.sh [TIMES]    (7 times; it needs python3, for the clock and the memory of a child process)
cd "$(dirname "$0")/.." || exit 1
./jm check </dev/null >/dev/null 2>&1
TIMES=${1:-7} python3 - <<'PY'
import json, os, subprocess, tempfile, time

PROGRAM = "crates/jm_program/out/jm_program"
TIMES = int(os.environ["TIMES"])
SAMPLES = 65_536

def plan(threads, children, loops):
    group = {"type": "ThreadGroup", "name": "TG", "props": {"threads": threads, "loops": loops}, "children": children}
    return json.dumps({"type": "TestPlan", "children": [group]}).encode()

def script(name, reply, **props):
    return {"type": "Script", "name": name, "props": {"replies": [reply], **props}}

def controller(kind, name, children, **props):
    return {"type": kind, "name": name, "props": props, "children": children}

PLAIN = [controller("Loop", "L", [script("S", {"ms": 1})], loops=SAMPLES)]

# 64 rounds of 64 rounds, in each of them the If's sampler and the 15 values of the ForEach.
REQUEST = "${user}/${__jm__E__idx}/${__intSum(${__jm__I__idx},1)}?q=${o}"
NESTED = [
    {"type": "UserVariables", "props": {"vars": [["user", "ann"]] + [[f"u_{number}", f"value {number}"] for number in range(1, 16)]}},
    controller("Loop", "O", [controller("Loop", "I", [
        controller("If", "C", [script("T", {"ms": 1})], condition='${__jexl3("${user}" == "ann")}'),
        controller("ForEach", "E", [script("S", {"echo": True, "ms": 1}, request=REQUEST)], input="u", output="o"),
    ], loops=64)], loops=64),
]

# The Counter and the data set advance before each sample, at the start of a round of the group.
EACH = [
    {"type": "Counter", "props": {"var": "n", "start": 1, "increment": 1}},
    {"type": "DataSet", "props": {"names": ["user", "age"], "share": "thread", "text": "ann,31\nbob,47\ncarola,52\n"}},
    {"type": "UserParameters", "props": {"vars": [["id", "${user}-${n}"]]}},
    {**script("S", {"echo": True, "ms": 1}, request="id=${id};age=${age}"), "children": [
        {"type": "BoundaryExtractor", "props": {"ref": "got", "left": "id=", "right": ";"}},
        {"type": "RegexExtractor", "props": {"ref": "age", "pattern": "age=([0-9]+)"}},
        {"type": "ResponseAssertion", "props": {"test": "substring", "patterns": ["id="]}},
        {"type": "DurationAssertion", "props": {"ms": 1}},
        {"type": "Listener"},
    ]},
]

def measured(text, *words):
    """Seconds to the exit, seconds to the last report, the peak of memory in bytes, and how many samples and intervals."""
    with tempfile.TemporaryFile() as source, open("/dev/null", "wb") as results:
        source.write(text)
        source.seek(0)
        start = time.perf_counter()
        child = subprocess.Popen([PROGRAM, *words], stdin=source, stdout=results, stderr=subprocess.PIPE)
        reported = samples = intervals = 0
        for line in child.stderr:
            if line.startswith(b"interval,"):
                reported = time.perf_counter() - start
                intervals += 1
            elif line.startswith(b"all,"):
                samples = int(line.split(b",")[1])
        _, status, used = os.wait4(child.pid, 0)
        took = time.perf_counter() - start
        child.returncode = status
        child.stderr.close()
    if status or samples == 0:
        raise SystemExit(f"{words}: status {os.waitstatus_to_exitcode(status)}, {samples} samples")
    return took, reported, used.ru_maxrss * 1024, samples, intervals

def seconds_of_two(text):
    """Seconds until two processes of `solo` that begin together have both ended."""
    with tempfile.TemporaryFile() as one, tempfile.TemporaryFile() as other, open("/dev/null", "wb") as nowhere:
        for source in (one, other):
            source.write(text)
            source.seek(0)
        start = time.perf_counter()
        children = [subprocess.Popen([PROGRAM, "solo"], stdin=source, stdout=nowhere, stderr=nowhere) for source in (one, other)]
        if any([child.wait() for child in children]):
            raise SystemExit("solo failed")
        return time.perf_counter() - start

def best(runs):
    took, reported, peaks, samples, intervals = zip(*runs)
    return min(took), min(reported), min(peaks), samples[0], max(intervals)

THREADS = (1, 2, 4, 8)
print(f"{os.cpu_count()} processors, {SAMPLES:,} samples a thread, the best of {TIMES}, in turn")
for name, children, loops in (("a plain loop", PLAIN, 1), ("nested loops", NESTED, 1), ("an element of each class", EACH, SAMPLES)):
    one = plan(1, children, loops)
    solos, pairs, runs = [], [], {threads: [] for threads in THREADS}
    for _ in range(TIMES):
        solos.append(measured(one, "solo"))
        pairs.append(seconds_of_two(one))
        for threads in THREADS:
            runs[threads].append(measured(plan(threads, children, loops), "run", "--every", "100"))
    took, _, peak, samples, _ = best(solos)
    alone, both = samples / took, 2 * samples / min(pairs)
    print(f"{name}, solo: {samples:,} samples in {took * 1000:.1f} ms, {alone:,.0f} a second, {peak / samples:.0f} bytes a sample")
    print(f"{name}, two processes of solo at once: {both:,.0f} a second, {both / alone:.2f} of one")
    single = best(runs[1])
    for threads in THREADS:
        took, reported, peak, samples, intervals = best(runs[threads])
        print(f"{name}, run, {threads} thread{'s' * (threads > 1)}: {samples:,} samples in {took * 1000:.1f} ms, {samples / took:,.0f} a second, "
              f"{samples / took / alone:.2f} of solo, {threads * single[0] / took:.2f} of one thread; threads ended after {reported * 1000:.1f} ms, "
              f"{samples / reported:,.0f} a second, {threads * single[1] / reported:.2f} of one thread; {peak / samples:.0f} bytes a sample, {intervals} intervals")
PY
