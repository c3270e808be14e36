#!/bin/sh
# Prints what waiting for a critical section costs: how long four threads take for sections of one lock, each over a sampler after a
# timer, beside one thread that has all of them to itself; and how much processor time both take. Sections of 1 ms and of 20 ms.
# Usage: bench/waiting.sh    (it needs python3, for the clock and the times of a child process)
cd "$(dirname "$0")/.." || exit 1
./jm check </dev/null >/dev/null 2>&1
python3 - <<'PY'
import json, os, subprocess, tempfile, time

PROGRAM = "crates/jm_program/out/jm_program"

def plan(threads, loops, milliseconds):
    timer = {"type": "ConstantTimer", "props": {"delay": milliseconds}}
    sampler = {"type": "Script", "name": "S", "props": {"replies": [{}]}, "children": [timer]}
    section = {"type": "CriticalSection", "props": {"lock": "l"}, "children": [sampler]}
    group = {"type": "ThreadGroup", "name": "TG", "props": {"threads": threads, "loops": loops}, "children": [section]}
    return json.dumps({"type": "TestPlan", "children": [group]}).encode()

def measured(text):
    """Seconds from the start of the process to its exit, and seconds of a processor."""
    with tempfile.TemporaryFile() as source, open("/dev/null", "wb") as sink:
        source.write(text)
        source.seek(0)
        start = time.perf_counter()
        child = subprocess.Popen([PROGRAM, "run"], stdin=source, stdout=sink, stderr=sink)
        _, status, used = os.wait4(child.pid, 0)
        took = time.perf_counter() - start
        child.returncode = status
    if status:
        raise SystemExit(f"status {os.waitstatus_to_exitcode(status)}")
    return took, used.ru_utime + used.ru_stime

for milliseconds, sections in ((1, 800), (20, 80)):
    rows = [(measured(plan(4, sections // 4, milliseconds)), measured(plan(1, sections, milliseconds))) for _ in range(5)]
    (four, four_busy), (one, one_busy) = (min(column) for column in zip(*rows))
    print(f"{sections} sections of {milliseconds} ms: four threads {four * 1000:.0f} ms, one thread {one * 1000:.0f} ms, ratio {four / one:.2f}; "
          f"processor time {four_busy * 1000:.0f} ms and {one_busy * 1000:.0f} ms")
PY
