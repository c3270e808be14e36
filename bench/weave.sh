#!/bin/sh
# Prints how long `weave` takes over a plan of 64 threads by schedules of 65,536 bytes, the longest: turns of threads in turn,
# rows of turns, rows of the reporter's, and all of them mixed. At most 2 seconds is the aim.
# Usage: bench/weave.sh    (it needs python3, for the clock)
cd "$(dirname "$0")/.." || exit 1
./jm weave </dev/null >/dev/null 2>&1
python3 - <<'PY'
import itertools, json, subprocess, time

PROGRAM = "crates/jm_program/out/jm_program"
LONGEST = 65_536

def sampler(name):
    return {"type": "Script", "name": name, "props": {"replies": [{"ms": 1}]}}

def plan(children, loops):
    group = {"type": "ThreadGroup", "name": "TG", "props": {"threads": 64, "loops": loops}, "children": children}
    return json.dumps({"type": "TestPlan", "children": [group]}).encode()

def schedule(tokens):
    """As many of these tokens, again and again, as there is room for."""
    text = ""
    for token in itertools.cycle(tokens):
        if len(text) + len(token) > LONGEST:
            return text.rstrip(",")
        text += token + ","

threads = [str(number) for number in range(64)]
rows = [number + "x" for number in threads]
section = {"type": "CriticalSection", "props": {"lock": "db"}, "children": [sampler("A")]}
for name, text, tokens in (
    ("turns", plan([sampler("A")], 100), threads),
    ("rows of turns", plan([sampler("A")], 500), rows),
    ("rows of the reporter's turns", plan([sampler("A")], 1), ["R"]),
    ("the same with 16 labels", plan([sampler(f"S{number}") for number in range(16)], 1), ["R"]),
    ("turns, rows and the reporter's mixed", plan([sampler("A")], 100), [*rows, "R", *threads, "r", "r"]),
    ("rows of turns that meet at a section", plan([section], 100), rows),
):
    best = None
    for _ in range(3):
        start = time.perf_counter()
        ran = subprocess.run([PROGRAM, "weave", "--schedule", schedule(tokens)], input=text, capture_output=True)
        took = time.perf_counter() - start
        best = took if best is None else min(best, took)
    lines = ran.stdout.count(b"\n") - 1
    reports = ran.stderr.count(b"interval,")
    print(f"{name}: {best:.2f} s, {lines} samples, {reports} reports, status {ran.returncode}")
PY
