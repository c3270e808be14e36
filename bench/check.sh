#!/bin/sh
# Prints how long `check` takes on plans of 4,194,304 bytes and 4,096 elements, the most of both, from the start of the
# process to its exit, and the peak of its memory as a multiple of the plan's text: one plan whose samplers have a reply
# with a long body each, and one of as many replies as the text has room for.
# Usage: bench/check.sh    (it needs python3, for the clock and the memory of a child process)
cd "$(dirname "$0")/.." || exit 1
./jm check </dev/null >/dev/null 2>&1
python3 - <<'PY'
import json, subprocess, tempfile, time

PROGRAM = ["crates/jm_program/out/jm_program", "check"]
BYTES = 4_194_304
ELEMENTS = 4_096
SAMPLERS = ELEMENTS - 2

def plan(body, more):
    scripts = [{"type": "Script", "name": "S", "props": {"replies": [{"body": "x" * body(number)}] + [{}] * more}}
               for number in range(SAMPLERS)]
    group = {"type": "ThreadGroup", "name": "TG", "children": scripts}
    return json.dumps({"type": "TestPlan", "children": [group]}, separators=(",", ":")).encode()

# The bodies of the first replies share what the rest leaves of the text.
def full_plan(more):
    share, rest = divmod(BYTES - len(plan(lambda number: 0, more)), SAMPLERS)
    text = plan(lambda number: share + (number < rest), more)
    assert len(text) == BYTES
    return text

def source(text):
    file = tempfile.TemporaryFile()
    file.write(text)
    file.seek(0)
    return file

def seconds(text):
    best = None
    for _ in range(5):
        with source(text) as plan_file, open("/dev/null", "wb") as sink:
            start = time.perf_counter()
            child = subprocess.Popen(PROGRAM, stdin=plan_file, stdout=sink, stderr=sink)
            status = child.wait()
            took = time.perf_counter() - start
        best = took if best is None else min(best, took)
    return best, status

# The plan is written once all of it is there, so the peak is reached when the first bytes come.
def peak_and_written(text):
    with source(text) as plan_file:
        child = subprocess.Popen(PROGRAM, stdin=plan_file, stdout=subprocess.PIPE, stderr=subprocess.DEVNULL)
        first = child.stdout.read(1)
        with open(f"/proc/{child.pid}/status") as status:
            peak = next((int(line.split()[1]) for line in status if line.startswith("VmHWM")), 0)
        written = len(first + child.stdout.read())
        child.wait()
    return peak, written

def checked(name, text):
    took, status = seconds(text)
    peak, written = peak_and_written(text)
    print(f"{name}: status {status} in {took:.3f} s, {peak} KiB at the peak, "
          f"{peak * 1024 / len(text):.1f} times the text; {written} bytes written")

room = BYTES - len(plan(lambda number: 0, 0))
checked(f"{SAMPLERS} replies", full_plan(0))
most = room // SAMPLERS // len(",{}")
checked(f"{SAMPLERS * (most + 1)} replies", full_plan(most))
PY
