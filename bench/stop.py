#!/usr/bin/env python3
"""How soon a run of 64 threads ends after what stops it, over the built program.

Usage: bench/stop.py [PROGRAM [RUNS]]    (crates/jm_program/out/jm_program and 20 runs where they are not given)
Each thread makes samples for ever, with a pause of 5 milliseconds before each. In half of the runs every fourth sample fails,
and `--limit 0` stops the run: the time counts from the line of the first interval with an error, which is printed before the
hook is asked, to the line of the last interval, which is printed when all threads have ended. In the other half one thread
of a group with `stopTest` fails at its tenth sample; there the time is that of the intervals after the first one with an error.
Each thread must end with `Stopped`, or that one with `StopTest`, and the status must be 0. The last line has the longest time;
where it is more than 100 ms, or an end is another, the status is 1.
"""
import json
import os
import subprocess
import sys
import time

TOP = os.path.dirname(os.path.dirname(os.path.abspath(__file__)))
PROGRAM = sys.argv[1] if len(sys.argv) > 1 else f"{TOP}/crates/jm_program/out/jm_program"
RUNS = int(sys.argv[2]) if len(sys.argv) > 2 else 20
EVERY = 10
MOST = 100
PAUSE = {"type": "ConstantTimer", "props": {"delay": 5}}


def group(threads, action, *replies):
    script = {"type": "Script", "name": "A", "props": {"replies": list(replies)}}
    props = {"threads": threads, "loops": -1, "onError": action}
    return {"type": "ThreadGroup", "name": action, "props": props, "children": [PAUSE, script]}


def plan_of(*groups):
    return json.dumps({"type": "TestPlan", "children": list(groups)}).encode()


FAIL = {"code": 500}
BY_LIMIT = ["--limit", "0"], plan_of(group(64, "continue", {}, {}, {}, FAIL)), ["Stopped"] * 64
BY_SAMPLE = [], plan_of(group(1, "stopTest", *[{}] * 9, FAIL), group(63, "continue", {})), ["StopTest"] + ["Stopped"] * 63


def one_run(options, plan):
    """The milliseconds from the first interval with an error to the last interval, how each thread ended, and the status."""
    words = [PROGRAM, "run", "--every", str(EVERY), *options]
    first, last, ends = None, None, []
    with subprocess.Popen(words, stdin=subprocess.PIPE, stdout=subprocess.DEVNULL, stderr=subprocess.PIPE) as process:
        process.stdin.write(plan)
        process.stdin.close()
        for line in process.stderr:
            now = time.monotonic()
            fields = line.decode().rstrip("\n").split(",")
            if fields[0] == "interval":
                last = now
                if first is None and fields[3] != "0":
                    first = now
            elif fields[0] == "end":
                ends.append(fields[-1])
    took = 0 if first is None else round((last - first) * 1000)
    return took, ends, process.returncode


def main():
    longest, wrong = 0, 0
    for number in range(RUNS):
        options, plan, wanted = BY_LIMIT if number % 2 == 0 else BY_SAMPLE
        took, ends, status = one_run(options, plan)
        longest = max(longest, took)
        if ends != wanted or status != 0:
            wrong += 1
            print(f"run {number}: status {status}, ends {sorted(set(ends))}")
    print(f"{RUNS} runs, {wrong} with another end, {longest} ms at most from the cause to the end")
    return 1 if wrong or longest > MOST else 0


sys.exit(main())
