#!/usr/bin/env python3
"""Holds what `run` prints on its two outputs against each other, over the built program.

Usage: bench/sums.py [PROGRAM [RUNS]]    (crates/jm_program/out/jm_program and 300 runs where they are not given)
Each run has a plan of three groups with ramp-up (of one and two groups where it has one and two threads), 1, 2, 8 or 64
threads in all, and an interval of one millisecond. From the printed result lines it sums the samples of each interval and
label anew, and holds every line of the reports against that: intervals from 0 with none left out, their rows, the summary,
the end lines. Each thread's lines must be those of `solo --thread` but for their stamp, their time and their interval, since
`run` goes by the machine's clock, and intervals never fall within a thread. In some run several intervals must have samples,
and two threads must have run beside each other.

Then the same with 64 threads for a user whom the system gives no further thread, and one whom it gives a few; a reader of
the reports that goes away in the middle of a run (status 5, lines of reports numbered from 0, no results); and each output
cut off after a number of bytes (status 5, just that prefix of the text, and nothing later). What can't be tried is said.
The last line says how many tries differed, and then the status is 1.
"""
import collections
import csv
import fcntl
import io
import itertools
import json
import os
import random
import resource
import shutil
import signal
import subprocess
import sys
import tempfile
import threading

TOP = os.path.dirname(os.path.dirname(os.path.abspath(__file__)))
PROGRAM = sys.argv[1] if len(sys.argv) > 1 else f"{TOP}/crates/jm_program/out/jm_program"
RUNS = int(sys.argv[2]) if len(sys.argv) > 2 else 300
SECONDS = 120
NOBODY = 65534
HEADER = "timeStamp,elapsed,label,responseCode,responseMessage,threadName,success,failureMessage,bytes,interval"
ELAPSED, LABEL, THREAD, SUCCESS, BYTES, INTERVAL = 1, 2, 5, 6, 8, 9
LOOPS = {1: (3, 400, 4000), 2: (3, 400, 4000), 8: (3, 400, 4000), 64: (3, 60, 600)}  # of each number of threads


# Plans.

def sampler(name, *replies):
    return {"type": "Script", "name": name, "props": {"replies": list(replies)}}


def group(number, threads, loops):
    login = sampler("login", {"ms": 3, "body": "hello"}, {"ms": 4}, {"null": True})
    page = sampler(f'page, "{number}"', {"ms": 7}, {"ms": 9, "code": 500, "message": "Bad"}, {"ms": 1, "body": "x" * 40}, {"fault": True})
    visit = {"type": "Transaction", "name": "visit", "children": [page]}
    props = {"threads": threads, "loops": loops, "rampMs": 4 * number}
    return {"type": "ThreadGroup", "name": f"G{number}", "props": props, "children": [login, visit]}


def plan_of(threads, loops):
    """A plan of three groups, or of as many as it has threads, and its labels in the order in which they first stand."""
    first, second = threads // 4 or 1, threads // 2
    counts = [count for count in (first, second, threads - first - second) if count > 0]
    plan = {"type": "TestPlan", "children": [group(number, count, loops) for number, count in enumerate(counts, 1)]}
    labels = ["login", "visit", 'page, "1"', 'page, "2"', 'page, "3"'][:len(counts) + 2]
    return json.dumps(plan), labels


# Runs.

def source_of(plan):
    source = tempfile.TemporaryFile()
    source.write(plan.encode())
    source.seek(0)
    return source


def ran(plan, *words, program=PROGRAM, **options):
    with source_of(plan) as source:
        return subprocess.run([program, *words], stdin=source, capture_output=True, text=True, timeout=SECONDS, **options)


def rows_of(text):
    return list(csv.reader(io.StringIO(text)))


def alone_of(plan, threads):
    """The result lines and the end line of each thread by `solo`."""
    runs = [ran(plan, "solo", "--thread", str(thread)) for thread in range(threads)]
    if any(run.returncode for run in runs):
        sys.exit(f"solo ends with status {max(run.returncode for run in runs)}, so nothing was tried")
    return [(rows_of(run.stdout)[1:], rows_of(run.stderr)[-1]) for run in runs]


# What must be printed of result lines.

def sums(rows):
    """As they are printed: how many, how many failed, the sums of times and bytes, the least and the greatest time."""
    times = [int(row[ELAPSED]) for row in rows]
    failed = sum(row[SUCCESS] == "false" for row in rows)
    numbers = len(rows), failed, sum(times), sum(int(row[BYTES]) for row in rows), min(times, default=0), max(times, default=0)
    return [str(number) for number in numbers]


def by_label(labels, rows):
    found = {label: [] for label in labels}
    for row in rows:
        found.setdefault(row[LABEL], []).append(row)
    return [[label, *sums(rows)] for label, rows in found.items() if rows]


def reports_of(labels, results, intervals, ends):
    """The lines of the reports, where there are this many intervals."""
    parts = collections.defaultdict(list)
    for row in results:
        parts[int(row[INTERVAL])].append(row)
    lines = []
    for number in map(str, range(intervals)):
        rows = parts[int(number)]
        lines.append(["interval", number, *sums(rows)[:2]])
        lines += [["row", number, *line] for line in by_label(labels, rows)]
    lines += [["total", *line] for line in by_label(labels, results)]
    return lines + [["all", *sums(results)[:4]]] + ends


def threads_differ(results, alone):
    """What is wrong with the result lines beside those of each thread alone."""
    at = 0
    for lines, end in alone:
        mine, at = results[at:at + len(lines)], at + len(lines)
        if [row[LABEL:INTERVAL] for row in mine] != [row[LABEL:INTERVAL] for row in lines]:
            return f"the lines of {end[1]} are not those of solo"
        numbers = [int(row[INTERVAL]) for row in mine]
        if numbers != sorted(numbers):
            return f"the intervals of {end[1]} fall"
    return None if at == len(results) else "there are lines of no thread"


def run_beside(results):
    """Whether two threads ran beside each other: each of them has a sample in an interval before the other's last."""
    spans = {}
    for row in results:
        first, _ = spans.get(row[THREAD], (int(row[INTERVAL]), 0))
        spans[row[THREAD]] = first, int(row[INTERVAL])
    pairs = itertools.combinations(spans.values(), 2)
    return any(first < other_last and other_first < last for (first, last), (other_first, other_last) in pairs)


def faults_of(run, labels, alone):
    """What is wrong with a run's status and its two texts, or None."""
    if run.returncode != 0:
        return f"status {run.returncode}: {run.stderr[-200:]!r}"
    if run.stdout.split("\n", 1)[0] != HEADER:
        return "there is no header"
    results, reports = rows_of(run.stdout)[1:], rows_of(run.stderr)
    intervals = sum(row[0] == "interval" for row in reports)
    if any(int(row[INTERVAL]) >= intervals for row in results):
        return "a sample is in an interval without a report"
    should = reports_of(labels, results, intervals, [end for _, end in alone])
    if reports != should:
        at = next((at for at, both in enumerate(zip(reports, should)) if both[0] != both[1]), min(len(reports), len(should)))
        return f"line {at + 1} of the reports is {reports[at:at + 1]}, and by the result lines it is {should[at:at + 1]}"
    return threads_differ(results, alone)


# Threads that can't be started.

def become(processes):
    """Lets the system give this process, as a user of its own, no more than this many processes and threads."""
    if os.getuid() == 0:
        os.setgroups([])
        os.setresgid(NOBODY, NOBODY, NOBODY)
        os.setresuid(NOBODY, NOBODY, NOBODY)
    resource.setrlimit(resource.RLIMIT_NPROC, (processes, processes))


def why_not_tried():
    """Why a limit on threads can't be tried here, or None: a child that has it tries to start a thread."""
    child = os.fork()
    if child == 0:
        try:
            become(1)
        except OSError:
            os._exit(1)
        try:
            threading.Thread(target=int).start()
        except RuntimeError:
            os._exit(0)
        os._exit(2)
    status = os.waitstatus_to_exitcode(os.waitpid(child, 0)[1])
    return {0: None, 1: "another user can't be taken on here", 2: "a limit on threads does not hold here"}.get(status, f"status {status}")


def without_threads(plan, labels, alone):
    """Runs for a user who may have no further thread, and who may have a few."""
    why = why_not_tried()
    if why:
        return print(f"not tried: 64 threads where none can be started: {why}")
    with tempfile.TemporaryDirectory() as folder:
        os.chmod(folder, 0o755)
        program = shutil.copy(PROGRAM, folder)
        os.chmod(program, 0o755)
        for processes in (1, 6):
            run = ran(plan, "run", "--every", "1", program=program, cwd="/", preexec_fn=lambda: become(processes))
            yield f"{processes - 1} further threads", faults_of(run, labels, alone)


# Outputs that fail.

def are_numbered(lines):
    """Whether these are lines of reports that are numbered from 0, the first lines of them."""
    number = -1
    for row in lines:
        number += row[0] == "interval"
        if row[0] not in ("interval", "row") or row[1] != str(number):
            return False
    return bool(lines)


def reader_goes_away(plan):
    """A run whose reports are read up to their tenth line and then no more, by a pipe that has room for one page."""
    reading, writing = os.pipe()
    fcntl.fcntl(writing, getattr(fcntl, "F_SETPIPE_SZ", 1031), 4096)
    with source_of(plan) as source, tempfile.TemporaryFile() as results:
        child = subprocess.Popen([PROGRAM, "run", "--every", "1"], stdin=source, stdout=results, stderr=writing)
        os.close(writing)
        with os.fdopen(reading) as reports:
            lines = [reports.readline() for _ in range(10)]
        status = child.wait(SECONDS)
        results.seek(0)
        out = results.read()
    if status != 5 or out:
        return f"status {status} and {len(out)} bytes of results"
    return None if are_numbered(rows_of("".join(lines))) else f"the first lines of the reports are {lines}"


def cut_off(plan, results_room, reports_room):
    """The status and both texts of a run that has one interval, where one output has room for that many bytes alone."""
    def limit():
        signal.signal(signal.SIGXFSZ, signal.SIG_IGN)
        room = reports_room if results_room is None else results_room
        resource.setrlimit(resource.RLIMIT_FSIZE, (room, room))

    with source_of(plan) as source, tempfile.TemporaryFile() as file:
        files = {"stdout": subprocess.PIPE, "stderr": file} if results_room is None else {"stdout": file, "stderr": subprocess.PIPE}
        run = subprocess.run([PROGRAM, "run", "--every", "3600000"], stdin=source, timeout=SECONDS, preexec_fn=limit, restore_signals=False, **files)
        file.seek(0)
        text = file.read()
    return run.returncode, *((run.stdout, text) if results_room is None else (text, run.stderr))


def without_times(text):
    """The whole lines of a text, without the fields that go by the clock."""
    times = {"row": {5, 7, 8}, "total": {4, 6, 7}, "all": {3}, "interval": set(), "end": set()}
    rows = rows_of(text[:text.rfind(b"\n") + 1].decode())
    return [[field for at, field in enumerate(row) if at not in times.get(row[0], {0, 1})] for row in rows]


def is_cut(text, room, whole):
    """Whether a text fills that room, and its whole lines are the first of another run's text but for times."""
    lines = without_times(text)
    return len(text) == room and lines == without_times(whole)[:len(lines)]


def outputs_are_cut(plan):
    """Each output cut off: the texts are prefixes of those of a whole run but for times, and what comes later was not begun."""
    whole = ran(plan, "run", "--every", "3600000")
    results, reports = whole.stdout.encode(), whole.stderr.encode()
    closed = sum(line[0] in ("interval", "row") for line in without_times(reports))
    for room in range(0, len(reports) - 40, 1 + len(reports) // 40):
        status, printed, cut = cut_off(plan, None, room)
        lines = len(without_times(cut))
        printed_right = [len(printed) == 0] if lines < closed else [without_times(printed) == without_times(results), lines == closed and not printed]
        right = status == 5 and is_cut(cut, room, reports) and any(printed_right)
        yield f"reports cut off after {room} bytes", None if right else f"status {status}, {len(printed)} bytes of results, {cut[-80:]!r}"
    for room in range(0, len(results) - 400, 1 + len(results) // 40):
        status, cut, printed = cut_off(plan, room, None)
        right = status == 5 and is_cut(cut, room, results) and without_times(printed) == without_times(reports)[:closed]
        yield f"results cut off after {room} bytes", None if right else f"status {status}, {cut[-80:]!r}, {printed[-80:]!r}"


# All of it.

def plain_runs(plans):
    """The runs, and last whether they saw what they are for: several intervals with samples, and threads beside each other."""
    chosen, parted, beside, samples, most = random.Random(1), 0, 0, 0, 0
    for number in range(RUNS):
        plan, labels, alone = plans[chosen.choice(list(plans))]
        run = ran(plan, "run", "--every", "1")
        wrong = faults_of(run, labels, alone)
        yield f"run {number}", wrong
        if not wrong:
            results = rows_of(run.stdout)[1:]
            samples += len(results)
            parted += len({row[INTERVAL] for row in results}) > 1
            beside += run_beside(results)
            most = max(most, run.stderr.count("\ninterval,") + 1)
    print(f"{RUNS} runs: {samples} samples, at most {most} intervals in a run; in {parted} runs several intervals have samples, "
          f"and in {beside} threads ran beside each other")
    yield "runs whose samples fall into several intervals", None if parted or not RUNS else "there was none"
    yield "runs whose threads ran beside each other", None if beside or not RUNS else "there was none"


def tries():
    plans = {}
    for threads, all_loops in LOOPS.items():
        for loops in all_loops:
            plan, labels = plan_of(threads, loops)
            plans[threads, loops] = plan, labels, alone_of(plan, threads)
    yield from plain_runs(plans)
    yield from without_threads(*plans[64, 60])
    yield "a reader of the reports that goes away", reader_goes_away(plan_of(8, 12_000)[0])
    yield from outputs_are_cut(plan_of(8, 400)[0])


def main():
    if not os.path.exists(PROGRAM):
        sys.exit(f"there is no program {PROGRAM}: ./jm builds it")
    tried = differed = 0
    for what, wrong in tries():
        tried += 1
        if wrong:
            differed += 1
            print(f"{what}: {wrong}")
    print(f"{tried} tries, {differed} differed")
    sys.exit(1 if differed else 0)


main()
