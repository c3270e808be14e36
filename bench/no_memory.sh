#!/bin/sh
# Runs the program out of memory: each allocation fails in turn, by itself and with all later ones, of `solo` on a small plan, of
# `run` on it with two threads, and of two HTTP exchanges with a peer on loopback; and then `ulimit -v` goes up in steps of 1 MB.
# Each run must end within ten seconds with status 0 and its whole text, or with status 7; then each output must hold a prefix of its
# text, and what comes later nothing, or all of a thread that was cut short: what it sampled until then, and the end NoMemory. Where
# the C library's own memory fails within a dial, the sample may be a fault. A line for each says how many runs ended how. The last
# line says how many were wrong, and then the status is 1. It takes some minutes.
# Usage: [PROGRAM=FILE] bench/no_memory.sh    (the program is the one that ./jm runs where no other is named; it needs gcc and python3)
set -eu
cd "$(dirname "$0")/.."
folder=$(mktemp -d)
trap 'rm -rf "$folder"' EXIT
trap 'exit 1' INT TERM
gcc -O2 -shared -fPIC -o "$folder/no_memory.so" bench/no_memory.c
[ -n "${PROGRAM:-}" ] || ./jm check </dev/null >/dev/null 2>&1 || true
FOLDER=$folder python3 - <<'PY'
import collections, csv, itertools, json, os, resource, socket, subprocess, sys, threading

PROGRAM = os.path.abspath(os.environ.get("PROGRAM") or "crates/jm_program/out/jm_program")
LIBRARY = os.path.join(os.environ["FOLDER"], "no_memory.so")
SECONDS, MEGABYTE = 10, 1 << 20
RUN = ["run", "--every", "1"]
MOST_STEPS = 1024
LABEL, THREAD, MESSAGE, BYTES = 2, 5, 4, 8

# ---- the peer

def request_of(peer):
    """Reads a request, by its Content-Length."""
    text = b""
    while b"\r\n\r\n" not in text:
        piece = peer.recv(65_536)
        if not piece:
            return
        text += piece
    head, _, body = text.partition(b"\r\n\r\n")
    size = sum(int(line.split(b":")[1]) for line in head.split(b"\r\n") if line.lower().startswith(b"content-length:"))
    while len(body) < size:
        piece = peer.recv(65_536)
        if not piece:
            return
        body += piece

def serve(listening):
    while True:
        peer, _ = listening.accept()
        with peer:
            try:
                request_of(peer)
                peer.sendall(b"HTTP/1.1 200 OK\r\nTransfer-Encoding: chunked\r\n\r\n4\r\nid=7\r\n1\r\n8\r\n0\r\n\r\n")
            except OSError:
                pass

# ---- the plans

def script(name, *replies, children=(), **props):
    return {"type": "Script", "name": name, "props": {"replies": list(replies), **props}, "children": list(children)}

def group(threads, *children):
    return {"type": "ThreadGroup", "name": "TG", "props": {"threads": threads}, "children": list(children)}

def loop(loops, *children):
    return {"type": "Loop", "props": {"loops": loops}, "children": list(children)}

def plan(*groups):
    return json.dumps({"type": "TestPlan", "children": list(groups)}).encode()

FOUND = {"type": "RegexExtractor", "props": {"ref": "x", "pattern": r"id=(\d+)", "match": -1}}
SMALL = loop(3, {"type": "UserVariables", "props": {"vars": [["v", "1"]]}},
             script("A", {"ms": 5, "body": "id=7"}, {"code": 500, "message": "Bad, still", "ms": 7}, children=[FOUND]),
             {"type": "Transaction", "name": "T", "children": [script("B", {"echo": True, "ms": 2}, request="${x_1}${v}")]},
             {"type": "CriticalSection", "props": {"lock": "L"}, "children": [script("C", {})]})

def http(port, loops):
    defaults = {"type": "HttpDefaults", "props": {"host": "127.0.0.1", "port": port}}
    get = {"type": "Http", "name": "G", "props": {"path": "/a", "params": [["q", "x y"]]}, "children": [FOUND]}
    post = {"type": "Http", "name": "P", "props": {"path": "/b", "method": "POST", "body": "id ${x_1}"}}
    return plan(group(1, loop(loops, defaults, get, post)))

# ---- a run

Ran = collections.namedtuple("Ran", "started failed status results reports")

def run(words, text, room=None, **given):
    """What a run comes to: whether the program was begun, and whether a call of the allocator failed."""
    told, tell = os.pipe()
    with open(os.path.join(os.environ["FOLDER"], "plan"), "wb+") as source:
        source.write(text)
        source.seek(0)
        def limit():
            resource.setrlimit(resource.RLIMIT_CORE, (0, 0))
            if room is not None:
                resource.setrlimit(resource.RLIMIT_AS, (room, room))
        around = {"PATH": os.environ["PATH"], "LD_PRELOAD": LIBRARY, "NO_MEMORY_TOLD": str(tell), **given}
        process = subprocess.Popen([PROGRAM, *words], stdin=source, stdout=subprocess.PIPE, stderr=subprocess.PIPE, env=around,
                                   pass_fds=[tell], preexec_fn=limit)
        os.close(tell)
        try:
            results, reports = process.communicate(timeout=SECONDS)
            status = process.returncode
        except subprocess.TimeoutExpired:
            process.kill()
            results, reports = process.communicate()
            status = "no end"
    with os.fdopen(told, "rb") as said:
        marks = said.read()
    return Ran(b"s" in marks, b"f" in marks, status, results.decode(errors="replace"), reports.decode(errors="replace"))

# ---- what may stand in the outputs

def lines_of(text):
    """The whole lines of a text, as rows, and the part of one that follows."""
    whole, _, part = text.rpartition("\n")
    return list(csv.reader(whole.split("\n"))) if whole else [], part

def sample(row):
    """Of a result line what is the same in each run: all but the times and the interval."""
    return tuple(row[LABEL:9])

def by_thread(rows):
    return {thread: [sample(row) for row in some] for thread, some in itertools.groupby(rows, key=lambda row: row[THREAD])}

class Texts:
    """The texts of a run with ample memory."""

    def __init__(self, words, text):
        ran = run(words, text)
        if ran.status != 0 or not ran.started:
            sys.exit(f"{' '.join(words)}: status {ran.status} with ample memory: {ran.reports[:200]}")
        self.results, self.reports = ran.results, ran.reports
        rows, _ = lines_of(ran.results)
        self.header, self.threads = rows[0], by_thread(rows[1:])
        self.ends = [row[1] for row in lines_of(ran.reports)[0] if row[0] == "end"]
        self.same = words[0] == "solo"

    def is_sample(self, mine, here):
        """One sample may be another's, or a dial that failed."""
        return mine == here or (mine[0] == here[0] and mine[2] == "fault")

    def may_begin(self, part, headed, threads):
        """A part of a line may be one of the header, or of the result line that comes next, of the same thread or of a later one."""
        if not headed:
            return ",".join(self.header).startswith(part)
        stamp, *fields = next(csv.reader([part]))
        fields = fields[LABEL - 1:-1]
        nexts = [whole[len(threads.get(thread, [])):][:1] for thread, whole in self.threads.items()]
        return stamp.isdigit() and any(list(one[0][:len(fields)]) == fields[:7] or fields[2:3] == ["fault"] for one in nexts if one)

    def wrong(self, ran, dials):
        """What is wrong with the outputs of a run, or nothing; and how it ended."""
        try:
            return self.judged(ran, dials)
        except (IndexError, ValueError, KeyError, csv.Error) as error:
            return f"outputs of another form: {error}", None

    def judged(self, ran, dials):
        if ran.status not in (0, 7):
            return f"status {ran.status}: {ran.reports[-100:]!r}", None
        rows, cut_line = lines_of(ran.results)
        if rows and rows[0] != self.header:
            return "no header", None
        headed, rows = rows != [], rows[1:]
        if self.same and not self.results.startswith(ran.results):
            return f"results that are no prefix: {ran.results[-80:]!r}", None
        if any(len(row) != len(self.header) or not (row[0] + row[1] + row[-1]).isdigit() for row in rows):
            return "a line that is no result line", None
        threads = by_thread(rows)
        if sum(map(len, threads.values())) != len(rows) or [thread for thread in self.threads if thread in threads] != list(threads):
            return "result lines out of order", None
        if cut_line and not self.may_begin(cut_line, headed, threads):
            return f"a part of no line: {cut_line!r}", None
        faults = 0
        for thread, mine in threads.items():
            whole = self.threads[thread]
            if len(mine) > len(whole) or not all(map(self.is_sample, mine, whole)):
                return f"a result line that is not the plan's, of {thread}", None
            faults += sum(a != b for a, b in zip(mine, whole))
        if faults and not dials:
            return "a fault where no dial can have failed", None
        reports, cut_report = lines_of(ran.reports)
        intervals = [row for row in reports if row[0] == "interval"]
        if [row[1] for row in intervals] != [str(number) for number in range(len(intervals))]:
            return "intervals out of order", None
        order = [row[0] for row in reports]
        tail = [row for row in reports if row[0] in ("total", "all", "end")]
        if reports[len(reports) - len(tail):] != tail or not set(order) <= {"interval", "row", "total", "all", "end"}:
            return f"reports out of order: {ran.reports[-100:]!r}", None
        if cut_report and not any(word.startswith(cut_report.partition(",")[0]) for word in ("interval", "row", "total", "all", "end")):
            return f"a part of no line: {cut_report!r}", None
        if ran.results and not self.same and not intervals:
            return "results before their reports", None
        counted = sum(int(row[2]) for row in intervals)
        if (tail or cut_report and self.same) and (cut_line or not ran.results):
            return "a summary before the results were out", None
        if not self.same and counted < len(rows):
            return "results before their reports", None
        if tail and not self.same and counted != len(rows):
            return "reports that do not count the result lines", None
        for row in tail:
            mine = [line for line in rows if row[0] == "all" or line[LABEL] == row[1]]
            if row[0] == "all" and row[1] != str(len(mine)) or row[0] == "total" and row[2] != str(len(mine)):
                return f"a sum that is not that of the result lines: {row}", None
        ends = [row for row in tail if row[0] == "end"]
        if [row[1] for row in ends] != self.ends[:len(ends)]:
            return "end lines out of order", None
        cut = [row[1] for row in ends if row[2] == "NoMemory"]
        if [row[2] for row in ends if row[2] not in ("Completed", "NoMemory")]:
            return f"another end: {ends}", None
        if any(row[2] == "Completed" and len(threads.get(row[1], [])) != len(self.threads[row[1]]) for row in ends):
            return "a thread that is complete without all of its lines", None
        whole = len(ends) == len(self.ends) and not cut_report
        if ran.status == 0:
            if not whole or cut or (self.same and (ran.results, ran.reports) != (self.results, self.reports)):
                return f"status 0 without the whole text: {ran.reports[-100:]!r}", None
            return None, "the whole text, one sample a fault" if faults else "the whole text"
        if whole:
            return None, "7, a thread cut short and all printed" if cut else "7, all printed"
        return None, "7, a prefix printed" if ran.results or ran.reports else "7, nothing printed"

# ---- all of them

faults = 0

def told(name, ends, worst):
    global faults
    print(f"{name}: {sum(ends.values()):,} runs: " + "; ".join(f"{count:,} times {end}" for end, count in sorted(ends.items())))
    for line in worst[:5]:
        print(f"    WRONG: {line}")
    faults += len(worst)

def each_allocation(name, words, text, dials, on):
    texts, ends, worst = Texts(words, text), collections.Counter(), []
    for at in itertools.count(1):
        ran = run(words, text, NO_MEMORY_AT=str(at), **({"NO_MEMORY_ON": "1"} if on else {}))
        wrong, end = texts.wrong(ran, dials and ran.failed)
        if wrong:
            worst.append(f"call {at}: {wrong}")
        if not ran.failed:
            break
        ends[end or "WRONG"] += 1
    told(f"{name}, each allocation" + (" and all later ones" if on else " alone"), ends, worst)

def each_megabyte(name, words, text, dials):
    texts, ends, worst, whole = Texts(words, text), collections.Counter(), [], 0
    for step in range(1, MOST_STEPS):
        ran = run(words, text, room=step * MEGABYTE)
        if not ran.started:
            ends["not begun"] += 1
            continue
        wrong, end = texts.wrong(ran, dials)
        if wrong:
            worst.append(f"{step} MB: {wrong}")
        ends[end or "WRONG"] += 1
        whole = whole + 1 if end == "the whole text" else 0
        if whole == 4:
            break
    told(f"{name}, up to {step} MB", ends, worst)

with socket.create_server(("127.0.0.1", 0), backlog=64) as listening:
    threading.Thread(target=serve, args=[listening], daemon=True).start()
    port = listening.getsockname()[1]
    for on in (False, True):
        each_allocation("solo", ["solo"], plan(group(1, SMALL)), False, on)
        each_allocation("run, 2 threads", RUN, plan(group(2, SMALL)), False, on)
        each_allocation("run, 2 exchanges", RUN, http(port, 1), True, on)
    many = loop(20_000, script("A", {"ms": 1}))
    each_megabyte("solo of 20,000 samples", ["solo"], plan(group(1, many)), False)
    each_megabyte("run of 40,000 samples, 2 threads", RUN, plan(group(2, many)), False)
    each_megabyte("run of 200 exchanges", RUN, http(port, 100), True)
print(f"{faults} wrong")
sys.stdout.flush()
os._exit(1 if faults else 0)
PY
