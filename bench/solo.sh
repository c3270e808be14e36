#!/bin/sh
# Prints how fast `solo` runs: samples a second from the start of the process to its exit, by the best of 40 runs and by their
# median, the peak of its memory, how long a loop without end over an empty controller takes to meet its limit of rounds, what a
# critical section costs beside a Simple Controller, a pass of a controller with many children beside one with few, and how much
# one long list of children costs beside many short ones.
# Usage: bench/solo.sh    (it needs python3, for the clock and the memory of a child process)
cd "$(dirname "$0")/.." || exit 1
./jm solo </dev/null >/dev/null 2>&1
python3 - <<'PY'
import json, os, subprocess, tempfile, time

PROGRAM = "crates/jm_program/out/jm_program"

def script(name, replies, **props):
    return {"type": "Script", "name": name, "props": {"replies": replies, **props}}

def controller(kind, name, children, **props):
    return {"type": kind, "name": name, "props": props, "children": children}

def plan(children):
    group = {"type": "ThreadGroup", "name": "TG", "children": children}
    return json.dumps({"type": "TestPlan", "children": [group]}).encode()

def source(text):
    file = tempfile.TemporaryFile()
    file.write(text)
    file.seek(0)
    return file

# The least and the median of that many runs.
def times_of(text, *words, times=5):
    taken = []
    for _ in range(times):
        with source(text) as plan_file, open("/dev/null", "wb") as sink:
            start = time.perf_counter()
            child = subprocess.Popen([PROGRAM, *words], stdin=plan_file, stdout=sink, stderr=subprocess.PIPE)
            report = child.stderr.read().decode().strip().replace("\n", " / ")
            child.wait()
            taken.append(time.perf_counter() - start)
    return min(taken), sorted(taken)[times // 2], report

def seconds(text, *words, times=5):
    least, _, report = times_of(text, *words, times=times)
    return least, report

# The results are written once all of them are there, so the peak is reached when the first bytes come.
def peak_and_lines(text):
    with source(text) as plan_file:
        child = subprocess.Popen([PROGRAM, "solo"], stdin=plan_file, stdout=subprocess.PIPE, stderr=subprocess.DEVNULL)
        first = child.stdout.read(1)
        with open(f"/proc/{child.pid}/status") as status:
            peak = next((int(line.split()[1]) for line in status if line.startswith("VmHWM")), 0)
        lines = (first + child.stdout.read()).count(b"\n") - 1
        child.wait()
    return peak, lines

# A machine that is shared may be slow for seconds on end, so these are the best of many.
def sampled(name, text, times=40):
    took, median, report = times_of(text, "solo", times=times)
    peak, lines = peak_and_lines(text)
    print(f"{name}: {lines} samples in {took * 1000:.1f} ms, {lines / took:,.0f} a second, the best of {times}, {lines / median:,.0f} by the median; "
          f"{peak} KiB at the peak, {peak * 1024 / lines:.0f} bytes a sample; {report[report.index('all,'):]}")

sampled("4,093 samplers of one reply", plan([script("S", [{}]) for _ in range(4093)]))
loop = {"type": "Loop", "props": {"loops": 65536}, "children": [script("S", [{"ms": 1}])]}
sampled("a loop of 65,536 samples", plan([loop]))

# 64 rounds of 64 rounds, in each of them the If's sampler and the 15 values of the ForEach: 65,536 samples.
values = [[f"u_{number}", f"value {number}"] for number in range(1, 16)]
each = controller("ForEach", "E", [
    script("S", [{"echo": True, "ms": 1}], request="${user}/${__jm__E__idx}/${__intSum(${__jm__I__idx},1)}?q=${o}"),
], input="u", output="o")
chosen = controller("If", "chosen", [script("T", [{"ms": 1}])], condition='${__jexl3("${user}" == "ann")}')
inner = controller("Loop", "I", [chosen, each], loops="${rounds}")
outer = controller("Loop", "O", [inner], loops="${__P(rounds,64)}")
variables = {"type": "UserVariables", "props": {"vars": [["user", "ann"], ["rounds", "${__P(rounds,64)}"]] + values}}
sampled("nested loops, an If and a ForEach with templates", plan([variables, outer]))

# Each class of element in the scope of one sampler, and a Counter and a data set that advance before each sample.
seven = [
    {"type": "Counter", "props": {"var": "n", "start": 1, "increment": 1}},
    {"type": "DataSet", "props": {"names": ["user", "age"], "share": "thread", "text": "ann,31\nbob,47\ncarola,52\n"}},
    {"type": "UserParameters", "props": {"vars": [["id", "${user}-${n}"]]}},
    {"type": "ConstantTimer", "props": {"delay": 1}},
    {**script("S", [{"echo": True, "ms": 1}], request="id=${id};age=${age}"), "children": [
        {"type": "BoundaryExtractor", "props": {"ref": "got", "left": "id=", "right": ";"}},
        {"type": "RegexExtractor", "props": {"ref": "age", "pattern": "age=([0-9]+)"}},
        {"type": "ResponseAssertion", "props": {"test": "substring", "patterns": ["id="]}},
        {"type": "DurationAssertion", "props": {"ms": 1}},
        {"type": "Listener"},
    ]},
]
group = {"type": "ThreadGroup", "name": "TG", "props": {"loops": 65536}, "children": seven}
sampled("all seven classes in scope of one sampler", json.dumps({"type": "TestPlan", "children": [group]}).encode())

# Loops as `make` makes them.
made = [controller("Loop", f"L{i}", [script(f"S{i % 16}", [{"ms": i % 10, "code": 500 if i % 5 == 4 else 200}])], loops=i % 7 + 1)
        for i in range(1000)]
sampled("1,000 loops as make has them", plan(made))
took, report = seconds(b"", "make", "--size", "2047")
print(f"make --size 2047: {took * 1000:.1f} ms; {report[report.index('all,'):]}")

took, report = seconds(plan([{"type": "Loop", "props": {"loops": -1}, "children": [{"type": "Simple"}]}]), "solo")
print(f"a loop without end over an empty Simple: {took:.2f} s; {report}")

# Two plans in turn, since a machine's speed changes from minute to minute: the least of some runs of each, and the medians.
def in_turn(first, second, times=15):
    took = [], []
    for _ in range(times):
        for text, kept in zip((first, second), took):
            kept.append(seconds(text, "solo", "--samples", "262144", times=1)[0])
    return [(min(kept), sorted(kept)[times // 2]) for kept in took]

def rounds_of(kind, **props):
    return plan([controller("Loop", "L", [controller(kind, "C", [script("S", [{"ms": 1}])], **props)], loops=32_768)])

for (section, simple), by in zip(zip(*in_turn(rounds_of("CriticalSection", lock="l"), rounds_of("Simple"))), ("least", "medians")):
    print(f"a section beside a Simple Controller, 32,768 rounds, by the {by}: {(section - simple) / 32_768 * 1e9:.0f} ns more a round")

# What a pass costs of a controller with many children, of which it runs one or none: many passes beside one, which has the same plan to read.
def passes_of(children, passes, kind, **props):
    return plan([controller("Loop", "L", [controller(kind, "C", [script("S", [{}])] * children, **props)], loops=passes)])

for kind, props in (("Interleave", {}), ("If", {"condition": "false"})):
    a_pass = []
    for children in (4_000, 4):
        many, one = in_turn(passes_of(children, 200_000, kind, **props), passes_of(children, 1, kind, **props), times=7)
        a_pass.append((many[0] - one[0]) / 199_999 * 1e9)
    print(f"a pass of an {kind} with 4,000 children and with 4, by the least: {a_pass[0]:.0f} and {a_pass[1]:.0f} ns")

# 3,969 samplers in one group, and the same in 63 controllers of 63.
def group_of(children, loops):
    return json.dumps({"type": "TestPlan", "children": [
        {"type": "ThreadGroup", "name": "TG", "props": {"loops": loops}, "children": children}]}).encode()

row = [script("S", [{}])] * 63
for loops in (1, 60):
    wide, deep = group_of(row * 63, loops), group_of([controller("Simple", "C", row)] * 63, loops)
    for (one, many), by in zip(zip(*in_turn(wide, deep)), ("least", "medians")):
        print(f"3,969 samplers in one group beside 63 controllers, rounds: {loops}, by the {by}: {one / many:.2f}")
PY
