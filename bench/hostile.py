#!/usr/bin/env python3
"""Runs `check`, `solo` and `run` on plans at every limit of the format, with a stack of 512 KiB.

Usage: bench/hostile.py [PROGRAM]    (crates/jm_program/out/jm_program where it is not given)
Each plan has the status and the refusal line that must come by the rules (docs/use/PLAN_FORMAT.md); out of memory, 7, is
taken too. A line for each plan says the statuses and the seconds. The last line says how many differed, and then the
status is 1: a signal, no end within ten seconds, another status, or another line; or some plans were not tried within three
minutes.
"""
import json
import os
import resource
import subprocess
import sys
import tempfile
import time

TOP = os.path.dirname(os.path.dirname(os.path.abspath(__file__)))
PROGRAM = sys.argv[1] if len(sys.argv) > 1 else f"{TOP}/crates/jm_program/out/jm_program"
STACK = 512 * 1024
SECONDS = 10
ALL_SECONDS = 170
MOST = 4_194_304
GROUP = "/children/0"
CHILD = "/children/0/children/0"


def small_stack():
    resource.setrlimit(resource.RLIMIT_STACK, (STACK, STACK))
    resource.setrlimit(resource.RLIMIT_CORE, (0, 0))


def text_of(value):
    return json.dumps(value, separators=(",", ":"), ensure_ascii=False)


def whole(children, loops=1, before="", after=""):
    """A plan of one group whose children are this text."""
    props = f'{{"loops":{loops}}}'
    return f'{{{before}"type":"TestPlan","children":[{{"type":"ThreadGroup","name":"TG","props":{props},"children":[{children}]}}]{after}}}'


def element(kind, children="", **props):
    below = f',"children":[{children}]' if children else ""
    return f'{{"type":"{kind}","props":{text_of(props)}{below}}}'


def nested(kind, times, inside, **props):
    for _ in range(times):
        inside = element(kind, inside, **props)
    return inside


def condition(text):
    return element("If", **{"condition": "${__jexl3(" + text + ")}"})


def filled(part, more, end):
    """As many of a part as a plan has room for: `part`, then `more` again and again, then `end`."""
    room = MOST - len(whole(part + end).encode())
    return part + more * (room // len(more.encode())) + end


def plan_of(kind, key, part, more, end):
    """A plan of 4 MiB with one element, in whose property `key` the list is filled."""
    return whole(filled(f'{{"type":"{kind}","props":{{{key}:[{part}', more, f'{end}]}}}}'))


SCRIPT = '{"type":"Script","props":{"replies":[{}]}}'


def plans():
    """Each plan: what it is, its text, and the refusal lines by `check` and by `solo` and `run`, None where it is accepted and runs."""
    runs, without_replies = (None, None), (None, (None, f"13 NoReplies {CHILD}"))
    refused = lambda line: (line, line)
    bad = lambda prop: refused(f"7 BadProp {CHILD}/props/{prop}")
    long = lambda prop: refused(f"8 TooMany {CHILD}/props/{prop} text")

    # Pairs.
    for count in (130_000, 400_000):
        pairs = ",".join('["a",""]' for _ in range(count))
        yield f"{count} vars", whole(f'{{"type":"UserVariables","props":{{"vars":[{pairs}]}}}}'), runs
    pairs = ",".join('["a","b"]' for _ in range(130_000))
    yield "130000 headers", whole(f'{{"type":"HeaderManager","props":{{"headers":[{pairs}]}}}}'), runs
    yield "130000 params", whole(f'{{"type":"Http","props":{{"params":[{pairs}]}}}}'), without_replies
    yield "130000 user parameters", whole(f'{{"type":"UserParameters","props":{{"vars":[{pairs}]}}}}'), runs
    yield "130000 pairs, the last one wrong", whole(f'{{"type":"HeaderManager","props":{{"headers":[{pairs},["a"]]}}}}'), bad("headers")
    yield "4 MiB of pairs", plan_of("HeaderManager", '"headers"', '["a",1]', ',["a",1]', ""), runs
    names = ",".join(f'["v{number}","{number}"]' for number in range(130_000))
    yield "130000 variables of different names", whole(f'{{"type":"UserVariables","props":{{"vars":[{names}]}}}}'), runs

    # Replies, rows, patterns, texts in lists.
    replies = lambda count: ",".join(["{}"] * count)
    yield "4096 replies", whole(f'{{"type":"Script","props":{{"replies":[{replies(4096)}]}}}}'), runs
    yield "4097 replies", whole(f'{{"type":"Script","props":{{"replies":[{replies(4097)}]}}}}'), bad("replies")
    yield "4 MiB of replies", plan_of("Script", '"replies"', "{}", ",{}", ""), bad("replies")
    yield "300 samplers of 4096 replies", whole(",".join([f'{{"type":"Script","name":"A","props":{{"replies":[{replies(4096)}]}}}}'] * 300)), runs
    yield "32768 rows", whole(element("DataSet", text="a\n" * 32_768, names=["u"], share="thread")), runs
    yield "rows past a text", whole(element("DataSet", text="a\n" * 32_769, names=["u"], share="thread")), long("text")
    yield "64 names, a row of 64 fields", whole(element("DataSet", text=",".join(["a"] * 64) + "\n", names=["u"] * 64, share="thread")), runs
    yield "65 names", whole(element("DataSet", text=",".join(["a"] * 65) + "\n", names=["u"] * 65, share="thread")), bad("names")
    yield "65536 quotes in a row", whole(element("DataSet", text='"' + '""' * 32_767 + '"', names=["u"], share="thread")), runs
    asserts = lambda texts, test="contains": whole(element("ResponseAssertion", test=test, patterns=texts))
    yield "64 patterns", asserts(["a|b"] * 64, "matches"), runs
    yield "65 patterns", asserts(["a|b"] * 65), bad("patterns")
    yield "63 plain texts of 65536 bytes", asserts(["a" * 65_536] * 63, "equals"), runs

    # Patterns: which of these regular expressions are too large or too deep is the crate's business.
    pattern = lambda text: whole(element("RegexExtractor", ref="x", pattern=text))
    either = ((None, f"11 BadPattern {CHILD}/props/pattern"), (None, f"11 BadPattern {CHILD}/props/pattern"))
    for name, text in (("4096 letters", "a" * 4096), ("65536 letters", "a" * 65_536), ("32768 alternatives", "|".join("a" * 32_768)), ("200 groups in one another", "(" * 200 + ")" * 200),
                       ("32768 groups in one another", "(" * 32_768 + ")" * 32_768), ("32768 groups", "()" * 32_768), ("65536 opened groups", "(" * 65_536),
                       ("counts in counts", "((((a{50}){50}){50}){50}){50}"), ("32768 classes", "[a]" * 21_845), ("classes in one another", "[" * 32_768 + "a" + "]" * 32_767)):
        yield f"a pattern of {name}", pattern(text), either
    yield "a pattern with a reference", pattern("a" * 60_000 + "${x}"), refused(f"11 BadPattern {CHILD}/props/pattern")

    # Conditions.
    bad_condition = refused(f"12 BadCond {CHILD}/props/condition")
    yield "64 parentheses", whole(condition("(" * 64 + "true" + ")" * 64)), runs
    yield "65 parentheses", whole(condition("(" * 65 + "true" + ")" * 65)), bad_condition
    yield "32000 parentheses", whole(condition("(" * 32_000 + "true" + ")" * 32_000)), bad_condition
    yield "65 exclamation marks", whole(condition("!" * 65 + "true")), bad_condition
    yield "9000 operators", whole(condition("true&&" * 9000 + "true")), runs
    yield "9000 operators, the last one open", whole(condition("true&&" * 9000)), bad_condition
    yield "a text of 65000 bytes", whole(condition("'" + "a" * 65_000 + "'=='b'")), runs
    yield "an If at each of 4000 elements", whole(",".join([condition("1<2&&'a'!='b'")] * 4000)), runs

    # Templates.
    template = lambda text: whole(f'{SCRIPT},{element("Switch", value=text)}')
    for name, text in (("32768 openings", "${" * 32_768), ("16000 references", "${x}" * 16_000), ("calls in one another", "${__V(" * 8000 + ")}" * 8000),
                       ("16 calls in one another", "${__V(" * 16 + "a" + ")}" * 16), ("commas", "${__intSum(" + "1," * 32_000 + "1)}"),
                       ("escaped commas", "${__V(" + "\\," * 32_000 + ")}"), ("parentheses", "${__V(" + "(" * 32_000 + ")" * 32_000 + ")}"),
                       ("plain text of 65536 bytes", "a" * 65_536)):
        yield f"a template of {name}", template(text), runs
    yield "a template of 65537 bytes", whole(element("Switch", value="a" * 65_537)), long("value")
    growing = [["a0", "x" * 65_536]] + [[f"a{number}", "${a0}"] for number in range(1, 65)]
    yield "variables to their sum", whole(element("UserVariables", vars=growing)), runs

    # JSON paths.
    path = lambda text: whole(element("JsonExtractor", ref="x", path=text))
    for name, text in (("names", "$" + ".a" * 32_767), ("places", "$" + "[0]" * 21_845), ("stars", "$" + "[*]" * 21_845), ("one name", "$." + "a" * 65_534)):
        yield f"a JSON path of {name}", path(text), runs
    yield "a JSON path that is open", path("$" + "[0]" * 21_844 + "["), bad("path")

    # Depth.
    deepest = nested("Simple", 29, SCRIPT)
    yield "32 deep", whole(deepest), runs
    yield "33 deep", whole(nested("Simple", 30, SCRIPT)), refused("9 TooDeep " + GROUP * 32)
    yield "62 deep", whole(nested("Simple", 59, SCRIPT)), refused("9 TooDeep " + GROUP * 32)
    yield "JSON 1000 deep", whole(nested("Simple", 1000, SCRIPT)), refused("2 NotJson -")
    yield "JSON 100000 lists deep", "[" * 100_000 + "]" * 100_000, refused("2 NotJson -")
    yield "4 MiB of openings", "[" * MOST, refused("2 NotJson -")
    yield "4 MiB of objects", '{"a":' * (MOST // 5), refused("2 NotJson -")
    deep = "[" * 100 + "]" * 100
    yield "a property 100 deep", whole(f'{{"type":"Simple","props":{{"a":{deep}}}}}'), bad("a")
    yield "a pair 100 deep", whole(f'{{"type":"UserVariables","props":{{"vars":[["a",{deep}]]}}}}'), bad("vars")
    yield "a loop in each of 29 loops", whole(nested("Loop", 29, SCRIPT, loops=2)), runs

    # Elements.
    yield "4096 elements", whole(",".join([SCRIPT] * 4094)), runs
    yield "4097 elements", whole(",".join([SCRIPT] * 4095)), refused(f"8 TooMany {GROUP}/children/4094 elements")
    disabled = '{"type":"a","enabled":false}'
    for count in (10_000, 100_000):
        yield f"{count} disabled children", whole(",".join([disabled] * count)), runs
    yield "100000 disabled children of a timer", whole(element("Listener", ",".join([disabled] * 100_000))), runs
    yield "100000 disabled children, then an enabled one, of a timer", whole(element("Listener", ",".join([disabled] * 100_000) + "," + SCRIPT)), \
        refused(f"10 WrongPlace {CHILD}")
    yield "100000 disabled groups", whole(SCRIPT, after="").replace('"children":[{"type":"ThreadGroup"', '"children":[' + (disabled + ",") * 100_000
                                                                   + '{"type":"ThreadGroup"', 1), runs
    yield "4 MiB of disabled children", whole(filled(disabled, "," + disabled, "")), runs
    yield "64 groups", '{"type":"TestPlan","children":[' + ",".join(['{"type":"ThreadGroup"}'] * 64) + "]}", runs
    yield "65 groups", '{"type":"TestPlan","children":[' + ",".join(['{"type":"ThreadGroup"}'] * 65) + "]}", refused("8 TooMany / threads")

    # Names, labels and keys.
    named = lambda name: f'{{"type":"Script","name":"{name}","props":{{"replies":[{{}}]}}}}'
    yield "a name of 256 bytes", whole(named("a" * 256)), runs
    yield "a name of 257 bytes", whole(named("a" * 257)), refused(f"8 TooMany {CHILD} text")
    yield "a name of 4 MiB", whole(named("a" * (MOST - len(whole(named("")))))), refused(f"8 TooMany {CHILD} text")
    yield "a type of 4 MiB", whole('{"type":"' + "a" * (MOST - len(whole('{"type":""}'))) + '"}'), refused(f"5 UnknownType {CHILD}")
    yield "256 labels", whole(",".join(named(number) for number in range(256))), runs
    yield "257 labels", whole(",".join(named(number) for number in range(257))), refused("8 TooMany / labels")
    locks = lambda count: whole(",".join(element("CriticalSection", lock=str(number)) for number in range(count)))
    yield "256 locks", locks(256), runs
    yield "257 locks", locks(257), refused("8 TooMany / locks")
    yield "100000 equal keys", whole('{"type":"Simple",' + '"name":"a",' * 100_000 + '"name":"b"}'), runs
    yield "100000 equal properties", whole('{"type":"Loop","props":{' + '"loops":2,' * 100_000 + '"loops":3}}'), runs
    yield "100000 equal keys of a reply", whole('{"type":"Script","props":{"replies":[{' + '"ms":1,' * 100_000 + '"ms":2}]}}'), runs
    yield "100000 unknown keys", whole('{"type":"Simple",' + "".join(f'"k{number}":0,' for number in range(100_000)) + '"name":"b"}'), refused(f"4 UnknownKey {CHILD}")
    yield "100000 unknown properties", whole('{"type":"Simple","props":{' + ",".join(f'"k{number}":0' for number in range(100_000)) + "}}"), bad("k0")
    yield "100000 unknown keys of a reply", whole('{"type":"Script","props":{"replies":[{' + ",".join(f'"k{number}":0' for number in range(100_000)) + "}]}}"), bad("replies")

    # Texts of all kinds, and plans of 4 MiB.
    for text in ("a", "é", "\\u0041", "\\n", '\\"'):
        unit = 2 if text == "é" else 1
        yield f"a body of 65536 bytes of {text}", whole(f'{{"type":"Script","props":{{"replies":[{{"body":"{text * (65_536 // unit)}"}}]}}}}'), runs
    yield "a body of 65537 bytes", whole(f'{{"type":"Script","props":{{"replies":[{{"body":"{"a" * 65_537}"}}]}}}}'), refused(f"8 TooMany {CHILD}/props/replies text")
    yield "4 MiB of blanks", whole(SCRIPT) + " " * (MOST - len(whole(SCRIPT))), runs
    yield "4 MiB and a byte", whole(SCRIPT) + " " * (MOST + 1 - len(whole(SCRIPT))), refused("8 TooMany / bytes")
    yield "4 MiB of digits", whole('{"type":"Loop","props":{"loops":' + "1" * (MOST - len(whole('{"type":"Loop","props":{"loops":}}'))) + "}}"), refused("2 NotJson -")
    yield "4 MiB of empty texts in a list", plan_of("ResponseAssertion", '"test":"equals","patterns"', '""', ',""', ""), bad("patterns")
    yield "4 MiB of lists in a list", plan_of("UserVariables", '"vars"', "[]", ",[]", ""), bad("vars")
    yield "4 MiB of what is not JSON", "x" * MOST, refused("2 NotJson -")
    yield "4 MiB of bytes that are not UTF-8", b"\xff" * MOST, refused("1 NotUtf8 -")
    yield "nothing", "", refused("2 NotJson -")

    # Runs.
    yield "a loop without end", whole(element("Loop", "", loops=-1)), runs
    yield "a group without end", whole("", loops=-1), runs
    yield "samples without end", whole(SCRIPT, loops=-1), runs
    yield "a round of 4000 empty controllers, again and again", whole(",".join(['{"type":"Simple"}'] * 4000), loops=200), runs
    for kind in ("Random", "RandomOrder", "Interleave", "Switch", "Transaction"):
        yield f"{kind} over 4000 children", whole(element(kind, ",".join([SCRIPT] * 4000)), loops=3), runs


def outcome(command, text):
    """The status, the first line of standard error and the seconds, or what went wrong."""
    with tempfile.TemporaryFile() as source:
        source.write(text if isinstance(text, bytes) else text.encode())
        source.seek(0)
        start = time.perf_counter()
        try:
            done = subprocess.run([PROGRAM, command], stdin=source, stdout=subprocess.DEVNULL, stderr=subprocess.PIPE,
                                  preexec_fn=small_stack, timeout=SECONDS)
        except subprocess.TimeoutExpired:
            return "no end", "", SECONDS
    took = time.perf_counter() - start
    status = f"signal {-done.returncode}" if done.returncode < 0 else done.returncode
    return status, done.stderr.decode(errors="replace").split("\n")[0], took


def is_right(status, line, wanted):
    """Whether an outcome is the one by the rules, or out of memory; `wanted` is a refusal, None, or a tuple of those."""
    if status == 7:
        return True
    options = wanted if isinstance(wanted, tuple) else (wanted,)
    return any((status == 0) if it is None else (status, line) == (3, f"refused {it}") for it in options)


def main():
    if not os.access(PROGRAM, os.X_OK):
        sys.exit(f"hostile.py: there is no program {PROGRAM}; ./jm builds it")
    count = wrong = 0
    began = time.perf_counter()
    for name, text, wanted in plans():
        if time.perf_counter() - began > ALL_SECONDS:
            print(f"BAD {name}, and all after it: not tried, since {ALL_SECONDS} seconds are over")
            wrong += 1
            break
        said, fine = [], True
        for command, line_wanted in zip(("check", "solo", "run"), (*wanted, wanted[1])):
            status, line, took = outcome(command, text)
            right = is_right(status, line, line_wanted)
            rules = f"by the rules {'0' if line_wanted is None else line_wanted}"
            said.append(f"{command} {status} in {took:.2f} s" + ("" if right else f" ({line[:120] or 'no line'}; {rules})"))
            fine &= right
        count, wrong = count + 1, wrong + (not fine)
        print(f"{'ok ' if fine else 'BAD'} {name}: {', '.join(said)}", flush=True)
    print(f"{count} plans, {wrong} of them not as the rules say, in {time.perf_counter() - began:.0f} s")
    return 1 if wrong else 0


if __name__ == "__main__":
    sys.exit(main())
