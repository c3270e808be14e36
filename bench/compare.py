#!/usr/bin/env python3
"""Holds what `solo` prints of random plans, and `weave` of random schedules of them, against the models in bench/model.py
and bench/weave_model.py, byte for byte.

Usage: bench/compare.py [SECONDS [SEED]]    (60 seconds and the seed 1 where they are not given)
It prints how many plans were compared and how their threads ended; or the first plan that differs, with both texts, and
then its status is 1. At least a thousand schedules are compared, however long that takes.
"""
import collections
import json
import os
import random
import subprocess
import sys
import time

import model
import weave_model
from model import CONTROLLERS, threads_of

TOP = os.path.dirname(os.path.dirname(os.path.abspath(__file__)))
PROGRAM = f"{TOP}/crates/jm_program/out/jm_program"
LAST_OK = "${JMeterThread.last_sample_ok}"
COUNTER = "${__counter(TRUE)}"
LOOPS = [0, 1, 2, 3, "2", "-0", "007", "x", "", "${v}", COUNTER]
CONDITIONS = ["true", "false", "TRUE", "1", LAST_OK, "${__jexl3(" + COUNTER + "<6)}"]
VALUES = ["0", "1", "2", "9", "", "home", "A", "default", "x", "${v}", LAST_OK, "01", "18446744073709551616"]
REQUESTS = ["x", "${v}", "${o}-${w}", "${nope}", COUNTER, LAST_OK]
PAIRS = [["v", "2"], ["u_1", "a"], ["u_2", "bb"], ["u_3", "${v}"], ["s1", "q"], ["w", "${u_2}!"]]


class Plans:
    """Makes a plan from a stream of random choices."""

    def __init__(self, choices):
        self.choices, self.made = choices, 0

    def often(self, share):
        return self.choices.random() < share

    def one_of(self, *items):
        return self.choices.choice(items)

    def reply(self):
        reply = {}
        if self.often(0.6):
            reply["ms"] = self.one_of(0, 1, 3, 7, 12, 1000, 2**32 - 1)
        if self.often(0.3):
            reply["code"] = self.one_of(500, 404, 399, 400, 199, 201, 100)
        elif self.often(0.2):
            reply[self.one_of("null", "fault")] = True
        if self.often(0.3):
            reply["body"] = self.one_of("a", "bcd", "é", "")
        elif self.often(0.3):
            reply["echo"] = True
        if self.often(0.15):
            reply["message"] = self.one_of("Bad", "a,b", 'say "x"', "")
        return reply

    def sampler(self):
        props = {"replies": [self.reply() for _ in range(self.choices.randint(1, 4))]}
        if self.often(0.4):
            props["request"] = self.one_of(*REQUESTS)
        return {"type": "Script", "name": self.one_of(*"ABCDEFG") + self.one_of("", "", "1", ",q"), "props": props}

    def props(self, kind, around):
        indices = ["${__jm__" + name + "__idx}" for name in around]
        if kind == "Loop":
            return {"loops": self.one_of(*LOOPS)}
        if kind == "If":
            asked = ["${__jexl3(" + index + "==1)}" for index in indices]
            return {"condition": self.one_of(*CONDITIONS, *asked), "all": self.often(0.4)}
        if kind == "While":
            below = "${__jexl3(" + COUNTER + f"<{self.choices.randint(1, 12)})}}"
            return {"condition": self.one_of(below, below, below, "false", "FALSE", "", "  ", "LAST", "true", "x")}
        if kind == "Switch":
            return {"value": self.one_of(*VALUES, *indices)}
        if kind == "ForEach":
            props = {"input": self.one_of("u", "z", "s"), "output": self.one_of("o", "v", "w")}
            props["separator"] = self.often(0.7)
            if self.often(0.3):
                props["start"] = self.one_of(0, 1, 2)
            if self.often(0.3):
                props["end"] = self.one_of(0, 1, 2, 3)
            return props
        return {"lock": self.one_of("a", "a", "b")} if kind == "CriticalSection" else {}

    def element(self, depth, around, inside_section=False):
        """An element below looping elements of these names, each of which has one of its own for its index."""
        if depth == 0 or self.often(0.38):
            return self.sampler()
        self.made += 1
        kind = self.one_of(*CONTROLLERS, "Transaction", "Transaction", "CriticalSection")
        if inside_section and kind == "CriticalSection":
            kind = "Simple"
        inside_section = inside_section or kind == "CriticalSection"
        loops = kind in ("Loop", "While", "ForEach")
        name = f"{kind}{self.made}" if loops else self.one_of(kind, "A", "default", "Default", "home")
        props = self.props(kind, around)
        inside = [*around, name] if loops else around
        count = self.one_of(0, 1, 1, 2, 2, 3, 4)
        children = [self.element(depth - 1, inside, inside_section) for _ in range(count)]
        if self.often(0.1):
            children.append({"type": "UserVariables", "props": {"vars": [["v", self.one_of("1", "2", "yy")]]}})
        if self.often(0.1):
            children.append({"type": "Script", "name": "off", "enabled": False, "props": {"replies": [{}]}})
        if kind == "While" and "counter" not in props["condition"]:
            # (what may go round without end uses up the samples)
            children.insert(0, self.sampler())
        return {"type": kind, "name": name, "props": props, "children": children}

    def group(self):
        action = self.one_of("continue", "continue", "nextLoop", "nextLoop", "stopThread", "stopTest")
        props = {"loops": self.one_of(1, 1, 2, 3, 5), "onError": action, "threads": self.one_of(1, 1, 1, 2, 3)}
        if self.often(0.3):
            props["rampMs"] = self.one_of(1, 10, 1000)
        children = [self.element(self.choices.randint(1, 5), []) for _ in range(self.choices.randint(1, 4))]
        return {"type": "ThreadGroup", "name": self.one_of("TG", "G,x"), "props": props, "children": children}

    def plan(self):
        groups = [self.group() for _ in range(self.one_of(1, 1, 1, 2))]
        return {"type": "TestPlan", "children": [{"type": "UserVariables", "props": {"vars": PAIRS}}, *groups]}

    def schedule(self, threads):
        """Tokens for that many threads, some of them for none; each schedule has a mixture of its own."""
        shares = [self.one_of(0, 1, 4, 9) for _ in range(3)] + [1]
        count = self.one_of(0, 2, 6, 15, 40, 100, 300)
        return ",".join(self.token(threads, self.choices.choices("DxrR", shares)[0]) for _ in range(count))

    def token(self, threads, form):
        if form in "rR":
            return form
        number = self.choices.randrange(threads) if self.often(0.95) else self.one_of(threads, 63, 99)
        digits = f"{number:02}" if self.often(0.1) else str(number)
        return digits + ("x" if form == "x" else "")


class Comparison:
    """The program's answers beside those of the models."""

    def __init__(self, program):
        self.program, self.ends, self.plans, self.schedules = program, collections.Counter(), 0, 0

    def agrees(self, plan, words, wanted):
        """Whether the program prints that of a plan; else it is shown."""
        ran = subprocess.run([self.program, *words], input=json.dumps(plan).encode(), capture_output=True)
        found = ran.stdout.decode(), ran.stderr.decode()
        for line in wanted[1].splitlines():
            if line.startswith("end,"):
                self.ends[line.rsplit(",", 1)[1]] += 1
        if (ran.returncode, found) == (0, wanted):
            return True
        print(json.dumps(plan), " ".join(words), ran.returncode, *found, "the model:", *wanted, sep="\n")
        return False

    def solo(self, choices):
        plan, seed, budget = any_run(choices)
        thread = choices.randrange(len(threads_of(plan)))
        self.plans += 1
        words = ["solo", "--thread", str(thread), "--seed", str(seed), "--samples", str(budget)]
        return self.agrees(plan, words, model.printed(plan, thread, seed, budget))

    def weave(self, choices):
        plan, seed, budget = any_run(choices)
        schedule = Plans(choices).schedule(len(threads_of(plan)))
        self.schedules += 1
        words = ["weave", "--seed", str(seed), "--samples", str(budget), *(["--schedule", schedule] if schedule else [])]
        return self.agrees(plan, words, weave_model.printed(plan, seed, budget, schedule))


def any_run(choices):
    """A plan, a seed, and a sample budget."""
    seed = choices.choice([0, 7, choices.getrandbits(64)])
    return Plans(choices).plan(), seed, choices.choice([1, 2, 3, 5, 8, 20, 60, 200])


def compare(program, seconds, first):
    choices, comparison, until = random.Random(first), Comparison(program), time.monotonic() + seconds
    while time.monotonic() < until or comparison.schedules < 1000:
        if not (comparison.solo(choices) and comparison.weave(choices)):
            return 1
    ends = ", ".join(f"{count:,} {end}" for end, count in comparison.ends.most_common())
    print(f"{comparison.plans:,} plans by solo and {comparison.schedules:,} schedules by weave, each printed as the "
          f"models print it; their threads ended so: {ends}")
    return 0


def main(seconds=60, first=1):
    subprocess.run([f"{TOP}/jm", "solo"], stdin=subprocess.DEVNULL, capture_output=True)
    return compare(PROGRAM, seconds, first)


if __name__ == "__main__":
    sys.exit(main(*[int(word) for word in sys.argv[1:3]]))
