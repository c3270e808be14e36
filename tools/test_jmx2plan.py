#!/usr/bin/python3
"""Tests of tools/jmx2plan.

Usage: tools/test_jmx2plan.py [--program PATH | --without-program] [words of unittest]

The cases stand in tools/jmx_cases: NAME.jmx, the plan that comes of it (NAME.json), and the lines that come (NAME.txt), each with
the path of names, the property, what becomes of it, and some of the words that say why. Each plan is accepted by `check` of the
built program, which must be there unless --without-program is given.
"""
from __future__ import annotations

import json
import pathlib
import random
import re
import resource
import shutil
import subprocess
import sys
import tempfile
import time
import unittest
from xml.etree import ElementTree

TOOLS = pathlib.Path(__file__).resolve().parent
TOP = TOOLS.parent
sys.path.insert(0, str(TOOLS))

from jmx2plan_lib import command, xml_tree  # noqa: E402
from jmx2plan_lib.conditions import condition_fault  # noqa: E402
from jmx2plan_lib.patterns import carry_path, carry_pattern  # noqa: E402
from jmx2plan_lib.templates import carry, read_template, spell  # noqa: E402

TOOL = TOOLS / "jmx2plan"
CASES = TOOLS / "jmx_cases"
TEMPLATES = pathlib.Path("/usr/share/jmeter/bin/templates")
PROGRAM: pathlib.Path | None = TOP / "crates/jm_program/out/jm_program"
SECONDS = 600  # until a command counts as hung, on a machine with much other work
PROCESSOR_SECONDS = 20  # what the worst input may take
TYPES = set(
    """TestPlan ThreadGroup Simple OnceOnly Interleave Random RandomOrder Transaction Loop If While Switch ForEach
    CriticalSection Script Http UserVariables HttpDefaults HeaderManager Counter DataSet UserParameters ConstantTimer UniformTimer
    RegexExtractor JsonExtractor BoundaryExtractor ResponseAssertion DurationAssertion SizeAssertion Listener""".split()
)
HEAD = (
    '<?xml version="1.0" encoding="UTF-8"?>\n<jmeterTestPlan version="1.2" properties="5.0" jmeter="5.6.3"><hashTree>'
)
PLAN = '<TestPlan guiclass="TestPlanGui" testclass="TestPlan" testname="Plan" enabled="true"/><hashTree>'
TAIL = "</hashTree></hashTree></jmeterTestPlan>"


def element(kind: str, name: str, props: dict[str, str] | None = None, below: str = "") -> str:
    """An element of a .jmx with its hash tree."""
    texts = "".join(f'<stringProp name="{prop}">{text}</stringProp>' for prop, text in (props or {}).items())
    return f'<{kind} guiclass="{kind}Gui" testclass="{kind}" testname="{name}" enabled="true">{texts}</{kind}><hashTree>{below}</hashTree>'


def group(below: str = "", name: str = "Users", threads: int = 1) -> str:
    """A thread group of one round."""
    loop = (
        '<elementProp name="ThreadGroup.main_controller" elementType="LoopController"><stringProp name="LoopController.loops">1'
        '</stringProp><boolProp name="LoopController.continue_forever">false</boolProp></elementProp>'
    )
    text = element("ThreadGroup", name, {"ThreadGroup.num_threads": str(threads)}, below)
    return text.replace("</ThreadGroup>", loop + "</ThreadGroup>")


def jmx(below: str) -> bytes:
    """A whole .jmx of what stands below its test plan."""
    return (HEAD + PLAN + below + TAIL).encode()


def run(*words: str, text: bytes = b"", python: tuple[str, ...] = ()) -> tuple[int, str, str]:
    """The status, standard output and standard error of the tool."""
    done = subprocess.run([*python, str(TOOL), *words], input=text, capture_output=True, timeout=SECONDS, check=False)
    return done.returncode, done.stdout.decode(), done.stderr.decode()


def converted(text: bytes, folder: pathlib.Path = CASES) -> tuple[dict, list[str], str]:
    """The plan of a .jmx, its lines, and the plan's text."""
    plan, losses = command.convert(text, folder)
    return json.loads(plan), [loss.line() for loss in losses], plan


def refusal(plan: str) -> str:
    """What `check` says against a plan: nothing where it accepts it, or where there is no program."""
    if PROGRAM is None:
        return ""
    done = subprocess.run([PROGRAM, "check"], input=plan.encode(), capture_output=True, timeout=SECONDS, check=False)
    return "" if done.returncode == 0 else done.stderr.decode() or f"status {done.returncode}"


def types_of(plan: dict) -> set[str]:
    return {plan["type"]}.union(*(types_of(child) for child in plan.get("children", [])))


class Program(unittest.TestCase):
    def test_it_is_built(self):
        if PROGRAM is None:
            print("test_jmx2plan: no plan is held against the program: --without-program", file=sys.stderr)
        else:
            self.assertTrue(
                PROGRAM.exists(), f"{PROGRAM} is not there: build it by ./jm check, or give --without-program"
            )


class Cases(unittest.TestCase):
    def names(self) -> list[pathlib.Path]:
        return sorted(CASES.glob("*.jmx"))

    def test_plans_and_lines(self):
        for case in self.names():
            with self.subTest(case=case.stem):
                plan, lines, _ = converted(case.read_bytes())
                self.assertEqual(plan, json.loads(case.with_suffix(".json").read_text()))
                want = [line.split("\t") for line in case.with_suffix(".txt").read_text().splitlines()]
                have = [line.split("\t") for line in lines]
                self.assertEqual([line[:3] for line in have], [line[:3] for line in want])
                for line, (*_, words) in zip(have, want):
                    self.assertEqual(len(line), 4)
                    self.assertIn(words, line[3])

    def test_plans_are_accepted(self):
        for case in self.names():
            with self.subTest(case=case.stem):
                self.assertEqual(refusal(converted(case.read_bytes())[2]), "")

    def test_every_type_has_a_case_of_its_name(self):
        found = set()
        for kind in TYPES:
            name = re.sub(r"(?<=[a-z])(?=[A-Z])", "_", kind).lower()
            found |= {kind} & types_of(json.loads((CASES / f"{name}.json").read_text()))
        self.assertEqual(found, TYPES)
        self.assertEqual(len(TYPES), 31)


class Templates(unittest.TestCase):
    """The test plans that JMeter ships: no element of theirs is lost without a line."""

    def test_every_element_is_carried_over_or_reported(self):
        if not TEMPLATES.is_dir():
            print(f"test_jmx2plan: JMeter's own templates are not looked at: there is no {TEMPLATES}", file=sys.stderr)
            self.skipTest("JMeter is not installed")
        for case in sorted(TEMPLATES.glob("*.jmx")):
            with self.subTest(case=case.name):
                plan, lines, text = converted(case.read_bytes(), TEMPLATES)
                self.assertEqual(refusal(text), "")
                there = self.paths(plan)
                said = {tuple(line.split("\t")[0].replace("\\/", "\0").split("/")) for line in lines}
                said = {tuple(name.replace("\0", "/") for name in path) for path in said}
                for path in self.elements(case):
                    gone = any(path[:size] in said and path[:size] not in there for size in range(1, len(path) + 1))
                    whole = any(path == full[-len(path) :] for full in there)
                    self.assertTrue(whole or gone, path)

    def paths(self, plan: dict, above: tuple[str, ...] = ()) -> set[tuple[str, ...]]:
        here = (*above, plan["name"])
        return {here}.union(*(self.paths(child, here) for child in plan.get("children", [])))

    def elements(self, case: pathlib.Path) -> list[tuple[str, ...]]:
        """The path of each element, read without the tool."""
        found = []

        def walk(tree, above):
            for one, below in zip(tree[::2], tree[1::2]):
                found.append((*above, one.get("testname")))
                walk(below, found[-1])

        walk(ElementTree.parse(case).getroot()[0], ())
        return found


BOMB = (
    "<!DOCTYPE x ["
    + '<!ENTITY a0 "lol">'
    + "".join(f'<!ENTITY a{n} "{f"&a{n - 1};" * 10}">' for n in range(1, 10))
    + "]>"
)
BAD = {
    "nothing": (b"", "not XML"),
    "no XML": (b'{"type":"TestPlan"}', "not XML"),
    "not closed": (jmx(group())[:-20], "not XML"),
    "a control character": (jmx(element("GenericController", "&#1;")), "not XML"),
    "no such encoding": (b'<?xml version="1.0" encoding="none"?><jmeterTestPlan/>', "not XML"),
    "bytes of another encoding": (
        HEAD.encode() + b'<TestPlan testname="\xff"/></hashTree></jmeterTestPlan>',
        "not XML",
    ),
    "entities": ((BOMB + "<jmeterTestPlan>&a9;</jmeterTestPlan>").encode(), "document type"),
    "entities in UTF-16": ((BOMB + "<jmeterTestPlan>&a9;</jmeterTestPlan>").encode("utf-16"), "document type"),
    "entities after a comment": (
        ("<!-- > -->" + BOMB + "<jmeterTestPlan>&a9;</jmeterTestPlan>").encode(),
        "document type",
    ),
    "a file as an entity": (
        b'<!DOCTYPE x [<!ENTITY a SYSTEM "file:///etc/hostname">]><jmeterTestPlan>&a;</jmeterTestPlan>',
        "document type",
    ),
    "a document type alone": (
        b'<!DOCTYPE jmeterTestPlan SYSTEM "http://127.0.0.1:1/a.dtd"><jmeterTestPlan/>',
        "document type",
    ),
    "no end of a prolog": (b"<!--" + b">" * 200_000, "begins within"),
    "depth 100,000": (
        ("<jmeterTestPlan>" + "<hashTree>" * 100_000 + "</hashTree>" * 100_000 + "</jmeterTestPlan>").encode(),
        "nests more than",
    ),
    "depth of elements": (jmx("<GenericController/><hashTree>" * 50_000 + "</hashTree>" * 50_000), "nests more than"),
    "another root": (b"<html><body/></html>", "jmeterTestPlan"),
    "no hash tree": (b"<jmeterTestPlan/>", "out of step"),
    "no elements": (b"<jmeterTestPlan><hashTree/></jmeterTestPlan>", "no elements"),
    "a hash tree too many": (jmx(group() + "<hashTree/>"), "out of step"),
    "a hash tree first": (jmx("<hashTree/>" + group()), "out of step"),
    "a hash tree missing": (jmx('<ConstantTimer testname="a"/>' + group()), "out of step"),
    "4,097 elements": (jmx(group(element("GenericController", "c") * 4_095)), "4,097"),
}


class BadInput(unittest.TestCase):
    def refused(self, text: bytes, words: str, python: tuple[str, ...] = ()) -> None:
        begun = resource.getrusage(resource.RUSAGE_CHILDREN).ru_utime
        status, out, err = run("-", text=text, python=python)
        self.assertEqual((status, out), (3, ""), err)
        self.assertRegex(err, r"\Ajmx2plan: -: [^\n]*\n\Z")
        self.assertIn(words, err)
        self.assertLess(resource.getrusage(resource.RUSAGE_CHILDREN).ru_utime - begun, PROCESSOR_SECONDS)

    def test_refused_in_one_line(self):
        for name, (text, words) in BAD.items():
            with self.subTest(name=name):
                self.refused(text, words)

    def test_refused_without_defusedxml_too(self):
        """Python without its packages, which are in no other folder than Debian's."""
        for name, (text, words) in BAD.items():
            with self.subTest(name=name):
                self.refused(text, words, python=("/usr/bin/python3", "-S"))

    def test_both_parsers_read_the_same(self):
        if xml_tree.DefusedXMLParser is None:
            self.skipTest("defusedxml is not installed")
        parser = xml_tree.DefusedXMLParser
        for case in sorted(CASES.glob("*.jmx")):
            first = xml_tree.read_xml(case.read_bytes())
            xml_tree.DefusedXMLParser = None
            try:
                self.assertEqual(xml_tree.read_xml(case.read_bytes()), first)
            finally:
                xml_tree.DefusedXMLParser = parser

    def test_50_megabytes(self):
        comment = element("GenericController", "c", {"TestPlan.comments": "x" * 50_000_000})
        status, out, err = run("-", text=jmx(group(comment)))
        self.assertEqual((status, err), (0, "Plan/Users/c\tTestPlan.comments\tdropped\ta comment\n"))
        self.assertLess(len(out), 1_000)
        body = element("HTTPSamplerProxy", "h", {"HTTPSampler.path": "x" * 50_000_000})
        status, out, err = run("-", text=jmx(group(body)))
        self.assertEqual(status, 0)
        self.assertIn("Plan/Users/h\tHTTPSampler.path\tdisabled\ta text of 50,000,000 bytes", err)
        self.assertLess(len(out), 1_000)

    def test_50_megabytes_of_elements(self):
        sampler = element("HTTPSamplerProxy", "h", {"HTTPSampler.path": "/" + "x" * 5_000})
        self.refused(jmx(group(sampler * 9_800)), "9,802")
        self.refused(jmx(group(element("Arguments", "u", {"a": ""}) * 400_000)), "XML elements")

    def test_longer_than_it_reads(self):
        self.refused(b" " * (command.MOST_BYTES + 1), "67,108,864")

    def test_no_file(self):
        for name in ("/nowhere/plan.jmx", str(CASES), "/nowhere/a\nb"):
            with self.subTest(name=name):
                status, out, err = run(name)
                self.assertEqual((status, out, err.count("\n")), (3, "", 1))

    def test_unknown_classes_are_reported(self):
        below = (
            element("com.example.Sampler", "a")
            + element("com.example.Thing", "b")
            + element("com.example.Thing", "c", below=element("ConstantTimer", "d"))
        )
        plan, lines, _ = converted(jmx(group(below)))
        self.assertEqual(
            [(line.split("\t")[0], line.split("\t")[2]) for line in lines],
            [("Plan/Users/a", "disabled"), ("Plan/Users/b", "dropped"), ("Plan/Users/c", "disabled")],
        )
        self.assertEqual(
            [(child["type"], child["enabled"]) for child in plan["children"][0]["children"]],
            [("Script", False), ("Simple", False)],
        )

    def test_hostile_texts_take_no_long_time(self):
        for text in (
            "${__f(" * 10_000,
            "${__f(${a}" * 6_000,
            "${" * 30_000,
            "${__jexl3(" + "(" * 60_000,
            "${__f(${__f(a)}" * 4_000,
            "!" * 60_000,
        ):
            with self.subTest(text=text[:20]):
                begun = time.process_time()
                _, _, plan = converted(jmx(group(element("IfController", "i", {"IfController.condition": text}))))
                self.assertLess(time.process_time() - begun, PROCESSOR_SECONDS)
                self.assertEqual(refusal(plan), "")

    def test_names_of_control_characters_stay_in_a_line(self):
        _, lines, _ = converted(jmx(group(element("JSR223Sampler", "a&#9;b&#10;c\u2028d" + "e" * 100_000))))
        self.assertEqual(lines[0].count("\t"), 3)
        self.assertEqual(len(lines[0].splitlines()), 1)
        self.assertLess(len(lines[0]), 1_000)
        _, lines, _ = converted(
            jmx(group(element("SwitchController", "s", {"SwitchController.value": "${__" + "f" * 60_000 + "()}"})))
        )
        self.assertLess(len(lines[0]), 2_000)


NASTY = [
    "",
    " ",
    "0",
    "-1",
    "007",
    "1.5",
    "1e3",
    "+-5",
    "9" * 5_000,
    "99999999999",
    "true",
    "TRUE",
    "${a}",
    "${__P(a,7)}",
    "${__UUID()}",
    "${__jexl3(1 +)}",
    "${__jexl3(1 == 1,)}",
    "${",
    "}",
    "\\",
    "a;b",
    ";;",
    "$",
    "$.a",
    "$..a",
    "(",
    "[",
    "a{",
    "*",
    "é\u2028",
    "a\tb\nc",
    "http://a/b",
    "https://a",
    "GET",
    "shareMode.all",
    "zip",
    "idna",
    "../people.csv",
    "people.csv",
    "Assertion.response_code",
    "URL",
    "variable",
    "all",
    "x" * 257,
    "é" * 40_000,
    "${__V(" * 20,
]


class Chance(unittest.TestCase):
    def test_any_values_give_a_plan_that_is_accepted(self):
        """The cases with other texts in their properties: each one comes to a plan, and `check` accepts it."""
        chance = random.Random(7)
        for case in sorted(CASES.glob("*.jmx")) * 6:
            root = ElementTree.parse(case).getroot()
            for prop in root.iter():
                if prop.tag.endswith("Prop") and not len(prop) and chance.random() < 0.25:
                    prop.text = chance.choice(NASTY)
                if "testname" in prop.attrib and chance.random() < 0.05:
                    prop.set("testname", chance.choice(NASTY))
            text = ElementTree.tostring(root)
            with self.subTest(case=case.stem):
                plan, lines, written = converted(text)
                self.assertEqual(refusal(written), "", written)
                self.assertTrue(all(line.count("\t") == 3 and len(line.splitlines()) == 1 for line in lines))


class Limits(unittest.TestCase):
    def accepted(self, text: bytes) -> tuple[dict, list[str]]:
        plan, lines, written = converted(text)
        self.assertEqual(refusal(written), "")
        return plan, lines

    def test_depth(self):
        plan, lines = self.accepted(jmx(group(f'{"<GenericController/><hashTree>" * 35}{"</hashTree>" * 35}')))
        deep = 1
        while plan.get("children"):
            plan, deep = plan["children"][0], deep + 1
        self.assertEqual(deep, 32)
        self.assertRegex(lines[0], r"\t-\tdropped\t.* 4 below it$")

    def test_labels(self):
        rows = "".join(
            element("TransactionController", f"t{n}", {"TransactionController.includeTimers": "false"})
            for n in range(200)
        )
        rows += "".join(element("HTTPSamplerProxy", f"h{n % 58}") for n in range(100)) + element(
            "TransactionController", "t200", {"TransactionController.includeTimers": "false"}
        )
        plan, lines = self.accepted(jmx(group(rows)))
        children = plan["children"][0]["children"]
        self.assertEqual([child["name"] for child in children if not child.get("enabled", True)], ["h56", "h57"])
        self.assertEqual(children[-1]["type"], "Simple")
        self.assertEqual([line.split("\t")[2] for line in lines], ["disabled", "disabled", "changed"])

    def test_locks(self):
        rows = "".join(
            element("CriticalSectionController", "c", {"CriticalSectionController.lockName": f"l{n}"})
            for n in range(258)
        )
        plan, lines = self.accepted(jmx(group(rows)))
        self.assertEqual(
            [child.get("enabled", True) for child in plan["children"][0]["children"]], [True] * 256 + [False] * 2
        )
        self.assertEqual(len(lines), 2)

    def test_groups(self):
        plan, lines = self.accepted(jmx("".join(group(name=f"g{n}", threads=3) for n in range(70))))
        enabled = [child for child in plan["children"] if child.get("enabled", True)]
        self.assertEqual((len(enabled), sum(child.get("props", {}).get("threads", 1) for child in enabled)), (64, 64))
        self.assertEqual(len(lines), 70)

    def test_elements(self):
        self.accepted(jmx(group(element("GenericController", "c") * 4_094)))

    def test_bytes(self):
        text = element("SwitchController", "s", {"SwitchController.value": "x" * 65_536})
        self.accepted(jmx(group(text * 63)))
        with self.assertRaisesRegex(xml_tree.Unreadable, "4,194,304"):
            converted(jmx(group(text * 64)))

    def test_long_texts(self):
        for kind, prop in (
            ("SwitchController", "SwitchController.value"),
            ("CounterConfig", "CounterConfig.name"),
            ("RegexExtractor", "RegexExtractor.regex"),
        ):
            with self.subTest(kind=kind):
                plan, lines = self.accepted(jmx(group(element(kind, "e", {prop: "é" * 32_769}))))
                self.assertIs(plan["children"][0]["children"][0]["enabled"], False)
                self.assertTrue(any(f"Plan/Users/e\t{prop}\tdisabled\t" in line for line in lines), lines)

    def test_texts_that_grow_too_long(self):
        for kind, prop, text in (
            ("SwitchController", "SwitchController.value", "${__property(" + "a" * 40_000 + ")}"),
            ("RegexExtractor", "RegexExtractor.regex", "{" * 15_000 + "a" * 40_000),
        ):
            with self.subTest(kind=kind):
                plan, lines = self.accepted(jmx(group(element(kind, "e", {prop: text, "RegexExtractor.refname": "a"}))))
                self.assertIs(plan["children"][0]["children"][0]["enabled"], False)

    def test_rows_of_a_file(self):
        with tempfile.TemporaryDirectory() as folder:
            folder = pathlib.Path(folder)
            (folder / "a.csv").write_text("".join(f"{n},{'x' * 100}\n" for n in range(20_000)))
            (folder / "odd.csv").write_text('a\rb,"c\nd"\n\n"e ""f""",\n')
            (folder / "empty.csv").write_text("")
            rows = element(
                "CSVDataSet", "a", {"filename": "a.csv", "variableNames": "n,x", "shareMode": "shareMode.thread"}
            )
            rows += element(
                "CSVDataSet",
                "odd",
                {"filename": "odd.csv", "variableNames": "n,x", "shareMode": "shareMode.thread", "quotedData": "true"},
            )
            rows += element(
                "CSVDataSet", "empty", {"filename": "empty.csv", "variableNames": "n", "shareMode": "shareMode.thread"}
            )
            plan, lines, written = converted(jmx(group(rows)), folder)
            self.assertEqual(refusal(written), "")
        text = plan["children"][0]["children"][0]["props"]["text"]
        self.assertTrue(65_400 < len(text) <= 65_536)
        self.assertTrue(text.startswith("0,xxx") and text.endswith("x\n"))
        self.assertIn(f"the first {text.count(chr(10))} rows", lines[0])
        self.assertTrue(plan["children"][0]["children"][1]["props"]["text"].endswith('\n"e ""f""",\n'))
        self.assertIs(plan["children"][0]["children"][2]["enabled"], False)


class Words(unittest.TestCase):
    """The command's words and statuses."""

    def test_wrong_words(self):
        for words in (
            (),
            ("a.jmx", "b.jmx"),
            ("--nothing", "a.jmx"),
            ("--stric", "a.jmx"),
            ("a.jmx", "--data-dir"),
            ("a.jmx", "--data-dir", "/nowhere"),
        ):
            with self.subTest(words=words):
                status, out, err = run(*words)
                self.assertEqual((status, out), (2, ""))
                self.assertTrue(err.startswith("usage: jmx2plan "))

    def test_strict(self):
        comment = element("GenericController", "c", {"TestPlan.comments": "a"}) + element(
            "ResultCollector", "r", {"filename": ""}
        )
        self.assertEqual(run("-", "--strict", text=jmx(group(comment)))[0], 0)
        self.assertEqual(run("-", text=jmx(group(comment)))[2].count("\n"), 2)
        lossy = jmx(group(element("ResultCollector", "r", {"filename": "a.jtl"})))
        status, out, _ = run("-", "--strict", text=lossy)
        self.assertEqual((status, json.loads(out)["name"]), (1, "Plan"))
        self.assertEqual(run("-", text=lossy)[0], 0)

    def test_data_dir(self):
        with tempfile.TemporaryDirectory() as folder:
            folder = pathlib.Path(folder)
            (folder / "sub").mkdir()
            for place, row in (
                (folder / "rows.csv", "top"),
                (folder / "sub/rows.csv", "below"),
                (folder / "other.csv", "other"),
            ):
                place.write_text(row + "\n")
            plan = folder / "plan.jmx"
            plan.write_bytes(
                jmx(
                    group(
                        "".join(
                            element("CSVDataSet", "d", {"filename": name, "variableNames": "a"})
                            for name in ("rows.csv", "sub/rows.csv", "..\\other.csv")
                        )
                    )
                )
            )
            rows = lambda *words: [
                child["props"]["text"] for child in json.loads(run(str(plan), *words)[1])["children"][0]["children"]
            ]
            self.assertEqual(rows(), ["top\n", "below\n", "other\n"])
            self.assertEqual(rows("--data-dir", str(folder / "sub")), ["below\n", "below\n", ""])

    def check(self, program: str | None) -> tuple[int, str, str]:
        """The tool in a tree of its own, with a program that is a script, or none."""
        with tempfile.TemporaryDirectory() as top:
            top = pathlib.Path(top)
            shutil.copytree(TOOLS / "jmx2plan_lib", top / "tools/jmx2plan_lib")
            shutil.copy(TOOL, top / "tools/jmx2plan")
            if program is not None:
                place = top / "crates/jm_program/out/jm_program"
                place.parent.mkdir(parents=True)
                place.write_text("#!/bin/sh\n" + program)
                place.chmod(0o755)
            done = subprocess.run(
                [top / "tools/jmx2plan", "--check", "-"],
                input=jmx(group()),
                capture_output=True,
                timeout=SECONDS,
                check=False,
            )
        return done.returncode, done.stdout.decode(), done.stderr.decode()

    def test_check(self):
        status, out, err = self.check('test "$1" = check && grep -q TestPlan')
        self.assertEqual((status, json.loads(out)["type"], err), (0, "TestPlan", "jmx2plan: accepted by jm check\n"))
        status, out, err = self.check("echo refused 7 BadProp /x >&2; exit 3")
        self.assertEqual((status, out), (3, ""))
        self.assertRegex(err, r"\Ajmx2plan: -: [^\n]* not accepted by jm check: refused 7 BadProp /x\n\Z")
        status, out, err = self.check(None)
        self.assertEqual((status, json.loads(out)["type"]), (0, "TestPlan"))
        self.assertRegex(err, r"\Ajmx2plan: not checked: there is no [^\n]*jm_program\n\Z")

    def test_a_full_disk(self):
        with open("/dev/full", "wb") as full:
            done = subprocess.run(
                [TOOL, "-"], input=jmx(group()), stdout=full, stderr=subprocess.PIPE, timeout=SECONDS, check=False
            )
        self.assertEqual((done.returncode, done.stderr.count(b"\n")), (3, 1), done.stderr)


def rows_of(page: str, kind: str) -> list[list[str]]:
    """The rows of a table that a page marks with <!-- runs: KIND -->; check_docs holds them against the program."""
    text = (TOP / "docs/use" / page).read_text().split(f"<!-- runs: {kind} -->\n")[1].split("\n\n")[0]
    return [
        [cell.strip().replace("\\|", "|") for cell in re.split(r"(?<!\\)\|", line.strip("|"))]
        for line in text.splitlines()[2:]
    ]


PATTERN_PARTS = r"""a b - ] [ ^ $ . * + ? { } {2} {1,3} ( ) (?: (?i) | \d \w \s \b \/ \- \] \. && ~~ -- [a-z] [^"] [:alpha:]
    \x41 \t < # é \A \z (?-i: , 1 /"""


class Texts(unittest.TestCase):
    """What is read of templates, conditions, paths and patterns."""

    def test_templates_of_the_page(self):
        for row in rows_of("TEMPLATES.md", "templates"):
            text = row[0].strip("`")
            self.assertEqual(spell(read_template(text)), text)
        self.assertEqual([type(piece).__name__ for piece in read_template("${${x}}")], ["str", "Var", "str"])
        seventeen = "${__P(" * 17 + "x" + ")}" * 17
        self.assertEqual([type(piece).__name__ for piece in read_template(seventeen)], ["str", "Call", "str"])
        call = read_template("${__P(a(b,c)d)}")[0]
        self.assertEqual(call.args, [["a(b"], ["c)d"]])
        self.assertEqual(read_template("${__P(a)b)}"), ["${__P(a)b)}"])
        self.assertEqual(read_template("${__P(a\\\\,b)}")[0].args, [["a\\,b"]])

    def test_conditions_of_the_page(self):
        for condition, value in rows_of("CONDITIONS.md", "conditions"):
            with self.subTest(condition=condition):
                fault = condition_fault([condition.strip("`")])
                self.assertEqual(fault is None, bool(value) and not value.startswith("refused"), fault)

    def test_conditions_with_references(self):
        good = ["${a}", '"${a}" == "b"', "-${a} < 5", "${a}${b} != 1${c}", "!(${a}) && true", "\"${a}${b} x\" != 'y'"]
        bad = [
            '"${a}" == 1',
            "${a} eq 1",
            '"${a}',
            "${a} < ",
            "(${a}",
            "${a} == 1 == 2",
            "${a} + 1",
            '"x" && ${a}',
            '!"${a}"',
        ]
        for text in good + bad:
            with self.subTest(text=text):
                self.assertEqual(condition_fault(read_template(text)) is None, text in good)

    def test_paths_of_the_page(self):
        for path, value in rows_of("JSON_PATHS.md", "paths"):
            text = path.strip("`")
            with self.subTest(path=text):
                self.assertEqual(bool(carry_path(text)[1]), value.startswith("refused"))

    def test_patterns_that_mean_the_same(self):
        for text, want in (
            (r"a\/b", "a/b"),
            ("{a}", r"\{a}"),
            ("[^[]", r"[^\[]"),
            ("[a&&b]", r"[a\&\&b]"),
            ("[a&b]", "[a&b]"),
            ("a{2}", "a{2}"),
            ("a{,2}", r"a\{,2}"),
            (r"\<b\>", "<b>"),
            ("[]a]", r"[\]a]"),
            (r"\w+?\.", r"\w+?\."),
            ("(?i)a", "(?i)a"),
            ("[-a]", "[-a]"),
        ):
            with self.subTest(text=text):
                self.assertEqual((carry_pattern(text).text, carry_pattern(text).fault), (want, ""))

    def test_patterns_that_are_not_known(self):
        for text in (
            "(?=a)",
            "(?!a)",
            "(?<=a)",
            "(?<!a)",
            r"(a)\1",
            "a++",
            "a*+",
            "(?>a)",
            r"\Qa\E",
            r"a\Z",
            r"\G",
            "(?x)a",
            "(",
            ")",
            "[a",
            "*",
            "a{3,1}",
            "a**",
            r"[a-\d]",
            "[z-a]",
            "\\",
            "(?P<n>a)",
            "(?#a)",
            r"\cA",
            r"\01",
            "${a}",
            r"((\w{99}){99}){99}",
        ):
            with self.subTest(text=text):
                self.assertNotEqual(carry_pattern(text).fault, "")

    def test_patterns_by_chance_are_accepted(self):
        """What is carried over is in the engine's grammar."""
        chance = random.Random(35)
        parts = PATTERN_PARTS.split() + [" "]
        extractors = []
        while len(extractors) < 3_000:
            text = "".join(chance.choice(parts) for _ in range(chance.randint(1, 9)))
            pattern = carry_pattern(text)
            if not pattern.fault:
                extractors.append({"type": "RegexExtractor", "props": {"ref": "x", "pattern": pattern.text}})
        plan = {"type": "TestPlan", "children": [{"type": "ThreadGroup"}, *extractors]}
        said = refusal(json.dumps(plan))
        at = re.search(r"/children/(\d+)/props", said)
        self.assertEqual(said, "", plan["children"][int(at[1])] if at else "")

    def test_other_functions_of_the_same_value(self):
        for name in ("__jexl", "__jexl2", "__groovy", "__javaScript"):
            self.assertEqual(carry("${" + name + '("${a}" == "b",)}').text, '${__jexl3("${a}" == "b")}')
            self.assertEqual(len(carry("${" + name + '(vars.get("a"))}').faults), 1)
        self.assertEqual(carry("${__property(a)}${__property(a,,b)}").text, "${__P(a,a)}${__P(a,b)}")
        self.assertEqual(len(carry("${__property(a,b,c)}").faults), 1)

    def test_functions_that_are_not_known_are_said_with_their_place(self):
        self.assertRegex(carry("ab${__UUID()}").faults[0], "__UUID at 2 ")
        self.assertRegex(carry("${__V(${__base64Encode(x)})}").faults[0], "__base64Encode at 6 ")
        for text in (
            "${__time()}",
            "${__threadNum}",
            "${__P(a)}${__P(a,b)}",
            "${__V(a,b)}",
            "${__intSum(1,${b},3)}",
            "${__isVarDefined(a)}",
            "${__jexl3(1 < 2)}",
        ):
            self.assertEqual((carry(text).faults, carry(text).text), ([], text))
        for text in (
            "${__V}",
            "${__V(a,b,c)}",
            "${__Random(1)}",
            "${__Random(2,1)}",
            "${__Random(a,2)}",
            "${__intSum(1)}",
            "${__intSum(3000000000,1)}",
            "${__counter}",
        ):
            self.assertEqual(len(carry(text).faults), 1, text)


def main() -> None:
    global PROGRAM
    words = sys.argv[1:]
    if words[:1] == ["--program"]:
        PROGRAM, words = pathlib.Path(words[1]).resolve(), words[2:]
    elif words[:1] == ["--without-program"]:
        PROGRAM, words = None, words[1:]
    unittest.main(argv=[sys.argv[0], *words])


if __name__ == "__main__":
    main()
