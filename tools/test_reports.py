#!/usr/bin/python3
"""Tests of the tools that read the files of a run: verdict, recount, watch and report, and of setup.

Usage: tools/test_reports.py [--program PATH] [UNITTEST WORDS]    (PATH is the built program, crates/jm_program/out/jm_program
where it is not given; tools/test_page.py tests the page)
"""
import os
import pathlib
import pty
import re
import resource
import select
import subprocess
import sys
import tempfile
import time
import unittest
from unittest.mock import patch

from run_files.records import FileFault, Records, records_of
from run_files.reports import IntervalLine, ReportBlock, Reports, RowLine, TotalLine
from run_files.results import HEADER, Results, is_result
from run_tests.made import TOOLS, TRICKY, chance, example, files_of, line, numbers, tool, write

PROGRAM = TOOLS.parent / "crates/jm_program/out/jm_program"
SECONDS, BYTES = 5, 10**9  # for a million lines


class InFolder(unittest.TestCase):
    """A test with a folder of its own and the files of the example in it."""

    def setUp(self):
        folder = tempfile.TemporaryDirectory()
        self.addCleanup(folder.cleanup)
        self.folder = folder.name
        self.run_of_example = example()
        self.results, self.reports = files_of(self.folder, self.run_of_example)

    def written(self, text, name="other.csv"):
        """The path of a file that holds a text."""
        return write(self.folder, name, text)


class Verdict(InFolder):
    """The example has 11 samples, of which 2 failed, a sum of 506 ms and a greatest time of 95; `buy` 4, 2, 350 and 95."""

    BOTH_WAYS = [  # a threshold, the least or greatest number with which it holds, and the next with which it doesn't
        ((), "--max-errors", 2, 1), ((), "--max-error-permille", 182, 181), ((), "--max-greatest", 95, 94),
        ((), "--max-mean", 46, 45), ((), "--min-samples", 11, 12),
        (("--label", "buy"), "--max-errors", 2, 1), (("--label", "buy"), "--max-error-permille", 500, 499),
        (("--label", "buy"), "--max-greatest", 95, 94), (("--label", "buy"), "--max-mean", 88, 87),
        (("--label", "buy"), "--min-samples", 4, 5),
        (("--label", "read"), "--max-errors", 0, None), (("--label", "read"), "--max-greatest", 12, 11),
        (("--label", "read"), "--max-mean", 12, 11), (("--label", "open"), "--min-samples", 0, 5),
    ]

    def test_each_threshold_both_ways(self):
        for label, option, holds, fails in self.BOTH_WAYS:
            with self.subTest(label=label, option=option):
                self.assertEqual(tool("verdict", self.reports, option, str(holds), *label), (0, "", ""))
                if fails is not None:
                    status, out, err = tool("verdict", self.reports, *label, option, str(fails))
                    self.assertEqual((status, err, out.count("\n")), (1, "", 1))
                    self.assertTrue(out.startswith(f"{option}: "), out)

    def test_a_line_for_each_threshold_that_fails(self):
        status, out, err = tool("verdict", self.reports, "--max-errors=1", "--max-greatest=95", "--max-mean=1", "--min-samples=12")
        self.assertEqual((status, err), (1, ""))
        self.assertEqual([text.split(":")[0] for text in out.splitlines()], ["--max-errors", "--max-mean", "--min-samples"])

    def test_no_threshold(self):
        self.assertEqual(tool("verdict", self.reports), (0, "", ""))

    def test_run_without_samples(self):
        path = self.written("interval,0,0,0\nall,0,0,0,0\nend,TG 1-1,Completed\n")
        self.assertEqual(tool("verdict", path, "--max-errors=0", "--max-error-permille=0", "--max-greatest=0", "--max-mean=0")[0], 0)
        self.assertEqual(tool("verdict", path, "--min-samples=1")[0], 1)

    def test_label_without_a_sample_fails_unless_that_is_allowed(self):
        status, out, _ = tool("verdict", self.reports, "--label", "bye", "--max-errors", "9")
        self.assertEqual((status, out.count("\n")), (1, 1))
        self.assertIn("bye", out)
        self.assertEqual(tool("verdict", self.reports, "--label", "bye", "--min-samples", "0")[0], 0)

    def test_tricky_labels(self):
        run = chance(1, 300, 9, TRICKY)
        path = self.written(run.reports())
        for label in TRICKY[:-1]:  # a word of a command line has no NUL
            _, _, _, _, _, greatest = numbers(run.of(label))
            for most, status in ((greatest, 0), (greatest - 1, 1)):
                with self.subTest(label=label, most=most):
                    given = os.fsencode(f"--label={label}")
                    self.assertEqual(tool("verdict", path, given, f"--max-greatest={most}")[0], status)

    def test_wrong_words(self):
        numbers_and_others = [[f"--max-errors={text}"] for text in ("", "-1", "+1", "1.5", "1_0", " 1", "1" * 21, "²", "one")]
        words = [["--max-errors"], ["--max-errors=1", "--max-errors=2"], ["--max-gr=1"], ["--max-p90=1"], ["--label"], ["other"]]
        for given in [[], *([self.reports, *it] for it in words + numbers_and_others)]:
            with self.subTest(given=given):
                status, out, err = tool("verdict", *given)
                self.assertEqual((status, out), (2, ""))
                self.assertIn("usage: verdict", err)

    def test_no_whole_report(self):
        whole = self.run_of_example.reports()
        lines = whole.splitlines(keepends=True)
        wrong = {
            "empty": "", "results": self.run_of_example.results(), "refused": "refused 7 BadProp /children/0/props/rampms\n",
            "usage": "usage: jm check|make|run|solo|weave [--option value]\n", "no line `all`": "".join(lines[:7]),
            "no end line": "".join(lines[:8]), "last line feed cut off": whole[:-1], "two runs": whole * 2,
            "a line of another kind": whole + "x\n", "an empty line": "\n" + whole, "bytes": "\0\udcff\n" * 9,
            "a long line": "interval," * 200_000, "no number": whole.replace("all,11", "all,x"),
            "an empty number": whole.replace("all,11", "all,"), "a number with a sign": whole.replace("all,11", "all,+11"),
            "a field more": whole.replace("all,11", "all,1,11"), "`all` is not the sum": whole.replace("all,11", "all,12"),
            "a label twice": whole.replace("total,read", "total,open"),
            "a label twice in an interval": whole.replace("row,0,read", "row,0,open"),
            "a row after the intervals": whole.replace("all,", "row,0,bye,1,0,1,1,1,1\nall,"),
            "an interval left out": whole.replace("interval,0", "interval,1").replace("row,0", "row,1"),
            "an interval after the ends": whole + "interval,1,0,0\n" + self.run_of_example.summary(),
            "a row of another interval": whole.replace("row,0,buy", "row,1,buy"),
            "a quote left open": whole.replace("row,0,buy", 'row,0,"buy'),
            "a text after a quote": whole.replace("row,0,buy", 'row,0,"b"uy'),
        }
        for name, text in wrong.items():
            with self.subTest(name):
                status, out, err = tool("verdict", self.written(text), "--max-errors=0")
                self.assertEqual((status, out, err.count("\n")), (2, "", 1), err)
                self.assertTrue(err.startswith(f"verdict: {self.folder}/other.csv:"), err)

    def test_no_file(self):
        for path in (self.folder, self.folder + "/nothing", "/dev/zero"):
            with self.subTest(path):
                status, out, err = tool("verdict", path)
                self.assertEqual((status, out), (2, ""))
                self.assertIn(path, err)

    def test_lines_of_the_script_jm_come_first(self):
        line_of_script = "jm: proving and building the program with rt; from nothing this takes long\n"
        path = self.written(line_of_script + self.run_of_example.reports())
        self.assertEqual(tool("verdict", path, "--max-errors=2"), (0, "", ""))

    def test_solo(self):
        path = self.written(self.run_of_example.summary())
        self.assertEqual(tool("verdict", path, "--max-errors=2")[0], 0)
        self.assertEqual(tool("verdict", path, "--max-errors=1")[0], 1)


class Recount(InFolder):
    """Right pairs of files, and each kind of wrong one."""

    def assert_differs(self, results, reports, *texts):
        """The two texts differ, and what is said of it has these words."""
        status, out, err = tool("recount", self.written(results, "a.csv"), self.written(reports, "b.csv"))
        self.assertEqual((status, err, out.count("\n")), (1, "", 1), (out, err))
        for text in texts:
            self.assertIn(text, out)

    def test_right_pairs(self):
        runs = [self.run_of_example, chance(2, 400, 20, TRICKY), chance(3, 0, 4, ["A"]), chance(4, 50, 1, ["A", "B"])]
        for run in runs:
            status, out, err = tool("recount", *files_of(self.folder, run))
            self.assertEqual((status, err), (0, ""), out)
            self.assertIn(f"{len(run.samples)} result line", out)

    def test_right_pair_of_solo(self):
        path = self.written(self.run_of_example.summary())
        self.assertEqual(tool("recount", self.results, path)[0], 0)
        self.assert_differs(self.run_of_example.results().replace(",6,0\n", ",6,1\n"), self.run_of_example.summary(), "interval 1")

    def test_each_number_of_reports(self):
        lines = self.run_of_example.reports().splitlines(keepends=True)
        six = ["COUNT", "ERRORS", "TOTAL", "BYTES", "LEAST", "GREATEST"]
        names = {"interval": ["NUMBER", *six[:2]], "row": ["NUMBER", "label", *six], "total": ["label", *six], "all": six[:4]}
        for at, text in enumerate(lines):
            kind, *fields = text.strip().split(",")
            for place, name in enumerate(names.get(kind, [])):
                if fields[place].isdigit():
                    changed = fields[:place] + [str(int(fields[place]) + 1)] + fields[place + 1:]
                    with self.subTest(line=text, name=name):
                        words = [name] if name.isupper() and name != "NUMBER" else []
                        reports = "".join(lines[:at] + [line(kind, *changed)] + lines[at + 1:])
                        self.assert_differs(self.run_of_example.results(), reports, f"b.csv:{at + 1}: ", *words)

    def test_each_line_left_out(self):
        lines = self.run_of_example.reports().splitlines(keepends=True)
        for at, text in enumerate(lines):
            with self.subTest(report=text):
                self.assert_differs(self.run_of_example.results(), "".join(lines[:at] + lines[at + 1:]), "b.csv:")
        lines = self.run_of_example.results().splitlines(keepends=True)
        for at, text in enumerate(lines[1:], 1):
            with self.subTest(result=text):
                results = "".join(lines[:at] + lines[at + 1:])
                self.assert_differs(results, self.run_of_example.reports(), "b.csv:1: interval 0: COUNT is 11")

    def test_each_line_twice(self):
        lines = self.run_of_example.reports().splitlines(keepends=True)
        for at, text in enumerate(lines):
            with self.subTest(text):
                self.assert_differs(self.run_of_example.results(), "".join(lines[:at + 1] + lines[at:]), f"b.csv:{at + 2}: ")

    def test_first_difference_of_a_longer_run(self):
        run = chance(5, 200, 30, ["A", "B", "C"])
        at = next(at for at in range(len(run.samples)) if run.samples[at].interval == 12)
        moved, label = chance(5, 200, 30, ["A", "B", "C"]), chance(5, 200, 30, ["A", "B", "C"])
        moved.samples[at].interval = 13
        self.assert_differs(moved.results(), run.reports(), "interval 12: COUNT")
        label.samples[at].label = {"A": "B", "B": "C", "C": "A"}[label.samples[at].label]
        self.assert_differs(label.results(), run.reports(), "interval 12, label ")
        self.assert_differs(run.results(), run.report(0) + run.summary(), "interval 3: the result lines have")
        self.assert_differs(run.results(), run.report(0) + run.report(2) + run.summary(), "interval 2 stands where interval 1")

    def test_rows_and_totals_without_samples(self):
        results, reports = self.run_of_example.results(), self.run_of_example.reports()
        nothing = "bye,0,0,0,0,0,0\n"
        self.assert_differs(results, reports.replace("total,open", f"row,0,{nothing}total,open"), "interval 0, label bye")
        self.assert_differs(results, reports.replace("all,", f"total,{nothing}all,"), "label bye")

    def test_ends(self):
        results, reports = self.run_of_example.results(), self.run_of_example.reports()
        self.assert_differs(results, reports.replace("end,Readers 2-1", "end,Readers 2-2"), "Readers 2-1")
        self.assertEqual(tool("recount", self.results, self.written(reports + "end,Idle 3-1,Completed\n"))[0], 0)

    def test_cut_off(self):
        results, reports = self.run_of_example.results(), self.run_of_example.reports()
        self.assert_differs(results[:-1], reports, "a.csv: the last line is cut off")
        self.assert_differs("", reports, "a.csv: there is not even a header")
        idle = chance(3, 0, 2, ["A"])  # a run without samples, in which no thread's end is missed
        for results, reports in ((results, reports), (idle.results(), idle.reports().rsplit("end", 3)[0])):
            for at in range(0, len(reports) - 1, 7):
                self.assert_differs(results, reports[:at], "b.csv:")

    def test_files_of_another_kind(self):
        results, reports = self.run_of_example.results(), self.run_of_example.reports()
        wrong = {
            "swapped": (reports, results), "another header": (results.replace("elapsed", "Elapsed"), reports),
            "no number": (results.replace("30,80", "30,8x"), reports), "no truth": (results.replace("true", "True"), reports),
            "a field less": (results.replace(",5,0\n", ",5\n"), reports), "an empty line": (results + "\n", reports),
            "a stamp of letters": (results.replace("\n0,30", "\nx,30"), reports),
            "an empty code": (results.replace(",503,", ",,"), reports), "a sign": (results.replace("30,80", "30,-80"), reports),
            "bytes": ("\0\udcff\n", reports), "reports of another kind": (results, "refused 7 BadProp /\n"),
        }
        for name, texts in wrong.items():
            with self.subTest(name):
                status, out, err = tool("recount", self.written(texts[0], "a.csv"), self.written(texts[1], "b.csv"))
                self.assertEqual((status, out, err.count("\n")), (2, "", 1), (out, err))
        self.assertEqual(tool("recount", self.results)[0], 2)
        self.assertEqual(tool("recount", self.results, self.folder + "/nothing")[0], 2)


class AtOnce(InFolder):
    """Lines that are read many at a time give what they give one by one, also in files that are wrong."""

    OTHERS = ("", ",", "\n", '"', ',"', "x", ",+", ",0", ",²", ",\r", ",x\n", "\ninterval,", "\nrow,1,", '",\n"')

    def changed(self, text):
        """A text, its beginnings, with a line twice, with a label in place of another, and with each of OTHERS in the place of
        some of its commas and line feeds.
        """
        yield text
        yield from (text[:at] for at in range(0, len(text), 61))
        for found in list(re.finditer("\n(.+)", text))[::5]:
            yield text[:found.end()] + found[0] + text[found.end():]
        yield from (text[:found.start()] + ",A," + text[found.end():] for found in re.finditer(",(B|7),", text))
        for at in [at for at, char in enumerate(text) if char in ",\n"][::11]:
            yield from (text[:at] + other + text[at + 1:] for other in self.OTHERS)

    def reports_read(self, text, size, at_once):
        """What is read of reports that come in pieces of a size, up to the fault where there is one."""
        reports = Reports(Records("reports", (text[at:at + size] for at in range(0, len(text), size))))
        found = []
        try:
            for line in reports.in_blocks() if at_once else reports:
                if isinstance(line, RowLine):
                    found.append((line.number, line.label, *line.numbers))
                elif isinstance(line, ReportBlock):
                    numbers = [number for number, count in enumerate(line.counts, line.first) for _ in range(count)]
                    found += [(number, row[1], *map(int, row[2:])) for number, row in zip(numbers, line.rows, strict=True)]
                elif isinstance(line, TotalLine):
                    found.append((line.label, line.sums.numbers))
                elif not isinstance(line, IntervalLine):
                    found.append(line)
        except FileFault as fault:
            found.append(str(fault))
        return found, reports.line, reports.cut, reports.whole

    def test_reports(self):
        for run in (chance(7, 60, 9, ["A", "B", "7"]), chance(8, 60, 9, ["A", 'say "hi", all', "two\ninterval,1"])):
            for text in self.changed(run.reports()):
                expected = self.reports_read(text, 10**6, False)
                for size, characters in ((10**6, 10**6), (10**6, 100), (150, 1), (7, 1)):
                    with patch("run_files.reports.CHARACTERS", characters):
                        self.assertEqual(self.reports_read(text, size, True), expected, text)

    def results_read(self, path, at_once):
        """The result lines of a file, or the place of the first fault."""
        try:
            if at_once:
                return [block.row(at) for block in Results(path) for at in range(len(block.labels))]
            records, file = records_of(path)
            with file:
                rows = []
                for row in records:
                    if not (is_result(row) if rows else row == HEADER):
                        raise records.fault("")
                    rows.append(row)
                return rows[1:]
        except FileFault as fault:
            return str(fault).split(" ")[0]

    def test_results(self):
        for run in (chance(9, 40, 9, ["A", "B"]), chance(10, 40, 9, ["A", 'say "hi", all', "two\nlines"])):
            for text in self.changed(run.results()):
                path = self.written(text)
                expected = self.results_read(path, False)
                for characters, rows in ((1, 1), (300, 7), (10**6, 10**6)):
                    with patch("run_files.results.CHARACTERS", characters), patch("run_files.results.ROWS", rows):
                        self.assertEqual(self.results_read(path, True), expected, text)


class Watch(InFolder):
    """The live table, under a pseudo terminal of 100 columns."""

    def started(self, path):
        """A watch on a terminal, and the terminal's other side."""
        ours, theirs = pty.openpty()
        self.given = b""
        self.addCleanup(os.close, ours)
        environment = {**os.environ, "TERM": "xterm", "COLUMNS": "100", "LINES": "30"}
        process = subprocess.Popen([TOOLS / "watch", "-o", path], stdin=subprocess.PIPE, stdout=theirs, stderr=theirs, env=environment)
        os.close(theirs)
        self.addCleanup(process.wait)
        self.addCleanup(process.kill)
        self.addCleanup(process.stdin.close)
        return process, ours

    def frame(self, ours, until, seconds=60):
        """The last frame that a terminal was given, as a text, once it has what a regular expression asks for."""
        ends = time.monotonic() + seconds
        while time.monotonic() < ends:
            text = re.sub(r"\x1b\[[0-9;?]*[A-Za-z]", "", self.given.decode(errors="replace"))
            frame = re.split(r"(?=\d+ intervals?, )", text)[-1]
            if re.search(until, frame, re.DOTALL):
                return frame
            if select.select([ours], [], [], 0.1)[0]:
                try:
                    self.given += os.read(ours, 65_536)
                except OSError:  # the other side is closed
                    break
        self.fail(f"the terminal was not given {until!r}: {self.given[-2000:]!r}")

    def rows(self, frame):
        """The cells of each label's row."""
        return {text.split()[0]: text.split()[1:] for text in frame.splitlines() if len(text.split()) > 4 and "failed" not in text}

    def test_table_goes_on_with_the_reports(self):
        path = self.folder + "/out.csv"
        watch, ours = self.started(path)
        first = b"interval,0,11,2\nrow,0,open,4,0,120,20,30,30\nrow,0,buy,4,2,350,0,80,95\nrow,0,read,3,0,36,18,12,12\n"
        second = b"interval,1,3,1\nrow,1,open,2,0,81,10,40,41\nrow,1,read,1,1,1000,6,1000,1000\n"
        watch.stdin.write(first)
        watch.stdin.flush()
        frame = self.frame(ours, r"read .*12\.0 +12 .*12\.0 +12\b")
        self.assertIn("1 interval, 11 samples, 2 failed (18.2 %)", frame)
        self.assertEqual(self.rows(frame), {"open": ["4", "0", "30.0", "30"] * 2, "buy": ["4", "2", "87.5", "95"] * 2,
                                            "read": ["3", "0", "12.0", "12"] * 2})
        watch.stdin.write(second[:40])
        watch.stdin.flush()
        time.sleep(0.3)
        watch.stdin.write(second[40:])
        watch.stdin.flush()
        frame = self.frame(ours, r"2 intervals.*259\.0 +1,000\b")
        self.assertIn("2 intervals, 14 samples, 3 failed (21.4 %)", frame)
        # (120 + 81) / 6 = 33.5 and (36 + 1000) / 4 = 259.0
        self.assertEqual(self.rows(frame), {"open": ["2", "0", "40.5", "41", "6", "0", "33.5", "41"],
                                            "buy": ["0", "0", "4", "2", "87.5", "95"],
                                            "read": ["1", "1", "1,000.0", "1,000", "4", "1", "259.0", "1,000"]})
        tail = (b"total,open,6,0,201,30,30,41\ntotal,buy,4,2,350,0,80,95\ntotal,read,4,1,1036,24,12,1000\nall,14,3,1587,54\n"
                b"end,A 1-1,Completed\n")
        watch.stdin.write(tail)
        watch.stdin.close()
        self.frame(ours, "the run is over")
        self.assertEqual(watch.wait(60), 0)
        self.assertEqual(pathlib.Path(path).read_bytes(), first + second + tail)

    def test_run_that_is_broken_off(self):
        path = self.folder + "/out.csv"
        watch, ours = self.started(path)
        text = self.run_of_example.reports()[:150].encode()
        watch.stdin.write(text)
        watch.stdin.close()
        self.frame(ours, "broken off")
        self.assertEqual(watch.wait(60), 0)
        self.assertEqual(pathlib.Path(path).read_bytes(), text)

    def test_what_is_no_report_is_passed_on(self):
        path = self.folder + "/out.csv"
        twice = self.run_of_example.reports().encode() * 2
        for text in (b"refused 7 BadProp /children/0/props/rampms\n", b"\0\xff" * 40_000 + b"\n" * 9, twice):
            watch, ours = self.started(path)
            watch.stdin.write(text)
            watch.stdin.close()
            self.frame(ours, "no longer shown")
            self.assertEqual(watch.wait(60), 0)
            self.assertEqual(pathlib.Path(path).read_bytes(), text)

    def test_tricky_labels(self):
        run = chance(6, 300, 6, TRICKY)
        watch, ours = self.started(self.folder + "/out.csv")
        watch.stdin.write(run.reports().encode(errors="surrogateescape"))
        watch.stdin.close()
        frame = self.frame(ours, r"the run is over.*été")
        for label in ("<script>alert(1)", "two\\nlines", "caf\\xe9 \\xff", "\\u202eabc\\x1b[31m", "return\\rhere"):
            self.assertIn(label, frame)
        self.assertEqual(watch.wait(60), 0)

    def test_solo(self):
        watch, ours = self.started(self.folder + "/out.csv")
        watch.stdin.write(self.run_of_example.summary().encode())
        watch.stdin.close()
        frame = self.frame(ours, r"the run is over.*12\.0 +12\b")
        self.assertEqual(self.rows(frame)["buy"], ["0", "0", "4", "2", "87.5", "95"])
        self.assertEqual(watch.wait(60), 0)

    def test_terminal_that_takes_nothing_does_not_slow_the_run(self):
        path = self.folder + "/out.csv"
        watch, ours = self.started(path)
        text = "".join(line("interval", at, 1, 0) + line("row", at, f"label {at}", 1, 0, 5, 0, 5, 5) for at in range(60_000)).encode()
        began = time.monotonic()
        watch.stdin.write(text)
        watch.stdin.close()
        self.assertLess(time.monotonic() - began, 10)
        ends = time.monotonic() + 60
        while os.path.getsize(path) < len(text) and time.monotonic() < ends:
            time.sleep(0.05)
        self.assertEqual(pathlib.Path(path).read_bytes(), text)
        self.assertIsNone(watch.poll())  # it still waits for the terminal

    def test_file_that_takes_nothing(self):
        watch, ours = self.started("/dev/full")
        watch.stdin.write(self.run_of_example.reports().encode())
        watch.stdin.close()
        self.frame(ours, "the run is over")
        self.frame(ours, "watch: /dev/full: No space left on device")
        self.assertEqual(watch.wait(60), 1)

    def test_no_terminal(self):
        path = self.folder + "/out.csv"
        with open(self.reports, "rb") as reports:
            done = subprocess.run([TOOLS / "watch", "-o", path], stdin=reports, capture_output=True, timeout=20)
        self.assertEqual((done.returncode, done.stderr), (0, b""))
        self.assertIn("1 interval, 11 samples, 2 failed (18.2 %)", done.stdout.decode())
        self.assertNotIn("\x1b", done.stdout.decode())

    def test_wrong_words(self):
        for words in ((), ("-o",), ("-o", "a", "b"), ("-o", self.folder)):
            self.assertEqual(tool("watch", *words)[0], 2)


class Million(InFolder):
    """A million lines: seconds of processor time, and bytes."""

    def assert_cheap(self, name, *words):
        """The best of three calls, since a machine with other work counts more time."""
        seconds = []
        while not seconds or min(seconds) > SECONDS and len(seconds) < 3:
            before = resource.getrusage(resource.RUSAGE_CHILDREN)
            status, out, err = tool(name, *words)
            after = resource.getrusage(resource.RUSAGE_CHILDREN)
            self.assertEqual((status, err), (0, ""), out)
            seconds.append(after.ru_utime + after.ru_stime - before.ru_utime - before.ru_stime)
        print(f"{name} over a million lines: {min(seconds):.1f} s, at most {after.ru_maxrss // 1024} MB so far", file=sys.stderr)
        self.assertLessEqual(min(seconds), SECONDS, name)
        self.assertLessEqual(after.ru_maxrss * 1024, BYTES, name)

    def test_result_lines(self):
        count, intervals, labels = 10**6, 500, 8
        with open(self.results, "w") as file:
            file.write(self.run_of_example.results().splitlines()[0] + "\n")
            for at in range(count):
                file.write(f"{at},{at % 8 + 1},page {at % 8},200,OK,Users 1-1,true,,{at % 8},{at * intervals // count}\n")

        def six(number, label):
            return number, 0, number * (label + 1), number * label, label + 1, label + 1

        with open(self.reports, "w") as file:
            for number in range(intervals):
                file.write(line("interval", number, count // intervals, 0))
                file.writelines(line("row", number, f"page {at}", *six(count // intervals // labels, at)) for at in range(labels))
            file.writelines(line("total", f"page {at}", *six(count // labels, at)) for at in range(labels))
            file.write(line("all", count, 0, count // labels * 36, count // labels * 28) + line("end", "Users 1-1", "Completed"))
        self.assert_cheap("recount", self.results, self.reports)
        self.assert_cheap("report", self.results, self.reports, "-o", self.folder + "/page.html")

    def test_lines_of_reports(self):
        with open(self.reports, "w") as file:
            for number in range(10**6 // 5):
                file.write(line("interval", number, 4, 0))
                file.writelines(line("row", number, f"page {at}", 1, 0, 7, 1, 7, 7) for at in range(4))
            file.writelines(line("total", f"page {at}", 200_000, 0, 1_400_000, 200_000, 7, 7) for at in range(4))
            file.write(line("all", 800_000, 0, 5_600_000, 800_000) + line("end", "Users 1-1", "Completed"))
        self.assert_cheap("verdict", self.reports, "--max-greatest=7")
        self.assert_cheap("report", self.written("", "none.csv"), self.reports, "-o", self.folder + "/page.html")


class Program(InFolder):
    """Over files that the program wrote."""

    PLAN = """{"type": "TestPlan", "children": [
      {"type": "ThreadGroup", "name": "Users", "props": {"threads": 8, "loops": 1500}, "children": [
        {"type": "Script", "name": "login, \\"first\\"", "props": {"replies": [{"ms": 3, "body": "hello"}, {"ms": 4}]}},
        {"type": "Transaction", "name": "visit", "children": [
          {"type": "Script", "name": "two\\nlines", "props": {"replies": [
            {"ms": 7}, {"ms": 9, "code": 500, "message": "<b>Bad"}]}}]}]}]}"""

    def ran(self, plan, *words):
        """The paths of what the program printed."""
        self.assertTrue(PROGRAM.exists(), f"there is no program {PROGRAM}; --program names another")
        results, reports = self.folder + "/r.csv", self.folder + "/p.csv"
        with open(results, "wb") as out, open(reports, "wb") as err:
            self.assertEqual(subprocess.run([PROGRAM, *words], input=plan.encode(), stdout=out, stderr=err, timeout=60).returncode, 0)
        return results, reports

    def test_example_of_the_docs(self):
        plan = (TOOLS.parent / "examples/threads.json").read_text()
        results, reports = self.ran(plan, "run", "--every", "60000")
        without_times = lambda text: [line.split(",", 2)[2] for line in text.splitlines()]
        counts = lambda text: [line.split(",")[:4 if line.startswith("row,") else 3] for line in text.splitlines()]
        self.assertEqual(without_times(pathlib.Path(results).read_text()), without_times(self.run_of_example.results()))
        self.assertEqual(counts(pathlib.Path(reports).read_text()), counts(self.run_of_example.reports()))
        self.assertEqual(tool("recount", results, reports)[0], 0)

    def test_run(self):
        results, reports = self.ran(self.PLAN, "run", "--every", "1")
        self.assertEqual(tool("recount", results, reports)[0], 0)
        self.assertEqual(tool("verdict", reports, "--max-errors=12000", "--min-samples=36000", "--max-greatest=60000"), (0, "", ""))
        self.assertEqual(tool("verdict", reports, "--max-errors=11999", "--min-samples=36001", "--max-greatest=60000")[1].count("\n"), 2)
        self.assertEqual(tool("report", results, reports, "-o", self.folder + "/page.html"), (0, "", ""))

    def test_solo(self):
        results, reports = self.ran(self.PLAN, "solo", "--thread", "1")
        self.assertEqual(tool("recount", results, reports)[0], 0)
        self.assertEqual(tool("report", results, reports, "-o", self.folder + "/page.html"), (0, "", ""))

    def test_watch(self):
        path, plan = self.folder + "/p.csv", self.written(self.PLAN, "plan.json")
        command = f"'{PROGRAM}' run --every 1 < '{plan}' 2>&1 > '{self.folder}/r.csv' | '{TOOLS}/watch' -o '{path}'"
        done = subprocess.run(command, shell=True, capture_output=True, timeout=60)
        self.assertEqual((done.returncode, done.stderr), (0, b""))
        self.assertIn("36,000 samples, 12,000 failed (33.3 %)", done.stdout.decode())
        self.assertEqual(tool("recount", self.folder + "/r.csv", path)[0], 0)

    def test_refused(self):
        done = subprocess.run([PROGRAM, "run"], input=b"{}", capture_output=True, timeout=60)
        self.assertEqual(done.returncode, 3)
        self.assertEqual(tool("verdict", self.written(done.stderr.decode()))[0], 2)


class Setup(unittest.TestCase):
    """What can be tested of tools/setup where all is installed."""

    def test_quiet_and_quick(self):
        began = time.monotonic()
        self.assertEqual(tool("setup"), (0, "", ""))
        self.assertEqual(tool("setup", "--tools"), (0, "", ""))
        self.assertLess(time.monotonic() - began, 10)

    def test_wrong_words(self):
        self.assertEqual(tool("setup", "all")[0], 2)

    def test_says_what_is_missing(self):
        with tempfile.TemporaryDirectory() as folder:  # a system that has apt-get but none of the packages
            os.chmod(folder, 0o755)
            for name, text in (("dpkg-query", "exit 1"), ("apt-get", "echo no such package; exit 100"), ("id", "echo 1000")):
                path = pathlib.Path(write(folder, name, f"#!/bin/sh\n{text}\n"))
                path.chmod(0o755)
            environment = {**os.environ, "PATH": f"{folder}:{os.environ['PATH']}"}
            status, out, err = tool("setup", "--tools", env=environment)
            self.assertEqual((status, out), (1, ""))
            self.assertIn("apt-get install --no-install-recommends python3-jinja2 python3-matplotlib python3-rich", err)
            (pathlib.Path(folder) / "id").write_text("#!/bin/sh\necho 0\n")
            status, out, err = tool("setup", "--tools", env=environment)
            self.assertEqual((status, out), (1, ""))
            self.assertIn("installing with apt-get: python3-jinja2", err)
            self.assertIn("no such package", err)

    def test_tools_say_which_package_is_not_there(self):
        with tempfile.TemporaryDirectory() as folder:
            results, reports = files_of(folder, example())
            page = (results, reports, "-o", folder + "/page.html")
            tries = ("report", "matplotlib", page), ("report", "jinja2", page), ("watch", "rich", ("-o", folder + "/out"))
            for name, module, words in tries:
                hiding = (f"import sys, runpy; sys.modules[{module!r}] = None; sys.argv = {[name, *words]!r}; "
                          f"sys.path[0] = {str(TOOLS)!r}; runpy.run_path({str(TOOLS / name)!r}, run_name='__main__')")
                done = subprocess.run(["/usr/bin/python3", "-c", hiding], capture_output=True, stdin=subprocess.DEVNULL, timeout=60)
                self.assertEqual((done.returncode, done.stdout), (2, b""))
                self.assertIn(f"apt-get install python3-{module}", done.stderr.decode())
                self.assertIn("tools/setup", done.stderr.decode())


if __name__ == "__main__":
    if sys.argv[1:2] == ["--program"]:
        PROGRAM = pathlib.Path(sys.argv[2]).resolve()
        del sys.argv[1:3]
    unittest.main()
