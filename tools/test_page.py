#!/usr/bin/python3
"""Tests of the page that tools/report writes: its numbers against sums made apart, and the page in a browser.

Usage: tools/test_page.py [UNITTEST WORDS]    (the browser is Debian's chromium, driven by chromium-driver and python3-selenium)
"""
import collections
import html.parser
import json
import pathlib
import re
import tempfile
import unittest

from selenium import webdriver
from selenium.webdriver.chrome.options import Options
from selenium.webdriver.chrome.service import Service
from selenium.webdriver.common.keys import Keys

from run_page.facts import facts_of
from run_page.page import page_of
from run_tests.made import TRICKY, Run, Sample, chance, example, files_of, numbers, tool, write


# What a page should have, by the samples of its run.

def shown(text):
    """A text as a page has it: what does not print as an escape."""
    named = {"\0": "\\x00", "\n": "\\n", "\r": "\\r", "\x1b": "\\x1b", "\u202e": "\\u202e", "\udce9": "\\xe9", "\udcff": "\\xff"}
    return "".join(named.get(char, char) for char in text) or "no name"


def percent(samples):
    count, errors, *_ = numbers(samples)
    return f"{100 * errors / count if count else 0:.1f} %"


def mean(samples):
    count, _, total, *_ = numbers(samples)
    return f"{total / count:,.1f}" if count else ""


def summary_row(label, samples):
    count, errors, _, size, least, greatest = numbers(samples)
    return [label, f"{count:,}", f"{errors:,}", percent(samples), mean(samples), f"{least:,}", f"{greatest:,}", f"{size:,}"]


def interval_row(number, samples):
    count, errors, _, _, _, greatest = numbers(samples)
    return [str(number), f"{count:,}", f"{errors:,}", mean(samples), f"{greatest:,}" if samples else ""]


def slowest_rows(samples):
    slow = sorted(samples, key=lambda sample: -sample.elapsed)[:20]
    return [[f"{it.elapsed:,}", shown(it.label), it.thread, f"{it.stamp:,}", str(it.code), it.message, "yes" if it.success else "no",
             str(it.interval)] for it in slow]


def failures_of(samples):
    return collections.Counter((str(it.code), it.message, it.failure) for it in samples if not it.success)


# Reading a page.

class Page(html.parser.HTMLParser):
    """The tables of a page by their ids, as rows of texts, and the texts of its other elements with ids."""

    VOID = {"meta", "link", "input", "br"}

    def __init__(self, text):
        super().__init__()
        self.tables, self.texts, self.rows, self.notes = {}, {}, None, []
        self._open = []
        self.feed(text)
        self.close()

    def handle_starttag(self, tag, attributes):
        attributes = dict(attributes)
        if tag == "table":
            self.rows = self.tables[attributes["id"]] = []
        elif tag == "tr":
            self.rows.append([])
        elif tag in ("td", "th"):
            self.rows[-1].append("")
        if attributes.get("id"):
            self.texts[attributes["id"]] = ""
        if tag not in self.VOID:
            self._open.append((tag, attributes.get("id")))

    def handle_endtag(self, tag):
        while self._open and self._open.pop()[0] != tag:
            pass

    def handle_data(self, data):
        for _, name in self._open:
            if name:
                self.texts[name] += data
        if self.rows and self.rows[-1] and any(tag in ("td", "th") for tag, _ in self._open):
            self.rows[-1][-1] += data

    def body(self, table):
        """The rows of a table below its head."""
        return [[cell.strip("\n") for cell in row] for row in self.tables.get(table, [])[1:]]


def written_page(folder, run):
    """The path of the page of a run, as the tool writes it."""
    path = folder + "/page.html"
    said = tool("report", *files_of(folder, run), "-o", path)
    assert said == (0, "", ""), said
    return path


class InFolder(unittest.TestCase):
    """A test with a folder of its own."""

    def setUp(self):
        folder = tempfile.TemporaryDirectory()
        self.addCleanup(folder.cleanup)
        self.folder = folder.name

    def page(self, run, reports=None, results=None):
        """The page of a run, some of whose files may hold other texts."""
        paths = files_of(self.folder, run)
        for path, text in zip(paths, (results, reports)):
            if text is not None:
                write(self.folder, pathlib.Path(path).name, text)
        return Page(page_of(facts_of(*paths), *paths))


class Numbers(InFolder):
    """The numbers on the page equal sums made apart."""

    def assert_page(self, page, run, intervals):
        """All tables of a page are those of the run."""
        labels = [label for label in run.labels if run.of(label)]
        rows = [summary_row(shown(label), run.of(label)) for label in labels]
        self.assertEqual(page.body("totals"), rows + [summary_row("All labels", run.samples)])
        for at, label in enumerate([None, *labels]):
            rows = [interval_row(number, run.of(label, number)) for number in range(intervals)]
            self.assertEqual(page.body(f"numbers-{at}"), rows, label)
        for at, label in enumerate(labels, 1):
            self.assertEqual(page.texts[f"chart-{at}-title"].strip("\n"), shown(label))
        self.assertNotIn(f"numbers-{len(labels) + 1}", page.tables)
        self.assertEqual(page.body("slow"), slowest_rows(run.samples))
        failures = failures_of(run.samples)
        printed = {tuple(row[:3]): row[3] for row in page.body("failed")}
        self.assertEqual(printed, {kind: f"{count:,}" for kind, count in failures.items()})
        counts = [int(row[3].replace(",", "")) for row in page.body("failed")]
        self.assertEqual(counts, sorted(counts, reverse=True))
        for row in page.body("failed"):
            found = [it for it in run.samples if not it.success and [str(it.code), it.message, it.failure] == row[:3]]
            self.assertEqual(row[4], ", ".join(dict.fromkeys(shown(it.label) for it in found)))
        self.assertEqual(page.body("ends"), [[thread, end] for thread, end in run.ends])

    def test_example(self):
        run = example()
        text = pathlib.Path(written_page(self.folder, run)).read_text(encoding="utf-8")
        self.assertEqual(pathlib.Path(written_page(self.folder, run)).read_text(encoding="utf-8"), text)  # the same each time
        page = Page(text)
        self.assert_page(page, run, 1)
        self.assertEqual(page.body("totals")[1], ["buy", "4", "2", "50.0 %", "87.5", "80", "95", "0"])
        self.assertEqual(page.body("totals")[3], ["All labels", "11", "2", "18.2 %", "46.0", "12", "95", "38"])
        self.assertEqual(page.body("failed"), [["503", "Busy", "", "2", "buy"]])
        self.assertEqual(page.body("slow")[0], ["95", "buy", "Buyers 1-1", "140", "503", "Busy", "no", "0"])
        self.assertNotIn("notes", page.texts)
        self.assertEqual(page.texts["headline"].split("\n")[1:-1],
                         ["Samples11", "Failed2 18.2 %", "Mean time46.0 ms", "Greatest time95 ms", "Intervals1", "Threads ended3"])

    def test_tricky_labels(self):
        run = chance(11, 900, 40, TRICKY)
        self.assert_page(self.page(run), run, 40)

    def test_slowest_of_those_that_took_the_same_time(self):
        for most in (1, 3, 7):
            samples = [Sample(at, at * 5 % most, "A", 200, "OK", "TG 1-1", True, "", 0, 0) for at in range(100)]
            self.assertEqual(self.page(Run(samples, ["A"], 1, [("TG 1-1", "Completed")])).body("slow"), slowest_rows(samples))

    def test_thousands(self):
        run = chance(12, 6_000, 7, ["A", "B"])
        self.assert_page(self.page(run), run, 7)

    def test_solo(self):
        run = chance(13, 100, 1, ["A", "B"])
        self.assert_page(self.page(run, reports=run.summary()), run, 1)

    def test_no_samples(self):
        run = Run([], ["A"], 3, [("TG 1-1", "Completed")])
        page = self.page(run)
        self.assertEqual(page.body("totals"), [["All labels", "0", "0", "0.0 %", "", "0", "0", "0"]])
        self.assertEqual(page.body("numbers-0"), [[str(number), "0", "0", "", ""] for number in range(3)])
        self.assertNotIn("notes", page.texts)

    def test_a_failure_is_never_a_share_of_nothing(self):
        samples = [Sample(0, 1, "A", 200, "OK", "TG 1-1", at > 0, "", 0, 0) for at in range(5_000)]
        page = self.page(Run(samples, ["A"], 1, [("TG 1-1", "Completed")]))
        self.assertEqual(page.body("totals")[0][:4], ["A", "5,000", "1", "< 0.1 %"])

    def test_many_intervals_are_joined(self):
        for intervals, width in ((600, 1), (601, 2), (1_200, 2), (1_201, 4), (5_000, 16)):
            run = chance(intervals, 3_000, intervals, ["A", "B"])
            page = self.page(run)
            rows = page.body("numbers-2")
            self.assertEqual(len(rows), -(-intervals // width))
            for at, row in enumerate(rows):
                first, last = at * width, min(at * width + width, intervals) - 1
                samples = [it for it in run.of("B") if first <= it.interval <= last]
                self.assertEqual(row, interval_row(str(first) if first == last else f"{first}–{last}", samples))
            self.assertEqual(f"joins {width} of them" in page.texts["charts"], width > 1)

    def test_many_labels(self):
        labels = [f"label {at}" for at in range(70)]
        samples = [Sample(0, at, label, 200, "OK", "TG 1-1", True, "", 0, 0)
                   for at, label in enumerate(labels) for _ in range(1 + at % 64)]
        run = Run(samples, labels, 1, [("TG 1-1", "Completed")])
        page = self.page(run)
        self.assertEqual(len(page.body("totals")), 71)
        titles = {page.texts[f"chart-{at}-title"].strip() for at in range(1, 61)}
        self.assertNotIn("chart-61-title", page.texts)
        left_out = {f"label {at}" for at in (0, 1, 2, 3, 64, 65, 66, 67)}  # those with the fewest samples, 1 to 4
        self.assertEqual(titles & left_out, set(), titles)
        self.assertIn("10 labels with fewer samples stand in the summary alone", page.texts["charts"])


class BrokenOff(InFolder):
    """REPORTS cut off after any number of bytes: the page has what is whole, and says so."""

    def test_after_each_line(self):
        run = chance(21, 120, 8, ["A", "two\nlines"])
        whole = run.reports()
        at = 0
        for number in range(run.intervals):
            at += len(run.report(number))
            if run.of(None, number):
                self.assert_broken_off(run, whole[:at], number + 1)

    def assert_broken_off(self, run, reports, intervals):
        """The page tells of the first intervals alone, without any results."""
        samples = [it for it in run.samples if it.interval < intervals]
        page = self.page(run, reports=reports, results="")
        self.assertIn("broken off", page.texts["notes"])
        self.assertIn("RESULTS is empty", page.texts["notes"])
        self.assertIn("There is no result line", page.texts["failures"])
        self.assertEqual(len(page.body("numbers-0")), intervals)
        labels = [label for label in run.labels if any(it.label == label for it in samples)]
        rows = [summary_row(shown(label), [it for it in samples if it.label == label]) for label in labels]
        self.assertEqual(sorted(page.body("totals")[:-1]), sorted(rows))
        self.assertEqual(page.body("totals")[-1], summary_row("All labels", samples))
        self.assertEqual(page.body("ends"), [])

    def test_inside_a_report(self):
        run = chance(22, 120, 8, ["A", "two\nlines"])
        before, report = run.report(0) + run.report(1) + run.report(2), run.report(3)
        for at in range(1, len(report) - 1, 7):
            page = self.page(run, reports=before + report[:at], results="")
            self.assertEqual([row[0] for row in page.body("numbers-0")], ["0", "1", "2"], report[:at])
            if "\n" in report[:at]:
                self.assertIn("interval 3 is cut off and left out", page.texts["notes"])

    def test_inside_the_summary(self):
        run = chance(23, 60, 3, ["A", "B"])
        before, summary = "".join(map(run.report, range(3))), run.summary()
        for at in range(0, len(summary) - 1, 11):
            page = self.page(run, reports=before + summary[:at])
            self.assertEqual(page.body("totals")[-1], summary_row("All labels", run.samples))
            if summary[:at].endswith("\n") and "\nend," in summary[:at]:
                continue  # after an end line: below
            self.assertIn("broken off", page.texts["notes"])
            _, has_all, rest = summary[:at].partition("\nall,")
            self.assertEqual("How some of the threads ended is not told" in page.texts["notes"], bool(has_all and "\n" in rest))

    def test_after_an_end_line(self):
        run = chance(26, 60, 3, ["A", "B"])  # of its four threads the last has no samples
        for left, names in ((1, []), (2, ["Users 1-3"]), (3, ["Users 1-2", "Users 1-3"])):
            reports = "".join(run.reports().splitlines(keepends=True)[:-left])
            page = self.page(run, reports=reports)
            self.assertEqual([row[0] for row in page.body("ends")], [thread for thread, _ in run.ends[:-left]])
            self.assertEqual("notes" in page.texts, bool(names))
            for name in names:
                self.assertIn(name, page.texts["notes"])

    def test_empty_reports(self):
        run = chance(24, 60, 1, ["A", "B"])
        page = self.page(run, reports="")
        self.assertIn("broken off", page.texts["notes"])
        self.assertEqual(page.body("totals")[-1], summary_row("All labels", run.samples))
        page = self.page(run, reports="", results="")
        self.assertEqual(page.body("totals"), [["All labels", "0", "0", "0.0 %", "", "0", "0", "0"]])

    def test_results_are_cut_off(self):
        run = chance(25, 60, 3, ["A", "B"])
        lines = run.results().splitlines(keepends=True)
        page = self.page(run, results="".join(lines[:31]) + lines[31][:9])
        self.assertIn("RESULTS is cut off", page.texts["notes"])
        self.assertIn("those of 30 result lines, and the reports count 60 samples", page.texts["notes"])
        self.assertEqual(page.body("totals")[-1], summary_row("All labels", run.samples))
        self.assertEqual(page.body("slow"), slowest_rows(run.samples[:30]))

    def test_files_of_another_kind(self):
        results, reports = files_of(self.folder, example())
        page, other = self.folder + "/page.html", write(self.folder, "other.csv", "refused 7 BadProp /\n")
        for words in ((reports, results, "-o", page), (results, other, "-o", page), (other, reports, "-o", page), (results, reports),
                      (results, "-o", page), (results, self.folder, "-o", page), (results, reports, "-o", self.folder)):
            status, out, err = tool("report", *words)
            self.assertEqual((status, out), (2, ""), words)
            self.assertTrue(err)
            self.assertFalse(pathlib.Path(page).exists(), words)


# The page in a browser.

def browser():
    """A Chromium without a window, that keeps what comes to the console and which requests are made."""
    options = Options()
    options.binary_location = "/usr/bin/chromium"
    for word in ("--headless=new", "--no-sandbox", "--disable-gpu", "--disable-dev-shm-usage", "--hide-scrollbars"):
        options.add_argument(word)
    options.set_capability("goog:loggingPrefs", {"browser": "ALL", "performance": "ALL"})
    return webdriver.Chrome(service=Service("/usr/bin/chromedriver"), options=options)


def contrast(one, other):
    """The contrast of two colours `rgb(..)`, as the guidelines on accessibility define it."""
    def brightness(colour):
        parts = [int(part) / 255 for part in re.findall(r"\d+", colour)[:3]]
        red, green, blue = [part / 12.92 if part <= 0.04045 else ((part + 0.055) / 1.055) ** 2.4 for part in parts]
        return 0.2126 * red + 0.7152 * green + 0.0722 * blue
    dark, light = sorted((brightness(one), brightness(other)))
    return (light + 0.05) / (dark + 0.05)


class Browser(unittest.TestCase):
    """The page as Chromium shows it."""

    @classmethod
    def setUpClass(cls):
        cls.run_shown = chance(31, 900, 12, TRICKY)
        folder = tempfile.TemporaryDirectory()
        cls.addClassCleanup(folder.cleanup)
        cls.path = written_page(folder.name, cls.run_shown)
        cls.chrome = browser()
        cls.addClassCleanup(cls.chrome.quit)

    def opened(self, width=1100, scheme="light"):
        """The page opened anew, in a window of this width."""
        size = {"width": width, "height": 900, "deviceScaleFactor": 1, "mobile": False}
        self.chrome.execute_cdp_cmd("Emulation.setDeviceMetricsOverride", size)
        features = [{"name": "prefers-color-scheme", "value": scheme}]
        self.chrome.execute_cdp_cmd("Emulation.setEmulatedMedia", {"features": features})
        self.chrome.get(f"file://{self.path}")

    def asked(self, script, *words):
        return self.chrome.execute_script(script, *words)

    def visible_charts(self):
        return self.asked("return [...document.querySelectorAll('article')].filter(it => it.checkVisibility()).map(it => it.id)")

    def paths(self, chart, colour):
        """The points of each path of a chart that is drawn in a colour of the page."""
        texts = self.asked("""return [...document.querySelectorAll(`#${arguments[0]} path`)]
            .filter(it => it.getAttribute('style').includes(`(${arguments[1]})`)).map(it => it.getAttribute('d'))""", chart, colour)
        return [[tuple(map(float, pair)) for pair in re.findall(r"[ML] (\S+) (\S+)", text)] for text in texts]

    def heights(self, chart, colour):
        """How far below the top of a chart its steps in a colour of the page are, from left to right."""
        points = self.paths(chart, colour)[0]
        steps = [(first, second) for first, second in zip(points, points[1:]) if first[1] == second[1] and first[0] < second[0]]
        return [first[1] for first, _ in steps]

    def test_no_error_and_no_request(self):
        self.chrome.get_log("performance")
        self.opened()
        self.chrome.find_element("id", "pick-1").click()
        self.assertEqual(self.chrome.get_log("browser"), [])
        messages = [json.loads(it["message"])["message"] for it in self.chrome.get_log("performance")]
        asked = {it["params"]["request"]["url"] for it in messages if it["method"] == "Network.requestWillBeSent"}
        self.assertEqual({it for it in asked if not it.startswith("data:")}, {f"file://{self.path}"})

    def test_labels_are_text(self):
        self.opened()
        self.assertEqual(self.asked("return document.querySelectorAll('script, b, i').length"), 0)
        names = self.asked("return [...document.querySelectorAll('#totals tbody th')].map(it => it.textContent)")
        self.assertEqual(names, [shown(label) for label in TRICKY] + ["All labels"])
        names = self.asked("return [...document.querySelectorAll('fieldset label')].map(it => it.textContent)")
        self.assertEqual([name[1:] for name in names], ["all labels"] + [shown(label) for label in TRICKY])

    def test_a_click_chooses_a_label(self):
        self.opened()
        self.assertEqual(self.visible_charts(), ["chart-0"])
        for pick in ("pick-2", "pick-4"):
            self.chrome.find_element("css selector", f"label:has(#{pick})").click()
        self.assertEqual(self.visible_charts(), ["chart-0", "chart-2", "chart-4"])
        self.chrome.find_element("id", "pick-0").click()
        self.assertEqual(self.visible_charts(), ["chart-2", "chart-4"])

    def test_keyboard(self):
        self.opened()
        focused = []
        regions = self.asked("return [...document.querySelectorAll('.wide')].filter(it => !it.closest('details')).length")
        for _ in range(60):
            self.chrome.switch_to.active_element.send_keys(Keys.TAB)
            element = self.asked("const it = document.activeElement; return [it.tagName, it.id, it.getAttribute('href'), it.className]")
            if element[0] == "BODY":
                break
            focused.append(element)
            if element[1] == "pick-3":
                self.chrome.switch_to.active_element.send_keys(Keys.SPACE)
        kinds = collections.Counter(tag for tag, *_ in focused)
        self.assertEqual((kinds["A"], kinds["INPUT"], kinds["SUMMARY"]), (5, len(TRICKY) + 1, 2))  # two charts are shown by then
        self.assertEqual(sum(name == "wide" for *_, name in focused), regions)
        self.assertEqual(self.visible_charts(), ["chart-0", "chart-3"])

    def test_charts_are_drawn_from_the_numbers(self):
        self.opened()
        self.chrome.find_element("id", "pick-5").click()
        for chart, label in (("chart-0", None), ("chart-5", TRICKY[4])):
            parts = [numbers(self.run_shown.of(label, number)) for number in range(12)]
            self.assert_steps(chart, "--samples", [part[0] for part in parts])
            self.assert_steps(chart, "--errors", [part[1] for part in parts], top=max(part[0] for part in parts))
            self.assert_steps(chart, "--greatest", [part[5] for part in parts if part[0]])
            self.assert_steps(chart, "--mean", [part[2] / part[0] for part in parts if part[0]], top=max(part[5] for part in parts))

    def assert_steps(self, chart, colour, values, top=None):
        """The steps of a line are as high as its values, on a scale from 0 to the top."""
        heights = self.heights(chart, colour)
        if len(heights) > len(values):  # an area ends on its base line
            heights = heights[:len(values)]
        self.assertEqual(len(heights), len(values), (chart, colour))
        scale = {"--errors": "--samples", "--mean": "--greatest"}.get(colour, colour)
        highest = min(self.heights(chart, scale))
        unit = self.unit(chart, scale, top or max(values), highest)
        for height, value in zip(heights, values):
            self.assertAlmostEqual(height, highest + ((top or max(values)) - value) * unit, delta=0.3, msg=f"{chart} {colour}")

    def unit(self, chart, colour, top, highest):
        """How many points a unit is high: the lowest line of the grid of an upper or lower half stands for 0."""
        levels = [first[1] for first, second, *_ in self.paths(chart, "--grid") if first[1] == second[1]]
        middle = (min(levels) + max(levels)) / 2
        base = max(level for level in levels if (level < middle) == (colour == "--samples"))
        return (base - highest) / top

    def pixels(self, chart):
        """The colours of a chart's picture."""
        from PIL import Image
        import io
        element = self.chrome.find_element("css selector", f"#{chart} svg")
        picture = Image.open(io.BytesIO(element.screenshot_as_png)).convert("RGB")
        return collections.Counter(picture.getdata())

    def test_charts_are_seen_in_light_and_dark(self):
        for scheme in ("light", "dark"):
            self.opened(scheme=scheme)
            pixels = self.pixels("chart-0")
            for name, least in (("samples", 2_000), ("errors", 300), ("mean", 60), ("greatest", 60), ("ink", 20), ("panel", 2_000)):
                value = self.asked("return getComputedStyle(document.body).getPropertyValue(`--${arguments[0]}`)", name).strip()
                colour = tuple(int(value[at:at + 2], 16) for at in (1, 3, 5))
                self.assertGreater(pixels[colour], least, f"{scheme} {name}")

    def test_contrast(self):
        backgrounds = []
        for scheme in ("light", "dark"):
            self.opened(scheme=scheme)
            backgrounds.append(self.asked("return getComputedStyle(document.documentElement).backgroundColor"))
            for selector in ("body", "h2", "#totals td", "#totals .bad td:nth-of-type(2)", "nav a", "thead th", "dt", ".files",
                             "#headline .bad dd", "summary", "figcaption"):
                colour, background = self.asked("""const it = document.querySelector(arguments[0]); let back = it;
                    while (getComputedStyle(back).backgroundColor === 'rgba(0, 0, 0, 0)') back = back.parentElement;
                    return [getComputedStyle(it).color, getComputedStyle(back).backgroundColor]""", selector)
                self.assertGreaterEqual(contrast(colour, background), 4.5, f"{scheme} {selector}")
        self.assertGreater(contrast(*backgrounds), 10)

    def test_400_pixels(self):
        self.opened(width=400)
        for pick in range(1, len(TRICKY) + 1):
            self.chrome.find_element("id", f"pick-{pick}").click()
        self.assertLessEqual(self.asked("return document.documentElement.scrollWidth"), 400)
        out = self.asked("""return [...document.querySelectorAll('body *')].filter(it => it.checkVisibility() && !it.closest('.wide') &&
            it.getBoundingClientRect().right > 400).map(it => it.tagName + it.id)""")
        self.assertEqual(out, [])
        sizes = self.asked("""return [...document.querySelectorAll('article svg text')].filter(it => it.checkVisibility()).map(it =>
            parseFloat(getComputedStyle(it).fontSize) * it.getScreenCTM().d)""")
        self.assertGreater(len(sizes), 100)
        self.assertGreaterEqual(min(sizes), 10)
        sizes = self.asked("""return [...document.querySelectorAll('td, th, p, label')].map(it =>
            parseFloat(getComputedStyle(it).fontSize))""")
        self.assertGreaterEqual(min(sizes), 14)


if __name__ == "__main__":
    unittest.main()
