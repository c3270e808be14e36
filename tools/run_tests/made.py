"""Runs made up for tests, written as the program writes them.

The texts are formed and the sums are made here by plain rules of the format, with nothing of the tools that are tested.
"""
import dataclasses
import pathlib
import random
import subprocess

TOOLS = pathlib.Path(__file__).resolve().parent.parent
HEADER = "timeStamp,elapsed,label,responseCode,responseMessage,threadName,success,failureMessage,bytes,interval"
TRICKY = ["<script>alert(1)</script>", 'say "hi", all', "two\nlines", "caf\udce9 \udcff", "", "x" * 256, "$a_b^c$ & <b>",
          "\u202eabc\x1b[31m", "return\rhere", "{{ 7 * 7 }}", " padded ", "été", "nul\0"]


@dataclasses.dataclass
class Sample:
    """What a result line says."""

    stamp: int
    elapsed: int
    label: str
    code: int
    message: str
    thread: str
    success: bool
    failure: str
    size: int
    interval: int


def field(value):
    """A field, quoted where it must be."""
    text = str(value)
    return '"' + text.replace('"', '""') + '"' if any(char in text for char in ',"\r\n') else text


def line(*values):
    """A line of fields."""
    return ",".join(map(field, values)) + "\n"


def numbers(samples):
    """COUNT, ERRORS, TOTAL, BYTES, LEAST and GREATEST of samples."""
    times = [sample.elapsed for sample in samples]
    failed = [sample for sample in samples if not sample.success]
    size = sum(sample.size for sample in samples)
    return [len(times), len(failed), sum(times), size, min(times, default=0), max(times, default=0)]


@dataclasses.dataclass
class Run:
    """A run: its samples in the order of threads, its labels in the order of the plan, its intervals and its ends."""

    samples: list
    labels: list
    intervals: int
    ends: list

    def of(self, label=None, interval=None):
        """The samples of a label, of an interval, or of both; of all where none is given."""
        return [sample for sample in self.samples if label in (None, sample.label) and interval in (None, sample.interval)]

    def results(self):
        """The text of RESULTS."""
        rows = [(it.stamp, it.elapsed, it.label, it.code, it.message, it.thread, "true" if it.success else "false", it.failure,
                 it.size, it.interval) for it in self.samples]
        return HEADER + "\n" + "".join(line(*row) for row in rows)

    def report(self, number):
        """The lines of the report of an interval."""
        text = line("interval", number, *numbers(self.of(None, number))[:2])
        for label in self.labels:
            samples = self.of(label, number)
            text += line("row", number, label, *numbers(samples)) if samples else ""
        return text

    def summary(self):
        """The lines of the summary and the end lines."""
        text = "".join(line("total", label, *numbers(self.of(label))) for label in self.labels if self.of(label))
        text += line("all", *numbers(self.samples)[:4])
        return text + "".join(line("end", thread, end) for thread, end in self.ends)

    def reports(self):
        """The text of REPORTS."""
        return "".join(self.report(number) for number in range(self.intervals)) + self.summary()


def example():
    """The run of docs/use/RUNNING.md, as it stands there."""
    def thread(name, start, *samples):
        for elapsed, label, code, message, size in samples:
            yield Sample(start, elapsed, label, code, message, name, code == 200, "", size, 0)
            start += elapsed

    buys = [(30, "open", 200, "OK", 5), (80, "buy", 200, "OK", 0), (30, "open", 200, "OK", 5), (95, "buy", 503, "Busy", 0)]
    samples = [*thread("Buyers 1-1", 0, *buys), *thread("Buyers 1-2", 20, *buys),
               *thread("Readers 2-1", 0, *[(12, "read", 200, "OK", 6)] * 3)]
    return Run(samples, ["open", "buy", "read"], 1, [(name, "Completed") for name in ("Buyers 1-1", "Buyers 1-2", "Readers 2-1")])


def chance(seed, count, intervals, labels):
    """A run of chance, in which some intervals and pairs of interval and label have no sample."""
    chosen, samples = random.Random(seed), []
    for number in range(count):
        interval = chosen.randrange(intervals) // 3 * 3  # of three neighbours two stay empty
        success = chosen.random() < 0.8
        bad = chosen.choice([(500, "Bad"), (503, 'Busy, "very"'), (0, "fault"), (200, "OK")])
        code, message = (200, "OK") if success else bad
        failure = "assertion A failed" if code == 200 and not success else ""
        samples.append(Sample(chosen.randrange(9_999), int(chosen.expovariate(1 / 300)), chosen.choice(labels), code, message,
                              f"Users 1-{number % 3 + 1}", success, failure, chosen.randrange(5_000), interval))
    samples.sort(key=lambda sample: (sample.thread, sample.interval))
    ends = [("Users 1-1", "Completed"), ("Users 1-2", "StopThread"), ("Users 1-3", "SampleLimit"), ("Users 1-4", "Completed")]
    return Run(samples, labels, intervals, ends)


def write(folder, name, text):
    """Writes a text as bytes, and gives its path."""
    path = pathlib.Path(folder) / name
    path.write_bytes(text.encode(errors="surrogateescape"))
    return str(path)


def files_of(folder, run):
    """The paths of RESULTS and REPORTS of a run, written into a folder."""
    return write(folder, "results.csv", run.results()), write(folder, "reports.csv", run.reports())


def tool(name, *words, **options):
    """Calls a tool, and gives its status, its standard output and its standard error."""
    done = subprocess.run([TOOLS / name, *words], capture_output=True, timeout=120, stdin=subprocess.DEVNULL, **options)
    return done.returncode, done.stdout.decode(), done.stderr.decode()
