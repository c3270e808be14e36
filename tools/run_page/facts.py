"""What the page tells of a run, gathered from its two files, each gone through once."""
import collections
import dataclasses
import heapq

from run_files.reports import EndLine, IntervalLine, ReportBlock, RowLine, TotalLine, reports_of
from run_files.results import Results, sample_of
from run_files.sums import Sums, over_all
from run_files.texts import many, shown
from run_files.values import value_of
from run_page.timeline import Timeline

SLOWEST = 20
FAILURES = 100  # kinds that are told
THREADS = 10  # that are named in a note


@dataclasses.dataclass
class Facts:
    """What the two files of a run tell."""

    timeline: Timeline = dataclasses.field(default_factory=Timeline)
    totals: dict = dataclasses.field(default_factory=dict)  # of each label its sums over all
    ends: list = dataclasses.field(default_factory=list)  # pairs of a thread and how it ended
    slowest: list = dataclasses.field(default_factory=list)  # samples, the slowest first
    failures: list = dataclasses.field(default_factory=list)  # Failure, the most frequent first
    other_failures: int = 0  # kinds of failures past those
    lines: int = 0  # result lines
    threads: dict = dataclasses.field(default_factory=dict)  # those with result lines, as keys
    notes: list = dataclasses.field(default_factory=list)  # texts of what a reader must know of the files

    @property
    def over_all(self):
        """The sums over all labels."""
        return over_all(self.totals)


@dataclasses.dataclass
class Failure:
    """A kind of failed samples."""

    code: str
    message: str
    failure: str
    count: int
    labels: list


class Slowest:
    """The slowest samples of those that are offered; of two that took the same time the earlier one."""

    def __init__(self, most):
        self.most = most
        self.least = -1  # a sample must take longer than this
        self._kept = []
        self._offered = 0

    def offer(self, sample):
        """Keeps a sample that takes longer than `least`."""
        self._offered += 1
        entry = sample.elapsed, -self._offered, sample
        if len(self._kept) < self.most:
            heapq.heappush(self._kept, entry)
        else:
            heapq.heapreplace(self._kept, entry)
        if len(self._kept) == self.most:
            self.least = self._kept[0][0]

    def all(self):
        """The samples that are kept, the slowest first."""
        return [sample for _, _, sample in sorted(self._kept, reverse=True)]


class OpenInterval:
    """A report of an interval whose rows are still to come."""

    def __init__(self, line):
        self.line = line
        self.rows = []

    def is_whole(self):
        """Whether the rows are all there."""
        sums = Sums()
        for row in self.rows:
            sums.add(row)
        return (sums.count, sums.errors) == (self.line.count, self.line.errors)

    def add_to(self, timeline):
        """Adds it to the timeline."""
        timeline.add(self.line.number, self.rows)


def read_reports(facts, path):
    """Reads REPORTS into the facts, and gives what is known of it then."""
    interval = None
    with reports_of(path) as reports:
        for line in reports.in_blocks():
            if isinstance(line, RowLine):
                interval.rows.append(line)
                continue
            if interval:
                interval.add_to(facts.timeline)
                interval = None
            if isinstance(line, ReportBlock):
                facts.timeline.add_block(line)
            elif isinstance(line, IntervalLine):
                interval = OpenInterval(line)
            elif isinstance(line, TotalLine):
                facts.totals[line.label] = line.sums
            elif isinstance(line, EndLine):
                facts.ends.append((line.thread, line.end))
    if interval and interval.is_whole():
        interval.add_to(facts.timeline)
    elif interval:
        facts.notes.append(f"The report of interval {interval.line.number} is cut off and left out.")
    return reports


def read_results(facts, path):
    """Reads RESULTS into the facts; the intervals come from it where REPORTS has none, as of `solo`."""
    results, with_intervals = Results(path), not facts.timeline.intervals
    slowest, failures, labels = Slowest(SLOWEST), collections.Counter(), {}
    for block in results:
        facts.lines += len(block.labels)
        facts.threads.update(dict.fromkeys(block.threads))
        times = list(map(value_of, block.elapsed))
        if max(times) > slowest.least:
            for at, elapsed in enumerate(times):
                if elapsed > slowest.least:
                    slowest.offer(sample_of(block.row(at)))
        if "false" in block.successes:
            for at, success in enumerate(block.successes):
                if success == "false":
                    kind = block.codes[at], block.messages[at], block.failures[at]
                    failures[kind] += 1
                    labels.setdefault(kind, {})[block.labels[at]] = True
        if with_intervals:
            numbers, sizes = map(value_of, block.intervals), map(value_of, block.sizes)
            for number, label, elapsed, success, size in zip(numbers, block.labels, times, block.successes, sizes):
                facts.timeline.add_sample(number, label, elapsed, success == "false", size)
    facts.slowest = slowest.all()
    facts.failures = [Failure(*kind, count, list(labels[kind])) for kind, count in failures.most_common(FAILURES)]
    facts.other_failures = max(0, len(failures) - FAILURES)
    return results


def facts_of(results_path, reports_path):
    """The facts of a run; a FileFault where a file is of another kind."""
    facts = Facts()
    reports = read_reports(facts, reports_path)
    from_reports = facts.timeline.intervals
    results = read_results(facts, results_path)
    if not reports.has_summary:
        facts.totals = facts.timeline.labels()
    facts.notes[:0] = notes_of(reports, from_reports)
    ended = {thread for thread, _ in facts.ends}
    without_end = [shown(thread) for thread in facts.threads if thread not in ended]
    if reports.whole and without_end:
        facts.notes.append(f"How some of the threads ended is not told: {', '.join(without_end[:THREADS])}.")
    if results.empty or results.cut:
        facts.notes.append(f"RESULTS {'is empty' if results.empty else 'is cut off'}.")
    count = facts.over_all.count
    if count != facts.lines:
        facts.notes.append(f"The slowest samples and the failures are those of {many(facts.lines, 'result line')}, "
                           f"and the reports count {many(count, 'sample')}.")
    return facts


def notes_of(reports, intervals):
    """What a reader must know of a REPORTS that is not whole."""
    if reports.whole:
        return
    yield "REPORTS is not whole: the run was broken off, or its reports could not be written to the end."
    if reports.has_summary:
        yield "How some of the threads ended is not told."
    elif intervals:
        yield f"The summary is not that of the run but the sum of {many(intervals, 'report')} of intervals."
    else:
        yield "It has no report of an interval, and no summary: what is shown comes from the result lines."
