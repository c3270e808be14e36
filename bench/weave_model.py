"""A model in Python of what `weave` prints: the turns of threads and of the reporter, as docs/use/WEAVE.md tells them.

What a thread does depends on no other thread but for a stop, so it is the list of its events from bench/model.py. The words
and cells that threads and reporter share are those of docs/inside/RECORDER_WORDS.md.
"""
from model import HEADER, Thread, line_of, result_line, summary_of, threads_of

HALF = 2**63
STRIPES = 4
VACANT = (0, 0, 0, 0, 2**64 - 1, 0)


class Recorder:
    """The words that all threads share, and how far the reporter is with closing an interval."""

    def __init__(self, labels):
        self.labels, self.rows = labels, STRIPES * len(labels)
        self.active, self.start, self.ends, self.stop = 0, 0, [0, HALF], 0
        self.tables = [[list(VACANT) for _ in range(self.rows)] for _ in range(2)]
        self.stage, self.wanted, self.taken, self.reports = "idle", None, [], []

    def turn(self):
        """The reporter's next step."""
        interval = len(self.reports)
        if self.stage == "idle":
            self.active, self.stage = interval + 1, "swapped"
        elif self.stage == "swapped":
            self.ends[(interval + 1) % 2], self.stage = HALF * ((interval + 1) % 2), "cleared"
        elif self.stage == "cleared":
            self.wanted, self.start, self.stage = self.start, HALF * ((interval + 1) % 2), "waiting"
        elif self.stage == "waiting":
            if self.ends[interval % 2] == self.wanted:
                self.stage = "harvest"
                self.close_if_taken()
        else:
            row, column = divmod(len(self.taken), len(VACANT))
            cells = self.tables[interval % 2][row]
            self.taken.append(cells[column])
            cells[column] = VACANT[column]
            self.close_if_taken()

    def close_if_taken(self):
        if len(self.taken) == len(VACANT) * self.rows:
            parts = [self.taken[at:at + len(VACANT)] for at in range(0, len(self.taken), len(VACANT))]
            self.reports.append(self.folded(parts))
            self.stage, self.taken = "idle", []

    def folded(self, rows):
        """What the stripes of each label come to."""
        of_labels = [list(zip(*rows[label::len(self.labels)])) for label in range(len(self.labels))]
        return [(*map(sum, columns[:4]), min(columns[4]), max(columns[5])) for columns in of_labels]

    def row_turn(self):
        while True:
            waited = self.stage == "waiting"
            self.turn()
            if self.stage == "idle" or (waited and self.stage == "waiting"):
                return


class Turns:
    """A thread: its events that are still to come, and what it owes."""

    def __init__(self, plan, number, seed, budget, recorder, locks):
        thread = Thread(plan, number, seed, budget)
        end = thread.to_its_end()
        self.name, self.events, self.end = thread.name, [*thread.events, ("end", end)], None
        self.number, self.recorder, self.locks = number, recorder, locks
        self.sample, self.steps, self.enters, self.raises, self.open, self.lines = None, [], None, False, None, []
        self.busy = False

    def owes(self):
        return bool(self.steps) or self.enters is not None or self.raises

    def has_settled(self):
        return self.end is not None and not self.owes()

    def turn(self):
        self.busy = False
        if self.steps:
            self.record(self.steps.pop(0))
        elif self.enters is not None:
            self.busy = self.locks.get(self.enters, False)
            if not self.busy:
                self.locks[self.enters], self.open, self.enters = True, self.enters, None
        elif self.raises:
            self.recorder.stop, self.raises = 1, False
        elif self.end is None:
            if self.recorder.stop:
                self.leave()
                self.end = "Stopped"
            else:
                self.happens(*self.events.pop(0))

    def row_turn(self):
        while True:
            self.turn()
            if self.busy or not self.owes():
                return

    def leave(self):
        if self.open is not None:
            self.locks[self.open], self.open = False, None

    def happens(self, what, value):
        if what == "sample":
            errors = [] if value["ok"] else [("add", 1, 1)]
            sums = [("add", 0, 1), *errors, ("add", 2, value["elapsed"]), ("add", 3, value["bytes"])]
            bounds = [("least", 4, value["elapsed"]), ("greatest", 5, value["elapsed"])]
            self.sample, self.steps = value, [("enter", 0, 0), ("load", 0, 0), *sums, *bounds, ("exit", 0, 0)]
        elif what == "enter":
            self.enters = value
        elif what == "leave":
            self.leave()
        elif what == "end":
            self.end, self.raises = value, value == "StopTest"

    def record(self, step):
        recorder, (what, column, value) = self.recorder, step
        if what == "enter":
            self.odd, recorder.start = recorder.start >= HALF, recorder.start + 1
        elif what == "load":
            self.interval = recorder.active
        elif what == "exit":
            recorder.ends[self.odd] += 1
            self.lines.append((self.sample, self.interval))
        else:
            row = self.number % STRIPES * len(recorder.labels) + recorder.labels.index(self.sample["label"])
            cells = recorder.tables[self.interval % 2][row]
            cells[column] = {"add": sum, "least": min, "greatest": max}[what]((cells[column], value))


def run(plan, seed, budget, schedule):
    """The recorder and the threads of a plan once the schedule and what comes after it are over."""
    locks, numbers = {}, range(len(threads_of(plan)))
    recorder = Recorder(Thread(plan, 0, seed, budget).labels)
    threads = [Turns(plan, number, seed, budget, recorder, locks) for number in numbers]
    for token in schedule.split(",") if schedule else []:
        if token in ("r", "R"):
            recorder.turn() if token == "r" else recorder.row_turn()
        elif int(token.rstrip("x")) in numbers:
            thread = threads[int(token.rstrip("x"))]
            thread.row_turn() if token.endswith("x") else thread.turn()
    while not all(thread.has_settled() for thread in threads):
        for thread in threads:
            thread.turn()
    while recorder.stage != "idle":
        recorder.turn()
    recorder.reports.append(recorder.folded(recorder.tables[recorder.active % 2]))
    return recorder, threads


def printed(plan, seed, budget, schedule):
    """The results and the report of a plan's threads by a schedule."""
    recorder, threads = run(plan, seed, budget, schedule)
    results = HEADER + "\n" + "".join(result_line(it.name, *line) for it in threads for line in it.lines)
    report = ""
    for number, rows in enumerate(recorder.reports):
        report += line_of("interval", number, sum(row[0] for row in rows), sum(row[1] for row in rows))
        report += "".join(line_of("row", number, label, *row) for label, row in zip(recorder.labels, rows) if row[0])
    report += summary_of(recorder.labels, [sample for it in threads for sample, _ in it.lines])
    return results, report + "".join(line_of("end", it.name, it.end) for it in threads)
