"""A model in Python of what `solo` prints: the meaning of a thread over its plan's own replies (docs/inside/MEANING.md).

It stands apart from the definitions and from the program, so that bench/compare.py can hold the program against it;
bench/weave_model.py stands on it. It knows controllers and samplers, but of templates only variables, `${__counter(TRUE)}`, and in `__jexl3` `${name}==NUMBER`
and `${__counter(TRUE)}<NUMBER`.
"""
import re
import struct

MOST = 2**32 - 1
ROUNDS = 16_777_216
LAST_OK = "JMeterThread.last_sample_ok"
CONTROLLERS = ("Simple", "OnceOnly", "Loop", "If", "While", "ForEach", "Switch", "Interleave", "Random", "RandomOrder",
               "Transaction", "CriticalSection")
HEADER = "timeStamp,elapsed,label,responseCode,responseMessage,threadName,success,failureMessage,bytes,interval"

NORMAL, NEXT_LOOP = "Normal", "NextLoop"
ACTIONS = {"continue": NORMAL, "nextLoop": NEXT_LOOP, "stopThread": "StopThread", "stopTest": "StopTest"}
PIECES = re.compile(r"\$\{__jexl3\(\$\{__counter\(TRUE\)\}<(\d+)\)\}|\$\{__jexl3\(\$\{(\w+)\}==(\d+)\)\}"
                    r"|(\$\{__counter\(TRUE\)\})|\$\{([\w.]+)\}")


class Words:
    """The random words of a thread: ChaCha8, its key the seed's eight bytes and 24 zeros, its stream the thread's."""

    def __init__(self, seed, stream):
        self.key, self.stream, self.block, self.ready = struct.pack("<Q", seed) + bytes(24), stream, 0, []

    def draw(self):
        if not self.ready:
            self.ready = self.next_block()
            self.block += 1
        low, high = self.ready[:2]
        del self.ready[:2]
        return low + (high << 32)

    def next_block(self):
        first = [0x61707865, 0x3320646E, 0x79622D32, 0x6B206574, *struct.unpack("<8I", self.key),
                 self.block & MOST, self.block >> 32, self.stream & MOST, self.stream >> 32]
        state = list(first)

        def mix(to, other, add, turn):
            state[to] = (state[to] + state[other]) & MOST
            word = state[add] ^ state[to]
            state[add] = ((word << turn) | (word >> (32 - turn))) & MOST

        def quarter(a, b, c, d):
            mix(a, b, d, 16)
            mix(c, d, b, 12)
            mix(a, b, d, 8)
            mix(c, d, b, 7)

        for _ in range(4):
            for column in range(4):
                quarter(column, 4 + column, 8 + column, 12 + column)
            for column in range(4):
                quarter(column, 4 + (column + 1) % 4, 8 + (column + 2) % 4, 12 + (column + 3) % 4)
        return [(word + start) & MOST for word, start in zip(state, first)]


def is_enabled(element):
    return element.get("enabled", True)


def name_of(element):
    return element.get("name", element["type"])


def children_of(element):
    return [it for it in element.get("children", []) if is_enabled(it) and it["type"] in (*CONTROLLERS, "Script")]


def in_tree_order(element):
    if is_enabled(element):
        yield element
        for child in element.get("children", []):
            yield from in_tree_order(child)


def is_number(text):
    return text.isascii() and text.isdigit()


def threads_of(plan):
    """For each thread of a plan its group, the number of that from 1, and the number of the thread in it from 0."""
    groups = [it for it in in_tree_order(plan) if it["type"] == "ThreadGroup"]
    return [(group, number, place) for number, group in enumerate(groups, 1)
            for place in range(group.get("props", {}).get("threads", 1))]


class Thread:
    """A thread of a plan, numbered from 0 over all groups."""

    def __init__(self, plan, thread, seed, budget):
        elements = list(in_tree_order(plan))
        self.group, number, place = threads_of(plan)[thread]
        self.name = f"{name_of(self.group)} {number}-{place + 1}"
        self.labels = list(dict.fromkeys(name_of(it) for it in elements if it["type"] in ("Script", "Transaction")))
        self.variables, self.counter, self.units, self.rounds = {}, 0, budget, ROUNDS
        props = self.group.get("props", {})
        self.clock = place * props.get("rampMs", 0) // props.get("threads", 1)
        self.words, self.places, self.replies = Words(seed, thread), {}, {}
        self.events, self.open = [], []
        for element in elements:
            if element["type"] == "UserVariables":
                for name, value in element["props"]["vars"]:
                    self.variables[name] = self.expand(value)
        self.variables[LAST_OK] = "true"

    def expand(self, template):
        return PIECES.sub(self.piece, str(template))

    def piece(self, found):
        below, name, number, counter, variable = found.groups()
        if below or counter:
            self.counter += 1
        if below:
            return str(self.counter < int(below)).lower()
        if name:
            return str(self.variables[name] == number).lower()
        return str(self.counter) if counter else self.variables.get(variable, found[0])

    def is_true(self, condition):
        return self.expand(condition).lower() == "true"

    def begin_round(self, element, index):
        """Whether a round is left; it is taken, and the index variable of a Loop, While or ForEach is set."""
        if self.rounds == 0:
            return False
        self.rounds -= 1
        self.variables[f"__jm__{name_of(element)}__idx"] = str(index)
        return True

    def in_order(self, children, index):
        for child in children:
            signal = self.run(child, index)
            if signal != NORMAL:
                return signal
        return NORMAL

    def in_rounds(self, element, begins):
        index = 0
        while begins(index):
            if not self.begin_round(element, index):
                return "RoundLimit"
            if element["type"] == "ForEach":
                self.variables[element["props"]["output"]] = self.each_value(element, index)
            signal = self.in_order(children_of(element), index)
            if signal != NORMAL:
                return signal
            index += 1
        return NORMAL

    def run(self, element, index):
        """Runs an element in the round of this index of the nearest group, Loop, While or ForEach; gives the signal."""
        run = getattr(self, "run_" + element["type"])
        return run(element, element.get("props", {}), children_of(element), index)

    def run_Simple(self, element, props, children, index):
        return self.in_order(children, index)

    def run_OnceOnly(self, element, props, children, index):
        return self.in_order(children, index) if index == 0 else NORMAL

    def run_Loop(self, element, props, children, index):
        text = self.expand(props.get("loops", "1"))
        rounds = int(text) if is_number(text) else 0
        return self.in_rounds(element, lambda number: text == "-1" or number < rounds)

    def run_While(self, element, props, children, index):
        condition = props.get("condition", "")
        return self.in_rounds(element, lambda number: self.goes_on(self.expand(condition), number))

    def goes_on(self, text, number):
        succeeded = self.variables.get(LAST_OK) == "true"
        if not text.strip(" "):
            return number == 0 or succeeded
        return succeeded if text == "LAST" else text.lower() != "false"

    def run_ForEach(self, element, props, children, index):
        return self.in_rounds(element, lambda number: self.each_value(element, number) is not None)

    def each_value(self, element, index):
        props = element["props"]
        separator, number = "_" if props.get("separator", True) else "", props.get("start", 0) + 1 + index
        past = number > props.get("end", MOST)
        return None if past else self.variables.get(f"{props['input']}{separator}{number}")

    def run_If(self, element, props, children, index):
        if not props.get("all", False):
            return self.in_order(children, index) if self.is_true(props["condition"]) else NORMAL
        for child in children:
            if not self.is_true(props["condition"]):
                return NORMAL
            signal = self.run(child, index)
            if signal != NORMAL:
                return signal
        return NORMAL

    def run_Interleave(self, element, props, children, index):
        if not children:
            return NORMAL
        place = self.places.get(id(element), 0)
        self.places[id(element)] = (place + 1) % len(children)
        return self.run(children[place], index)

    def run_Random(self, element, props, children, index):
        return self.run(children[self.words.draw() % len(children)], index) if children else NORMAL

    def run_RandomOrder(self, element, props, children, index):
        for last in range(len(children) - 1, 0, -1):
            other = self.words.draw() % (last + 1)
            children[last], children[other] = children[other], children[last]
        return self.in_order(children, index)

    def run_Switch(self, element, props, children, index):
        text = self.expand(props.get("value", ""))
        if not children:
            return NORMAL
        if text == "" or is_number(text):
            place = int(text or "0")
            return self.run(children[place if place < len(children) else 0], index)
        named = [it for it in children if name_of(it) == text]
        named += [it for it in children if name_of(it).lower() == "default"]
        return self.run(named[0], index) if named else NORMAL

    def run_Transaction(self, element, props, children, index):
        heard = []
        self.open.append(heard)
        signal = self.in_order(children, index)
        self.open.pop()
        if not heard or signal not in ACTIONS.values():
            return signal
        if self.units == 0:
            return "SampleLimit"
        self.units -= 1
        failed = sum(not it["ok"] for it in heard)
        message = f"Number of samples in transaction : {len(heard)}, number of failing samples : {failed}"
        sums = {part: min(sum(it[part] for it in heard), MOST) for part in ("elapsed", "bytes")}
        own = {"label": name_of(element), "code": 0 if failed else 200, "message": message, "ok": not failed}
        self.events.append(("sample", {"stamp": heard[0]["stamp"], **own, **sums}))
        return signal

    def run_CriticalSection(self, element, props, children, index):
        if self.units == 0:
            return "SampleLimit"
        self.units -= 1
        self.events.append(("enter", props["lock"]))
        signal = self.in_order(children, index)
        self.events.append(("leave", props["lock"]))
        return signal

    def run_Script(self, element, props, children, index):
        if self.units == 0:
            return "SampleLimit"
        self.units -= 1
        request = self.expand(props.get("request", ""))
        place, stamp = self.replies.get(id(element), 0), self.clock
        reply = props["replies"][place]
        self.replies[id(element)] = (place + 1) % len(props["replies"])
        self.clock += reply.get("ms", 0)
        if reply.get("null"):
            self.events.append(("null", None))
            return NORMAL
        code, message = reply.get("code", 200), reply.get("message", "OK")
        body = request if reply.get("echo") else reply.get("body", "")
        if reply.get("fault"):
            code, message, body = 0, "fault", ""
        sample = {"stamp": stamp, "elapsed": min(self.clock - stamp, MOST), "label": name_of(element), "code": code,
                  "message": message, "ok": 200 <= code < 400, "bytes": len(body.encode())}
        self.variables[LAST_OK] = str(sample["ok"]).lower()
        for heard in self.open:
            heard.append(sample)
        self.events.append(("sample", sample))
        return NORMAL if sample["ok"] else ACTIONS[self.group.get("props", {}).get("onError", "continue")]

    def to_its_end(self):
        rounds, index = self.group.get("props", {}).get("loops", 1), 0
        while rounds == -1 or index < rounds:
            if self.rounds == 0:
                return "RoundLimit"
            self.rounds -= 1
            signal = self.in_order(children_of(self.group), index)
            if signal not in (NORMAL, NEXT_LOOP):
                return signal
            index += 1
        return "Completed"


def field_of(value):
    text = str(value)
    return '"' + text.replace('"', '""') + '"' if any(mark in text for mark in ',"\r\n') else text


def line_of(*fields):
    return ",".join(map(field_of, fields)) + "\n"


def result_line(name, sample, interval):
    fields = [sample[part] for part in ("stamp", "elapsed", "label", "code", "message")]
    return line_of(*fields, name, str(sample["ok"]).lower(), "", sample["bytes"], interval)


def summary_of(labels, samples):
    """The lines of the labels that have samples, in their order, and of all of them."""
    report, sums = "", [0, 0, 0, 0]
    for label in labels:
        of_label = [it for it in samples if it["label"] == label]
        if of_label:
            times = [it["elapsed"] for it in of_label]
            row = [len(of_label), sum(not it["ok"] for it in of_label), sum(times), sum(it["bytes"] for it in of_label)]
            sums = [one + other for one, other in zip(sums, row)]
            report += line_of("total", label, *row, min(times), max(times))
    return report + line_of("all", *sums)


def printed(plan, thread, seed, budget):
    """The results and the report of a plan's thread."""
    thread = Thread(plan, thread, seed, budget)
    end = thread.to_its_end()
    samples = [it for what, it in thread.events if what == "sample"]
    results = HEADER + "\n" + "".join(result_line(thread.name, it, 0) for it in samples)
    return results, summary_of(thread.labels, samples) + line_of("end", thread.name, end)
