#!/usr/bin/env python3
"""A second reading of the rules: the report of a task sheet, event by event.

It was written from the rules alone (docs/), shares no code with henri, and made the reports beside the sheets of this
folder. It is slow, proves nothing, and takes the sheet to be right: what is looked at is what an admitted sheet does.

    simulate.py [--check | --trace | --quiet] [--deadlines] SHEET

With --deadlines the high jobs go by earliest deadlines, as hk_edf does it.
"""
import sys
import tomllib

PLACES = {"get": 3, "put": 3, "load": 10, "store": 7, "move": 3, "clear": 1, "new": 7}
MASK = (1 << 64) - 1


# References: the object's number plus one, and its shape.
def reference(number, refs, nums):
    return (number + 1) + (refs << 20) + (nums << 28)


def number_of(ref):
    return (ref & 0xFFFFF) - 1


def refs_of(ref):
    return (ref >> 20) & 0xFF


def nums_of(ref):
    return (ref >> 28) & 0xFF


def size_of(ref):
    return 1 + refs_of(ref) + nums_of(ref)


class Guard:
    """A header or a frame word: who is inside, what it holds, and its version."""

    def __init__(self, held=0):
        self.inside, self.held, self.version = 0, held, 0

    def word(self):
        return (self.inside, self.held, self.version)

    def enter(self):
        self.inside += 1
        self.version += 1
        return self.held

    def leave(self):
        self.inside -= 1


class Heap:
    """The words of the heap. An operation is a generator that does one place at each turn."""

    def __init__(self, keys, high, low):
        self.live, self.alloc, self.reserve = keys["live"], keys["alloc"], keys["reserve"]
        self.high, self.seats = high, high + low
        self.registers = keys.get("registers", 8)
        self.half = self.alloc // 2
        self.space = self.live + self.alloc
        self.words = self.objects = self.reserved = 0
        self.cycle = 1
        numbers = self.live // 2 + self.alloc
        self.headers = [Guard() for _ in range(numbers)]
        self.marks = [0] * numbers
        self.frames = [Guard() for _ in range(self.seats)]
        self.lists = [[0] * self.half, [0] * self.half]
        self.cells = [0] * (1 + 2 * self.space)
        self.headers[0].held = self.place(1, 0)
        self.marks[0] = 1
        for entry in range(self.half):
            self.lists[1][entry], self.marks[1 + entry] = 1 + entry, 1
            later = self.half + 1 + entry
            self.lists[0][entry], self.marks[later] = later, 2
        board = reference(0, *keys["board"])
        self.register = [[board] + [0] * (self.registers - 1) for _ in range(self.seats)]

    def place(self, space, word):
        return 1 + space * self.space + word

    def in_old_space(self, place):
        return place != 0 and (place - 1) // self.space != self.cycle % 2

    def claim(self, ref, cycle):
        old = self.marks[number_of(ref)]
        self.marks[number_of(ref)] = max(old, cycle)
        return old < cycle

    def take_reserve(self, ref):
        offset = self.reserved
        self.reserved += size_of(ref)
        return offset

    def fits(self, ref, offset):
        return offset + size_of(ref) <= self.live

    def link(self, ref, offset, cycle):
        if self.fits(ref, offset):
            self.cells[self.place(cycle % 2, offset)] = ref

    def get(self, seat, reg, field):
        ref = self.register[seat][reg]
        header = self.headers[number_of(ref)]
        place = header.enter()
        yield
        value = self.cells[place + 1 + refs_of(ref) + field]
        yield
        header.leave()
        return value

    def put(self, seat, reg, field, value):
        ref = self.register[seat][reg]
        header = self.headers[number_of(ref)]
        place = header.enter()
        yield
        self.cells[place + 1 + refs_of(ref) + field] = value
        yield
        header.leave()

    def move(self, seat, dest, source):
        ref = self.register[seat][source]
        self.frames[seat].enter()
        yield
        self.register[seat][dest] = ref
        yield
        self.frames[seat].leave()

    def clear(self, seat, dest):
        self.register[seat][dest] = 0
        return
        yield

    def settle(self, ref, cycle):
        """The three places of an operation that claim, reserve and link; rests where there is nothing to do."""
        claimer = bool(ref) and self.claim(ref, cycle)
        yield
        offset = self.take_reserve(ref) if claimer else None
        yield
        if claimer:
            self.link(ref, offset, cycle)
        yield

    def load(self, seat, dest, reg, field):
        header = self.headers[number_of(self.register[seat][reg])]
        self.frames[seat].enter()
        yield
        place = header.enter()
        yield
        cycle = self.cycle
        yield
        ref = self.cells[place + 1 + field]
        yield
        yield from self.settle(ref, cycle)
        self.register[seat][dest] = ref
        yield
        header.leave()
        yield
        self.frames[seat].leave()

    def store(self, seat, reg, field, source):
        header = self.headers[number_of(self.register[seat][reg])]
        ref = self.register[seat][source]
        place = header.enter()
        yield
        cycle = self.cycle
        yield
        yield from self.settle(ref, cycle)
        self.cells[place + 1 + field] = ref
        yield
        header.leave()

    def new(self, seat, dest, refs, nums, took):
        size = 1 + refs + nums
        room = self.alloc if seat < self.high else self.alloc - self.reserve
        assert self.words + size <= room, "no room at the first place"
        yield
        self.frames[seat].enter()
        yield
        word, entry, cycle = self.words, self.objects, self.cycle
        self.words += size
        self.objects += 1
        assert word + size <= self.alloc, "no room at the third place"
        took(size)
        yield
        number = self.lists[cycle % 2][entry]
        yield
        self.headers[number] = Guard(self.place(cycle % 2, self.live + word))
        yield
        self.register[seat][dest] = reference(number, refs, nums)
        yield
        self.frames[seat].leave()

    def shade(self, ref, cycle):
        """The collector's events on a reference that it found."""
        if ref:
            claimer = self.claim(ref, cycle)
            yield "step"
            if claimer:
                offset = self.take_reserve(ref)
                yield "step"
                if self.fits(ref, offset):
                    self.link(ref, offset, cycle)
                    yield "step"

    def blacken(self, seat, cycle):
        frame = self.frames[seat]
        while True:
            events, seen = 1, frame.word()
            yield "step"
            for reg in range(self.registers):
                ref = self.register[seat][reg]
                events += 1
                yield "step"
                for event in self.shade(ref, cycle):
                    events += 1
                    yield event
            events += 1
            if frame.word() == seen:
                frame.held = cycle
                yield "step"
                return
            yield f"lost {events}"

    def copy(self, ref, new_place, cycle):
        header = self.headers[number_of(ref)]
        while True:
            events, seen = 1, header.word()
            yield "step"
            for cell in range(size_of(ref) - 1):
                value = self.cells[seen[1] + 1 + cell]
                events += 1
                yield "step"
                if cell < refs_of(ref):
                    for event in self.shade(value, cycle):
                        events += 1
                        yield event
                self.cells[new_place + 1 + cell] = value
                events += 1
                yield "step"
            events += 1
            if header.word() == seen:
                header.held = new_place
                yield "step"
                return
            yield f"lost {events}"

    def scan(self, cycle):
        offset = 0
        while True:
            reserved = self.reserved
            while reserved > self.live:
                yield f"live {reserved}"
            yield "step"
            if reserved == offset:
                return
            place = self.place(cycle % 2, offset)
            ref = self.cells[place]
            yield "step"
            yield from self.copy(ref, place, cycle)
            offset += size_of(ref)

    def collector(self):
        """One event at each turn, cycle after cycle."""
        while True:
            self.words = self.objects = 0
            self.cycle += 1
            cycle = self.cycle
            yield "flip"
            for seat in range(self.seats):
                yield from self.blacken(seat, cycle)
            yield from self.scan(cycle)
            for number, mark in enumerate(self.marks):
                yield "step"
                if mark == cycle:
                    assert not self.in_old_space(self.headers[number].held), "grey"
                    yield "step"
            yield from self.sweep(cycle)
            old = ((cycle + 1) % 2) * self.space
            for word in range(self.space):
                self.cells[1 + old + word] = 0
                yield "step"
            self.reserved = 0
            yield "step"

    def sweep(self, cycle):
        entry = number = 0
        while entry < self.half:
            mark = self.marks[number]
            yield "step"
            if mark < cycle:
                self.lists[(cycle + 1) % 2][entry] = number
                entry += 1
                yield "step"
                self.marks[number] = cycle + 1
                yield "step"
                self.headers[number] = Guard()
                yield "step"
            number += 1


class Script:
    """The statements of a script, and where its blocks part and end."""

    def __init__(self, text):
        lines = [line.split("#")[0].split() for line in text.split("\n")]
        self.statements = [words for words in lines if words]
        self.parts, self.opener, open_blocks = {}, {}, []
        for at, words in enumerate(self.statements):
            if words[0] in ("if", "repeat"):
                open_blocks.append(at)
                self.parts[at] = [None, None]
            elif words[0] == "else":
                self.parts[open_blocks[-1]][0] = at
            elif words[0] == "end":
                block = open_blocks.pop()
                self.opener[at] = block
                self.parts[block][1] = at
                if self.parts[block][0] is not None:
                    self.opener[self.parts[block][0]] = block
        self.cost, self.words, self.largest = self.bounds(0, len(self.statements))

    def bounds(self, at, end):
        """The most ticks and words of a stretch, and its largest object."""
        cost = words = largest = 0
        while at < end:
            words_of = self.statements[at]
            kind = words_of[0]
            if kind == "if":
                middle, last = self.parts[at]
                first = self.bounds(at + 1, middle if middle is not None else last)
                second = self.bounds(middle + 1, last) if middle is not None else (0, 0, 0)
                cost += 1 + max(first[0], second[0])
                words += max(first[1], second[1])
                largest = max(largest, first[2], second[2])
                at = last + 1
            elif kind == "repeat":
                turns, last = int(words_of[1]), self.parts[at][1]
                block = self.bounds(at + 1, last)
                cost += turns * block[0] + turns + 1
                words += turns * block[1]
                largest = max(largest, block[2])
                at = last + 1
            else:
                cost += int(words_of[1]) if kind == "work" else PLACES.get(kind, 1)
                if kind == "new":
                    size = 1 + int(words_of[2]) + int(words_of[3])
                    words += size
                    largest = max(largest, size)
                at += 1
        return cost, words, largest


class Task:
    def __init__(self, keys, seat, high):
        self.keys, self.seat, self.high = keys, seat, high
        self.name = keys["name"]
        self.script = Script(keys["script"])
        self.latest = 0
        self.start(0)

    def start(self, job):
        self.job, self.at, self.variables = job, 0, [0] * 8
        self.operation, self.worked, self.turns = None, 0, {}

    def arrival(self, job):
        if "arrivals" in self.keys:
            arrivals = self.keys["arrivals"]
            return arrivals[job] if job < len(arrivals) else None
        return self.keys["first"] + job * self.keys["every"]

    def ready(self, tick):
        arrival = self.arrival(self.job)
        if arrival is None:
            return False
        delay = self.job * self.keys.get("lag", 0) % (self.keys.get("jitter", 0) + 1)
        return arrival + delay <= tick


def starts(window, period):
    return -(-window // period)


class Session:
    def __init__(self, sheet, form):
        self.sheet, self.form, self.lines = sheet, form, []
        high, low = sheet.get("high", []), sheet.get("low", [])
        self.high = [Task(keys, seat, True) for seat, keys in enumerate(high)]
        self.low = [Task(keys, len(high) + place, False) for place, keys in enumerate(low)]
        self.heap = Heap(sheet["heap"], len(high), len(low))
        self.collector = self.heap.collector()
        self.debt = self.flips = self.events = self.idle = 0

    def took(self, words):
        self.debt += self.sheet["heap"]["rate"] * words

    def late(self):
        """Fixed priorities: the response of each high task, or the line of the first whose response is beyond its deadline."""
        responses = []
        for place, task in enumerate(self.high):
            own, before = task.keys, [other.keys for other in self.high[:place]]
            window = own["cost"]
            while True:
                asked = own["cost"] + sum(
                    starts(window + k.get("jitter", 0), k["period"]) * k["cost"] for k in before
                )
                if asked + own.get("jitter", 0) > own["deadline"]:
                    return [], f"refused response {task.name}"
                if asked == window:
                    break
                window = asked
            responses.append(window + own.get("jitter", 0))
        lines = [
            f"high {task.name} response {response} deadline {task.keys['deadline']}"
            for task, response in zip(self.high, responses)
        ]
        return lines, None

    def beyond(self, busy):
        """Nothing more is asked of a sheet that goes by fixed priorities, once its heap has room."""
        return None

    def analysis(self):
        """The lines of the analysis, or of the refusal, and the status."""
        heap, tasks = self.heap, self.high + self.low
        rate, board = self.sheet["heap"]["rate"], 1 + sum(self.sheet["heap"]["board"])
        frame = 2 + 4 * heap.registers
        work = 3 + frame * len(tasks) + 9 * heap.live + 7 * heap.alloc
        largest = max([board] + [task.script.largest for task in tasks])
        largest_low = max([0] + [task.script.largest for task in self.low])
        attempt = max(frame, 2 + 5 * (largest - 1)) if any(t.script.largest for t in tasks) else 0
        for task in self.high:
            if task.script.cost > task.keys["cost"]:
                return [f"refused cost {task.name} need {task.script.cost} declared {task.keys['cost']}"], 6
        for task in self.high:
            if task.script.words > task.keys["words"]:
                return [f"refused words {task.name} need {task.script.words} declared {task.keys['words']}"], 6
        high_lines, refused = self.late()
        if refused:
            return [refused], 6
        owed_low = rate * largest_low + attempt if self.low else 0
        base = 10 + owed_low if self.low else 0
        owed = [(k.keys, rate * k.keys["words"] + attempt) for k in self.high]
        busy = max(1, base)
        while True:
            asked = base + sum(
                starts(busy + k.get("jitter", 0), k["period"]) * (k["cost"] + events) for k, events in owed
            )
            if max(1, asked) == busy:
                break
            busy = asked
            if busy > 2**24:
                return ["refused busy"], 6
        debt = owed_low + sum(starts(busy + k.get("jitter", 0), k["period"]) * events for k, events in owed)
        have = rate * max(0, heap.alloc - heap.reserve - largest_low)
        if have < work:
            return [f"refused rate have {have} need {work}"], 6
        if rate * heap.reserve < debt:
            return [f"refused reserve have {rate * heap.reserve} need {debt}"], 6
        refused = self.beyond(busy)
        if refused:
            return [refused], 6
        lines = [f"heap work {work} attempt {attempt} busy {busy} debt {debt}"]
        return lines + high_lines + [f"low {task.name}" for task in self.low], 0

    def chosen(self, ready):
        """Of the high tasks with a ready job, in the order of the sheet, the one that goes first."""
        return ready[0]

    def turn(self, tick):
        """Who gets the tick, by the five rules."""
        ready = [task for task in self.high if task.ready(tick)]
        if ready:
            return self.chosen(ready)
        for task in self.low:
            if task.operation is not None:
                return task
        if self.debt > 0:
            return self.collector
        for task in self.low:
            if task.ready(tick):
                return task
        return None

    def settle(self, task):
        """Goes past `else` and `end`, which take no tick."""
        script = task.script
        while task.at < len(script.statements):
            kind = script.statements[task.at][0]
            if kind == "else":
                task.at = script.parts[script.opener[task.at]][1] + 1
            elif kind == "end":
                block = script.opener[task.at]
                if script.statements[block][0] == "repeat":
                    task.at = block
                    return
                task.at += 1
            else:
                return

    def begin(self, task, words):
        """Begins an operation, or tells why it can't be begun."""
        kind, seat, heap = words[0], task.seat, self.heap
        reg = lambda at: int(words[at][1:])
        if kind in ("get", "put", "load", "store"):
            at = 2 if kind in ("get", "load") else 1
            ref, field = heap.register[seat][reg(at)], int(words[at + 1])
            if not ref:
                return "nil"
            if field >= (nums_of(ref) if kind in ("get", "put") else refs_of(ref)):
                return "field"
        task.operation = {
            "get": lambda: heap.get(seat, reg(2), int(words[3])),
            "put": lambda: heap.put(seat, reg(1), int(words[2]), task.variables[reg(3)]),
            "load": lambda: heap.load(seat, reg(1), reg(2), int(words[3])),
            "store": lambda: heap.store(seat, reg(1), int(words[2]), reg(3)),
            "move": lambda: heap.move(seat, reg(1), reg(2)),
            "clear": lambda: heap.clear(seat, reg(1)),
            "new": lambda: heap.new(seat, reg(1), int(words[2]), int(words[3]), self.took),
        }[kind]()
        return None

    def holds(self, task, words):
        reg = lambda at: int(words[at][1:])
        if len(words) == 4 and words[2] == "<":
            return task.variables[reg(1)] < task.variables[reg(3)]
        if len(words) == 4 and words[2] == "=":
            return task.variables[reg(1)] == task.variables[reg(3)]
        registers = self.heap.register[task.seat]
        if words[1] == "same":
            return registers[reg(2)] == registers[reg(3)]
        return registers[reg(2)] == 0

    def give(self, task):
        """Gives a tick to a task: what it puts out, the fault that it met, and whether its job ended."""
        self.settle(task)
        words = task.script.statements[task.at]
        kind, variables, out = words[0], task.variables, None
        var = lambda at: int(words[at][1:])
        if kind in PLACES:
            if task.operation is None:
                fault = self.begin(task, words)
                if fault:
                    return None, (task.at + 1, fault), True
            try:
                next(task.operation)
                return None, None, False
            except StopIteration as end:
                task.operation = None
                if kind == "get":
                    variables[var(1)] = end.value
                task.at += 1
        elif kind == "work":
            task.worked += 1
            if task.worked < int(words[1]):
                return None, None, False
            task.worked = 0
            task.at += 1
        elif kind == "if":
            middle, last = task.script.parts[task.at]
            if self.holds(task, words):
                task.at += 1
            else:
                task.at = (middle if middle is not None else last) + 1
        elif kind == "repeat":
            left = task.turns.get(task.at, int(words[1]))
            if left > 0:
                task.turns[task.at] = left - 1
                task.at += 1
            else:
                task.turns.pop(task.at, None)
                task.at = task.script.parts[task.at][1] + 1
        else:
            if kind == "set":
                variables[var(1)] = int(words[2])
            elif kind == "copy":
                variables[var(1)] = variables[var(2)]
            elif kind == "add":
                variables[var(1)] = (variables[var(1)] + variables[var(2)]) & MASK
            elif kind == "sub":
                variables[var(1)] = (variables[var(1)] - variables[var(2)]) & MASK
            elif kind == "job":
                variables[var(1)] = task.job
            elif kind == "out":
                out = variables[var(1)]
            task.at += 1
        self.settle(task)
        return out, None, task.at >= len(task.script.statements)

    def trace(self, line):
        if self.form == "trace":
            self.lines.append(line)

    def task_tick(self, task, tick):
        job = task.job
        self.trace(f"t {tick} {'high' if task.high else 'low'} {task.name}")
        out, fault, ended = self.give(task)
        if self.form != "quiet":
            if out is not None:
                self.lines.append(f"out {tick} {task.name} {out}")
            if fault:
                self.lines.append(f"fault {tick} {task.name} {job} {fault[0]} {fault[1]}")
        if ended:
            stay = tick + 1 - task.arrival(job)
            task.latest = max(task.latest, stay)
            self.trace(f"ended {tick} {task.name} {job} {stay}")
            task.start(job + 1)

    def run(self):
        self.lines, status = self.analysis()
        if status or self.form == "check":
            return status
        for tick in range(self.sheet["ticks"]):
            got = self.turn(tick)
            if got is None:
                self.idle += 1
                self.trace(f"t {tick} idle")
            elif got is self.collector:
                event = next(self.collector)
                self.events += 1
                self.debt -= 1
                kind, *count = event.split()
                self.flips += kind == "flip"
                self.trace(f"t {tick} gc {kind if kind == 'live' else event}")
                if kind == "lost":
                    self.debt += int(count[0])
                if kind == "live":
                    self.lines.append(f"live {tick} {count[0]} above {self.heap.live}")
                    return 7
            else:
                self.task_tick(got, tick)
        for task in self.high + self.low:
            self.lines.append(f"done {task.name} jobs {task.job} latest {task.latest}")
        self.lines.append(f"cycles {self.flips} collector {self.events} idle {self.idle}")
        self.lines.append(f"end {self.sheet['ticks']}")
        return 0


class DeadlineSession(Session):
    """A session whose high jobs go by earliest deadlines."""

    def late(self):
        return [f"high {task.name} deadline {task.keys['deadline']}" for task in self.high], None

    def beyond(self, busy):
        """A jitter, or the least time within which more is due than there are ticks."""
        for task in self.high:
            if task.keys.get("jitter", 0):
                return f"refused jitter {task.name}"
        due = [0] * (busy + 1)
        for task in self.high:
            for deadline in range(task.keys["deadline"], busy + 1, task.keys["period"]):
                due[deadline] += task.keys["cost"]
        asked = 0
        for time in range(1, busy + 1):
            asked += due[time]
            if asked > time:
                return f"refused demand {time}"
        return None

    def chosen(self, ready):
        return min(ready, key=lambda task: task.arrival(task.job) + task.keys["deadline"])


def main():
    forms = [word[2:] for word in sys.argv[1:] if word.startswith("--")]
    (path,) = [word for word in sys.argv[1:] if not word.startswith("--")]
    kind = DeadlineSession if "deadlines" in forms else Session
    (form,) = [form for form in forms if form != "deadlines"] or ["plain"]
    with open(path, "rb") as file:
        session = kind(tomllib.load(file), form)
    status = session.run()
    print("\n".join(session.lines))
    sys.exit(status)


if __name__ == "__main__":
    main()
