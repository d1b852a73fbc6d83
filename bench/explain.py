#!/usr/bin/env python3
"""Is there an order of heap calls that explains what a race told? A checker that has nothing of the program in it.

It reads a task sheet and texts that races of it wrote, and looks for an order of the jobs' heap calls, each task's own
in theirs, on a heap that never collects, by which every line of the text comes: each output, each fault, each count of
jobs, and each `full`, which a `new` may answer where the words that it found leave too few. Of a line `live` it looks
only at the form and at the numbers.

The search tries the calls that may come next one after another, and remembers the states that led nowhere: where each
task stands, and what is in the objects that can still be reached. Two things make it short. What a task does to its
own registers, and to objects that no other task has a way to, is done at once, since no other task can tell when. And
a number that the text itself tells is read as soon as it is there: the read changes nothing, and a later one would have
to find the same number.

Words: a sheet, and texts. With `--one-by-one` first, it also counts the texts that come by the tasks one after another,
in some order. With `--most N` first, it gives up a text after N states (1,000,000). A line for each text that isn't
explained, and a last line with the counts. Ends with 0 where every text was explained.
"""

import itertools
import sys
import tomllib
from typing import NamedTuple

MODULUS = 1 << 64
MOST_STATES = 1_000_000


class Statement(NamedTuple):
    """A statement of a script. `other` is the place where it goes on if it doesn't go on with the next one."""

    word: str
    arguments: tuple
    other: int


class Task(NamedTuple):
    seat: int
    name: str
    is_high: bool
    script: tuple
    jobs: int


class Sheet(NamedTuple):
    tasks: tuple
    board: tuple
    registers: int
    live: int
    alloc: int
    reserve: int


class Told(NamedTuple):
    """What the text says of a task: its outputs and faults, and how it ended."""

    notes: tuple
    ending: tuple


class Stand(NamedTuple):
    """Where a task stands. `place` is None once it has ended; `told` is the count of its notes so far."""

    job: int
    place: int | None
    turns: tuple
    variables: tuple
    registers: tuple
    told: int
    made: int


class Thing(NamedTuple):
    """An object. It is shared where another task may have a way to it."""

    refs: tuple
    nums: tuple
    is_shared: bool


class Differs(Exception):
    """What a task does isn't what the text says of it."""


# THE SHEET


def read_script(text):
    """The statements of a script."""
    rows = [line.split("#")[0].split() for line in text.split("\n")]
    rows = [row for row in rows if row]
    other = [0] * len(rows)
    begun = []
    for place, row in enumerate(rows):
        match row[0]:
            case "if" | "repeat":
                begun.append([place])
            case "else":
                begun[-1].append(place)
            case "end":
                first, *elses = begun.pop()
                other[place] = first if rows[first][0] == "repeat" else place + 1
                other[first] = elses[0] + 1 if elses else place + 1
                for one in elses:
                    other[one] = place + 1
    return tuple(Statement(row[0], tuple(map(argument, row[1:])), other[place]) for place, row in enumerate(rows))


def argument(word):
    """The number of a register, of a variable or in digits; other words stand for themselves."""
    digits = word[1:] if word[0] in "rv" else word
    return int(digits) if digits.isdigit() else word


def jobs_of(task, ticks):
    """How many jobs arrive before the last tick."""
    if "arrivals" in task:
        return sum(tick < ticks for tick in task["arrivals"])
    return max(0, -(-(ticks - task["first"]) // task["every"]))


def read_sheet(path):
    with open(path, "rb") as file:
        sheet = tomllib.load(file)
    heap = sheet["heap"]
    rows = [(task, True) for task in sheet.get("high", [])] + [(task, False) for task in sheet.get("low", [])]
    tasks = tuple(
        Task(seat, task["name"], is_high, read_script(task["script"]), jobs_of(task, sheet["ticks"]))
        for seat, (task, is_high) in enumerate(rows)
    )
    return Sheet(tasks, tuple(heap["board"]), heap.get("registers", 8), heap["live"], heap["alloc"], heap["reserve"])


# THE TEXT


def number(word):
    if not word.isdigit() or str(int(word)) != word or int(word) >= MODULUS:
        raise Differs
    return int(word)


def read_text(sheet, text):
    """What a text says of each task."""
    lines = [line.split(" ") for line in text.split("\n")]
    if lines[-1] != [""]:
        raise Differs
    lines = iter(lines[:-1])
    told = []
    for task in sheet.tasks:
        notes = []
        while True:
            match next(lines, None):
                case ["out", task.name, value]:
                    notes.append(("out", number(value)))
                case ["fault", task.name, job, statement, ("nil" | "field") as cause]:
                    notes.append(("fault", number(job), number(statement), cause))
                case ["done", task.name, "jobs", jobs]:
                    ending = ("done", number(jobs))
                    break
                case ["full", task.name, words]:
                    ending = ("full", number(words))
                    break
                case _:
                    raise Differs
        told.append(Told(tuple(notes), ending))
    rest = list(lines)
    if len(rest) == 2:
        match rest.pop(0):
            case ["live", words, "above", declared] if number(words) > number(declared) == sheet.live:
                pass
            case _:
                raise Differs
    if rest != [["end"]]:
        raise Differs
    return told


# WHAT A TASK DOES BY ITSELF


def note(stand, told, what):
    """The task tells something."""
    if stand.told == len(told.notes) or told.notes[stand.told] != what:
        raise Differs
    return stand._replace(told=stand.told + 1)


def next_job(task, told, stand):
    """The job has ended; the next one begins, or the task ends."""
    stand = stand._replace(job=stand.job + 1)
    if stand.job < task.jobs:
        return stand._replace(place=0, turns=(), variables=(0,) * 8)
    if told.ending != ("done", stand.job) or stand.told != len(told.notes):
        raise Differs
    return stand._replace(place=None)


def with_one(values, place, value):
    """The values with another one at a place."""
    return values[:place] + type(values)([value]) + values[place + 1 :]


def fault_of(statement, stand, things):
    """Why a call through a register isn't done, if it isn't."""
    register, field = statement.arguments[:2] if statement.word in ("put", "store") else statement.arguments[1:3]
    through = stand.registers[register]
    if through is None:
        return "nil"
    thing = things[through]
    cells = thing.nums if statement.word in ("get", "put") else thing.refs
    return None if field < len(cells) else "field"


def through_of(statement):
    """The register that a call goes through."""
    return statement.arguments[0 if statement.word in ("put", "store") else 1]


def holds(test, variables, registers):
    match test:
        case ("null", register):
            return registers[register] is None
        case ("same", one, other):
            return registers[one] == registers[other]
        case (one, "<", other):
            return variables[one] < variables[other]
        case (one, "=", other):
            return variables[one] == variables[other]


def move_on(task, stand, statement):
    """A statement that takes nothing of the heap, but registers and variables."""
    place, turns = stand.place + 1, stand.turns
    variables, registers = stand.variables, stand.registers
    match statement.word, statement.arguments:
        case "set", (to, value):
            variables = with_one(variables, to, value)
        case "copy", (to, other):
            variables = with_one(variables, to, variables[other])
        case "add", (to, other):
            variables = with_one(variables, to, (variables[to] + variables[other]) % MODULUS)
        case "sub", (to, other):
            variables = with_one(variables, to, (variables[to] - variables[other]) % MODULUS)
        case "job", (to,):
            variables = with_one(variables, to, stand.job)
        case "move", (to, other):
            registers = with_one(registers, to, registers[other])
        case "clear", (to,):
            registers = with_one(registers, to, None)
        case "if", test:
            place = place if holds(test, variables, registers) else statement.other
        case "else", ():
            place = statement.other
        case "end", ():
            place = statement.other
        case "repeat", (times,):
            # a block without statements is passed by
            if task.script[place].word == "end":
                place += 1
            elif not turns or turns[-1][0] != stand.place:
                turns += ((stand.place, times - 1),)
            elif turns[-1][1] > 0:
                turns = turns[:-1] + ((stand.place, turns[-1][1] - 1),)
            else:
                place, turns = skipped(task, stand.place), turns[:-1]
        case "work", _:
            pass
        case _:
            raise ValueError(statement)
    return stand._replace(place=place, turns=turns, variables=variables, registers=registers)


def skipped(task, place):
    """The place behind a block."""
    return task.script[place].other


def shared_from(things, birth):
    """An object becomes shared, with all that it refers to."""
    left = [birth]
    while left:
        one = left.pop()
        if one is not None and not things[one].is_shared:
            things[one] = things[one]._replace(is_shared=True)
            left.extend(things[one].refs)


def call(_task, stand, statement, things):
    """A call that is done. `things` is changed."""
    variables, registers = stand.variables, stand.registers
    match statement.word, statement.arguments:
        case "get", (to, register, field):
            variables = with_one(variables, to, things[registers[register]].nums[field])
        case "load", (to, register, field):
            registers = with_one(registers, to, things[registers[register]].refs[field])
        case "put", (register, field, value):
            thing = things[registers[register]]
            things[registers[register]] = thing._replace(nums=with_one(thing.nums, field, variables[value]))
        case "store", (register, field, other):
            thing = things[registers[register]]
            things[registers[register]] = thing._replace(refs=with_one(thing.refs, field, registers[other]))
            if thing.is_shared:
                shared_from(things, registers[other])
    return stand._replace(place=stand.place + 1, variables=variables, registers=registers)


class Search:
    """The search for one text."""

    def __init__(self, sheet, told, most):
        self.sheet = sheet
        self.told = told
        self.most = most

    def opening(self):
        """How each task stands at the start, and the objects."""
        board = Thing((None,) * self.sheet.board[0], (0,) * self.sheet.board[1], True)
        registers = (0,) + (None,) * (self.sheet.registers - 1)
        before = Stand(-1, None, (), (), registers, 0, 0)
        return [next_job(task, self.told[task.seat], before) for task in self.sheet.tasks], {0: board}

    def alone(self, task, stand, things, read=None):
        """What a task does before its next call on a shared object, or before a `new` at which it may have stopped. With
        `read`, the variable that was just read: also whether the text tells that number, so that no other would do."""
        told = self.told[task.seat]
        trail = Trail(read)
        while stand.place is not None:
            if stand.place == len(task.script):
                stand = next_job(task, told, stand)
                trail.lose()
                continue
            statement = task.script[stand.place]
            match statement.word:
                case "out":
                    variable = statement.arguments[0]
                    stand = note(stand, told, ("out", stand.variables[variable]))._replace(place=stand.place + 1)
                case "new":
                    if self.is_full_here(task, stand, statement):
                        break
                    stand = self.make(task, stand, statement, things)
                case "get" | "put" | "load" | "store":
                    cause = fault_of(statement, stand, things)
                    if cause is not None:
                        stand = note(stand, told, ("fault", stand.job, stand.place + 1, cause))
                        stand = stand._replace(place=len(task.script))
                    elif things[stand.registers[through_of(statement)]].is_shared:
                        break
                    else:
                        stand = call(task, stand, statement, things)
                case _:
                    stand = move_on(task, stand, statement)
            trail.follow(statement)
        return stand, trail.is_told

    def is_full_here(self, task, stand, statement):
        """May the worker have stopped at this `new`? It has told all, and the words that it found leave too few."""
        told = self.told[task.seat]
        if told.ending[0] != "full" or stand.told != len(told.notes):
            return False
        _, refs, nums = statement.arguments
        return told.ending[1] + 1 + refs + nums > self.sheet.alloc - (0 if task.is_high else self.sheet.reserve)

    def make(self, task, stand, statement, things):
        """A new object in a register. `things` is changed."""
        to, refs, nums = statement.arguments
        birth = 1 + task.seat + len(self.sheet.tasks) * stand.made
        things[birth] = Thing((None,) * refs, (0,) * nums, False)
        registers = with_one(stand.registers, to, birth)
        return stand._replace(place=stand.place + 1, registers=registers, made=stand.made + 1)

    def settle(self, movers, stands, things):
        """Does what need not be tried in another order, after the calls of some tasks. Gives the seats of the reads among it.
        `stands` and `things` are changed."""
        for task in movers:
            stands[task.seat], _ = self.alone(task, stands[task.seat], things)
        seats = []
        for task in self.sheet.tasks:
            # a read writes no shared object, so who can't read now can't after one
            while self.reads(task, stands, things):
                seats.append(task.seat)
        return seats

    def reads(self, task, stands, things):
        """Reads a number of a shared object, if the task stands there and the text tells the number that is there."""
        stand = stands[task.seat]
        if stand.place is None or task.script[stand.place].word != "get":
            return False
        statement, own = task.script[stand.place], dict(things)
        try:
            after, is_told = self.alone(task, call(task, stand, statement, own), own, statement.arguments[0])
        except Differs:
            return False
        if is_told:
            stands[task.seat] = after
            things.update(own)
        return is_told

    def ways(self, stands, things, order):
        """What may come next: a call of one of the tasks."""
        for task in self.sheet.tasks:
            stand = stands[task.seat]
            if stand.place is None:
                continue
            statement = task.script[stand.place]
            if statement.word == "new":
                stopped = with_one(stands, task.seat, stand._replace(place=None))
                yield [task], stopped, dict(things), (order, task.seat)
            own = dict(things)
            make_or_call = self.make if statement.word == "new" else call
            after = make_or_call(task, stand, statement, own)
            yield [task], with_one(stands, task.seat, after), own, (order, task.seat)

    def add(self, left, seen, ways):
        """Adds the states that weren't seen yet, the one that tells most as the last."""
        fresh = []
        for movers, stands, things, order in ways:
            try:
                seats = self.settle(movers, stands, things)
            except Differs:
                continue
            key, births = key_of(stands, things)
            if key in seen:
                continue
            seen.add(key)
            for seat in seats:
                order = (order, seat)
            fresh.append((stands, {birth: things[birth] for birth in births}, order))
        fresh.sort(key=lambda way: sum(stand.told for stand in way[0]))
        left.extend(fresh)

    def run(self):
        """'explained', 'not explained' or 'given up', with the count of states, and the seats of the calls on shared objects
        in their order."""
        seen, left = set(), []
        try:
            stands, things = self.opening()
        except Differs:
            return "not explained", 0, []
        self.add(left, seen, [(self.sheet.tasks, stands, things, None)])
        while left:
            stands, things, order = left.pop()
            if all(stand.place is None for stand in stands):
                return "explained", len(seen), unrolled(order)
            if len(seen) > self.most:
                return "given up", len(seen), []
            self.add(left, seen, self.ways(stands, things, order))
        return "not explained", len(seen), []

    def is_one_by_one(self):
        """Does the text come by the tasks one after another, in some order?"""
        for tasks in itertools.permutations(self.sheet.tasks):
            try:
                stands, things = self.opening()
                for task in tasks:
                    self.to_its_end(task, stands[task.seat], things)
                return True
            except Differs:
                pass
        return False

    def to_its_end(self, task, stand, things):
        while True:
            stand, _ = self.alone(task, stand, things)
            if stand.place is None or task.script[stand.place].word == "new":
                return
            stand = call(task, stand, task.script[stand.place], things)


class Trail:
    """What became of a number that was read, while its task goes on: which variables are that number plus one that doesn't
    depend on it, and which depend on it otherwise."""

    def __init__(self, variable):
        self.like = set() if variable is None else {variable}
        self.unlike = set()
        self.is_told = False

    def lose(self):
        """From here on nothing is said."""
        self.like, self.unlike = set(), set()

    def follow(self, statement):
        match statement.word, statement.arguments:
            case "out", (variable,):
                self.is_told = self.is_told or variable in self.like
            case ("set", (to, _)) | ("job", (to,)) | ("get", (to, _, _)):
                self.like.discard(to)
                self.unlike.discard(to)
            case "copy", (to, other):
                for group in (self.like, self.unlike):
                    (group.add if other in group else group.discard)(to)
            case ("add" | "sub"), (to, other):
                if other in self.like or other in self.unlike:
                    self.like.discard(to)
                    self.unlike.add(to)
            case "put", (_, _, variable) if variable in self.like or variable in self.unlike:
                self.lose()
            case "if", (one, "<" | "=", other) if {one, other} & (self.like | self.unlike):
                self.lose()


def unrolled(order):
    seats = []
    while order:
        order, seat = order
        seats.append(seat)
    return seats[::-1]


def key_of(stands, things):
    """A state with its objects named by the way to them, and the objects that can be reached."""
    names, births = {None: None}, []

    def name(birth):
        if birth not in names:
            names[birth] = len(births)
            births.append(birth)
        return names[birth]

    name(0)
    rows = tuple(stand._replace(registers=tuple(map(name, stand.registers)), made=0) for stand in stands)
    cells = []
    for birth in births:
        thing = things[birth]
        cells.append(thing._replace(refs=tuple(map(name, thing.refs))))
    return (rows, tuple(cells)), births


def judge(sheet, text, most):
    """The verdict on a text, the count of states, the order's seats, and whether it comes by the tasks one after another."""
    try:
        told = read_text(sheet, text)
    except Differs:
        return "not explained", 0, [], False
    search = Search(sheet, told, most)
    return *search.run(), search.is_one_by_one()


def main(words):
    most = MOST_STATES
    if words[:1] == ["--most"]:
        most, words = int(words[1]), words[2:]
    sheet = read_sheet(words[0])
    verdicts, one_by_one, states, calls, switches = {}, 0, [0], [0], [0]
    for path in words[1:]:
        with open(path) as file:
            verdict, count, seats, is_one_by_one = judge(sheet, file.read(), most)
        verdicts[verdict] = verdicts.get(verdict, 0) + 1
        one_by_one += is_one_by_one
        states.append(count)
        calls.append(len(seats))
        switches.append(sum(one != other for one, other in zip(seats, seats[1:])))
        if verdict != "explained":
            print(f"{path}: {verdict} after {count} states")
    print(
        f"texts {len(words) - 1}, explained {verdicts.get('explained', 0)}, not explained {verdicts.get('not explained', 0)}, "
        f"given up {verdicts.get('given up', 0)}; by the tasks one after another {one_by_one}; "
        f"at most {max(calls)} calls on shared objects, {max(switches)} changes of the task, {max(states)} states"
    )
    return 0 if verdicts.get("explained", 0) == len(words) - 1 else 1


if __name__ == "__main__":
    sys.exit(main(sys.argv[1:]))
