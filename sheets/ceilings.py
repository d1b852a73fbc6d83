#!/usr/bin/env python3
"""A second reading of the rules of critical sections: the report of a task sheet with the sections that the words tell.

It was written from docs/CEILINGS.md alone, shares no code with hk_ceiling, and made the reports of the sheets with sections in
this folder. The rest of the report is that of simulate.py. It takes the sheet to be right.

    ceilings.py [--trace | --quiet] SHEET [NAME:RES:START:LEN]...
"""
import re
import sys
import tomllib

from simulate import Session, starts

USAGE = "usage: hk_ceiling [NAME:RES:START:LEN]..."
WORD = re.compile(r"([a-z][a-z0-9_]{0,15}):([0-9]{1,8}):([0-9]{1,8}):([0-9]{1,8})")
LONGEST = 2**24


class Section:
    """The ticks of a task's jobs in which they hold a resource."""

    def __init__(self, name, resource, start, length):
        self.name, self.resource, self.start, self.length = name, int(resource), int(start), int(length)
        self.end = self.start + self.length

    def has_inside(self, done):
        return self.start < done < self.end


def sections_of(words):
    """The sections that the words tell, or nothing where some word tells none or there are too many."""
    found = [WORD.fullmatch(word) for word in words]
    if len(words) > 64 or None in found:
        return None
    return [Section(*word.groups()) for word in found]


class CeilingSession(Session):
    """A session whose high jobs are chosen by the ceilings of their sections."""

    def __init__(self, sheet, form, sections):
        super().__init__(sheet, form)
        self.sections = sections
        self.places = {task.name: place for place, task in enumerate(self.high)}
        self.had = [0] * (len(self.high) + len(self.low))

    def place(self, section):
        return self.places[section.name]

    def ceiling(self, resource):
        return min(self.place(s) for s in self.sections if s.resource == resource)

    def is_wrong(self, index):
        section = self.sections[index]
        if section.name not in self.places or section.resource > 63 or section.length == 0:
            return True
        if section.end > self.high[self.place(section)].keys["cost"]:
            return True
        before = [other for other in self.sections[:index] if other.name == section.name]
        return bool(before) and section.start < before[-1].end

    def block(self, place):
        return max(
            [s.length - 1 for s in self.sections if self.place(s) > place >= self.ceiling(s.resource)],
            default=0,
        )

    def response(self, place):
        """The least window with the task's cost, one section of a later task, and the work of the tasks before it."""
        window = own = self.high[place].keys["cost"] + self.block(place)
        while window <= self.high[place].keys["deadline"]:
            asked = own + sum(
                starts(window, task.keys["period"]) * task.keys["cost"] for task in self.high[:place]
            )
            if asked == window:
                return window
            window = asked
        return None

    def heap_lines(self):
        """What the check of the heap says of the sheet. The plain response times play no part: the deadlines are lifted. Where
        one is above every length of a busy period, that is what is refused."""
        declared = [task.keys["deadline"] for task in self.high]
        for task in self.high:
            task.keys["deadline"] = LONGEST
        lines, status = super().analysis()
        for task, deadline in zip(self.high, declared):
            task.keys["deadline"] = deadline
        if status and lines[0].startswith("refused response"):
            return ["refused busy"], status
        return lines, status

    def analysis(self):
        for index in range(len(self.sections)):
            if self.is_wrong(index):
                return [f"refused section {index}"], 6
        lines, status = self.heap_lines()
        if status:
            return lines, status
        for task in self.high:
            if task.keys.get("jitter", 0):
                return [f"refused jitter {task.name}"], 6
        high = []
        for place, task in enumerate(self.high):
            response = self.response(place)
            if response is None:
                return [f"refused response {task.name}"], 6
            high.append(f"high {task.name} response {response} deadline {task.keys['deadline']}")
        return lines[:1] + high + lines[1 + len(high) :], 0

    def rank(self, task):
        """The level of a task's job; at one level a job inside a section goes first, and then the first task."""
        for section in self.sections:
            if section.name == task.name and section.has_inside(self.had[task.seat]):
                return self.ceiling(section.resource), 0, task.seat
        return task.seat, 1, task.seat

    def turn(self, tick):
        ready = [task for task in self.high if task.ready(tick)]
        return min(ready, key=self.rank) if ready else super().turn(tick)

    def task_tick(self, task, tick):
        job = task.job
        self.had[task.seat] += 1
        super().task_tick(task, tick)
        if task.job != job:
            self.had[task.seat] = 0


def main():
    forms = [word[2:] for word in sys.argv[1:] if word.startswith("--")]
    path, *words = [word for word in sys.argv[1:] if not word.startswith("--")]
    sections = sections_of(words)
    if sections is None:
        print(USAGE)
        sys.exit(2)
    with open(path, "rb") as file:
        session = CeilingSession(tomllib.load(file), forms[0] if forms else "plain", sections)
    status = session.run()
    print("\n".join(session.lines))
    sys.exit(status)


if __name__ == "__main__":
    main()
