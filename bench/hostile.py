"""Uses the built programs as nobody should. `hostile.sh` starts it, with a folder for its files, and the folder of the programs
or none. Each table ends in a line of its own, and the last line is `N cases, M not right`; the status is 0 where M is 0."""

import os
import pty
import re
import resource
import subprocess
import sys
import time

from hostile_inputs import (
    ALL,
    CLAIM,
    LARGE,
    LOG,
    LONGEST,
    MAKING,
    MAKING_REPORT,
    PUTTING,
    PUTTING_REPORT,
    THREADS,
    THREADS_REPORT,
    families,
    in_room,
    low,
    padded,
    slow_tasks,
    spoiling,
)

WORK, FOLDER = sys.argv[1], sys.argv[2] if len(sys.argv) > 2 else None
PRELOADED = f"{WORK}/refuse.so"
COUNTS = f"{WORK}/counts"
# The seconds after which a run counts as one that doesn't end.
PATIENCE = 120

PROGRAMS = ("henri", "henri_race", "hk_assign", "hk_ceiling", "hk_chart", "hk_edf", "hk_openings", "hk_replay")

cases = 0
wrong = 0


def look(is_right, what):
    """Counts a case, and says it where it isn't right."""
    global cases, wrong
    cases += 1
    if not is_right:
        wrong += 1
        print("NOT RIGHT:", what)


def path_of(program):
    return f"{FOLDER}/{program}" if FOLDER else f"crates/{program}/out/{program}"


def stored(program, name):
    """What a file of a crate says, as its stored run has it."""
    with open(f"crates/{program}/{name}") as file:
        return file.read()


class Form:
    """A program with words and an input, and how it has to end: the status, and the text where one is known from elsewhere."""

    def __init__(self, program, words, text, status, report=None):
        self.program, self.words, self.text = program, words, text.encode()
        self.status, self.report = status, report
        self.name = " ".join([program, *(word if len(word) < 20 else "WORD" for word in words)])

    def run(self, text=None, more=None, **how):
        """The status and what was written; `more` is added to the environment, and the calls are then counted."""
        if more is not None:
            how["env"] = {**os.environ, **more, "COUNTS": COUNTS, "LD_PRELOAD": PRELOADED}
        words = [path_of(self.program), *self.words]
        try:
            done = subprocess.run(words, input=self.text if text is None else text, stdout=subprocess.PIPE, stderr=subprocess.DEVNULL, timeout=PATIENCE, **how)
        except subprocess.TimeoutExpired:
            return "not ended", b""
        return done.returncode, done.stdout


def counted():
    """The allocations that the last counted run asked for, its calls to read, and its calls to write."""
    with open(COUNTS, "rb") as file:
        numbers = [int.from_bytes(file.read(8), "little") for _ in range(4)]
    return numbers[0], numbers[2], numbers[3]


def all_forms():
    """A form of each kind: whole texts, refusals, and wrong words."""
    controller = open("sheets/controller.toml").read()
    words = stored("hk_ceiling", "args").split()
    log = "\n".join(LOG) + "\n"
    trace = stored("hk_chart", "stdin")
    forms = [
        Form("henri", ["run"], MAKING, 0, MAKING_REPORT),
        Form("henri", ["run"], PUTTING, 0, PUTTING_REPORT),
        Form("henri", ["run", "--trace"], MAKING, 0),
        Form("henri", ["check"], controller, 0),
        Form("henri", ["sim", "1"], "", 0),
        Form("henri", ["gen", "1"], "", 0),
        Form("henri", ["wrong"], "", 2, "usage: henri check, run [--trace], gen N, sim N\n"),
        Form("henri", ["run"], "x", 5, "sheet text\n"),
        Form("henri", ["check"], MAKING.replace("cost = 40", "cost = 39"), 6, "refused cost a need 40 declared 39\n"),
        Form("henri_race", [], THREADS, 0, THREADS_REPORT),
        Form("henri_race", ["wrong"], "", 2, "usage: henri_race\n"),
        Form("henri_race", [], "x", 5, "sheet text\n"),
        Form("hk_assign", [], stored("hk_assign", "stdin"), 0, stored("hk_assign", "stdout")),
        Form("hk_assign", ["wrong"], "", 2, "usage: hk_assign\n"),
        Form("hk_assign", [], "x", 5, "sheet text\n"),
        Form("hk_ceiling", words, stored("hk_ceiling", "stdin"), 0, stored("hk_ceiling", "stdout")),
        Form("hk_ceiling", ["wrong"], "", 2, "usage: hk_ceiling [NAME:RES:START:LEN]...\n"),
        Form("hk_ceiling", ["b:0:0:1"], MAKING, 6, "refused section 0\n"),
        Form("hk_chart", [], trace, 0, stored("hk_chart", "stdout")),
        Form("hk_chart", ["2", "5"], trace, 0),
        Form("hk_chart", ["wrong"], "", 2, "usage: hk_chart [FIRST LAST]\n"),
        Form("hk_chart", [], "x", 12, "line 1\n"),
        Form("hk_edf", [], stored("hk_edf", "stdin"), 0, stored("hk_edf", "stdout")),
        Form("hk_edf", ["wrong"], "", 2, "usage: hk_edf\n"),
        Form("hk_edf", [], "x", 5, "sheet text\n"),
        Form("hk_replay", ["check"], log, 0, "ok 20\n"),
        Form("hk_replay", ["make", "1"], "", 0),
        Form("hk_replay", ["wrong"], "", 2, "usage: hk_replay check, make N\n"),
        Form("hk_replay", ["check"], log.replace("gc object 0", "gc useful"), 10, "differs 20\n"),
    ]
    return [form for form in forms if is_built(form.program)]


def is_built(program):
    return os.access(path_of(program), os.X_OK)


def built():
    """Names the programs that aren't there."""
    for program in PROGRAMS:
        look(is_built(program), f"{program} is missing: first prove and build it, as by (cd crates/{program} && rt run < stdin)")


def wholes(forms):
    """What each form writes where nothing fails."""
    for form in forms:
        form.whole = form.run()
        look(form.whole[0] == form.status, f"{form.name}: status {form.whole[0]}")
        if form.report is not None:
            look(form.whole[1] == form.report.encode(), f"{form.name}: {form.whole[1][:300]}")
        else:
            look(form.whole[1].endswith(b"\n"), f"{form.name}: {form.whole[1][-80:]}")
    print(f"whole: {len(forms)} forms of the programs, where nothing fails")


def memory(forms):
    """Refuses each allocation of a form in turn, until a run asks for fewer."""
    for form in forms:
        number, ended = 0, 0
        while True:
            number += 1
            got = form.run(more={"REFUSE": str(number)})
            asked = counted()[0]
            look(got in ((1, b""), form.whole), f"{form.name} with allocation {number} refused: {got[0]}, {len(got[1])} bytes")
            if asked < number:
                break
            ended += got[0] == 1
        print(f"memory: {form.name}: {number - 1} allocations refused in turn: {ended} ended with status 1 and nothing written, the others unharmed")


def failing_calls(form, key, is_short):
    """Fails each call to read, or to write, in turn, until there are fewer."""
    number, place = 0, 1 if key == "READ" else 2
    while True:
        number += 1
        got = form.run(more={key: str(number), **({"SHORT": "1"} if is_short else {})})
        if counted()[place] < number:
            look(got == form.whole, f"{form.name}, {key} beyond the last: {got[0]}")
            return number - 1
        if key == "READ":
            look(got == (3, b""), f"{form.name}, {key} {number}: {got[0]}, {len(got[1])} bytes")
        else:
            is_part = form.whole[1].startswith(got[1]) and len(got[1]) < len(form.whole[1])
            is_exact = not is_short or len(got[1]) == number - 1
            look(got[0] == 4 and is_part and is_exact, f"{form.name}, {key} {number}: {got[0]}, {len(got[1])} bytes")


def calls(forms):
    """Each call of standard input and output that fails in turn, in pieces as they come and byte by byte."""
    for key, name, length in (("READ", "reads", lambda form: len(form.text)), ("WRITE", "writes", lambda form: len(form.whole[1]))):
        pieces = sum(failing_calls(form, key, False) for form in forms)
        short = [form for form in forms if length(form) < 2500]
        single = sum(failing_calls(form, key, True) for form in short)
        end = "3 and nothing written" if key == "READ" else "4 and a first part of the text"
        print(f"{name}: {pieces} calls failed in turn over {len(forms)} forms, and {single} of one byte each over {len(short)}: status {end}")
    for form in forms:
        look(form.run(more={"SHORT": "1"}) == form.whole, f"{form.name} byte by byte")


def real_inputs(forms):
    """Inputs that fail by themselves. A form that reads nothing isn't harmed by them."""
    tried = 0
    for form in forms:
        words = [path_of(form.program), *form.words]
        reads = form.run(more={}) is not None and counted()[1] > 0
        wanted = (3, b"") if reads else form.whole
        folder = os.open(WORK, os.O_RDONLY)
        written = os.open(f"{WORK}/written", os.O_WRONLY | os.O_CREAT, 0o600)
        empty, other = os.pipe2(os.O_NONBLOCK)
        for name, file in (("a folder", folder), ("a file that is only written", written), ("a pipe that doesn't wait", empty)):
            got = subprocess.run(words, stdin=file, stdout=subprocess.PIPE)
            look((got.returncode, got.stdout) == wanted, f"{form.name}, {name} as input: {got.returncode}, {got.stdout[:80]}")
            tried += 1
        for file in (folder, written, empty, other):
            os.close(file)
        got = subprocess.run(["sh", "-c", '"$@" <&-', "sh", *words], stdout=subprocess.PIPE)
        look((got.returncode, got.stdout) == wanted, f"{form.name}, a closed input: {got.returncode}, {got.stdout[:80]}")
        tried += 1
    print(f"reads: {tried} inputs that fail by themselves (a folder, a file that is only written, a pipe that doesn't wait, a closed one): 3 and nothing written")
    whole = [form for form in forms if form.whole[0] == 0 and form.text]
    lines = {"hk_replay": "log %d", "hk_chart": "line %d"}
    for form in whole:
        got = form.run(form.text + "#\u65e5".encode()[:-1])
        line = lines.get(form.program, "sheet text").replace("%d", str(form.text.count(b"\n") + 1))
        look(got[1] == line.encode() + b"\n" and got[0] in (5, 11, 12), f"{form.name}, a cut character: {got}")
    print(f"reads: {len(whole)} inputs that stop in the middle of a character: the line of the refusal")


def writes_to(form, output):
    """The status with this output."""
    return subprocess.run([path_of(form.program), *form.words], input=form.text, stdout=output, stderr=subprocess.DEVNULL).returncode


def on_a_terminal(form):
    """What a form writes to a terminal."""
    master, slave = pty.openpty()
    child = subprocess.Popen([path_of(form.program), *form.words], stdin=subprocess.PIPE, stdout=slave)
    child.stdin.write(form.text)
    child.stdin.close()
    os.close(slave)
    told = b""
    while True:
        try:
            piece = os.read(master, 4096)
        except OSError:
            break
        if not piece:
            break
        told += piece
    os.close(master)
    return child.wait(), told.replace(b"\r\n", b"\n")


def real_outputs(forms):
    """Outputs that fail by themselves, and a terminal."""
    for form in forms:
        with open("/dev/full", "wb") as full:
            look(writes_to(form, full) == 4, f"{form.name} to a full device")
        with open("/dev/null", "rb") as unwritten:
            look(writes_to(form, unwritten) == 4, f"{form.name} to a file that is only read")
        reader, writer = os.pipe()
        os.close(reader)
        look(writes_to(form, writer) == 4, f"{form.name} to a pipe without a reader")
        os.close(writer)
        got = subprocess.run(["sh", "-c", '"$@" >&-', "sh", path_of(form.program), *form.words], input=form.text)
        look(got.returncode == 4, f"{form.name} to a closed output: {got.returncode}")
        look(on_a_terminal(form) == form.whole, f"{form.name} to a terminal")
    print(f"writes: {len(forms)} forms to a full device, a file that is only read, a pipe without a reader and a closed output: 4; a terminal takes the text")
    if is_built("henri"):
        long = open("sheets/controller.toml").read().replace("\nticks = ", "\nticks = 16777216 # ", 1)
        child = subprocess.Popen([path_of("henri"), "run", "--trace"], stdin=subprocess.PIPE, stdout=subprocess.PIPE)
        child.stdin.write(long.encode())
        child.stdin.close()
        child.stdout.read(100_000)
        child.stdout.close()
        look(child.wait() == 4, "a reader that goes away")
        print("writes: a reader that goes away in the middle of a trace of 16,777,216 ticks: 4")


def cuts(forms):
    """Each beginning of an input: it is taken where it is whole by itself, and else refused in one line."""
    sheets = [("henri", ["run"], "a sheet of two tasks", MAKING), ("henri", ["run"], "a sheet of every key and statement", ALL)]
    sheets += [("henri", ["check"], "a sheet of every key and statement", ALL)]
    sheets += [(name, [], "a sheet of two tasks", MAKING) for name in ("hk_assign", "hk_edf", "hk_ceiling", "henri_race")]
    for program, words, name, text in sheets:
        if not is_built(program):
            continue
        form = Form(program, words, text, 0)
        ends = {}
        for end in range(len(form.text)):
            status, wrote = form.run(form.text[:end])
            ends[status] = ends.get(status, 0) + 1
            is_line = wrote.count(b"\n") == 1 and wrote.endswith(b"\n")
            look(status == 0 or (status in (5, 6) and is_line), f"{form.name}, {name} cut at {end}: {status} {wrote[:80]}")
        print(f"cuts: {form.name}: {name}: {len(form.text)} beginnings, statuses {dict(sorted(ends.items()))}")
    if is_built("hk_replay"):
        form = Form("hk_replay", ["check"], "\n".join(LOG) + "\n", 0)
        ends = {}
        for end in range(len(form.text)):
            part = form.text[:end]
            line = part.rstrip(b"\n").count(b"\n") + 1
            status, wrote = form.run(part)
            ends[status] = ends.get(status, 0) + 1
            is_whole = part.rstrip(b"\n").split(b"\n")[-1].decode() == LOG[line - 1]
            wanted = [(0, f"ok {line}")] if is_whole else [(10, f"differs {line}"), (11, f"log {line}")]
            look((status, wrote.decode().rstrip("\n")) in wanted, f"a log cut at {end}: {status} {wrote}")
        print(f"cuts: {form.name}: a log of {len(LOG)} lines: {len(form.text)} beginnings, statuses {dict(sorted(ends.items()))}")
    if is_built("hk_chart"):
        form = Form("hk_chart", [], stored("hk_chart", "stdin"), 0)
        ends = {}
        for end in range(len(form.text)):
            status, wrote = form.run(form.text[:end])
            ends[status] = ends.get(status, 0) + 1
            line = form.text[:end].count(b"\n") + 1
            refusals = (f"line {line}\n".encode(), f"line {line + 1}\n".encode())
            look(status == 0 or (status == 12 and wrote in refusals), f"a trace cut at {end}: {status} {wrote[:80]}")
        print(f"cuts: {form.name}: a trace: {len(form.text)} beginnings, statuses {dict(sorted(ends.items()))}")


# A statement of the job that disturbs the collector, the ticks of the job with its `out`, and the attempts that it spoils: the
# first and the last arrival, the tick at which the attempt would have ended without it, and its events.
#
# The collector flips in tick 7. The frame of a takes it the ticks 8 to 23: the frame word, the board in four, the new object in
# four, six null registers, the exchange. That of p takes 24 to 34: the frame word, the board in two, since it is claimed, seven
# null registers, the exchange. Then come the words reserved, the link word, and the board's header in tick 37, its four cells in
# two each, and the exchange in tick 46; then the object of a, until what is owed ends with tick 61.
#
# A job that arrives after the header was loaded, in tick 38 at the earliest, and before the exchange, in 46 at the latest, and
# enters the board spoils that attempt of ten events. A load enters p's own frame besides, and spoils that attempt of eleven where
# it arrives from 25 to 34. A store of the board into itself before its first cell is read, so in tick 38, gives the cell one event
# more, the claim.
DISTURBING = (
    ("get v1 r0 0", 4, ((38, 46, 46, 10),)),
    ("put r0 0 v1", 4, ((38, 46, 46, 10),)),
    ("load r1 r0 0", 11, ((25, 34, 34, 11), (38, 46, 46, 10))),
    ("store r0 0 r1", 8, ((38, 46, 46, 10),)),
    ("store r0 0 r0", 8, ((38, 38, 47, 11), (39, 46, 46, 10))),
)


def spoiled_copies():
    """A job that disturbs the collector at each of its ticks."""
    for statement, ticks, attempts in DISTURBING:
        counts = {}
        for arrival in range(7, 62):
            lost = [(exchange + ticks, events) for first, last, exchange, events in attempts if first <= arrival <= last]
            events = 55 + sum(count for _, count in lost)
            counts[events] = counts.get(events, 0) + 1
            sheet = spoiling(f"{statement}\nout v1", ticks, arrival)
            wanted = (
                f"heap work 4213 attempt 34 busy {130 + ticks} debt 123\n"
                f"high a response 7 deadline 1000\nhigh p response {7 + ticks} deadline 1000\n"
                f"out {arrival + ticks - 1} p 0\n"
                f"done a jobs 1 latest 7\ndone p jobs 1 latest {ticks}\n"
                f"cycles 1 collector {events} idle {93 - ticks - events}\nend 100\n"
            )
            got = Form("henri", ["run"], sheet, 0).run()
            look(got == (0, wanted.encode()), f"{statement} from {arrival}: {got}")
            got = Form("henri", ["run", "--trace"], sheet, 0).run()[1].decode()
            told = [(int(tick), int(count)) for tick, count in re.findall(r"^t (\d+) gc lost (\d+)$", got, re.M)]
            look(told == lost, f"{statement} from {arrival}: lost {told}")
        print(f"spoiling: {statement}: 55 arrivals, the collector's ticks and how often: {dict(sorted(counts.items()))}")


def claims():
    """Scripts that claim more than can be counted, and one that claims all that can."""
    work = "repeat 65535\nwork 65535\nend"
    deep = "repeat 65535\n" * 16 + "work 65535\n" + "end\n" * 16
    most = "repeat 255\nwork 65535\nend\nwork 65535"
    makes = "repeat 5\nrepeat 60000\nnew r1 31 31\nend\nend"
    whole = (CLAIM % makes).replace("cost = 2", "cost = 16777216").replace("= 10\nd", "= 16777216\nd").replace("deadline = 10", "deadline = 16777216")
    for text, wanted in (
        (CLAIM % work, "refused cost a need over declared 2"),
        (CLAIM % deep, "refused cost a need over declared 2"),
        (CLAIM % most, "refused cost a need 16777216 declared 2"),
        (CLAIM % (most + "\njob v0"), "refused cost a need over declared 2"),
        (whole, "refused words a need over declared 0"),
    ):
        got = Form("henri", ["check"], text, 6).run()
        look(got == (6, wanted.encode() + b"\n"), f"a claim: {got}, and not {wanted}")
        print(f"claims: {wanted}")


# The keys of the sheet of all keys, with the text that is replaced, the least and the greatest value.
KEYS = (
    ("version = 2", "version", "version", 1, 2),
    ("ticks = 400", "ticks", "ticks", 1, 16_777_216),
    ("live = 62", "live", "heap.live", 0, 1_000_000),
    ("alloc = 1024", "alloc", "heap.alloc", 0, 1_000_000),
    ("reserve = 140", "reserve", "heap.reserve", 0, 1_000_000),
    ("rate = 20", "rate", "heap.rate", 1, 4096),
    ("registers = 8", "registers", "heap.registers", 2, 32),
    ("period = 400", "period", "high[0].period", 1, 16_777_216),
    ("deadline = 400", "deadline", "high[0].deadline", 1, 400),
    ("cost = 90", "cost", "high[0].cost", 1, 16_777_216),
    ("words = 3", "words", "high[0].words", 0, 16_777_216),
    ("jitter = 2", "jitter", "high[0].jitter", 0, 399),
    ("lag = 1", "lag", "high[0].lag", 0, 16_777_216),
    ("first = 0", "first", "high[0].first", 0, 16_777_216),
    ("every = 400", "every", "high[0].every", 1, 16_777_216),
    ("board = [2, 3]", "board = [%s, 3]", "heap.board", 0, 255),
    ("board = [2, 3]", "board = [2, %s]", "heap.board", 0, 255),
    ("arrivals = [3, 40]", "arrivals = [%s]", "low[0].arrivals", 0, 399),
)


def numbers_of_keys():
    """Each number of a sheet at its least and greatest, one past both, at the ends of 64 bits, and as something else."""
    tried = 0
    for old, key, path, least, most in KEYS:
        pattern = key if "%s" in key else key + " = %s"
        wholes = (least, most)
        outside = (least - 1, most + 1, 2**63 - 1, -(2**63))
        for value in (*wholes, *outside, 2**63, -(2**63) - 1, "1.0", "true", '"1"'):
            status, wrote = Form("henri", ["check"], ALL.replace(old, pattern % value, 1), 0).run()
            line = wrote.decode().split("\n")[0]
            if value in wholes:
                is_right = status in (0, 5, 6) and not line.startswith((f"sheet range {path}", "sheet kind", "sheet text"))
            elif value in outside:
                is_right = (status, line) == (5, f"sheet range {path}")
            elif isinstance(value, int):
                is_right = (status, line) == (5, "sheet text")
            else:
                is_right = (status, line) == (5, f"sheet kind {path}")
            look(is_right, f"{path} = {value}: {status} {line}")
            tried += 1
    print(f"numbers: {tried} values of {len(KEYS)} numbers of a sheet")


def edges_of_scripts():
    """Statements with the fault that they have, or None, in both versions of the sheet."""
    both = [
        ("work 1", None), ("work 65535", None), ("work 0", "number"), ("work 65536", "number"),
        ("work 00000000000000000001", None), ("work 000000000000000000001", "number"), (f"work {2**64}", "number"), ("work -1", "number"),
        ("repeat 1\nend", None), ("repeat 65535\nend", None), ("repeat 0\nend", "number"), ("repeat 65536\nend", "number"),
        (f"set v0 {2**64 - 1}", None), (f"set v0 {2**64}", "number"), ("set v7 0", None), ("set v8 0", "variable"),
        ("clear r1", None), ("clear r0", "register"), ("move r0 r1", "register"), ("load r0 r0 0", "register"), ("new r0 1 1", "register"),
        ("new r1 0 0", "shape"), ("new r1 0 1", None), ("new r1 1 0", None), ("new r1 256 0", "number"), ("new r1 0 256", "number"), ("new r1 255 0", "shape"),
    ]  # fmt: skip
    for version, registers, fields in ((1, 8, 62), (2, 32, 254)):
        last, past = registers - 1, registers
        yield from ((version, script, fault) for script, fault in both)
        for pattern in ("get v0 r%d 0", "put r%d 0 v0", "load r1 r%d 0", "load r%d r0 0", "store r%d 0 r1", "store r0 0 r%d", "move r%d r1", "clear r%d", "new r%d 1 1", "if null r%d\nend", "if same r0 r%d\nend"):
            yield version, pattern % last, None
            yield version, pattern % past, "register"
        for pattern in ("get v0 r0 %d", "put r0 %d v0", "load r1 r0 %d", "store r0 %d r1"):
            yield version, pattern % (fields - 1), None
            yield version, pattern % fields, "number"
        yield version, f"new r1 {fields} 0", None
        yield version, f"new r1 0 {fields}", None
        yield version, f"new r1 {fields} 1", "shape"


def numbers_of_scripts():
    """Each number of a script at its limits, and how long and deep a script is."""
    tried = 0
    for version, script, fault in edges_of_scripts():
        status, wrote = Form("henri", ["check"], in_room(script, version), 0).run()
        is_right = status == 0 if fault is None else (status, wrote) == (5, f"sheet script b {fault} 1\n".encode())
        look(is_right, f"version {version}, {script}: {status} {wrote[:80]}")
        tried += 1
    deep = "if null r1\n"
    for script, line in (
        (deep * 16 + "end\n" * 16, None),
        (deep * 17 + "end\n" * 17, "deep 17"),
        ("work 1\n" * 1024, None),
        ("work 1\n" * 1025, "long"),
        ("", "empty"),
        ("# work 1", "empty"),
    ):
        status, wrote = Form("henri", ["check"], in_room(script), 0).run()
        is_right = status == 0 if line is None else (status, wrote) == (5, f"sheet script b {line}\n".encode())
        look(is_right, f"a script of {len(script)} bytes: {status} {wrote[:80]}")
        tried += 1
    print(f"numbers: {tried} scripts at their limits")


def numbers_of_sizes():
    """Names, lists, tasks, the heap's sizes and the input's at their limits."""
    base = in_room("work 1")
    tasks = lambda count: in_room("work 1") + "".join(low(f"t{i}", [], "work 1") for i in range(count - 1))
    listed = lambda count: base.replace("ticks = 10", "ticks = 5000").replace("[0]", str(list(range(count))))
    sized = lambda live, alloc, reserve, board, version=1: in_room("work 1", version).replace("live = 256", f"live = {live}").replace(
        "alloc = 4096", f"alloc = {alloc}").replace("reserve = 1024", f"reserve = {reserve}").replace("board = [2, 2]", f"board = {board}")  # fmt: skip
    table = [
        (base.replace('"b"', f'"{"b" * 16}"'), None), (base.replace('"b"', f'"{"b" * 17}"'), "sheet name 0"), (base.replace('"b"', '""'), "sheet name 0"),
        (tasks(31), None), (tasks(32), "sheet geometry tasks"), (tasks(255), "sheet geometry tasks"), (tasks(257), "sheet geometry tasks"),
        (base.partition("\n[[low]]")[0], "sheet geometry tasks"),
        (listed(4096), None), (listed(4097), "sheet range low[0].arrivals"),
        (sized(6, 4096, 1024, [2, 2]), None), (sized(4, 4096, 1024, [2, 2]), "sheet geometry small"), (sized(5, 4096, 1024, [2, 2]), "sheet geometry odd"),
        (sized(65536, 65536, 1024, [2, 2]), None), (sized(65538, 65536, 1024, [2, 2]), "sheet geometry large"), (sized(65536, 65538, 1024, [2, 2]), "sheet geometry large"),
        (sized(6, 16, 0, [2, 2]), None), (sized(6, 14, 0, [2, 2]), "sheet geometry small"), (sized(6, 15, 0, [2, 2]), "sheet geometry odd"),
        (sized(6, 4096, 4096, [2, 2]), None), (sized(6, 4096, 4097, [2, 2]), "sheet geometry reserve"),
        (sized(256, 4096, 1024, [0, 0]), "sheet geometry board"), (sized(256, 4096, 1024, [62, 0]), None), (sized(256, 4096, 1024, [62, 1]), "sheet geometry board"),
        (sized(256, 4096, 1024, [0, 254], 2), None), (sized(256, 4096, 1024, [1, 254], 2), "sheet geometry board"),
        (padded(base), None), (padded(base, LONGEST + 1), "sheet long"),
    ]  # fmt: skip
    for text, line in table:
        status, wrote = Form("henri", ["check"], text, 0).run()
        is_right = status in (0, 6) if line is None else (status, wrote) == (5, line.encode() + b"\n")
        look(is_right, f"{line}: {status} {wrote[:80]}")
    print(f"numbers: {len(table)} names, lists, tasks, heaps and inputs at their limits")


def numbers_of_words():
    """The numbers among the words of the programs at their limits."""
    least, most, past = "0", str(2**64 - 1), str(2**64)
    bad = (past, "", "-1", "+1", " 1", "1 ", "0x1", "0" * 21)
    log = lambda text: Form("hk_replay", ["check"], text, 0)
    devices = stored("hk_ceiling", "stdin")
    section = lambda *words: Form("hk_ceiling", list(words), devices, 0)
    trace = stored("hk_chart", "stdin")
    drawn = lambda *words: Form("hk_chart", list(words), trace, 0)
    table = [(Form("henri", [form, word], "", 0), 0, None) for form in ("gen", "sim") for word in (least, most, "0" * 20)]
    table += [(Form("henri", [form, word], "", 0), 2, None) for form in ("gen", "sim") for word in bad]
    table += [(Form("hk_replay", ["make", word], "", 0), 0, None) for word in (least, most)]
    table += [(Form("hk_replay", ["make", word], "", 0), 2, None) for word in bad]
    table += [
        (log("heap 65536 65536 65536 31 0 62 0\n"), 0, "ok 1"), (log("heap 65538 65536 65536 31 0 62 0\n"), 11, "log 1"),
        (log("heap 65536 65536 65536 31 1 62 0\n"), 11, "log 1"), (log("heap 65536 65536 65536 31 0 62 1\n"), 11, "log 1"),
        (log(f"heap 8 16 0 1 0 0 1\nbegin 0 put 0 0 {most}\n"), 0, "ok 2"), (log(f"heap 8 16 0 1 0 0 1\nbegin 0 put 0 0 {past}\n"), 11, "log 2"),
        (log("heap 8 16 0 1 0 0 1\nbegin 0 get 7 0\n"), 10, "differs 2"), (log("heap 8 16 0 1 0 0 1\nbegin 0 get 8 0\n"), 11, "log 2"),
        (section("c:63:1:4"), 0, None), (section("c:64:1:4"), 6, "refused section 0"), (section("c:0:1:5"), 0, None), (section("c:0:1:6"), 6, "refused section 0"),
        (section("c:0:1:0"), 6, "refused section 0"), (section("c:0:0:99999999"), 6, "refused section 0"), (section("c:0:0:100000000"), 2, None),
        (section(*["c:0:0:1"] * 64), 6, "refused section 1"), (section(*["c:0:0:1"] * 65), 2, None),
        (drawn("0", "16777215"), 0, None), (drawn("0", "16777216"), 2, None), (drawn("0", "0"), 0, None), (drawn("1", "0"), 2, None), (drawn("00", "1"), 2, None),
    ]  # fmt: skip
    table = [row for row in table if is_built(row[0].program)]
    for form, status, line in table:
        got = form.run()
        is_right = got[0] == status and (line is None or got[1] == line.encode() + b"\n")
        look(is_right, f"{form.name}: {got[0]} {got[1][:80]}, and not {status}")
    print(f"numbers: {len(table)} numbers among words and in logs at their limits")


def limited():
    """For a child: 64 MB of addresses."""
    resource.setrlimit(resource.RLIMIT_AS, (1 << 26, 1 << 26))


def hurried():
    """For a child: one second of the processor."""
    resource.setrlimit(resource.RLIMIT_CPU, (1, 1))


def measured(form, turns):
    """How a form ended and what it wrote, the least processor time of so many turns with its wall time, and the most memory."""
    figures = f"{WORK}/figures"
    words = ["/usr/bin/time", "-o", figures, "-f", "%U %S %M", path_of(form.program), *form.words]
    times, most = [], 0
    for _ in range(turns):
        began = time.perf_counter()
        done = subprocess.run(words, input=form.text, stdout=subprocess.PIPE)
        wall = time.perf_counter() - began
        with open(figures) as file:
            user, system, kilobytes = file.read().split()[-3:]
        times.append((float(user) + float(system), wall))
        most = max(most, int(kilobytes))
    return (done.returncode, done.stdout), *min(times), most


def sizes():
    """The largest and slowest inputs that are known: the least of three times of the processor, the most memory, and the end
    with no more than 64 MB of addresses."""
    for name, text, line, is_aimed in families():
        form = Form("henri", ["check"], text, 0)
        (status, wrote), spent, wall, most = measured(form, 3)
        told = wrote.decode().split("\n")[0]
        is_right = status in (5, 6) and told == line if line else status == 0
        look(is_right and len(form.text) <= LONGEST + 1, f"size: {name}: {status} {told[:100]}, {len(form.text)} bytes")
        look(not is_aimed or (spent < 0.3 and most < 65536), f"size: {name}: {spent} s, {most} kB")
        few = form.run(preexec_fn=limited)
        look(few in ((1, b""), (status, wrote)), f"size: {name} with 64 MB: {few[0]}, {len(few[1])} bytes")
        print(
            f"size: {name}: {len(form.text)} bytes, {spent:.2f} s of the processor, {wall:.2f} s, {most / 1024:.0f} MB, "
            f"{told[:40]}; with 64 MB of addresses: {few[0]}"
        )


def slow_analyses():
    """The analysis that took longest before it looked ahead, in each program that makes one, and with a second of the processor."""
    for program, words in (("henri", ["check"]), ("hk_assign", []), ("hk_ceiling", []), ("hk_edf", [])):
        if not is_built(program):
            continue
        form = Form(program, words, slow_tasks(), 0)
        whole, spent, wall, most = measured(form, 1)
        look(whole[0] == 0, f"time: {form.name}: {whole[0]} {whole[1][:80]}")
        got = form.run(preexec_fn=hurried)
        look(got == whole or (got[0] < 0 and got[1] == b""), f"time: {form.name} with a second: {got[0]}, {len(got[1])} bytes")
        end = "done" if got == whole else f"ended by the signal {-got[0]}, and nothing written"
        print(f"time: {form.name}: 31 tasks that leave little free: {spent:.2f} s of the processor, {wall:.2f} s, {most / 1024:.0f} MB; with one second: {end}")


def main():
    built()
    forms = all_forms()
    wholes(forms)
    large = [Form("henri", ["check"], LARGE, 0)] if is_built("henri") else []
    opened = [Form("hk_openings", [word], "", 0, line) for word, line in zip(stored("hk_openings", "args").split(), stored("hk_openings", "stdout").splitlines(True))]
    opened = opened if is_built("hk_openings") else []
    wholes(large + opened)
    memory(forms + large + opened)
    calls(forms + opened)
    real_inputs(forms)
    real_outputs(forms + opened)
    cuts(forms)
    if is_built("henri"):
        spoiled_copies()
        claims()
        numbers_of_keys()
        numbers_of_scripts()
        numbers_of_sizes()
    numbers_of_words()
    if is_built("henri"):
        sizes()
    slow_analyses()
    print(f"{cases} cases, {wrong} not right")
    return wrong != 0


sys.exit(main())
