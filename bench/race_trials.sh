#!/usr/bin/env bash
# Tries the built program henri_race beyond its tests. Four parts, each with a closing line:
# texts: each sheet of bench/race is run so many times, and bench/explain.py looks for an order of the heap calls that explains each text;
# spoiled: some of these texts are spoiled, each in ways that no order can explain, and the checker has to refuse every one;
# room: eight tasks that do nothing but allocate, for so many seconds, on the smallest heap by the rules of docs/RACE.md;
# worn: a task of so many jobs, with how many cycles its collector began, as the first word of the heap showed it from outside.
# The program is the one that `rt run` or `rt ci` leaves. Ends with 0 where everything was as it has to be.
# Words: the path of the program (crates/henri_race/out/henri_race), the runs of each sheet (1,000), how many texts of each sheet are
# spoiled (5), the seconds (10), the jobs (10,000,000), the parts (all four, in one word: texts,spoiled,room,worn).
set -eu
program=$(realpath "${1:-$(dirname "$0")/../crates/henri_race/out/henri_race}")
cd "$(dirname "$0")/.."
[ -x "$program" ] || { echo "first prove and build the program: (cd crates/henri_race && rt run < stdin)"; exit 2; }
work=$(mktemp -d)
trap 'rm -rf "$work"' EXIT
python3 -u - "$program" "$work" "${2:-1000}" "${3:-5}" "${4:-10}" "${5:-10000000}" "${6:-texts,spoiled,room,worn}" <<'PY'
import os, re, subprocess, sys, time

sys.path.insert(0, "bench")
import explain

program, work = sys.argv[1:3]
runs, spoiled, seconds, jobs = map(int, sys.argv[3:7])
parts = sys.argv[7].split(",")
SHEETS = ("counter", "flags", "stack")
bad = 0


def look(is_right, what):
    """Counts what isn't right, and says it."""
    global bad
    if not is_right:
        bad += 1
        print("NOT RIGHT:", what)


def race(sheet):
    """The status of a race, its text, and the seconds that it took."""
    start = time.perf_counter()
    done = subprocess.run([program], input=sheet, stdout=subprocess.PIPE)
    return done.returncode, done.stdout.decode(), time.perf_counter() - start


# TEXTS
def counts(path, texts):
    """The closing line of the checker on so many texts, and whether all were explained."""
    names = []
    for place, text in enumerate(texts):
        names.append(f"{work}/{place}")
        with open(names[-1], "w") as file:
            file.write(text)
    done = subprocess.run([sys.executable, "bench/explain.py", path, *names], stdout=subprocess.PIPE)
    lines = done.stdout.decode().splitlines()
    for line in lines[:-1]:
        print(line)
    return lines[-1], done.returncode == 0


told = {}
for name in SHEETS if "texts" in parts else ():
    path = f"bench/race/{name}.toml"
    with open(path, "rb") as file:
        sheet = file.read()
    texts = []
    for _ in range(runs):
        status, text, _ = race(sheet)
        look(status == 0, f"{name}: status {status}")
        texts.append(text)
    line, is_right = counts(path, texts)
    look(is_right, f"{name}: texts that aren't explained")
    told[name] = texts[:spoiled]
    print(f"texts: {name}: {len(set(texts))} different; {line}; load {os.getloadavg()[0]:.1f}")


# SPOILED
def raised(text):
    """Each output in turn raised by 50. In no sheet here is such a number ever written: those of `counter` are sums of up to 12 ones,
    hundreds and ten thousands, those of `flags` at most 12, those of `stack` 0 to 4 and 100 to 104."""
    for found in re.finditer(r"^(out \w+) (\d+)$", text, re.M):
        yield text[: found.start()] + f"{found[1]} {int(found[2]) + 50}" + text[found.end() :]


def shortened(text):
    """A job fewer than there are."""
    for found in re.finditer(r"^(done \w+ jobs) (\d+)$", text, re.M):
        yield text[: found.start()] + f"{found[1]} {int(found[2]) - 1}" + text[found.end() :]


def fallen(text):
    """In `flags` a reader never finds a number and later a lower one, since each has one writer, which raises it. Two neighbouring
    outputs of a or b that differ are exchanged, and two neighbouring first outputs of c."""
    lines = text.splitlines(keepends=True)
    for name, stride in (("a", 1), ("b", 1), ("c", 2)):
        places = [place for place, line in enumerate(lines) if line.startswith(f"out {name} ")][::stride]
        for one, other in zip(places, places[1:]):
            if lines[one] != lines[other]:
                changed = list(lines)
                changed[one], changed[other] = lines[other], lines[one]
                yield "".join(changed)


def blind(text):
    """In `flags` a and b each write and then read what the other wrote. That neither ever sees anything can't be: the one that writes
    last reads after both writes."""
    yield re.sub(r"^(out [ab]) \d+$", r"\1 0", text, flags=re.M)


SPOILS = {"counter": (raised, shortened), "flags": (raised, shortened, fallen, blind), "stack": (raised, shortened)}
for name in told if "spoiled" in parts else ():
    path = f"bench/race/{name}.toml"
    sheet = explain.read_sheet(path)
    verdicts, most = {}, 0
    for text in told[name]:
        for spoil in SPOILS[name]:
            for one in spoil(text):
                look(one != text, f"{name}: {spoil.__name__} changed nothing")
                verdict, states, _, _ = explain.judge(sheet, one, explain.MOST_STATES)
                look(verdict == "not explained", f"{name}: {spoil.__name__}: {verdict}")
                verdicts[verdict] = verdicts.get(verdict, 0) + 1
                most = max(most, states)
    print(f"spoiled: {name}: {sum(verdicts.values())} texts of {len(told[name])} runs, {verdicts}, at most {most} states")


# ROOM
WORKERS, OBJECT, BLOCK = 8, 5, 100


def allocating(rounds, alloc):
    """Eight tasks that make objects of 5 words, a hundred in each job, and hold the last one. In use are at most a board of 3 words and an
    object in each task's register; and each task may be making one."""
    live = 3 + 2 * WORKERS * OBJECT
    tasks = "".join(
        f'[[low]]\nname = "{name}"\nfirst = 0\nevery = 1\nscript = """\nrepeat {BLOCK}\nnew r1 1 3\nend\n"""\n' for name in "abcdefgh"
    )
    return (
        f"version = 1\nticks = {rounds}\n"
        f"heap = {{ live = {live + live % 2}, alloc = {alloc}, reserve = 0, rate = 1, board = [1, 1] }}\n{tasks}"
    ).encode()


def by_rule(rounds):
    """The least alloc by the rule: twice the words that one allocation of each worker takes, and a 131,072nd of all words."""
    words = WORKERS * OBJECT
    least = max(16, 2 * words, -(-words * BLOCK * rounds // 131072))
    return least + least % 2


def is_done(text, rounds):
    return text == "".join(f"done {name} jobs {rounds}\n" for name in "abcdefgh") + "end\n"


if "room" in parts:
    rounds, spent = 1, 0
    while spent < seconds:
        rounds *= 2
        status, text, spent = race(allocating(rounds, by_rule(rounds)))
        look(status == 0 and is_done(text, rounds), f"room: status {status}: {text[:200]!r}")
        print(
            f"room: {WORKERS} tasks, {WORKERS * rounds * BLOCK} objects of {OBJECT} words in {spent:.1f} s, alloc {by_rule(rounds)}: "
            f"{text.count('full ')} full, {text.count('live ')} live; load {os.getloadavg()[0]:.1f}"
        )
        if bad:
            break


# WORN
BOARD = (1, 1)


def first_word(process, geometry):
    """The place in the memory of a process where the heap's row begins: register 0 of each task holds the board."""
    live, alloc, tasks = geometry
    numbers = live // 2 + alloc
    registers = 2 + 2 * numbers + tasks
    board = (1 | BOARD[0] << 20 | BOARD[1] << 28).to_bytes(8, "little")
    with open(f"/proc/{process}/maps") as maps, open(f"/proc/{process}/mem", "rb", 0) as memory:
        for line in maps:
            ends, rights = line.split()[:2]
            if not rights.startswith("rw"):
                continue
            start, end = (int(word, 16) for word in ends.split("-"))
            try:
                memory.seek(start)
                bytes_there = memory.read(min(end - start, 1 << 26))
            except OSError:
                continue
            at = bytes_there.find(board)
            while at >= 0:
                first = at - 8 * registers
                if at % 8 == 0 and first >= 0 and all(
                    bytes_there[at + 64 * seat : at + 64 * seat + 8] == board for seat in range(tasks)
                ):
                    cycle = int.from_bytes(bytes_there[first : first + 8], "little") >> 44
                    if cycle > 0 and bytes_there[first + 8 * (2 + numbers) : first + 8 * (3 + numbers)] != bytes(8):
                        return start + first
                at = bytes_there.find(board, at + 1)
    return None


def watched(sheet, geometry):
    """The status of a race, its text, its seconds, and the last cycle that a look from outside found."""
    with open(f"{work}/sheet", "wb") as file:
        file.write(sheet)
    start = time.perf_counter()
    with open(f"{work}/sheet", "rb") as file:
        child = subprocess.Popen([program], stdin=file, stdout=subprocess.PIPE)
    place, cycle = None, 0
    while child.poll() is None:
        try:
            if place is None:
                place = first_word(child.pid, geometry)
            else:
                with open(f"/proc/{child.pid}/mem", "rb", 0) as memory:
                    memory.seek(place)
                    found = int.from_bytes(memory.read(8), "little") >> 44
                    cycle = max(cycle, found if found < 1 << 20 else 0)
        except (OSError, ValueError):
            pass
        time.sleep(0.001)
    text = child.stdout.read().decode()
    return child.returncode, text, time.perf_counter() - start, cycle


many = f"""version = 1
ticks = {jobs}
heap = {{ live = 32, alloc = 1024, reserve = 0, rate = 1, board = [{BOARD[0]}, {BOARD[1]}] }}

[[low]]
name = "a"
first = 0
every = 1
script = \"\"\"
job v0
new r1 1 3
put r1 0 v0
load r2 r0 0
store r0 0 r1
clear r1
clear r2
\"\"\"
""".encode()
if "worn" in parts:
    status, text, spent, cycle = watched(many, (32, 1024, 1))
    look((status, text) == (0, f"done a jobs {jobs}\nend\n"), f"worn: status {status}: {text[:200]!r}")
    look(0 < cycle < (1 << 20) - 1, f"worn: cycle {cycle}")
    print(
        f"worn: {jobs} jobs, {5 * jobs} words, in {spent:.1f} s with alloc 1024: status {status}, {text!r}; "
        f"cycle {cycle} at the last look, of {(1 << 20) - 1}; load {os.getloadavg()[0]:.1f}"
    )
print(f"{bad} not right")
sys.exit(bad != 0)
PY
