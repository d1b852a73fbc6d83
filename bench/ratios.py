"""The table of `ratios.sh`: proved programs beside plain loops."""

import os
import re
import resource
import subprocess
import sys
import tomllib

WORK, TURNS = sys.argv[1], int(sys.argv[2])
HENRI, HEAP_MIX = os.path.abspath("crates/henri/out/henri"), os.path.abspath("crates/heap_mix/out/heap_mix")
PLAIN_SESSIONS, PLAIN_HEAP = f"{WORK}/sessions", f"{WORK}/heap"
PLAIN_SCRIPTS = f"{WORK}/scripts"
ONLY_TOML, ONLY_SCRIPT = (f"{WORK}/crates/{name}/out/{name}" for name in ("only_toml", "only_script"))
MOST_TICKS = 16_777_216


def instructions(words, given=b""):
    """What callgrind counts for a whole run."""
    done = subprocess.run(
        ["valgrind", "--tool=callgrind", "--callgrind-out-file=/dev/null", *words],
        input=given, stdout=subprocess.DEVNULL, stderr=subprocess.PIPE,
    )
    return int(re.search(rb"refs:\s+([\d,]+)", done.stderr)[1].replace(b",", b""))


def seconds(words, given=b""):
    """The least processor time of some turns, user and system."""
    least = None
    for _ in range(TURNS):
        before = resource.getrusage(resource.RUSAGE_CHILDREN)
        subprocess.run(words, input=given, stdout=subprocess.DEVNULL, check=True)
        after = resource.getrusage(resource.RUSAGE_CHILDREN)
        spent = after.ru_utime - before.ru_utime + after.ru_stime - before.ru_stime
        least = spent if least is None else min(least, spent)
    return least


def text(words, given=b""):
    """What a run writes, without the lines of the analysis, which the plain loops don't write."""
    wrote = subprocess.run(words, input=given, stdout=subprocess.PIPE, check=True).stdout
    return [line for line in wrote.splitlines() if line.split()[0] not in (b"heap", b"high", b"low")]


def row(name, unit, few, many, amount, whole):
    """A line of the table. `few` and `many` give the words and the input of the two programs for two lengths, `amount` units apart;
    `whole` those for the time, and how many units that is."""
    counted = [(instructions(*most) - instructions(*least)) / amount for least, most in zip(few, many)]
    *pair, units = whole
    took = [seconds(*one) * 1e9 / units for one in pair]
    print(
        f"| {name} | {unit} | {counted[0]:.1f} | {counted[1]:.1f} | **{counted[0] / counted[1]:.2f}** "
        f"| {took[0]:.1f} | {took[1]:.1f} | {took[0] / took[1]:.2f} |"
    )


HEAP = "heap = { live = 64, alloc = 4096, reserve = 2048, rate = 32, board = [2, 2] }\n"


def tasks(number, period, cost, script, arrivals=lambda place: ""):
    """A sheet of so many high tasks alike, for any number of ticks."""
    def sheet(ticks):
        parts = [f"version = 1\nticks = {ticks}\n{HEAP}"]
        for place in range(number):
            comes = arrivals(place) or f"first = 0\nevery = {period}\n"
            parts.append(
                f'\n[[high]]\nname = "t{place}"\nperiod = {period}\ndeadline = {period}\ncost = {cost}\nwords = 0\n'
                f'{comes}script = """\n{script}\n"""\n'
            )
        return "".join(parts).encode()
    return sheet


def stored(name):
    """A sheet of sheets/, for any number of ticks."""
    with open(f"sheets/{name}.toml") as file:
        found = file.read()
    return lambda ticks: re.sub(r"(?m)^ticks = .*$", f"ticks = {ticks}", found).encode()


MAKING = """version = 1
ticks = %d
heap = { live = 64, alloc = 600, reserve = 128, rate = 11, board = [2, 2] }

[[high]]
name = "a"
period = 120
deadline = 120
cost = 9
words = 3
first = 0
every = 120
script = \"\"\"
new r1 0 2
clear r1
\"\"\"

[[low]]
name = "b"
first = 0
every = 1000
script = \"\"\"
repeat 6
new r1 0 2
clear r1
end
\"\"\"
"""


def lists(ticks):
    """27 tasks with a list of arrivals each, one in 4,096 ticks: 0.92 MB for the most ticks."""
    arrivals = lambda place: f"arrivals = [{','.join(map(str, range(place, ticks, 4096)))}]\n"
    return tasks(27, 4096, 1, "work 1", arrivals)(ticks)


SHEETS = [
    ("the controller of `sheets/`", stored("controller"), 400_000),
    ("a sheet that allocates all the time", lambda ticks: (MAKING % ticks).encode(), 400_000),
    ("one task of period 4 and cost 2, an output a job", tasks(1, 4, 2, "work 1\nout v0"), 400_000),
    ("31 tasks that have nothing to do", tasks(31, MOST_TICKS, 1, "work 1"), 400_000),
    ("31 tasks of period 10,000 and cost 300", tasks(31, 10_000, 300, "work 300"), 400_000),
    ("31 tasks of period 31 and cost 1", tasks(31, 31, 1, "work 1"), 400_000),
    ("27 lists of an arrival in 4,096 ticks, with their reading", lists, 4_194_304),
]

LONG_SCRIPT = "\n".join(["work 1"] * 1024)

ALL_KINDS = """\
set v1 1000
job v2
add v1 v2
copy v3 v1
sub v3 v2
new r1 1 2
put r1 0 v1
get v4 r1 0
store r0 0 r1
load r2 r0 1
move r3 r2
clear r3
if v1 < v2
out v1
else
out v2
end
repeat 3
work 2
end
if null r2
work 1
end
if same r1 r2  # a comment
work 5
end
"""
KINDS = ALL_KINDS.count("\n")

# How often the programs that read a script read it.
TURNS_OF_A_SCRIPT = 1_000

READ = [
    ("the controller of `sheets/`", stored("controller")(12_000)),
    ("27 lists of 4,096 arrivals, 0.92 MB", lists(MOST_TICKS)),
    ("31 scripts of 1,024 statements, 0.2 MB", tasks(31, 40_000, 1024, LONG_SCRIPT)(MOST_TICKS)),
]


def plain_scripts(sheet, measured):
    """What the plain reader takes for the scripts of a sheet, where that is measured for so many turns of reading one."""
    found = tomllib.loads(sheet.decode())
    scripts = [task["script"].encode() for kind in ("high", "low") for task in found.get(kind, [])]
    of_each = {script: (measured(script, TURNS_OF_A_SCRIPT) - measured(script, 1)) / (TURNS_OF_A_SCRIPT - 1) for script in set(scripts)}
    return sum(of_each[script] for script in scripts)


print("| what | unit | instructions, proved | plain | ratio | ns, proved | plain | ratio |")
print("|---|---|---|---|---|---|---|---|")

for name, how in (("calls in one piece", []), ("calls by their steps", ["steps"])):
    if text([HEAP_MIX, "20000", *how]) != text([PLAIN_HEAP, "20000"]):
        sys.exit(f"{name}: the two programs write different texts")
    few, many = ([([HEAP_MIX, str(rounds), *how],), ([PLAIN_HEAP, str(rounds)],)] for rounds in (100_000, 200_000))
    whole = ([HEAP_MIX, "5000000", *how],), ([PLAIN_HEAP, "5000000"],), 5_000_000
    row(f"heap of one owner, the collector beside it: {name}", "round", few, many, 100_000, whole)

for name, sheet, ticks in SHEETS:
    if text([HENRI, "run"], sheet(ticks)) != text([PLAIN_SESSIONS], sheet(ticks)):
        sys.exit(f"{name}: the two programs write different reports")
    few, many = ([([HENRI, "run"], sheet(most)), ([PLAIN_SESSIONS], sheet(most))] for most in (ticks, 2 * ticks))
    whole = ([HENRI, "run"], sheet(MOST_TICKS)), ([PLAIN_SESSIONS], sheet(MOST_TICKS)), MOST_TICKS
    row(name, "tick", few, many, ticks, whole)

few, many = ([([ONLY_SCRIPT], text), ([PLAIN_SCRIPTS, str(TURNS_OF_A_SCRIPT)], text)] for text in (b"work 1", (ALL_KINDS * 39).encode()))
statements = 39 * KINDS
row("a script of all kinds of statements", "statement", few, many, TURNS_OF_A_SCRIPT * (statements - 1), (*many, TURNS_OF_A_SCRIPT * statements))

for name, sheet in READ:
    if subprocess.run([HENRI, "check"], input=sheet, stdout=subprocess.DEVNULL).returncode != 0:
        sys.exit(f"{name}: not admitted")
    empty = [instructions([HENRI, "check"], b""), instructions([ONLY_TOML], b"")]
    counted = [instructions(words, sheet) - least for words, least in zip(([HENRI, "check"], [ONLY_TOML]), empty)]
    counted[1] += plain_scripts(sheet, lambda script, turns: instructions([PLAIN_SCRIPTS, str(turns)], script))
    took = [seconds(words, sheet) for words in ([HENRI, "check"], [ONLY_TOML])]
    took[1] += plain_scripts(sheet, lambda script, turns: seconds([PLAIN_SCRIPTS, str(turns)], script))
    print(
        f"| `check` beside its TOML and plain scripts: {name} | byte | {counted[0] / len(sheet):.1f} | {counted[1] / len(sheet):.1f} "
        f"| **{counted[0] / counted[1]:.2f}** | {took[0] * 1e9 / len(sheet):.1f} | {took[1] * 1e9 / len(sheet):.1f} | {took[0] / took[1]:.2f} |"
    )
