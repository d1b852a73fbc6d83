"""The inputs of `hostile.py`: sheets and logs, whole ones and families of large ones."""

# The heap of most sheets.
HEAP = 'version = 1\nticks = %d\nheap = { live = 62, alloc = 512, reserve = %d, rate = 11, board = [2, 2] }\n'


def high(name, cost, words, arrivals, script, period=1000):
    """A high task whose deadline is its period."""
    return (
        f'\n[[high]]\nname = "{name}"\ncost = {cost}\nperiod = {period}\ndeadline = {period}\nwords = {words}\n'
        f'arrivals = {list(arrivals)}\nscript = """\n{script}\n"""\n'
    )


def low(name, arrivals, script):
    """A low task."""
    return f'\n[[low]]\nname = "{name}"\narrivals = {list(arrivals)}\nscript = """\n{script}\n"""\n'


# A high job that makes an object, and a low one that waits for the collector: a has the ticks 0 to 39, the collector what its
# three words owe, 40 to 72, b 73 to 79, and the collector 80 to 112.
MAKING = HEAP % (120, 13) + high("a", 40, 3, [0], "new r1 1 1\nwork 33") + low("b", [0], "new r1 1 1")
MAKING_REPORT = """heap work 4213 attempt 34 busy 184 debt 134
high a response 40 deadline 1000
low b
done a jobs 1 latest 40
done b jobs 1 latest 80
cycles 1 collector 66 idle 7
end 120
"""


def spoiling(script, ticks, arrival):
    """A high job that makes five words, for which the collector does 55 events from tick 7 on, and one that disturbs it."""
    return HEAP % (100, 129) + high("a", 7, 5, [0], "new r1 1 3") + high("p", ticks, 0, [arrival], script)


# A job that writes into the board while the collector copies it, and reads it again.
PUTTING = spoiling("set v0 7\nput r0 0 v0\nget v1 r0 0\nout v1", 8, 38)
PUTTING_REPORT = """heap work 4213 attempt 34 busy 138 debt 123
high a response 7 deadline 1000
high p response 15 deadline 1000
out 45 p 7
done a jobs 1 latest 7
done p jobs 1 latest 8
cycles 1 collector 65 idle 20
end 100
"""

# Two tasks for threads, which end alike whatever the threads do.
THREADS = """version = 1
ticks = 1
heap = { live = 62, alloc = 512, reserve = 129, rate = 11, board = [2, 2] }

[[high]]
name = "a"
cost = 4
period = 10
deadline = 10
words = 0
first = 0
every = 10
script = \"\"\"
get v0 r0 0
out v0
\"\"\"

[[low]]
name = "b"
first = 0
every = 10
script = \"\"\"
set v0 5
put r0 1 v0
get v1 r0 1
out v1
\"\"\"
"""
THREADS_REPORT = "out a 0\ndone a jobs 1\nout b 5\ndone b jobs 1\nend\n"

# Every key, and every statement of a script.
ALL = """version = 2
ticks = 400
[heap]
live = 62
alloc = 1024
reserve = 140
rate = 20
board = [2, 3]
registers = 8
[[high]]
name = "a"
period = 400
deadline = 400
cost = 90
words = 3
jitter = 2
lag = 1
first = 0
every = 400
script = \"\"\"
work 2
set v0 5
set v1 1
add v0 v1
sub v0 v1
copy v2 v0
job v3
new r1 1 1
put r1 0 v0
get v1 r1 0
store r0 0 r1
load r2 r0 0
move r3 r2
if null r3
out v0
else
out v1
end
if same r2 r3
out v1
end
if v0 < v1
out v0
end
if v0 = v1
out v1
end
repeat 2
clear r3
end
\"\"\"
[[low]]
name = "b"
arrivals = [3, 40]
script = "out v0 # a comment"
"""

# A sheet of a megabyte that is admitted: a comment behind the statement of its last script fills it.
LARGE = ALL.replace('out v0 # a comment"', "out v0 # " + "x" * 1_040_000 + '"')

# The largest claim of a script: more ticks than can be counted for a job.
CLAIM = HEAP % (10, 129) + high("a", 2, 0, [0], "%s", 10)

# A heap in which a low task makes any object that there is: 255 words.
ROOM = "version = %d\nticks = 10\nheap = { live = 256, alloc = 4096, reserve = 1024, rate = 20, board = [2, 2]%s }\n"


def in_room(script, version=1):
    """A sheet with one low task of this script, admitted where the script is one; in version 2 with the most registers."""
    return ROOM % (version, ", registers = 32" if version == 2 else "") + low("b", [0], script)


# A log of the heap's steps, each of which is right: a task stores the board into itself and is held inside it.
LOG = ["heap 8 16 0 1 0 1 0", "begin 0 store 0 0 0", "step 0", "gc flip", *["gc useful"] * 15, "gc object 0"]


# Inputs of a megabyte, each with the line that `henri check` has to answer, and whether it goes past what is aimed at.
LONGEST = 1_048_576


def fill(piece, count=LONGEST):
    """As many of the pieces, each made of its number, as there is room for."""
    lines, length = [], 0
    for number in range(count):
        line = piece(number)
        length += len(line)
        if length > LONGEST:
            break
        lines.append(line)
    return "".join(lines)


def padded(text, most=LONGEST):
    """The text with a comment behind it that fills it up."""
    return text + "#" + "x" * (most - len(text.encode()) - 1)


def task(name, more=""):
    return f'[[low]]\nname="n{name}"\narrivals=[]\nscript="work 1"\n{more}'


def nested(opening, closing, inside):
    return opening * 79 + inside + closing * 79


# Periods of five tasks of one tick that leave nearly nothing free, and make no long idle moment before that: one tick in 364,210,
# in 3,263,442, in 360,600, and in 176,820.
CLOSE = [[2, 3, 7, 43, 1815], [2, 3, 7, 43, 1807], [2, 3, 8, 25, 601], [2, 4, 5, 21, 421]]


def slow_tasks(close=CLOSE[0]):
    """31 high tasks of one tick each. The first five leave little free; the others come once in 2^24 ticks, and their response times are
    in the hundreds of thousands of ticks and more."""
    periods = [*close, *[16_777_216] * 26]
    sheet = (HEAP % (10, 129)).replace("rate = 11", "rate = 14")
    return sheet + "".join(high(f"t{i}", 1, 0, [], "work 1", period) for i, period in enumerate(periods))


def families():
    """Names, inputs, the first line that is answered (None: the analysis of an admitted sheet) and whether the aims hold."""
    head = HEAP % (200_000, 129)
    many = ROOM % (1, "")
    many = many.replace("ticks = 10", "ticks = 200000")
    first = ".".join("a" * 78)
    return (
        ("unknown tables", MAKING + fill(lambda i: f"[t{i}]\n", 90_000), "sheet unknown t0", True),
        ("unknown keys", fill(lambda i: f"k{i}=1\n"), "sheet unknown k0", True),
        ("one long key", "x" * (LONGEST - 10) + " = 1\n", "sheet unknown " + "x" * 80, True),
        ("long keys that begin alike", fill(lambda i: "x" * 990 + f"{i:06} = 1\n"), "sheet unknown " + "x" * 80, True),
        ("dotted keys of 79 parts", fill(lambda i: f"{i:x}.{first} = 1\n"), "sheet unknown 0", False),
        ("dotted keys of 79 parts that begin alike", fill(lambda i: f"{first}.k{i} = 1\n"), "sheet unknown a", True),
        ("tables of 79 parts", fill(lambda i: f"[{i:x}.{first}]\n"), "sheet unknown 0", False),
        ("arrays 79 in one another", fill(lambda i: f"k{i} = {nested('[', ']', '')}\n"), "sheet unknown k0", False),
        ("inline tables 79 in one another", fill(lambda i: f"k{i} = {nested('{a=', '}', '1')}\n"), "sheet unknown k0", False),
        ("one array of empty tables", "high = [" + "{}," * 349_000 + "]\n", "sheet missing version", True),
        ("empty tasks", fill(lambda i: "[[low]]\n"), "sheet missing version", True),
        ("low tasks", head + fill(lambda i: task(i))[: LONGEST - 200].rpartition("[[low]]")[0], "sheet geometry tasks", True),
        ("one list of arrivals", head + '[[low]]\nname="b"\nscript="work 1"\narrivals=[' + "0," * 500_000 + "]\n", "sheet range low[0].arrivals", True),
        ("30 lists of 4,096 arrivals", many + "".join(low(f"n{i}", [i + 31 * n for n in range(4096)], "work 1") for i in range(30)), None, True),
        ("31 scripts of 1,024 statements", many + "".join(low(f"n{i}", [0], "\n".join(["work 1"] * 1024)) for i in range(31)), None, True),
        (
            "31 scripts with long comments",
            many + "".join(low(f"n{i}", [0], "\n".join(["work 1 #" + "x" * 24] * 1000)) for i in range(31)),
            None,
            True,
        ),
        ("31 scripts of blocks in blocks", many + "".join(low(f"n{i}", [0], "\n".join((["repeat 65535"] * 16 + ["end"] * 16) * 32)) for i in range(31)), None, True),
        ("a script of empty lines", many + low("b", [0], "\n" * 1_040_000 + "work 1"), None, True),
        ("a script with a wrong last line", many + low("b", [0], "\n" * 1_040_000 + "wrong"), "sheet script b word 1040001", True),
        ("a script of 1,025 statements and more", many + low("b", [0], "work 1\n" * 149_000), "sheet script b long", True),
        ("a string of escapes", "x = \"" + "\\u0041" * 174_000 + '"\n', "sheet unknown x", True),
        ("a long integer", "x = " + "1" * 1_048_000 + "\n", "sheet text", True),
        ("a long float", "x = 1." + "1" * 1_048_000 + "\n", "sheet unknown x", True),
        ("floats between two others", fill(lambda i: f"k{i} = 9007199254740993.{'0' * 700}1\n"), "sheet unknown k0", True),
        ("dates", fill(lambda i: f"k{i} = 1979-05-27T07:32:00.999999999Z\n"), "sheet unknown k0", True),
        ("empty lines", "\n" * LONGEST, "sheet missing version", True),
        ("a comment", padded(MAKING), None, True),
        ("a string that isn't closed", MAKING + 'x = """' + "y" * 1_040_000, "sheet text", True),
        ("an input that is too long", padded(MAKING, LONGEST + 1), "sheet long", True),
        # with one tick in 3,263,442 the sixth task behind the first five is late: 6 * 3,263,442 is above 2^24
        *(
            (f"31 tasks with the periods {close}", slow_tasks(close), "refused response t10" if close[-1] == 1807 else None, True)
            for close in CLOSE
        ),
    )
