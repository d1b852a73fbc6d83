#!/usr/bin/env python3
"""Does what docs/MANUAL.md and docs/GALLERY.md tell their reader to do, and compares what comes out with what they say.

Each block of commands of a page (```sh) is done by one shell, in order, in a new folder. What it prints must be the block
without a language behind it, and nothing where there is none. Blocks that call git or rt are left out: they get and build
the programs, which the words of this script stand for.

    pages.py [HENRI HK_CHART]

Without words it takes the programs that `rt run` or `rt ci` leave in crates/.
"""
import os
import pathlib
import subprocess
import sys
import tempfile

TOP = pathlib.Path(__file__).resolve().parent.parent
MARK = "-- end of the block"


def blocks(page):
    """The commands of a page, each with its line, what it is to print, and whether anything stands behind it."""
    lines = page.read_text().splitlines()
    found, at = [], 0
    while at < len(lines):
        if not lines[at].startswith("```"):
            at += 1
            continue
        end = lines.index("```", at + 1)
        found.append((at + 1, lines[at][3:], lines[at + 1 : end], end))
        at = end + 1
    for (line, kind, body, end), after in zip(found, found[1:] + [None]):
        if kind == "sh":
            follows = after and after[1] == "" and not any(lines[end + 1 : after[0] - 1])
            yield line, body, after[2] if follows else []


def builds(body):
    """Whether a block gets or builds the programs."""
    return any(line.startswith("git ") or " rt " in f" {line}".replace("(", " ") for line in body)


def look(page, environment):
    """Does the blocks of a page: how many were as the page says, and how many not."""
    good = bad = 0
    with tempfile.TemporaryDirectory() as folder:
        shell = subprocess.Popen(
            ["bash"], stdin=subprocess.PIPE, stdout=subprocess.PIPE, stderr=subprocess.STDOUT, text=True,
            cwd=folder, env=environment,
        )
        for line, body, wanted in blocks(page):
            if builds(body):
                print(f"left    {page.name} {line}: it builds")
                continue
            shell.stdin.write("\n".join(body) + f"\necho '{MARK}'\n")
            shell.stdin.flush()
            got = []
            for text in shell.stdout:
                if text.rstrip("\n") == MARK:
                    break
                got.append(text.rstrip("\n"))
            if got == wanted:
                good += 1
            else:
                bad += 1
                print(f"DIFFERS {page.name} {line}: wanted\n" + "\n".join(wanted) + "\ngot\n" + "\n".join(got))
        shell.stdin.close()
        shell.wait()
    return good, bad


def main():
    crates = TOP / "crates"
    words = sys.argv[1:] or [crates / name / "out" / name for name in ("henri", "hk_chart")]
    programs = [pathlib.Path(word).resolve() for word in words]
    if len(programs) != 2 or not all(os.access(program, os.X_OK) for program in programs):
        sys.exit("no programs: first prove and build henri and hk_chart")
    with tempfile.TemporaryDirectory() as folder:
        for name, program in zip(("henri", "hk_chart"), programs):
            (pathlib.Path(folder) / name).symlink_to(program)
        environment = {**os.environ, "HENRI": str(TOP), "PATH": f"{folder}:{os.environ['PATH']}"}
        counts = [look(TOP / "docs" / page, environment) for page in ("MANUAL.md", "GALLERY.md")]
    good, bad = map(sum, zip(*counts))
    print(f"{good} ok, {bad} differ")
    sys.exit(bad > 0)


if __name__ == "__main__":
    main()
