#!/usr/bin/env python3
"""How long the engine's functions take: two commits side by side, for docs/PERFORMANCE.md.

  measure.py BEFORE [AFTER]   AFTER is the last commit where it is not named

Each commit is copied to a folder of its own and gets the crate `measured` (measured/crate.py), which is proved and
built as a library for C. Both have to be of the toolchain that is installed, and from the design pass on, landing 19:
what a reel has to be is part of its type there. One program (measured/timing.c) has both
libraries. Times are taken from both in turn, 41 times in each of three runs, and the least of each is told.
Instructions are counted by callgrind, as the difference of n rounds and 2n. Copies are the calls of memcpy, counted by
the linker's --wrap; what they take is told by a program that makes each of them twice. It takes some twelve minutes and
wants an otherwise idle machine, with gcc and valgrind.
"""
import random
import re
import subprocess
import sys
import tempfile
from pathlib import Path

sys.dont_write_bytecode = True  # before the other imports, so that they leave no __pycache__
if sys.version_info < (3, 10):
    sys.exit("measure.py needs Python 3.10 or later")

from document.block import block_of
from document.coefficients import ordinary
from document.knot import GRADE_MAX, KNOTS_MAX
from measured.crate import CALLS, PIECES, put

HERE = Path(__file__).resolve().parent
SIDES = ("before", "after")
SHOWN = (0, 1, 3, GRADE_MAX)
COUNTS = (2, 9, 33, KNOTS_MAX)
GAP = 13
WRAPPED = "-Wl,--wrap=memcpy"


def run(*words, **options):
    return subprocess.run(words, check=True, stdout=subprocess.PIPE, text=True, **options).stdout


def reel(count, grade):
    """The block of so many knots of one grade, each with room for a gap on either side."""
    chance = random.Random(count + grade)
    return block_of([(GAP * k, ordinary(chance, grade, GAP)) for k in range(count)])


def built(folder, side, commit):
    """The library of one side, and its report program."""
    repository = folder / side
    run("git", "clone", "--quiet", str(HERE.parent), str(repository))
    run("git", "checkout", "--quiet", commit, cwd=repository)
    put(repository, side)
    crates = repository / "crates"
    run("rt", "lib", cwd=crates / "measured")
    run("rt", "run", cwd=crates / "report", stdin=subprocess.DEVNULL)
    return str(crates / "measured" / "out" / "libmeasured.a")


def compiled(folder, libraries, name, *options):
    sizes = [f"-DGRADES={GRADE_MAX + 1}", f"-DCOUNTS={','.join(map(str, COUNTS))}", f"-DGAP={GAP}"]
    run("gcc", "-O2", *sizes, *options, str(HERE / "measured" / "timing.c"), *libraries, "-o", str(folder / name))


def counted(folder, program, *words, given=subprocess.DEVNULL):
    """Instructions of a program by callgrind: outside memcpy, and inside it."""
    counting = ("valgrind", "-q", "--tool=callgrind", "--callgrind-out-file=counts")
    run(*counting, str(program), *words, cwd=folder, stdin=given)
    told = run("callgrind_annotate", "--threshold=100", "counts", cwd=folder).replace(",", "")
    every = int(re.search(r"^\s*(\d+).*PROGRAM TOTALS", told, re.M)[1])
    copying = sum(int(n) for n in re.findall(r"^\s*(\d+).*mem(?:cpy|move)", told, re.M))
    return every - copying, copying


def per_round(measure, rounds):
    """What a measure of n rounds and of 2n differ by, for one round."""
    few, many = measure(rounds), measure(2 * rounds)
    return [(m - f) / rounds for m, f in zip(many, few)]


def instructions(folder, side, kind, name, size):
    return per_round(lambda n: counted(folder, folder / "timing", "run", side, kind, name, str(size), str(n)), 512)


def copies(folder, side, kind, name, size):
    """Calls of memcpy, and bytes that they copy."""
    words = (str(folder / "copies"), "run", side, kind, name, str(size))
    return per_round(lambda n: [int(x) for x in run(*words, str(n), cwd=folder).split()], 512)


def times_of(folder, *programs):
    """Nanoseconds before and after, by kind, name and size, of programs that are run in turn."""
    least = [{} for _ in programs]
    for _ in range(3):
        for program, found in zip(programs, least):
            for line in run(str(folder / program), "times", cwd=folder).splitlines():
                kind, name, size, *times = line.split()
                before = found.get((kind, name, int(size)), (1e9, 1e9))
                found[kind, name, int(size)] = tuple(min(a, float(b)) for a, b in zip(before, times))
    return least


def tell(*cells):
    print("| " + " | ".join(f"{c:,.0f}" if isinstance(c, float) else str(c) for c in cells) + " |", flush=True)


def head(*cells):
    tell(*cells)
    tell(*["---"] * len(cells))


def tell_pieces(folder, times):
    head("one piece", "grade", "ns before", "ns after", "after / before", "instructions before", "after")
    for name in PIECES:
        for grade in SHOWN:
            both = 11 * grade  # of one grade at both ends
            before, after = times["piece", name, both]
            counts = [sum(instructions(folder, side, "piece", name, both)) for side in SIDES]
            tell(name, grade, before, after, f"{after / before:.2f}", *counts)


def tell_pairs(times):
    """Over all pairs of grades, the least and the greatest ratio, with the grades of both ends."""
    print()
    head("one piece, all pairs of grades", "least after / before", "at", "greatest", "at")
    for name in PIECES:
        sizes = [size for kind, n, size in times if (kind, n) == ("piece", name)]
        ratios = sorted((times["piece", name, size][1] / times["piece", name, size][0], size) for size in sizes)
        ends = [(f"{ratio:.2f}", "{} and {}".format(*divmod(size, 10))) for ratio, size in (ratios[0], ratios[-1])]
        tell(name, *ends[0], *ends[1])


def call_counts(folder, name):
    """Instructions outside memcpy on both sides, and copies and bytes after. An append and a same stand behind a read of
    the block, which is taken off."""
    found = [instructions(folder, side, "reel", name, KNOTS_MAX)[0] for side in SIDES]
    found += copies(folder, "after", "reel", name, KNOTS_MAX)
    if name not in ("append", "same"):
        return found
    count = KNOTS_MAX - (name == "append")
    read = [instructions(folder, side, "reel", "read", count)[0] for side in SIDES]
    read += copies(folder, "after", "reel", "read", count)
    return [a - b for a, b in zip(found, read)]


def tell_calls(folder, times, twice):
    print()
    outside = "instructions outside memcpy, before"
    head("call", "ns before", "ns after", "after / before", outside, "after", "copies", "bytes copied", "share of the time")
    for name in CALLS:
        before, after = times["reel", name, KNOTS_MAX]
        was, now, made, moved = call_counts(folder, name)
        copying = twice["reel", name, KNOTS_MAX][1] / after - 1
        tell(name, before, after, f"{after / before:.2f}", was, now, made, moved, f"{copying:.0%}")


def tell_growth(times):
    print()
    head("call, ns after", *[f"{count} knots" for count in COUNTS])
    for name in CALLS:
        tell(name, *[times["reel", name, count][1] for count in COUNTS])


def tell_reports(folder):
    print()
    head("report of a full block", "instructions outside memcpy, before", "after", "inside memcpy")
    for grade in (3, 7):
        (folder / "full.block").write_bytes(reel(KNOTS_MAX, grade))
        found = []
        for side in SIDES:
            with open(folder / "full.block", "rb") as given:
                found.append(counted(folder, folder / side / "crates" / "report" / "out" / "report", given=given))
        tell(f"grade {grade}", *[float(n) for n in (found[0][0], found[1][0], found[1][1])])


def full_name(commit):
    try:
        return run("git", "rev-parse", "--quiet", "--verify", "--end-of-options", commit + "^{commit}", cwd=HERE).strip()
    except subprocess.CalledProcessError:
        sys.exit(f"measure.py: '{commit}' is no commit of this repository")


def main(commits):
    named = [full_name(commit) for commit in [*commits, "HEAD"][:2]]
    print("before {}, after {}\n".format(*named))
    with tempfile.TemporaryDirectory() as name:
        folder = Path(name)
        libraries = [built(folder, side, commit) for side, commit in zip(SIDES, named)]
        for count in {n for count in COUNTS for n in (count - 1, count)}:
            (folder / f"{count}.block").write_bytes(reel(count, GRADE_MAX))
        compiled(folder, libraries, "timing")
        compiled(folder, libraries, "copies", "-DCOPIES", WRAPPED)
        compiled(folder, libraries, "twice", "-DTWICE", WRAPPED)
        times, twice = times_of(folder, "timing", "twice")
        tell_pieces(folder, times)
        tell_pairs(times)
        tell_calls(folder, times, twice)
        tell_growth(times)
        tell_reports(folder)


if __name__ == "__main__":
    if len(sys.argv) not in (2, 3):
        sys.exit(__doc__)
    main(sys.argv[1:])
