#!/usr/bin/env python3
"""Document 01 in exact fractions, with requests 1/14 and 3/14 to 7/14 of document 02: what the engine's numbers are
held against.

Written from the documents, in their letters, and not from the Rattle text: the blend is formula (1)
multiplied out, the derivative comes by differentiating it and the total by integrating it. Every case
that is made has its distances, its total and its Taylor coefficients checked. The rounding steps
themselves are held against the document's known results here, and against the engine by the stored
files that `vectors` makes. The documents stand in document/, what the stored files are made of in stored/.

  exact.py vectors  make the stored input and output of crates/piece_vectors again
  exact.py replay   make the stored input and output of crates/replay again
  exact.py reports  make the stored input and output of crates/report and crates/report_runs again
  exact.py pack     the text of a reel to its block, standard input to standard output; a line of the text
                    is a knot, POSITION C_0 C_1 .., or one with readings, POSITION C_0 C_1 .. : R_0 R_1 ..; empty
                    lines and those that begin with # are none; where a knot has readings, the block is of edition 2
  exact.py unpack   a block to its text
  exact.py check    hold all entries of "Scans with known results", the integral weights of source document
                    001, what the distances need, halves, and a sweep over all grades and gaps; then the worked
                    block, its report and its text, the stored reports; of blocks by chance, text and bytes with
                    readings, that the operator's answers skip these, and the views; of sums of reels, over all
                    grades and gaps, the blends, totals and values; of calls by chance, that a 6 names the first
                    coefficient that was too large; of reels that differ in one thing, that they are not the same;
                    and the replay script, with the reel's round trip after every call and that of every block it
                    accepts
  exact.py averages the mean errors of values and trends at many places: every rounding down, they lean; to nearest,
                    as request 5/14 has it, no more is left than halves up bring
"""
import sys

sys.dont_write_bytecode = True  # before the other imports, so that they leave no __pycache__
if sys.version_info < (3, 10):
    sys.exit("exact.py needs Python 3.10 or later")

from collections import Counter
from pathlib import Path

from document.averages import mean_errors
from document.block import block_of, contents_of, packed
from document.combination import hold_combinations
from document.hold import Broken
from document.knot import Refused, number_of
from document.known_results import WORKED, hold_known_refusals, hold_known_results, hold_worked_report
from document.piece import case
from document.readings import hold_readings
from document.report import report_of
from document.same import hold_sames
from document.spots import hold_spots
from document.sweep import hold_halves, hold_integral_weights, hold_need_of_distances, hold_sweep
from document.text import Faulty, contents_of_text, text_of
from document.texts import hold_texts
from stored.replay_lines import kind_of_answer
from stored.reports import stored_reports
from stored.script import transcript
from stored.vectors import stored_cases, words_of

CRATES = Path(__file__).resolve().parent.parent / "crates"


def vectors():
    crate = CRATES / "piece_vectors"
    cases, lines = bytearray(), []
    for piece, r in stored_cases():
        found = case(piece, r)
        cases += packed(words_of(piece, r))
        lines.append(f"{found['value']} {found['trend']} {found['total']}\n")
    (crate / "stdin").write_bytes(cases)
    (crate / "stdout").write_text("".join(lines))
    print(f"{len(lines)} cases stored")


def replay():
    script = transcript()
    stdin, stdout = script.text(), "".join(answer + "\n" for answer in script.answers)
    (CRATES / "replay" / "stdin").write_bytes(stdin)
    (CRATES / "replay" / "stdout").write_text(stdout)
    print(f"{len(script.answers)} calls stored, {len(stdin)} bytes in and {len(stdout)} out; {script.round_trips} round trips held")
    for kind, calls in sorted(Counter(map(kind_of_answer, script.answers)).items()):
        print(f"{calls:6} {kind}")


def reports():
    hold_worked_report()
    (CRATES / "report" / "stdin").write_bytes(block_of(WORKED))
    (CRATES / "report" / "stdout").write_text(report_of(block_of(WORKED)))
    stored = stored_reports()
    (CRATES / "report_runs" / "stdin").write_bytes(b"".join(packed([len(block)]) + block for block, _ in stored))
    (CRATES / "report_runs" / "stdout").write_text("".join(report + "\n" for _, report in stored))
    print(f"the worked block's report stored, and {len(stored)} blocks with theirs")


def pack():
    try:
        sys.stdout.buffer.write(block_of(*contents_of_text(sys.stdin.buffer.read())))
    except Faulty as faulty:
        sys.exit(str(faulty))


def unpack():
    try:
        sys.stdout.write(text_of(*contents_of(sys.stdin.buffer.read())))
    except Refused as refused:
        sys.exit(f"refused {number_of(refused.args[0])}")


def check():
    entries = hold_known_results() + hold_known_refusals()
    hold_integral_weights()
    hold_need_of_distances()
    hold_halves()
    cases = hold_sweep()
    print(f"{entries} entries of \"Scans with known results\" held; {cases} further cases within their distances")
    hold_worked_report()
    hold_texts()
    print(f"the worked block's report and text held; {len(stored_reports())} stored blocks reported")
    print(f"{hold_readings()} pairs of blocks that differ only in readings and end count give the same list and report")
    print("{} sums of reels held, {} of them refused".format(*hold_combinations()))
    print("{} calls by chance held, {} of which name the first coefficient that was too large".format(*hold_spots()))
    print("{} pairs of reels that differ in one thing are not the same; {} of them agree at each scan".format(*hold_sames()))
    script = transcript()
    print(f"the worked block held; {len(script.answers)} calls of the replay script answered, {script.round_trips} round trips held")


def averages():
    print("65,536 × the exact blend − v, and 65,536 × the exact derivative − h × z, on the average; above 0, v and z are too low:")
    print(f"{'':40} {'number':>7} {'down':>8} {'nearest':>8}")
    for where, what, number, down, near in mean_errors():
        print(f"{where + ', ' + what:40} {number:7} {float(down):8.3f} {float(near):8.3f}")


COMMANDS = {
    "check": check, "vectors": vectors, "replay": replay, "reports": reports, "averages": averages, "pack": pack, "unpack": unpack,
}


def main(words):
    if words in (["--help"], ["-h"]):
        print(__doc__)
        return
    if not words:
        sys.exit(__doc__)
    if words[0] not in COMMANDS:
        sys.exit(f"exact.py: unknown command '{words[0]}'; there are {', '.join(sorted(COMMANDS))}, and --help")
    if len(words) > 1:
        sys.exit(f"exact.py: {words[0]} takes no arguments; pack and unpack read standard input")
    try:
        COMMANDS[words[0]]()
    except Broken as broken:
        sys.exit(f"exact.py: {broken}")


if __name__ == "__main__":
    main(sys.argv[1:])
