#!/usr/bin/env python3
"""Brings the texts of the must-fail edits to today's spelling, after names.py; ran once. What it prints is left by hand.

An edit goes with the line that it stands for, so only the spelling of its two texts changes: names that the toolchain's
script turned, and projections, which are written tight.
"""
import glob
import re

NAMES = {"natAbs": "nat_abs", "getD": "get_or", "pieceOf": "piece_of", "listOf": "list_of", "viewOf": "view_of",
         "valueAt": "value_at", "isLone": "is_lone", "placeIn": "place_in", "pieceAt": "piece_at", "noRange": "no_range",
         "shrZ": "shr_z", "getElem?": "get_elem?", "no_knot": "no_knot"}


def mended(text):
    text = re.sub(r"(?<![\w'?])([A-Za-z]+\??)(?![\w'])", lambda m: NAMES.get(m[1], m[1]), text)
    # an argument: (t .position) and s .coefficients
    text = re.sub(r"\((\w+'?) \.(\w+)\)", r"\1.\2", text)
    text = re.sub(r"(?<![\w.)'])(\w+'?) \.(\w+)", r"\1.\2", text)
    return text


def main():
    for e in sorted(glob.glob("crates/*/must-fail/*.edit")):
        lines = open(e, encoding="utf-8").read().split("\n")
        said = None
        for i, l in enumerate(lines):
            if l.startswith("file: "):
                said = open(f"crates/{e.split('/')[1]}/{l[6:]}", encoding="utf-8").read()
            elif l.startswith("old: "):
                if said.count(l[5:]) == 1:
                    turn = False
                    continue
                turn, lines[i] = True, "old: " + mended(l[5:])
                if said.count(lines[i][5:]) != 1:
                    print(f"{e}: {said.count(lines[i][5:])} times: {lines[i][5:]}")
            elif l.startswith("new: ") and turn:
                lines[i] = "new: " + mended(l[5:])
        open(e, "w", encoding="utf-8").write("\n".join(lines))


main()
