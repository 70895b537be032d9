#!/usr/bin/env python3
"""Compares the walks in docs/MAP.md with the sources: each function stands in the file that its line names, or else in that
of the function a step to the left, and is called by that one. At most seven stand before the parser of datagrams.
Usage: tools/walks.py"""
import pathlib
import re
import sys

TOP = pathlib.Path(__file__).resolve().parent.parent
CRATES = TOP / "crates"
MOST_BEFORE_PARSER = 7
PARSER = ("read", "dhcp_frame/src/frame.rt")


def bodies(path, name):
    """What stands in each function of this name: from its line to that of the next function."""
    text = (CRATES / path).read_text()
    begins = [found.start() for found in re.finditer(r"^ *(?:pub(?:\(crate\))? )?fn ", text, re.M)] + [len(text)]
    found = []
    for begin, end in zip(begins, begins[1:]):
        if re.match(rf" *(?:pub(?:\(crate\))? )?fn {name}\b", text[begin:end]):
            found.append(text[begin:end])
    return found


def walks():
    """The lines of each walk: depth, function, and file if it is named."""
    lines, walk = (TOP / "docs/MAP.md").read_text().splitlines(), []
    for line in lines:
        row = re.match(r"^    ( *)([a-z_]+)  +([a-z_]+/src/[a-z_]+\.rt)?", line)
        if row and (row[3] or walk):
            walk.append((len(row[1]) // 2, row[2], row[3]))
        elif walk:
            yield walk
            walk = []


def faults(walk):
    """What isn't so in a walk, and how much was looked at."""
    above, wrong, checks = [], [], 0
    for depth, name, file in walk:
        above, checks = above[:depth], checks + 1
        file = file or (above[-1][1] if above else None)
        if len(above) != depth:
            wrong.append(f"{name}: nothing stands a step to its left")
        elif not bodies(file, name):
            wrong.append(f"{file} has no function {name}")
        elif above:
            caller, its_file = above[-1]
            calls = re.compile(rf"(?<![A-Za-z0-9_]){name}(?:::<[^>]*>)?\(")
            if not any(calls.search(body.split("{", 1)[-1]) for body in bodies(its_file, caller)):
                wrong.append(f"{caller} in {its_file} doesn't call {name}")
        if (name, file) == PARSER and len(above) > MOST_BEFORE_PARSER:
            wrong.append(f"{len(above)} functions stand before the parser, which is more than {MOST_BEFORE_PARSER}")
        above.append((name, file))
    return wrong, checks


def main():
    """Both walks."""
    found = list(walks())
    wrong, checks = [] if len(found) == 2 else [f"{len(found)} walks in docs/MAP.md, not 2"], 1
    for walk in found:
        its_wrong, its_checks = faults(walk)
        wrong, checks = wrong + its_wrong, checks + its_checks
    for line in wrong:
        print(line)
    print(f"walks: {checks} checks, {len(wrong)} failed")
    return bool(wrong)


if __name__ == "__main__":
    sys.exit(main())
