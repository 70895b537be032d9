#!/usr/bin/env python3
"""Which files a change touches, beside those that CONTRIBUTING.md names for its kind.

usage: price_of_change.py KIND [BASE]    KIND: the words in bold of a row of "What to change for ..", or how they begin, as "refusal".
                                         Compares the working tree with BASE (main): how many files the row's number counts, which
                                         of them the row doesn't name, and which it names that weren't touched
       price_of_change.py --check        each file that a row names is there"""
import os
import re
import subprocess
import sys

TOP = os.path.dirname(os.path.dirname(os.path.abspath(__file__)))
WORD = re.compile(r"`([^`]+)`|\b([a-z]+_[a-z_]+|hallboot|hallctl)\b")


def rows():
    """Each kind of change, with the lines of its row."""
    text = open(f"{TOP}/CONTRIBUTING.md").read()
    part = text.split("## What to change for ..")[1].split("\n## ")[0]
    for item in re.split(r"\n(?=- For a new )", part)[1:]:
        yield re.search(r"\*\*([^*]+)\*\*", item)[1].replace("`", ""), item.split("\nA **kit**")[0]


def crates():
    return set(os.listdir(f"{TOP}/crates"))


def files_of(crate):
    for folder, _, files in os.walk(f"{TOP}/crates/{crate}"):
        if "/out" not in folder:
            yield from (os.path.relpath(os.path.join(folder, it), TOP) for it in files)


def named(item):
    """The files that a row names, each after its crate: `CRATE/src/x.rt`, or `CRATE`: `src/x.rt`, `specs/X.antt`, `Y`."""
    found, missing, crate = set(), set(), None
    for quoted, plain in WORD.findall(re.sub(r"\s+", " ", item)):
        word = quoted or plain
        first, _, rest = word.partition("/")
        if first in crates():
            crate, word = first, rest
            if not word:
                continue
        if word.startswith("docs/"):
            if os.path.exists(f"{TOP}/{word}"):
                found.add(word)
            continue
        if crate is None or not re.fullmatch(r"[\w/]+\.(rt|antt|cases)|[A-Z]\w+", word) or re.search(r"\b[A-Z]{2,}\.", word):
            continue
        end = word if "." in word else f"{word}.antt"
        matches = {it for it in files_of(crate) if it.endswith(f"/{end}")}
        if matches:
            found |= matches
        elif "." in word:
            missing.add(f"{crate}: {word}")
    return found, missing


def check():
    checks = failed = 0
    for kind, item in rows():
        found, missing = named(item)
        checks += len(found) + len(missing)
        failed += len(missing)
        for it in sorted(missing):
            print(f"{kind}: no file {it}")
    print(f"price_of_change: {checks} checks, {failed} failed (each file that CONTRIBUTING.md names for a change is there)")
    sys.exit(failed > 0)


def compare(kind, base):
    row = [item for its, item in rows() if its.startswith(kind)]
    if len(row) != 1:
        sys.exit(f"price_of_change: CONTRIBUTING.md has {len(row)} rows that begin by {kind}")
    listed = subprocess.run(["git", "diff", "--name-only", base], cwd=TOP, capture_output=True, text=True, check=True)
    new = subprocess.run(["git", "ls-files", "--others", "--exclude-standard"], cwd=TOP, capture_output=True, text=True, check=True)
    touched = {it for it in (listed.stdout + new.stdout).split() if it.startswith("crates/")}
    found, _ = named(row[0])
    print(f"{len(touched)} files of crates/ touched since {base}")
    for it in sorted(touched):
        print(f"  {'' if it in found or it.endswith('/stdout') else 'not named: '}{it}")
    for it in sorted(it for it in found - touched if it.startswith("crates/")):
        print(f"  named, not touched: {it}")


if __name__ == "__main__":
    if sys.argv[1:] == ["--check"]:
        check()
    if len(sys.argv) not in (2, 3):
        sys.exit(__doc__)
    compare(sys.argv[1], sys.argv[2] if len(sys.argv) == 3 else "main")
