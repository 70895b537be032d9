#!/usr/bin/env python3
"""Proves and builds a program of the repository, and prints its path.

Its crate and those below it are proved side by side, as the gate proves them, on a copy without their must-fail edits: as many at a time as there
are processors and memory for, of which each takes one to four gigabytes. Standard error has a line for each that is proved. A program that was built
of the same files stays as it is.
Usage: tools/build_program.py CRATE"""
import hashlib
import os
import re
import shutil
import subprocess
import sys
import tempfile

TOP = os.path.dirname(os.path.dirname(os.path.abspath(__file__)))
UNUSED = ("out", "must-fail")


def lines_of_crates():
    """Returns each crate's line of crates.txt, by the crate's name."""
    with open(f"{TOP}/crates.txt", encoding="utf-8") as lines:
        named = [line for line in lines if ":" in line and not line.startswith("#")]
    return {re.match(r"\w+", line)[0]: line for line in named}


def lines_below(crate, lines):
    """Returns the lines of the crate and of all crates of the repository that it stands on."""
    found, left = {}, [crate]
    while left:
        name = left.pop()
        if name in lines and name not in found:
            found[name] = lines[name]
            left += lines[name].partition(":")[2].split()
    return dict(sorted(found.items()))


def files_of(crate):
    """Returns the paths of the files that the crate's proof and its run read, from the repository's top."""
    found = []
    for at, folders, files in os.walk(f"{TOP}/crates/{crate}"):
        inside = os.path.relpath(at, TOP)
        if inside == f"crates/{crate}":
            folders[:] = [it for it in folders if it not in UNUSED]
        found += [f"{inside}/{name}" for name in files]
    return sorted(found)


def sum_of(files, lines):
    """Returns a sum of the kit, of what each crate stands on, and of the files."""
    kit = subprocess.run(["rt", "version"], check=True, stdout=subprocess.PIPE).stdout
    made = hashlib.sha256(repr((kit, lines)).encode())
    for file in files:
        with open(f"{TOP}/{file}", "rb") as it:
            made.update(repr((file, it.read())).encode())
    return made.hexdigest()


def copy_to(folder, files, lines):
    """Makes a repository of these files and crates alone."""
    for file in files:
        os.makedirs(os.path.dirname(f"{folder}/{file}"), exist_ok=True)
        shutil.copyfile(f"{TOP}/{file}", f"{folder}/{file}")
    with open(f"{folder}/crates.txt", "w", encoding="utf-8") as it:
        it.writelines(lines.values())
    shutil.copyfile(f"{TOP}/HANDLES", f"{folder}/HANDLES")
    os.mkdir(f"{folder}/.git")


def prove(folder, number):
    """Proves, builds and runs what is in the folder, and tells of each crate that is proved; returns what was said if that failed."""
    said, proved = [], 0
    with subprocess.Popen(["rt", "ci"], cwd=folder, stdout=subprocess.PIPE, stderr=subprocess.STDOUT, text=True, errors="replace") as run:
        for line in run.stdout:
            said.append(line)
            crate = re.match(r"rt: (\w+) (proved$|is kept)", line)
            if crate:
                proved += 1
                print(f"proved {proved} of {number}: {crate[1]}", file=sys.stderr, flush=True)
    return "".join(said) if run.returncode else None


def text_of(file):
    """Returns what is in a file, nothing where there is none."""
    if not os.path.isfile(file):
        return b""
    with open(file, "rb") as it:
        return it.read()


def main(crate):
    """Prints the path of the crate's program, as it stands there already or after it was built."""
    if not shutil.which("rt"):
        sys.exit("build_program: rt, the command of the Rattle kit, is missing")
    if not os.path.isfile(f"{TOP}/crates/{crate}/src/main.rt"):
        sys.exit(f"build_program: {crate} is no program of this repository")
    lines = lines_below(crate, lines_of_crates())
    files = [file for name in lines for file in files_of(name)]
    made_of, program = sum_of(files, lines), f"{TOP}/crates/{crate}/out/{crate}"
    stamp = lambda: f"{made_of} {hashlib.sha256(text_of(program)).hexdigest()}\n".encode()
    if not os.path.isfile(program) or text_of(f"{program}.made_of") != stamp():
        with tempfile.TemporaryDirectory(prefix="build-program-") as folder:
            copy_to(folder, files, lines)
            failure = prove(folder, len(lines))
            if failure:
                sys.exit(failure)
            os.makedirs(os.path.dirname(program), exist_ok=True)
            shutil.copy(f"{folder}/crates/{crate}/out/{crate}", f"{program}.new")
        os.replace(f"{program}.new", program)
        with open(f"{program}.made_of", "wb") as it:
            it.write(stamp())
    print(program)


if __name__ == "__main__":
    if len(sys.argv) != 2:
        sys.exit("Usage: tools/build_program.py CRATE")
    main(sys.argv[1])
