#!/usr/bin/env python3
"""Plays stored runs with wrong bodies. A must-fail edit (CONTRIBUTING.md) that begins with `shown: PROGRAM FILE CASE` names a case that shows it: with
the body that the edit makes, what comes of this case must differ. Nothing is proved here: the gate has the prover refuse each edit. Each takes a minute
or two of a processor, four where its program is over SQLite.

Usage: wrong_bodies.py [NAME..]   plays all, or those of these crates, or these edits; three at a time, or as PLAYS_AT_ONCE says
       wrong_bodies.py --check    looks at every edit of every crate, whether it can be made, its case is there, and docs/PROVED.md has a row for
                                  it: plays nothing. A look is no check: counted are those that fail"""
import concurrent.futures
import glob
import os
import re
import shutil
import subprocess
import sys
import tempfile

TOP = os.path.dirname(os.path.dirname(os.path.abspath(__file__)))
EDITS = f"{TOP}/crates/*/must-fail/*.edit"
PARTS = ("src", "specs", "proofs", "data", "stdin", "stdout", "args")


def text_of(file):
    with open(file, encoding="utf-8") as it:
        return it.read()


def copy_to(folder):
    """Makes a repository of the crates without what was made of them, and without their must-fail edits."""
    os.mkdir(f"{folder}/.git")
    for name in ("crates.txt", "HANDLES"):
        shutil.copyfile(f"{TOP}/{name}", f"{folder}/{name}")
    for part in (it for name in PARTS for it in glob.glob(f"{TOP}/crates/*/{name}")):
        to = f"{folder}/{os.path.relpath(part, TOP)}"
        os.makedirs(os.path.dirname(to), exist_ok=True)
        shutil.copytree(part, to) if os.path.isdir(part) else shutil.copyfile(part, to)


class WrongBody:
    """An edit of a crate's body, and the case that shows it, if it names one."""

    def __init__(self, file):
        _, self.crate, _, name = os.path.relpath(file, TOP).split("/")
        self.name = name.removesuffix(".edit")
        lines = [line.partition(": ")[::2] for line in text_of(file).splitlines()]
        shown = next((said for word, said in lines if word == "shown"), None)
        self.program, self.file, self.case = shown.split(" ", 2) if shown else (None, None, None)
        self.edits, at = [], None
        for word, said in lines:
            if word == "file":
                at = said
            elif word == "old":
                old = said
            elif word == "new":
                self.edits.append((f"crates/{self.crate}/{at}", old, said))

    def texts(self):
        """The files that the edit changes, with the texts that it makes of them."""
        made = {}
        if not self.edits:
            raise ValueError("it changes nothing")
        for file, old, new in self.edits:
            text = made.get(file) or text_of(f"{TOP}/{file}")
            if text.count(old) != 1:
                raise ValueError(f"{file} has {text.count(old)} times: {old}")
            made[file] = text.replace(old, new)
        return made

    def played(self):
        """The case with all that stands before it in its file, since a hall may go on from one case to the next."""
        cases = re.split(r"(?m)^(?=== )", text_of(f"{TOP}/crates/{self.program}/data/{self.file}"))
        found = [at for at, case in enumerate(cases) if case.startswith(f"== {self.case}\n")]
        if len(found) != 1:
            raise ValueError(f"{self.program} has no case of this name in {self.file}: {self.case}")
        return "".join(cases[: found[0] + 1])

    def differs(self):
        """Whether what comes of the case differs with this body; prints what was played if it doesn't."""
        with tempfile.TemporaryDirectory(prefix="wrong-body-") as folder:
            copy_to(folder)
            for file, text in [*self.texts().items(), ("case", self.played())]:
                with open(f"{folder}/{file}", "w", encoding="utf-8") as it:
                    it.write(text)
            words = ["rt", "try", "--seconds", "900", "--data", f"{self.file}={folder}/case", "--", self.file]
            ran = subprocess.run(words, cwd=f"{folder}/crates/{self.program}", stdout=subprocess.PIPE, stderr=subprocess.STDOUT, text=True, errors="replace")
        if re.search(rf"(?m)^\W*{re.escape(self.file)}, line \d+, {re.escape(self.case)}$", ran.stdout):
            return True
        print(ran.stdout[-2000:])
        return False


def looked_at(body, rows):
    """Says why an edit can't be made, or that its case or its row isn't there, and returns whether all is well."""
    try:
        body.texts()
        if body.case:
            body.played()
        if f"| {body.crate}: `{body.name}` |" not in rows:
            raise ValueError("docs/PROVED.md has no row for it")
    except (OSError, ValueError) as fault:
        print(f"{body.crate}/{body.name}: {fault}")
        return False
    return True


def tried(body):
    """Says what came of one, and returns whether its case shows it."""
    try:
        is_shown, why = body.differs(), "not shown by"
    except (OSError, ValueError) as fault:
        is_shown, why = False, f"{fault}; it is to be shown by"
    print(f"{body.crate}/{body.name}: {'shown by' if is_shown else why} {body.program}, {body.case}", flush=True)
    return is_shown


def main(names):
    bodies = [WrongBody(file) for file in sorted(glob.glob(EDITS))]
    if names == ["--check"]:
        rows = text_of(f"{TOP}/docs/PROVED.md")
        failed = [looked_at(body, rows) for body in bodies].count(False) + (not bodies)
        print(f"wrong_bodies: {failed} checks, {failed} failed ({len(bodies)} edits looked at)")
        return 1 if failed else 0
    wanted = {*names}
    bodies = [it for it in bodies if it.case and (not wanted or {it.crate, it.name, f"{it.crate}/{it.name}"} & wanted)]
    with concurrent.futures.ThreadPoolExecutor(int(os.environ.get("PLAYS_AT_ONCE", "3"))) as at_once:
        shown = list(at_once.map(tried, bodies))
    failed = shown.count(False) + (not bodies)
    print(f"wrong_bodies: {max(len(shown), 1)} checks, {failed} failed ({len({it.crate for it in bodies})} crates)")
    return 1 if failed else 0


sys.exit(main(sys.argv[1:]))
