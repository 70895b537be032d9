#!/usr/bin/env python3
"""Looks for cases of the stored runs by words, as a reader would: a case for each refusal, silence, status, command and law. The words are read from the
sources and from docs/LAWS.md. Cases that are wrong on purpose don't count. Besides, names of cases are looked at: that each is there once in its program,
that tables and docs/ name none that isn't there, and that each file of cases is played.
Prints how many of these checks are good, and on standard error a line for each that isn't.
Usage: case_words.py"""
import collections
import glob
import os
import re
import sys

TOP = os.path.dirname(os.path.dirname(os.path.abspath(__file__)))
Case = collections.namedtuple("Case", "path name notes acts wanted")


def text_of(path):
    """Returns the text of a file of the repository."""
    with open(f"{TOP}/{path}", encoding="utf-8") as it:
        return it.read()


def program_of(path):
    """Returns the folder of the program that plays a file of cases."""
    return os.path.dirname(os.path.dirname(path))


def is_wrong(path):
    """Returns whether the cases of a file are wrong on purpose."""
    return os.path.basename(path).startswith("wrong")


def table_of(lines):
    """Returns the rows of a table: what a reader looks for, or that of the row above where nothing stands there, and the name of a case."""
    table, what = [], ""
    for row in [line.rstrip("| ").split(" | ") for line in lines][2:]:
        what = row[1].strip() or what
        table.append((what, row[-1]))
    return table


def cases_of(path):
    """Returns the cases of a file, each with what the table at the file's head calls it, and the names of cases that the table has."""
    lines = text_of(path).splitlines()
    cases, table = [], table_of([line for line in lines if line.startswith("# |")])
    for line in lines:
        if line.startswith("== "):
            notes = [what for what, name in table if name == line[3:]]
            cases.append(Case(path, line[3:], notes, [], []))
        elif line.startswith("#") and cases:
            cases[-1].notes.append(line[1:].strip())
        elif line.startswith(("= ", "  ")) and cases:
            cases[-1].wanted.append(line[2:])
        elif line and cases and line != "=":
            cases[-1].acts.append(line)
    return cases, [name for _, name in table]


def variants(path, enum):
    """Returns the names of an enum of a source but for want of memory."""
    body = re.search(rf"pub enum {enum} {{\n(.*?)\n}}", text_of(path), re.DOTALL)[1]
    return [name for name in re.findall(r"^    (\w+)(?: = \d+)?,$", body, re.MULTILINE) if name != "Memory"]


def laws():
    """Returns the names of the laws of docs/LAWS.md: what each item of its lists of laws begins with."""
    return re.findall(r"^- \*\*`(\w+)`\*\*", text_of("docs/LAWS.md"), re.MULTILINE)


def lists():
    """Returns what is looked for: a kind of words, the words, what finds one, and where."""
    silences = variants("crates/dhcp_frame/src/fault.rt", "FrameFault") + variants("crates/pxe_vendor/src/serve.rt", "NotServed")
    silences += variants("crates/boot_desk/src/frames.rt", "Silence")
    statuses = re.findall(r'Status::\w+ => "([^"]+)"', text_of("crates/hall_types/src/status.rt"))
    commands = re.findall(r'Kind::\w+ => "(\w+)"', text_of("crates/hall_events/src/command.rt"))
    commands += re.findall(r'Act::\w+ => "(\w+)"', text_of("crates/hall_types/src/act.rt"))
    return [
        ("refusal", variants("crates/hall_types/src/refusal.rt", "Refusal"), r'\b\d{3} \{"refusal":"%s"', lambda case: case.wanted),
        ("silence", silences, r"\b%s\b", lambda case: [case.name] + case.notes + [it for it in case.wanted if "refusal" not in it]),
        ("status", statuses, r"\b%s\b", lambda case: case.wanted),
        ("command", commands, r'"command":"%s"', lambda case: case.acts),
        ("law", laws(), r"\b%s\b", lambda case: [case.name] + case.notes),
    ]


def look_for_words(cases, said):
    """Says of each word whether a case has it."""
    for kind, words, pattern, where in lists():
        text = "\n".join(line for case in cases for line in where(case))
        said(words, f"no {kind} is found in the sources")
        for word in words:
            said(re.search(pattern % re.escape(word), text), f"{kind} {word}: no case")


def look_at_names(files, said):
    """Says of each name of a case whether it's there once, and of each that a table has whether it's one of that file."""
    names = collections.Counter((program_of(path), case.name) for path, (cases, _) in files.items() for case in cases)
    for (program, name), count in names.items():
        said(count == 1, f'{program}: {count} cases "{name}"')
    for path, (cases, table) in files.items():
        said(table or is_wrong(path), f"{path}: no table at its head")
        for name in table:
            said(name in {case.name for case in cases}, f'{path}: its table has "{name}", which is no case of it')
        args = f"{program_of(path)}/args"
        said(os.path.isfile(f"{TOP}/{args}") and os.path.basename(path) in text_of(args).split(), f"{path}: {args} doesn't name it")


def look_at_docs(cases, said):
    """Says of each case that docs/ names whether it's there."""
    names = {case.name for case in cases}
    for path in sorted(glob.glob("docs/*.md", root_dir=TOP)):
        for name in re.findall(r'\bcase "([^"]+)"', " ".join(text_of(path).split())):
            said(name in names, f'{path}: there is no case "{name}"')


def main():
    """Prints what is missing, and how much isn't."""
    files = {path: cases_of(path) for path in sorted(glob.glob("crates/play_*/data/*.cases", root_dir=TOP))}
    cases = [case for its, _ in files.values() for case in its]
    counts = collections.Counter()

    def said(is_good, missing):
        counts[bool(is_good)] += 1
        if not is_good:
            print(missing, file=sys.stderr)

    look_for_words([case for case in cases if not is_wrong(case.path)], said)
    look_at_names(files, said)
    look_at_docs(cases, said)
    print(counts[True])
    sys.exit(1 if counts[False] else 0)


if __name__ == "__main__":
    main()
