#!/usr/bin/env python3
"""A man page of a program from its own help, so that both are made of the same rows.

usage: make_man.py PROGRAM NAME SECTION VERSION DATE    prints the page; PROGRAM is run with --help, and with COMMAND --help for each command"""
import os
import re
import subprocess
import sys


def help_of(program, *words):
    wide = {**os.environ, "COLUMNS": "1000"}     # Python's argparse breaks lines by it
    it = subprocess.run([program, *words, "--help"], capture_output=True, text=True, timeout=60, check=True, env=wide)
    return it.stdout


def sections(text):
    """The parts of a help text: what stands before the first heading, and each part under its heading."""
    parts, name = {"": [], "after": []}, ""
    for line in text.splitlines():
        heading, usage = re.fullmatch(r"([A-Za-z][A-Za-z ]*):", line), re.match(r"[Uu]sage: (.*)", line)
        if heading:
            name = heading[1].capitalize()
            parts[name] = []
        elif usage:
            parts["Usage"], name = [usage[1]], "after"
        elif not line.strip():
            name = name if name == "" else "after"
        else:
            parts[name].append(line)
    return parts


def items(lines):
    """The items of a list of commands or options: what is written, and what it is for."""
    found = []
    for line in lines:
        item = re.match(r" {2,6}(\S.*?)(?: {2,}(.*))?$", line)
        if item and not line.startswith(" " * 10):
            found.append([item[1], item[2] or ""])
        elif line.strip() and found:
            found[-1][1] = (found[-1][1] + " " + line.strip()).strip()
    return found


def roff(text):
    return re.sub(r"^([.'])", r"\\&\1", text.replace("\\", "\\e").replace("-", "\\-"))


def listed(lines):
    out = []
    for word, what in items(lines):
        out += [".TP", f"\\fB{roff(word)}\\fR", roff(what)]
    return out


def page(program, name, section, version, date):
    front = sections(help_of(program))
    # clap says what a program is for before its usage, argparse behind it
    about = " ".join(line.strip() for line in front[""]) or front["after"].pop(0)
    first = about.partition(". ")[0].rstrip(".")
    out = [f'.TH {name.upper()} {section} "{date}" "{name} {version}" "Boot desk of a server hall"',
           ".SH NAME", f"{name} \\- {roff(first[0].lower() + first[1:])}", ".SH SYNOPSIS", f"\\fB{roff(front['Usage'][0])}\\fR",
           ".SH DESCRIPTION", roff(about)]
    for part in ("Positional arguments", "Options"):
        if front.get(part):
            out += [f".SH {part.split()[-1].upper()}", *listed(front[part])]
    commands = items(front.get("Commands", []))
    if commands:
        out += [".SH COMMANDS"]
    for command, what in commands:
        if command == "help":
            continue
        its = sections(help_of(program, command))
        out += [f".SS {roff(command)}", roff(what) + ".", ".PP", f"\\fB{roff(its['Usage'][0])}\\fR"]
        for part in ("Arguments", "Options"):
            out += listed(its.get(part, []))
        out += [line for text in its["after"] for line in (".PP", roff(text.strip()))]
    for text in front["after"]:
        title, _, rest = text.strip().partition(": ")
        out += [f".SH {title.upper()}", roff(rest)] if title == "Exit status" else [".PP", roff(text.strip())]
    return "\n".join(out) + "\n"


if __name__ == "__main__":
    if len(sys.argv) != 6:
        sys.exit(__doc__)
    sys.stdout.write(page(*sys.argv[1:]))
