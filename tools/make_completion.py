#!/usr/bin/env python3
"""Completion of hallctl for zsh or fish, from its own help, so that it is made of the same rows.

usage: make_completion.py zsh|fish HALLCTL"""
import re
import sys

from make_man import help_of, items, sections


def quoted(text):
    return "'" + text.replace("\\", "\\\\").replace("'", "\\'") + "'"


def option_of(word):
    """The long name of an option, and the name of its value; None if it is no option."""
    for part in word.split(", "):
        if part.startswith("--"):
            name, _, value = part.partition(" ")
            return name[2:], value.strip("<>[].")
    return None


def commands_of(program):
    """Each command with what it is for, and its options with theirs."""
    for command, what in items(sections(help_of(program)).get("Commands", [])):
        if command != "help":
            options = [(option_of(word), text) for word, text in items(sections(help_of(program, command)).get("Options", []))]
            yield command, what, [(*option, text) for option, text in options if option]


FILES = {"FILE", "PATH"}


def values_of(text):
    """The values that a help text lists behind its colon, as `none, quick or full`, with hyphens for blanks."""
    listed = re.split(", | or ", text.rpartition(": ")[2]) if ": " in text else []
    if len(listed) < 2 or not all(re.fullmatch("[A-Za-z][A-Za-z0-9_ ]*", one) and not one.startswith("or ") for one in listed):
        return []
    return [one.replace(" ", "-") for one in listed]


def zsh(program):
    print("#compdef hallctl\n# Completion of hallctl's command lines for zsh.\n_hallctl() {\n    local -a commands\n    commands=(")
    rows = list(commands_of(program))
    for command, what, _ in rows:
        print(f"        '{command}:{what.replace(chr(39), chr(39) + chr(92) + chr(39) * 2)}'")
    print("    )\n    if (( CURRENT == 2 )); then _describe command commands; return; fi\n    case $words[2] in")
    for command, _, options in rows:
        words = []
        for name, value, what in options:
            values = " ".join(values_of(what))
            what = what.replace("'", "").replace("[", "(").replace("]", ")").replace(":", ";")
            action = "" if not value else f":{value}:_files" if value in FILES else f":{value}:({values})"
            words.append(f"'--{name}[{what}]{action}'")
        print(f"        {command}) _arguments {' '.join(words)} '*:word:_files' ;;")
    print("    esac\n}\n_hallctl \"$@\"")


def fish(program):
    print("# Completion of hallctl's command lines for fish.\ncomplete -c hallctl -f")
    for command, what, options in commands_of(program):
        print(f"complete -c hallctl -n __fish_use_subcommand -a {command} -d {quoted(what)}")
        for name, value, text in options:
            values = " ".join(values_of(text))
            more = "" if not value else " -r -F" if value in FILES else f" -x -a {quoted(values)}" if values else " -x"
            print(f"complete -c hallctl -n '__fish_seen_subcommand_from {command}' -l {name}{more} -d {quoted(text)}")


if __name__ == "__main__":
    if len(sys.argv) != 3 or sys.argv[1] not in ("zsh", "fish"):
        sys.exit(__doc__)
    {"zsh": zsh, "fish": fish}[sys.argv[1]](sys.argv[2])
