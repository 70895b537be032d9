#!/usr/bin/env python3
"""Lists what no request to the desk lists, from a copy of a hall's file, as `hallboot backup` or `serve --backup` makes one.

The copy is only read. A hall that is served, or that has a log beside it, is refused: its file alone isn't the hall."""
import argparse
import datetime
import fcntl
import json
import os
import sqlite3
import struct
import sys

ROLES = ["admin", "user", "power"]
ARCHES = ["bios", "uefi32", "uefi64", "arm64"]
PURPOSES = ["commission", "test", "deploy", "erase", "rescue"]
STAGES = ["offered", "started", "done", "failed"]


EMPTY = {"-wal": 41, "-journal": 0}     # so many octets of a log have nothing in them


class Refused(Exception):
    """It isn't a copy that can be read."""


def is_in_use(file):
    """Whether a program has locked it as SQLite does: the bytes from 2^30 on."""
    asked = struct.pack("hhqqi4x", fcntl.F_WRLCK, os.SEEK_SET, 1 << 30, 512, 0)
    return struct.unpack("hhqqi4x", fcntl.fcntl(file, fcntl.F_GETLK, asked))[0] != fcntl.F_UNLCK


def opened(path):
    """The copy, and its moment: that in the file, which a copy of the copy has too, or that of the file's last change."""
    try:
        with open(path, "rb+" if os.access(path, os.W_OK) else "rb") as file:
            moment = os.fstat(file.fileno()).st_mtime
            if is_in_use(file):
                raise Refused(f"{path} is in use, as a hall that is served: make a copy by serve --backup")
    except OSError as fault:
        raise Refused(f"{path}: {fault.strerror}") from fault
    for end, empty in EMPTY.items():
        if os.path.exists(path + end) and os.path.getsize(path + end) > empty:
            raise Refused(f"{path} has a log beside it ({path}{end}), as a hall in use has: make a copy by hallboot backup, or serve --backup")
    try:
        hall = sqlite3.connect(f"file:{path}?mode=ro&immutable=1".replace("%", "%25").replace("#", "%23"), uri=True)
        schema, = hall.execute("SELECT schema FROM hall").fetchone()
        stamp, = hall.execute("PRAGMA user_version").fetchone()
    except (sqlite3.Error, TypeError) as fault:
        raise Refused(f"{path} isn't a hall's file: {fault}") from fault
    if schema not in (1, 2):
        raise Refused(f"{path} has a hall of another schema, {schema}")
    return hall, datetime.datetime.fromtimestamp(stamp & 0xFFFFFFFF or int(moment), datetime.timezone.utc).strftime("%Y-%m-%dT%H:%M:%SZ")


def word(words, number):
    return words[number] if 0 <= number < len(words) else str(number)


# ---- The lists: each row an object
def pools(hall, _):
    counted = dict(hall.execute("SELECT pool, count(*) FROM machines GROUP BY pool"))
    for name, in hall.execute("SELECT name FROM pools ORDER BY name"):
        members = [it for it, in hall.execute("SELECT operator FROM members WHERE pool = ? ORDER BY operator", (name,))]
        yield {"pool": name, "machines": counted.get(name, 0), "members": members}


def members(hall, _):
    for pool, operator in hall.execute("SELECT pool, operator FROM members ORDER BY pool, operator"):
        yield {"pool": pool, "operator": operator}


def images(hall, _):
    live = {image for image, in hall.execute("SELECT image FROM lives")}
    used = dict(hall.execute("SELECT image, count(*) FROM machines WHERE image IS NOT NULL GROUP BY image"))
    for name, arch, kernel, initrd, args in hall.execute("SELECT name, arch, kernel, initrd, args FROM images ORDER BY name"):
        yield {"image": name, "arch": word(ARCHES, arch), "live": name in live, "machines": used.get(name, 0), "kernel": kernel, "initrd": initrd, "args": args}


def lives(hall, _):
    for arch, image in hall.execute("SELECT arch, image FROM lives ORDER BY arch"):
        yield {"arch": word(ARCHES, arch), "image": image}


def operators(hall, _):
    for name, role, enabled in hall.execute("SELECT name, role, enabled FROM operators ORDER BY name"):
        owned, = hall.execute("SELECT count(*) FROM machines WHERE owner = ?", (name,)).fetchone()
        yield {"operator": name, "role": word(ROLES, role), "enabled": bool(enabled), "machines": owned}


def receipts(hall, machine):
    """What was commanded and accepted, in the order of the answers as far as the file has it: the hall keeps no moments."""
    for operator, key, command, status, body in hall.execute("SELECT operator, request, command, status, body FROM receipts ORDER BY rowid"):
        asked = json.loads(command)
        # kept as it was sent: false is none, true is full
        if "erase" in asked:
            asked["erase"] = {False: "none", True: "full"}.get(asked["erase"], asked["erase"])
        if machine is not None and asked.get("machine") != machine and not (asked["command"] == "add_machine" and json.loads(body).get("id") == machine):
            continue
        yield {"operator": operator, "command": asked.pop("command"), "about": asked, "status": status, "answer": json.loads(body), "key": uuid_text(key)}


def boots(hall, machine):
    """The scripts of work that were given, without their tokens."""
    for number, its, purpose, stage in hall.execute("SELECT number, machine, purpose, stage FROM boots ORDER BY number"):
        if machine is None or its == machine:
            yield {"boot": number, "machine": its, "purpose": word(PURPOSES, purpose), "stage": word(STAGES, stage)}


def uuid_text(octets):
    digits = octets.hex()
    return "-".join((digits[:8], digits[8:12], digits[12:16], digits[16:20], digits[20:]))


LISTS = {it.__name__: it for it in (pools, members, images, lives, operators, receipts, boots)}


# ---- What is printed
def text_of(value):
    if isinstance(value, bool):
        return "yes" if value else "no"
    if isinstance(value, list):
        return " ".join(map(text_of, value)) or "-"
    if isinstance(value, dict):
        return " ".join(f"{name}={text_of(it)}" for name, it in value.items()) or "-"
    return "-" if value in (None, "") else str(value)


def table(rows):
    """The rows below their names, in columns."""
    names = list(rows[0])
    cells = [names, *([text_of(row[name]) for name in names] for row in rows)]
    widths = [max(len(line[at]) for line in cells) for at in range(len(names))]
    for line in cells:
        print("  ".join(cell.ljust(width) for cell, width in zip(line, widths)).rstrip())


def main():
    parser = argparse.ArgumentParser(prog="hall-lists", description="Lists what a copy of a hall's file has.",
                                     epilog="Example: hall-lists copies/hall.db receipts --machine 7")
    parser.add_argument("copy", metavar="COPY", help="a copy, as hallboot backup or serve --backup makes one")
    parser.add_argument("list", nargs="?", choices=LISTS, help="which list; how long each is without one")
    parser.add_argument("--machine", type=int, metavar="NUMBER", help="of receipts and boots, those of this machine alone")
    parser.add_argument("--json", action="store_true", help="an object, with the copy's moment and the rows")
    words = parser.parse_args()
    try:
        hall, moment = opened(words.copy)
        if words.list is None:
            rows = [{"list": name, "rows": sum(1 for _ in rows_of(hall, words.machine))} for name, rows_of in LISTS.items()]
        else:
            rows = list(LISTS[words.list](hall, words.machine))
    except Refused as fault:
        print("hall-lists:", fault, file=sys.stderr)
        return 1
    except sqlite3.Error as fault:
        print(f"hall-lists: {words.copy}: {fault}", file=sys.stderr)
        return 1
    if words.json:
        print(json.dumps({"copy": words.copy, "moment": moment, words.list or "lists": rows}))
        return 0
    print(f"{words.copy} of {moment}")
    if rows:
        table(rows)
    return 0


if __name__ == "__main__":
    try:
        sys.exit(main())
    except BrokenPipeError:
        os.dup2(os.open(os.devnull, os.O_WRONLY), sys.stdout.fileno())
        sys.exit(1)
