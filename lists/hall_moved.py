#!/usr/bin/env python3
"""Says which machines moved since the backup that a hall was restored from, by the desk's log, and which commands mend the hall.

It reads the restored hall, or the backup, and the log, and changes nothing. The commands are typed while the hall is served by
hallboot serve --loopback, where neither machines nor the power program reach it: no line switches a machine, and none leads
through a script that writes or erases disks."""
import argparse
import collections
import dataclasses
import datetime
import functools
import gzip
import importlib.machinery
import importlib.util
import json
import os
import re
import sqlite3
import subprocess
import sys
import time
import zlib

STATUSES = ["New", "Commissioning", "Failed commissioning", "Testing", "Failed testing", "Ready", "Allocated", "Deploying", "Failed deployment",
            "Deployed", "Releasing", "Failed releasing", "Disk erasing", "Failed disk erasing", "Entering rescue mode",
            "Failed to enter rescue mode", "Rescue mode", "Exiting rescue mode", "Failed to exit rescue mode", "Broken"]
RESCUE = STATUSES[14:19]
WORK = {"Commissioning", "Testing", "Deploying", "Disk erasing", "Entering rescue mode", "Rescue mode"}     # in these a start may be given a new script
HELD = {"New", "Failed commissioning", "Failed testing", "Ready", "Allocated", "Failed deployment", "Releasing", "Failed releasing",
        "Failed disk erasing", "Failed to enter rescue mode", "Failed to exit rescue mode", "Broken"}      # in these a start is told to switch off
# What a status becomes where its order fails or its deadline passes
FAILED = {"Commissioning": "Failed commissioning", "Testing": "Failed testing", "Deploying": "Failed deployment", "Disk erasing": "Failed disk erasing",
          "Entering rescue mode": "Failed to enter rescue mode", "Releasing": "Failed releasing", "Exiting rescue mode": "Failed to exit rescue mode"}
KINDS = ["cycle", "off"]
A_WEEK = 7 * 86400
LONG_SILENCE = 12 * 3600
DESK, POWER = "hallctl", "hallctl --token-file pow.token"


def hall_lists():
    """The program hall-lists, which stands beside this one: what a copy of a hall is, and how it is opened, is written there alone."""
    folder = os.path.dirname(os.path.realpath(__file__))
    for name in ("hall_lists.py", "hall-lists"):
        path = os.path.join(folder, name)
        if os.path.isfile(path):
            sys.dont_write_bytecode = True
            loader = importlib.machinery.SourceFileLoader("hall_lists", path)
            module = importlib.util.module_from_spec(importlib.util.spec_from_loader("hall_lists", loader))
            loader.exec_module(module)
            return module
    sys.exit(f"hall-moved: {folder}: hall-lists is missing, which belongs beside this program")


lists = hall_lists()
Refused = lists.Refused


# ---- Moments
@functools.lru_cache(1024)
def moment_of(word):
    """The moment that a line begins with, in one of the log's two forms; None where it is none."""
    if word.isascii() and word.isdigit():
        return int(word) if len(word) <= 11 else None
    if len(word) == 20 and word.endswith("Z"):
        try:
            return int(datetime.datetime.strptime(word, "%Y-%m-%dT%H:%M:%SZ").replace(tzinfo=datetime.timezone.utc).timestamp())
        except ValueError:
            return None
    return None


def text_of(moment):
    return datetime.datetime.fromtimestamp(moment, datetime.timezone.utc).strftime("%Y-%m-%dT%H:%M:%SZ")


def moment_word(word):
    moment = moment_of(word)
    if moment is None:
        raise argparse.ArgumentTypeError(f"{word}: a moment is as 2026-09-21T14:13:20Z, or seconds since 1970")
    return moment


# ---- The log
@dataclasses.dataclass(frozen=True)
class Event:
    """What a line of the log says. A move has a status before or after it, a machine that is new or gone only one of them."""
    moment: int
    machine: int | None = None
    before: str | None = None
    after: str | None = None
    command: str | None = None
    object: str = ""
    operator: str | None = None
    version: int | None = None
    order: int | None = None
    outcome: str | None = None
    boot: int | None = None
    stage: str | None = None
    mac: str | None = None
    arch: str | None = None
    lost: int = 0
    backup: bool = False
    unsure: bool = False

    def is_move(self):
        return self.before is not None or self.after is not None


NAME = "[a-z][a-z0-9-]{0,31}"
MAC = "(?:[0-9a-f]{2}:){5}[0-9a-f]{2}"
STATUS = "|".join(sorted(STATUSES, key=len, reverse=True))
MOVE = re.compile(rf"; machine (?P<machine>\d+): (?:new, (?P<new>{STATUS})|(?P<last>{STATUS}), gone|(?P<before>{STATUS}) to (?P<after>{STATUS}))(?:, unsent)?$")
COMMAND = re.compile(rf"POST /commands (?P<command>[a-z_]+) (?P<about>.*?) ?by (?P<operator>{NAME}): (?:200 (?P<body>{{[^}}]*}})|unavailable$)")
ABOUT = re.compile(r"(?:(?P<object>\S+) )?of machine (?P<machine>\d+)$")
ORDER = re.compile(rf"POST /orders/(?P<order>\d+) (?P<outcome>done|failed) by {NAME}: 200 ")
REPORT = re.compile(r'POST /report/(?P<boot>\d+) (?P<stage>started|done|failed): 200 \{"result":"counted"\}')
SCRIPT = re.compile(rf"GET /ipxe/(?P<mac>{MAC}): 200 ")
FRAME = re.compile(rf"(?:discover|boot) [A-Z]+ (?P<mac>{MAC}) (?P<arch>\w+)")
LOST = re.compile(r"lost (\d+)")


def command_of(text, found):
    """What a command was about, into the members of an event."""
    command = COMMAND.match(text)
    if not command:
        return False
    about = ABOUT.match(command["about"])
    found.update(command=command["command"], operator=command["operator"], unsure=command["body"] is None,
                 object=(about["object"] or "") if about else command["about"])
    if about:
        found["machine"] = int(about["machine"])
    try:
        body = json.loads(command["body"] or "{}")
    except ValueError:
        return False
    found["version"] = body.get("version")
    if found["command"] == "add_machine":
        found.update(machine=body.get("id"), mac=found["object"])
    return True


def event_of(moment, text, machine):
    """The event of a line's words, None where they tell of none that counts here."""
    found, counts = {"machine": machine}, False
    if text.startswith("POST /commands "):
        counts = command_of(text, found)
    elif it := ORDER.match(text):
        found.update(order=int(it["order"]), outcome=it["outcome"])
        counts = True
    elif it := REPORT.match(text):
        found.update(boot=int(it["boot"]), stage=it["stage"])
        counts = True
    elif it := SCRIPT.match(text):
        found["mac"], counts = it["mac"], True
    elif it := FRAME.match(text):
        found.update(mac=it["mac"], arch=it["arch"])
    elif it := LOST.fullmatch(text):
        found["lost"], counts = int(it[1]), True
    elif text.endswith(": unavailable"):
        found["unsure"], counts = not text.startswith("GET "), True
    elif text.startswith("backup of "):
        found["backup"], counts = True, True
    if it := MOVE.search(text):
        found.update(machine=int(it["machine"]), before=it["before"] or it["last"], after=it["after"] or it["new"])
        counts = True
    return Event(moment, **found) if counts else None


class Log:
    """The events of a log, and which moments it has."""

    def __init__(self):
        self.events, self.first, self.last, self.passed_over = [], None, None, 0
        self.silences, self.backwards = [], []

    def line(self, line):
        line = line.rstrip("\r\n")
        machine = None
        if line.startswith("{"):
            try:
                it = json.loads(line)
                word, text, machine = str(it.get("@timestamp")), str(it.get("message")), it.get("hall.machine")
            except ValueError:
                word = text = ""
        else:
            word, _, rest = line.partition(" ")
            _, _, text = rest.partition(" ")
        moment = moment_of(word)
        if moment is None:
            self.passed_over += bool(line)
            return
        if self.last is not None and moment - self.last >= LONG_SILENCE:
            self.silences.append((self.last, moment))
        if self.last is not None and self.last - moment > 60:
            self.backwards.append((self.last, moment))
        self.first = moment if self.first is None else min(self.first, moment)
        self.last = moment if self.last is None else max(self.last, moment)
        event = event_of(moment, text, machine)
        if event:
            self.events.append(event)

    def file(self, path):
        for line in lines_of(path):
            self.line(line)

    def journal(self, program, since):
        words = [program, "-u", "hallboot", "-o", "cat", "--no-pager", "-q", f"--since=@{since}"]
        try:
            with subprocess.Popen(words, stdout=subprocess.PIPE, text=True, encoding="utf-8", errors="replace") as it:
                for line in it.stdout:
                    self.line(line)
        except OSError as fault:
            raise Refused(f"{program}: {fault.strerror}") from fault
        if it.returncode:
            raise Refused(f"{' '.join(words)}: it ended with status {it.returncode}")


def lines_of(path):
    """The lines of a file, which may be packed by gzip, as logrotate does it."""
    try:
        with open(path, "rb") as file:
            packed = file.read(2) == b"\x1f\x8b"
        with (gzip.open if packed else open)(path, "rt", encoding="utf-8", errors="replace") as lines:
            yield from lines
    except (OSError, EOFError, zlib.error) as fault:
        raise Refused(f"{path}: {getattr(fault, 'strerror', None) or fault}") from fault


def first_moment(path):
    """The first moment of a log's file."""
    one = Log()
    for line in lines_of(path):
        one.line(line)
        if one.first is not None:
            return one.first
    return 0


def place(path):
    """By what files are put in order: two that begin in one second, by when they were last written."""
    return first_moment(path), os.stat(path).st_mtime_ns


# ---- A hall: of the copy, and as the log has it
@dataclasses.dataclass
class Machine:
    number: int
    macs: list
    arch: str | None = None
    pool: str | None = None
    status: str = "New"
    owner: str | None = None
    image: str | None = None
    back: str | None = None
    locked: bool = False
    version: int = 1
    deadline: int | None = None
    waiting: int | None = None
    changed: int | None = None
    is_cut_off: bool = False    # the last move of the log ended work, and its live image hasn't said so
    is_doubtful: bool = False


class Hall:
    """The tables of a copy, as far as they matter here."""

    def __init__(self, path):
        self.path = path
        tables, _ = lists.opened(path)
        self.mtime = int(os.stat(path).st_mtime)
        stamp, = tables.execute("PRAGMA user_version").fetchone()
        self.stamp = stamp & 0xFFFFFFFF
        self.last_machine, self.last_order = tables.execute("SELECT machine, orders FROM hall").fetchone()
        macs = collections.defaultdict(list)
        for mac, machine in tables.execute("SELECT mac, machine FROM interfaces ORDER BY mac"):
            macs[machine].append(mac.hex(":"))
        self.machines = {}
        for number, arch, pool, status, owner, image, back, locked, version, deadline, waiting in tables.execute(
                "SELECT id, arch, pool, status, owner, image, back, locked, version, deadline, waiting FROM machines ORDER BY id"):
            self.machines[number] = Machine(number, macs[number], lists.word(lists.ARCHES, arch), pool, STATUSES[status], owner, image,
                                            None if back is None else STATUSES[back], bool(locked), version, deadline, waiting)
        self.orders = list(tables.execute("SELECT number, machine, kind FROM orders WHERE stage = 0 ORDER BY number"))
        self.waiting = {number: machine for number, machine, _ in self.orders}
        self.boots = {number: (machine, lists.STAGES[stage]) for number, machine, stage in tables.execute("SELECT number, machine, stage FROM boots")}
        self.operators = {name: bool(enabled) for name, enabled in tables.execute("SELECT name, enabled FROM operators")}
        self.pools = {name for name, in tables.execute("SELECT name FROM pools")}
        self.members = {f"{pool} {operator}" for pool, operator in tables.execute("SELECT pool, operator FROM members")}
        self.images = dict(tables.execute("SELECT name, arch FROM images"))
        self.lives = {image for image, in tables.execute("SELECT image FROM lives")}
        tables.close()


class Story:
    """What the log says of a hall since a copy of it: each machine as it is now, and what was done to it."""

    def __init__(self, hall, events):
        self.machines = {number: dataclasses.replace(it, macs=list(it.macs)) for number, it in hall.machines.items()}
        self.by_mac = {mac: number for number, it in hall.machines.items() for mac in it.macs}
        self.hall, self.last = hall, hall.last_machine
        self.moves, self.touched, self.answered = collections.defaultdict(list), {}, {}
        self.added, self.gone, self.commands = {}, {}, []
        self.doubts, self.unsure = [], []
        old = in_the_copy(hall, events)
        for event in events:
            if id(event) not in old:
                self.tell(event)

    def tell(self, it):
        if it.order is not None:
            self.answered.setdefault(it.order, it)
        if it.lost:
            self.doubts.append(f"{text_of(it.moment)}: {it.lost} lines were lost: a machine may have moved without a line")
        elif it.unsure:
            self.unsure.append(it.moment)
        elif it.is_move():
            self.move(it)
        elif it.command:
            self.command(it)
        elif it.order is not None:
            self.touch(self.hall.waiting.get(it.order), it, "order")
        elif it.boot is not None:
            number, stage = self.hall.boots.get(it.boot, (None, it.stage))
            if lists.STAGES.index(it.stage) > lists.STAGES.index(stage):
                self.touch(number, it, "boot")
        elif it.mac:
            number = self.by_mac.get(it.mac)
            if number in self.machines and self.machines[number].status in WORK:
                self.touch(number, it, "boot")

    def touch(self, number, it, what):
        if number in self.machines:
            self.touched.setdefault(number, {})[what] = it.moment

    def move(self, it):
        if it.before is None:
            if it.machine in self.machines or it.machine in self.gone:
                self.doubts.append(f"{text_of(it.moment)}: machine {it.machine} is new, and there was one before: was a hall restored since?")
            self.machines[it.machine] = Machine(it.machine, [it.mac] if it.mac else [], it.arch, None if it.command else "default", it.after)
            self.added[it.machine] = it
            self.by_mac[it.mac] = it.machine
            self.last = max(self.last, it.machine)
        machine = self.machines.get(it.machine)
        if machine is None:
            machine = self.machines[it.machine] = Machine(it.machine, [], status=it.before)
            self.doubt(machine, it, "isn't known to the lines before")
        elif it.before is not None and machine.status != it.before:
            self.doubt(machine, it, f"was {machine.status} by the lines before, and then {it.before}")
        elif it.before is not None and it.version is not None and it.version <= machine.version:
            self.doubt(machine, it, f"had version {machine.version}, and then {it.version}: was a hall restored in between?")
        self.moves[it.machine].append(it)
        machine.changed = it.moment
        machine.version = it.version or machine.version + 1
        if it.after is None:
            self.gone[it.machine] = (it, self.machines.pop(it.machine))
            return
        enter(machine, it)

    def doubt(self, machine, it, words):
        """Lines are missing before this one: whose the machine is isn't known by them any more."""
        self.doubts.append(f"{text_of(it.moment)}: machine {machine.number} {words}: lines are missing, or are another hall's")
        machine.is_doubtful, machine.owner, machine.image = True, None, None

    def command(self, it):
        """A command that moved no machine, or one that is repeated: that has a version which isn't new."""
        if it.machine is None:
            self.commands.append(it)
            return
        machine = self.machines.get(it.machine)
        if machine is None or it.version is None or it.version <= machine.version:
            return
        machine.version = it.version
        if it.command in ("lock", "unlock"):
            machine.locked = it.command == "lock"
        elif it.command == "set_pool":
            machine.pool = it.object
        elif it.command == "add_interface":
            machine.macs.append(it.object)
            self.by_mac[it.object] = it.machine
        elif it.command == "remove_interface" and it.object in machine.macs:
            machine.macs.remove(it.object)
        else:
            # it was done without a line, as where the answer before was 503
            self.doubt(machine, it, f"had `{it.command}` done without a line")
        self.moves[it.machine].append(it)
        machine.changed = it.moment


def enter(machine, it):
    """The machine enters a status, by the life cycle's rules for owner, image and what a rescue goes back to."""
    if it.command in ("allocate", "deploy") or it.command == "release" and it.object:
        machine.owner = it.operator    # who alone may command these
    if it.command == "deploy":
        machine.image = it.object
    if it.after in ("Ready", "Broken"):
        machine.owner = machine.image = None
        machine.is_doubtful = False
    if it.after == "Entering rescue mode" and it.before in ("Deployed", "Broken"):
        machine.back = it.before
    elif it.after not in RESCUE:
        machine.back = None
    machine.status, machine.locked = it.after, False
    machine.is_cut_off = it.before in WORK and it.boot is None
    if machine.owner and machine.image:
        machine.is_doubtful = False


def in_the_copy(hall, events):
    """The events that the copy has already: an answer to a command has the machine's version, and so has the copy."""
    of_machine, old = collections.defaultdict(list), set()
    for event in events:
        if event.is_move() and event.machine in hall.machines:
            of_machine[event.machine].append(event)
        elif event.is_move() and event.machine <= hall.last_machine:
            old.add(id(event))    # it was deleted before
    for number, its in of_machine.items():
        base, start = hall.machines[number], 0
        for at, it in enumerate(its, 1):
            if it.version is not None and it.version > base.version:
                break
            if it.version is not None:
                start = at
        # a report or a deadline that the copy has too ends in the copy's status
        if start < len(its) and its[start].before != base.status:
            for at in range(start, len(its)):
                if its[at].version is not None:
                    break
                if its[at].after == base.status:
                    start = at + 1
        old.update(id(it) for it in its[:start])
    return old


# ---- Ways through the life cycle that switch nothing and run no script
State = collections.namedtuple("State", "status owner image back")
Act = collections.namedtuple("Act", "words queues")      # `words` has the machine's number and the last order's


def act(words, queues=False):
    return Act(f"{DESK} {words}", queues)


def answer(outcome):
    return Act(f"{POWER} order {{order}} --{outcome}", False)


def idle(state, status):
    return State(status, None, None, None)


def steps(state, owner):
    """What may be commanded: the acts and the state behind them. No switch is answered `done` but a rescue's, which ends it."""
    status, its = state.status, state._replace
    if status == "Commissioning":
        yield [act("abort {number}", True), answer("failed")], its(status="New")
    if status == "Failed commissioning":
        # the abort withdraws the order of the line before it
        yield [act("commission {number}", True), act("abort {number}", True), answer("failed")], its(status="New")
    if status == "Testing":
        yield [act("abort {number}", True), answer("failed")], its(status="Failed testing")
    if status == "Failed testing":
        yield [act("override {number}")], its(status="Ready")
    if status == "Deploying":
        yield [act("abort {number}", True), answer("failed")], its(status="Allocated")
    if status == "Disk erasing":
        yield [act("abort {number}", True), answer("failed")], its(status="Failed disk erasing")
    if status == "Deployed":
        yield [act("release {number} --erase none --yes", True), answer("failed")], its(status="Failed releasing")
    if status in ("Rescue mode", "Failed to enter rescue mode", "Failed to exit rescue mode") and state.back:
        yield [act("exit-rescue {number} --yes", True), answer("done")], its(status=state.back, back=None)
    if status in ("Ready", "Allocated", "Failed testing", "Failed deployment", "Failed releasing", "Failed disk erasing"):
        yield [act("break {number}")], idle(state, "Broken")
    if status == "Broken":
        yield [act("fix {number}")], idle(state, "Ready")
    if status == "Ready" and owner:
        yield [Act(f"{DESK} --token-file {owner}.token allocate {{number}}", False)], State("Allocated", owner, None, None)


def way(state, is_there, owner=None):
    """The fewest acts to a state that will do, and that state; None where there is no way."""
    ways, seen = [(0, [], state)], set()
    while ways:
        ways.sort(key=lambda one: one[0])
        cost, acts, at = ways.pop(0)
        if is_there(at):
            return acts, at
        if at in seen:
            continue
        seen.add(at)
        for more, to in steps(at, owner):
            ways.append((cost + len(more), acts + more, to))
    return None


def settled(machine, now):
    """The state once the desk has served for a moment and the old order was answered `failed`."""
    status = machine.status
    if status in FAILED and (machine.waiting is not None or machine.deadline is not None and machine.deadline <= now):
        status = FAILED[status]
    back = machine.back if status in RESCUE else None
    return State(status, machine.owner, machine.image, back)


# ---- What is to be done for a machine
@dataclasses.dataclass
class Mending:
    """Of a machine that moved: warnings, the acts, whether adopt takes it then, and what is to be looked at by hand."""
    warnings: list = dataclasses.field(default_factory=list)
    acts: list = dataclasses.field(default_factory=list)
    end: State | None = None
    adopts: bool = False
    wants_admin: bool = False
    looks: list = dataclasses.field(default_factory=list)
    afterwards: list = dataclasses.field(default_factory=list)


def runs(now):
    """Whether by the log the machine's disks have a system that its owner uses."""
    return now.status == "Deployed" or now.status in RESCUE and now.back == "Deployed"


def warnings(old, now, moment):
    """What the restored hall would do to the machine as it is now, once the desk has ended what is overdue."""
    status = FAILED.get(old.status, old.status) if old.deadline is not None and old.deadline <= moment else old.status
    if now.owner and old.owner and now.owner != old.owner:
        yield f"its owner has changed: {old.owner} owns it in the restored hall, and a release by {old.owner} would have {now.owner}'s server erased"
    if status in WORK and status != now.status:
        what = {"Disk erasing": "have its disks erased", "Deploying": "have its disks written"}.get(status, "start the live image")
        yield f"it would {what} when it starts by network: it is in {status} in the restored hall"
    elif runs(now) and status in HELD:
        yield f"it runs, and would be switched off when it starts by network: it is {status} in the restored hall"
    if now.owner and status == "Ready":
        yield f"it is {now.owner}'s, and anyone of its pool could allocate it and have its disks written"


def mend_running(one, old, start, now):
    if not now.owner or not now.image:
        one.looks.append("Whose it is and what it runs isn't in the log: find that out, and mend it by hand.")
        return
    there = State("Deployed", now.owner, now.image, None)

    def is_there(at):
        own = at.owner == now.owner
        return (at[:3] == there[:3] or at.status in ("New", "Ready") or own and at.status in ("Allocated", "Failed deployment")
                or own and at.status == "Deploying" and at.image == now.image)

    found = way(start, is_there)
    if not found:
        one.looks.append(wait_words(old))
        return
    one.acts, one.end = found
    one.adopts, one.wants_admin = one.end.status != "Deployed", one.end.status == "New"
    if now.status != "Deployed":
        one.looks.append(f"By the log it is in {now.status}: its live image may run. It is Deployed then: {now.owner} restarts it, or sends `rescue` again.")


def wait_words(old):
    until = f" until {text_of(old.deadline)}" if old.deadline else ""
    return f"In the restored hall it is in {old.status}, which allows nothing: wait{until}, and run hall-moved again with --backup."


# What will do where nothing runs: by the status of the log, those of the restored hall
NOBODYS = {"New", "Ready", "Broken", "Failed commissioning", "Failed testing"}
WILL_DO = {"Ready": {"Ready"}, "Broken": {"Broken"}, "New": NOBODYS, "Failed commissioning": NOBODYS - {"Ready"}, "Failed testing": NOBODYS - {"Ready"}}
OWNED = {"Allocated": {"Allocated", "Failed deployment"}, "Failed deployment": {"Allocated", "Failed deployment"},
         "Failed releasing": {"Deployed", "Allocated", "Failed deployment", "Failed releasing", "Failed disk erasing"}}
OWNED["Failed disk erasing"] = OWNED["Failed releasing"]


def mend_resting(one, old, start, now):
    """Nothing runs on it: it is brought to where the log has it, or as near as nothing has to run for it."""
    owner = now.owner if now.status in OWNED else None
    if now.is_cut_off:
        one.looks.append("Its live image may still be at work: look that it is off.")
    if now.status in OWNED and not owner:
        one.looks.append("Whose it is isn't in the log: find that out, and mend it by hand.")
        return
    will_do = OWNED[now.status] if owner else WILL_DO[now.status]
    found = way(start, lambda at: at.status in will_do and at.owner == owner, owner)
    if found:
        one.acts, one.end = found
    elif start.status in ("New", "Failed commissioning", "Failed testing"):
        one.looks.append(f"By the log it is {now.status}, and here it is {start.status}: send `hallctl commission {old.number}` once the desk serves again.")
        return
    else:
        one.looks.append(wait_words(old))
        return
    if now.status in ("Failed releasing", "Failed disk erasing"):
        one.looks.append(f"Its disks may still have {owner}'s data: {owner} releases it again, with --erase, once the desk serves again.")
    elif now.status in ("Failed commissioning", "Failed testing"):
        one.looks.append("Commission it again once the desk serves again.")


def midst_words(now):
    """What to look at where the log ends in the midst of work."""
    owner = now.owner or "its owner"
    live = "Its live image's reports are refused from now on, and it switches itself off."
    return {
        "Commissioning": f"It was being commissioned. {live} Look that it is off, and commission it again.",
        "Testing": f"It was being tested. {live} Look that it is off, and commission or test it again.",
        "Deploying": f"{now.image or 'An image'} was being deployed for {owner}. Look at its console. Where its own system runs, add it to the line of "
                     f"adopt; else look that it is off, and {owner} deploys it again.",
        "Disk erasing": f"Its disks were being erased for {owner}. {live} How far that came isn't known: look that it is off, and {owner} has them erased again.",
        "Releasing": f"{owner} had released it, and it was being switched off. Look that it is off. The next owner finds what is on its disks.",
    }.get(now.status, f"It was in {now.status}, on the live image, and Broken before. Look at its console.")


def cards_and_pool(old, now):
    """The acts by which its addresses become those of the log, and whether its pool is another."""
    adds = [act(f"add-interface {{number}} --mac {mac}") for mac in now.macs if mac not in old.macs]
    removes = [act(f"remove-interface {{number}} --mac {mac}") for mac in old.macs if mac not in now.macs]
    return adds + removes, now.pool is not None and now.pool != old.pool


def mending(old, now, gone, moment):
    one = Mending()
    if now is None:
        it, last = gone
        one.looks.append(f"{it.operator or 'Somebody'} deleted it at {text_of(it.moment)}, when it was {last.status}. Look where it is now. If it is gone for good: "
                         f"`hallctl delete {old.number} --yes`" + ("." if settled(old, moment).status in NOBODYS else ", once it is Ready or Broken here."))
        return one
    one.warnings = list(warnings(old, now, moment))
    start = one.end = settled(old, moment)
    if now.is_doubtful:
        one.looks.append("Lines of the log are missing: look at its console, and who uses it, before anything else.")
    if runs(now):
        mend_running(one, old, start, now)
    elif now.status in WILL_DO or now.status in OWNED:
        mend_resting(one, old, start, now)
    else:
        one.looks.append(midst_words(now))
    cards, has_moved = cards_and_pool(old, now)
    one.acts = cards + one.acts
    if has_moved and one.end.status in NOBODYS:
        one.acts.append(act(f"set-pool {{number}} --pool {now.pool}"))
    elif has_moved:
        one.looks.append(f"Its pool is {now.pool} by the log, and {old.pool} here: `hallctl set-pool {old.number} --pool {now.pool}` once its status allows it.")
    is_locked = old.locked
    if is_locked and (one.acts or not now.locked):
        one.acts.insert(0, act("unlock {number}"))
        is_locked = False
    if now.locked and not is_locked:
        (one.afterwards if one.adopts else one.acts).append(act("lock {number}"))
    return one


# ---- What was commanded of the hall itself
def say_again(hall, commands):
    """The lines for what was commanded of the hall since, and the restored hall hasn't. Words in capitals aren't in the log."""
    operators, pools, members = dict(hall.operators), set(hall.pools), set(hall.members)
    images, lives, last_live, is_live_changed = set(hall.images), set(hall.lives), {}, False
    for it in commands:
        if it.command == "set_live":
            last_live[hall.images.get(it.object, it.object)] = it    # by architecture, where the hall has the image
    for it in commands:
        name = it.object
        if it.command == "add_operator" and name not in operators:
            operators[name] = True
            yield f"{DESK} add-operator {name} --role ROLE --digest DIGEST"
        elif it.command == "add_pool" and name not in pools:
            pools.add(name)
            yield f"{DESK} add-pool {name}"
        elif it.command == "grant" and name not in members:
            members.add(name)
            yield f"{DESK} grant {name}"
        elif it.command == "add_image" and name not in images:
            images.add(name)
            yield f"{DESK} add-image {name} --arch ARCH --kernel URI --initrd URI"
        elif it.command == "set_live" and it in last_live.values() and (is_live_changed or name not in lives):
            is_live_changed = True
            yield f"{DESK} set-live {name}"


def end_again(hall, commands):
    """The lines that take away what was taken away since: once owners have their machines, which need their tokens and images."""
    of = {word: [it.object for it in commands if it.command == word] for word in ("add_image", "delete_image", "disable_operator")}
    for name in dict.fromkeys(of["disable_operator"]):
        if hall.operators.get(name, True):
            yield f"{DESK} disable-operator {name}    # until then its token is good again"
    for name in dict.fromkeys(of["delete_image"]):
        if name in of["add_image"]:
            yield f"# image {name} was deleted, and one of this name added: look which one this hall has"
        elif name in hall.images:
            yield f"{DESK} delete-image {name}"


def add_again(hall, story):
    """The lines that add what was added since, each machine by the number that it had: the power program's table goes by numbers."""
    for number in range(hall.last_machine + 1, story.last + 1):
        it = story.added.get(number)
        now = story.machines.get(number)
        if it is None:
            yield f"# machine {number}: its line is missing in the log: add it with its address, or with any and delete it, where it is gone"
            continue
        last = now or story.gone[number][1]
        pool = last.pool or "POOL"
        yield f"{DESK} add-machine --mac {it.mac} --arch {last.arch or 'ARCH'} --pool {pool} --uuid UUID    # machine {number}"
        if now is None:
            yield f"{DESK} delete {number} --yes    # as at {text_of(story.gone[number][0].moment)}"


# ---- What is printed
def ranges(numbers):
    """7,9-12"""
    parts = []
    for number in sorted(numbers):
        if parts and parts[-1][1] == number - 1:
            parts[-1][1] = number
        else:
            parts.append([number, number])
    return ",".join(str(first) if first == last else f"{first}-{last}" for first, last in parts)


def machine_text(it):
    words = [it.status, f"owner {it.owner}" if it.owner else "nobody's", f"image {it.image}" if it.image else "no image"]
    if it.status in RESCUE and it.back:
        words.append(f"{it.back} before")
    return ", ".join(words + (["locked"] if it.locked else []))


def wrapped(words):
    for word in words:
        print("    " + word)


class Report:
    """What is printed, machine by machine and then step by step."""

    def __init__(self, hall, base, story, now):
        self.hall, self.story, self.now = hall, story, now
        self.order = hall.last_order
        self.mendings = {}
        for number in sorted(set(base.machines) | set(story.machines) | set(story.gone)):
            if number in story.moves or number in story.touched:
                self.mendings[number] = self.mending(number)

    def mending(self, number):
        old, now, gone = self.hall.machines.get(number), self.story.machines.get(number), self.story.gone.get(number)
        if old is None and now is None:
            return Mending(looks=["It was added and deleted since."])
        if old is None:    # as step 3 adds it
            added = self.story.added.get(number)
            old = Machine(number, [added.mac] if added else list(now.macs), now.arch, now.pool)
        return mending(old, now, gone, self.now)

    def machine(self, number, one):
        old, now = self.hall.machines.get(number), self.story.machines.get(number)
        any_of_it = now or old or self.story.gone[number][1]
        print(f"machine {number} {' '.join(any_of_it.macs)}")
        at = f" since {text_of(now.changed)}" if now and now.changed else ""
        print("    by the log: " + (machine_text(now) + at if now else f"deleted at {text_of(self.story.gone[number][0].moment)}"))
        print("    in the restored hall: " + (machine_text(old) if old else "there is none"))
        for what, moment in sorted(self.story.touched.get(number, {}).items()):
            if number not in self.story.moves:
                print(f"    its {what} has changed at {text_of(moment)}")
        for words in one.warnings:
            print("    WARN: " + words)
        wrapped(one.looks)
        if old and now and not one.acts and not one.adopts and not one.looks:
            print("    Nothing is to be mended.")

    def orders(self):
        for number, machine, kind in self.hall.orders:
            it, its = self.story.answered.get(number), self.hall.machines[machine]
            says = f"; by the log it was answered `{it.outcome}` at {text_of(it.moment)}" if it else ""
            if its.deadline is not None and its.deadline <= self.now:
                says += "; its deadline has passed: `Withdrawn` will do"
            yield f"{POWER} order {number} --failed    # {KINDS[kind]} of machine {machine}, {its.status}{says}"

    def acts(self, number, acts):
        for it in acts:
            self.order += it.queues
            yield it.words.format(number=number, order=self.order)

    def adopt(self):
        """One line for each owner and image."""
        groups = collections.defaultdict(list)
        for number, one in self.mendings.items():
            if one.adopts:
                groups[self.story.machines[number].owner, self.story.machines[number].image].append(number)
        for (owner, image), numbers in sorted(groups.items()):
            admin = " --admin-token-file admin.token" if any(self.mendings[number].wants_admin for number in numbers) else ""
            yield (f"hallboot adopt --db hall.db --at $(date +%s) --image {image} --owner-token-file {owner}.token{admin} "
                   f"--power-token-file pow.token --machines {ranges(numbers)}")
            for word in self.missing(owner, image):
                yield "# WARN: " + word

    def missing(self, owner, image):
        if not self.hall.operators.get(owner, False):
            yield f"the restored hall has no operator {owner} that is enabled: see step 3"
        if image not in self.hall.images:
            yield f"the restored hall has no image {image}: see step 3"

    def step(self, number, words, lines):
        lines = list(lines)
        print(f"\n{number}. {words if lines else words.split(':')[0] + ': nothing.'}")
        wrapped(lines)

    def steps(self):
        print("\n1. Serve the hall where neither machines nor the power program reach it, with a log of its own. The lines of steps 2 to 4 are typed\n"
              "meanwhile, one after another, with HALL_DESK as it prints it and HALL_TOKEN_FILE an admin's token. Where a line of steps 3 and 4 is\n"
              "refused, stop, copy the hall by hallboot backup, and run hall-moved on that copy, with --backup too.")
        wrapped(["hallboot serve --db hall.db --loopback --turns 1000000000000000 --log loopback.log"])
        self.step(2, "Orders that wait: each is old, and may have been carried out before. The power program would carry it out again.", self.orders())
        again = list(say_again(self.hall, self.story.commands)) + list(add_again(self.hall, self.story))
        self.step(3, "What the hall lacks: words in capitals aren't in the log. A machine must get the number behind its line, by which the power program knows it.", again)
        lines = []
        for number, one in self.mendings.items():
            lines += [f"# machine {number}"] * bool(one.acts) + list(self.acts(number, one.acts))
        self.step(4, "Machines: no line switches one.", lines)
        self.step(5, "Servers that run: stop the desk of step 1 first.", self.adopt())
        after = list(end_again(self.hall, self.story.commands))
        after += [line for number, one in self.mendings.items() for line in self.acts(number, one.afterwards)]
        self.step(6, "What comes last: serve the hall as in step 1 again.", after)
        looks = ranges(number for number, one in self.mendings.items() if one.looks)
        print(f"\n7. Look at by hand, as said above, before the power program starts: " + (f"machines {looks}." if looks else "nothing."))

    def print(self):
        for number, one in self.mendings.items():
            self.machine(number, one)
        if self.mendings or self.hall.orders or self.story.commands:
            self.steps()


def moment_and_source(words, base, log):
    """The backup's moment, and how it is known."""
    if words.since is not None:
        return words.since, "by --since"
    if base.stamp:
        return base.stamp, "by the moment in the file"
    made = [it.moment for it in log.events if it.backup and it.moment <= base.mtime]
    if made:
        return made[-1], "by the log's last backup before the file's time, which need not be this copy's: --since says it better"
    return base.mtime, "by the file's time alone, which is when it was copied last: --since says it better"


def read_log(words, base):
    log = Log()
    if words.journal:
        log.journal(words.journalctl, (words.since or base.stamp or base.mtime) - A_WEEK)
    else:
        for path in sorted(dict.fromkeys(map(os.path.realpath, words.log)), key=place):
            log.file(path)
    if log.first is None:
        raise Refused("there is no line of a desk's log" + (f" in {' '.join(words.log)}" if words.log else " in the journal of hallboot"))
    return log


def head(words, hall, story, log, since, source):
    print(f"{words.db}: the backup's moment is {text_of(since)}, {source}.")
    passed_over = f" {log.passed_over} lines have no moment, and were passed over." if log.passed_over else ""
    print(f"The log reaches from {text_of(log.first)} to {text_of(log.last)}.{passed_over}")
    if log.first > since:
        print("WARN: the log begins after the backup: what happened between is unknown (--incomplete)")
    if log.last <= since:
        print("WARN: the log ends before the backup, or with it: is this the newest one?")
    for first, last in log.silences:
        if last > since:
            print(f"WARN: no line between {text_of(first)} and {text_of(last)}: is a file of the log missing?")
    for before, after in log.backwards:
        print(f"WARN: the clock went back, from {text_of(before)} to {text_of(after)}: what has moved since may be incomplete")
    for words_of_it in story.doubts:
        print("WARN:", words_of_it)
    if story.unsure:
        print(f"WARN: {len(story.unsure)} requests were answered 503 from {text_of(story.unsure[0])} on, and may have been done without a line")


def run(words):
    hall = Hall(words.db)
    base = Hall(words.backup) if words.backup else hall
    log = read_log(words, base)
    since, source = moment_and_source(words, base, log)
    if log.first > since and not words.incomplete:
        raise Refused(f"the log begins at {text_of(log.first)}, after the backup of {text_of(since)} ({source}): give older files of it too, or go on with --incomplete")
    story = Story(base, [it for it in log.events if it.moment >= since])
    report = Report(hall, base, story, int(time.time()))
    head(words, hall, story, log, since, source)
    print(f"{len(report.mendings)} machines have moved since. {len(hall.orders)} orders wait.\n")
    report.print()


def main():
    parser = argparse.ArgumentParser(prog="hall-moved", description="Says which machines moved since the backup that a hall was restored from, and which commands mend the hall.",
                                     epilog="Example: hall-moved --db hall.db --log /var/log/hallboot/*")
    parser.add_argument("--db", metavar="COPY", required=True, help="the restored hall's file, while nothing serves it, or the backup")
    log = parser.add_mutually_exclusive_group(required=True)
    log.add_argument("--log", metavar="FILE", nargs="+", action="extend", help="the desk's log, with its older files, which may be packed")
    log.add_argument("--journal", action="store_true", help="the desk's log is in the journal of the unit hallboot")
    parser.add_argument("--since", metavar="MOMENT", type=moment_word, help="the backup's moment, as 2026-09-21T14:13:20Z or in seconds since 1970; else the file says it")
    parser.add_argument("--backup", metavar="FILE", help="the backup, where commands were done in the restored hall since")
    parser.add_argument("--incomplete", action="store_true", help="go on where the log doesn't reach back to the backup")
    parser.add_argument("--journalctl", metavar="PROGRAM", default="journalctl", help="what reads the journal")
    words = parser.parse_args()
    try:
        run(words)
    except (Refused, sqlite3.Error) as fault:
        print("hall-moved:", fault, file=sys.stderr)
        return 1
    return 0


if __name__ == "__main__":
    try:
        sys.exit(main())
    except BrokenPipeError:
        os.dup2(os.open(os.devnull, os.O_WRONLY), sys.stdout.fileno())
        sys.exit(1)
