#!/usr/bin/env python3
"""Carries out the power orders of a server hall's desk: switches machines by their controllers, and answers the desk.

A `cycle` is: next boot by network, then off and on (only on, if it was off). An `off` is done once the controller says that the
machine is off: the answer `done` makes a Releasing machine Ready for its next owner.

Orders are withdrawn at any time, and a machine whose order was withdrawn may be Deployed by now. So an act takes place only if
the order stands, unchanged, in a list that the desk was asked for after every wait, at most a second before; and only at the
controller that the table has at that moment. An order that isn't answered waits until it is withdrawn or its machine's deadline
passes; a new try then begins from what the controller says.

Exit status: 0, ended as asked (--check, --dry-run, --once: all is well); 1, something failed; 2, wrong usage or configuration."""
import argparse
import base64
import fcntl
import hashlib
import http.client
import json
import os
import re
import shutil
import socket
import ssl
import stat
import struct
import subprocess
import sys
import threading
import time
import tomllib
from concurrent.futures import ThreadPoolExecutor
from contextlib import contextmanager
from typing import NamedTuple

CONFIG = "/etc/hall-power/hall-power.toml"
AT_ONCE = 64        # machines
FRESH = 1.0         # seconds that an act may come after its list was asked for
LISTS = 3           # so many lists are asked for before an act, where they take longer
PAUSES = 2, 30      # seconds between two tries, at first and at most
DESK_LIMIT = 10     # seconds for one step of an answer
LOOK_LIMIT = 30     # the same, of a controller
ACT_LIMIT = 10      # seconds for an act of ipmitool
UNSENT_LIMIT = 3    # seconds after which the system gives up what a Redfish controller hasn't acknowledged
LONGEST = 1 << 24   # octets of an answer, or of a file
BROKEN = (OSError, ValueError, OverflowError, RecursionError, http.client.HTTPException)     # what an answer that isn't one is met by


class Wrong(Exception):
    """The settings, a secret or the table aren't of their form."""


class DeskFault(Exception):
    """The desk doesn't answer, or what answers isn't the desk."""


class Withdrawn(Exception):
    """The order doesn't wait any more."""


class Anew(Exception):
    """The order has another controller than when it was begun, or another desk."""


class ControllerFault(Exception):
    """A controller refuses, or doesn't answer."""


class Refused(ControllerFault):
    """A controller refuses for good."""


class NoController(ControllerFault):
    """The table has two lines of the machine."""


class Unlisted(NoController):
    """The table has no line of the machine."""


def clock():
    """Seconds, those in which this computer slept too."""
    return time.clock_gettime(time.CLOCK_BOOTTIME)


def say(*words):
    """A line of the log, in one write, and short enough that a pipe takes it whole: threads write side by side."""
    text = " ".join(" ".join(map(str, words)).split())
    line = "".join(sign if sign.isprintable() else "?" for sign in text[:1000]) + "\n"
    try:
        os.write(2, line.encode(errors="replace"))
    except OSError:
        pass    # a log that can't be written stops no order in its midst


# ---- What it is told: a file of settings, secrets and a table of machines
def at_once(path, flags):
    """Opens a file, and doesn't wait for the other end of a pipe."""
    return os.open(path, flags | os.O_NONBLOCK)


def mark(it):
    """What tells a file from a later one."""
    return it.st_dev, it.st_ino, it.st_size, it.st_mtime_ns, it.st_ctime_ns


def marked(path):
    try:
        return mark(os.stat(path))
    except OSError:
        return None


def text_of(path, is_secret=False):
    """A file's text and its mark; none for a file so young that its next change might have the same."""
    try:
        with open(path, encoding="utf-8", opener=at_once) as file:
            it = os.fstat(file.fileno())    # before it is read, so that what is written meanwhile shows later
            if not stat.S_ISREG(it.st_mode):
                raise Wrong(f"{path}: it isn't a file")
            if is_secret and it.st_mode & 0o007:
                raise Wrong(f"{path}: others may read it: chmod o= {path}")
            text = file.read(LONGEST)
    except OSError as fault:
        raise Wrong(f"{path}: {fault.strerror}") from fault
    except ValueError as fault:
        raise Wrong(f"{path}: it isn't text") from fault
    return text, None if abs(time.time() - it.st_ctime) < 1 else mark(it)


def first_line(path, text):
    line = text.partition("\n")[0].strip()
    if not line:
        raise Wrong(f"{path}: its first line is empty")
    return line


def password_of(controller, path):
    """The first line of a file that nobody else may read, as it is now."""
    try:
        return first_line(path, text_of(path, is_secret=True)[0])
    except Wrong as fault:
        raise ControllerFault(f"{controller}: {fault}") from fault


class Settings:
    """The desk, its tokens, the kinds of controllers and the table, as the files are now. `read` gets what is read of them."""

    def __init__(self, path, read):
        def text(name, is_secret=False):
            read[name] = *text_of(name, is_secret), is_secret
            return read[name][0]

        try:
            found = tomllib.loads(text(path))
        except tomllib.TOMLDecodeError as fault:
            raise Wrong(f"{path}: {fault}") from fault
        known = {"desk": str, "token": str, "reader": str, "table": str, "controllers": dict}
        for name, value in found.items():
            if name not in known:
                raise Wrong(f"{path}: {name}: there are {', '.join(sorted(known))}")
            if not isinstance(value, known[name]):
                raise Wrong(f"{path}: {name}: it isn't a {'text' if known[name] is str else 'table'}")
        for name in sorted(known.keys() - {"reader"} - found.keys()):
            raise Wrong(f"{path}: {name} is missing")
        tokens = [token_of(found[name], text(found[name], is_secret=True)) for name in ("token", "reader") if name in found]
        self.desk = Desk(found["desk"], tokens[0], tokens[1] if len(tokens) > 1 else None)
        self.table = read_table(found["table"], text(found["table"]), {kind: made(kind, it) for kind, it in found["controllers"].items()})
        self.by_address = any(isinstance(machine, str) for machine in self.table)
        if self.by_address and len(tokens) < 2:
            raise Wrong(f"{path}: the table names machines by address, for which reader is missing: the file of a token of role user")

    def controller(self, machine):
        """The controller of the machine with this number, by the number or by an address of it."""
        names = [machine, *(self.desk.addresses(machine) if self.by_address else [])]
        found = [name for name in names if name in self.table]
        if not found:
            raise Unlisted("the table has no such machine")
        if len(found) > 1:
            raise NoController(f"the table has {len(found)} lines of this machine: {', '.join(map(str, found))}")
        return self.table[found[0]]


def token_of(path, text):
    line = first_line(path, text)
    if not re.fullmatch("[!-~]{1,128}", line):
        raise Wrong(f"{path}: its first line isn't a token")
    return line


def made(kind, settings):
    """What makes a controller of a kind."""
    if not isinstance(settings, dict) or not all(isinstance(value, str) for value in settings.values()):
        raise Wrong(f"controllers.{kind}: it is a table of texts")
    driver = {"ipmitool": Ipmitool, "redfish": Redfish}.get(settings.get("driver"))
    if driver is None:
        raise Wrong(f"controllers.{kind}: driver is ipmitool or redfish")
    known = {"driver", "user", "password"} | driver.SETTINGS
    for name in settings.keys() - known:
        raise Wrong(f"controllers.{kind}: {name}: there are {', '.join(sorted(known))}")
    return driver, settings


def read_table(path, text, kinds):
    """The controllers of machines, by number or address. A line: MACHINE KIND CONTROLLER-ADDRESS [OPTION=VALUE].."""
    if text and not text.endswith("\n"):
        raise Wrong(f"{path}: its last line has no end: is it being written?")
    table, lines = {}, {}
    for at, line in enumerate(text.split("\n"), 1):
        words = line.split("#")[0].split()
        if not words:
            continue
        where = f"{path}: line {at}"
        if len(words) < 3 or words[1] not in kinds:
            raise Wrong(f"{where}: MACHINE KIND CONTROLLER-ADDRESS, where KIND is {' or '.join(sorted(kinds))}")
        machine = key_of(words[0])
        if machine is None or machine in table:
            raise Wrong(f"{where}: {words[0]}: " + ("it stands there twice" if machine else "a machine's number or its hardware address"))
        table[machine] = controller_of(where, words[2], words[3:], *kinds[words[1]])
        refuse_second(where, at, table[machine], lines)
    return table


def refuse_second(where, at, controller, lines):
    """A controller has one line. One that names no system is all of its systems."""
    system = controller.options.get("system", "").lower()
    others = lines.setdefault(controller.place(), {})
    for other, line in others.items():
        if other == system or not other or not system:
            raise Wrong(f"{where}: {controller}: the controller stands there twice, in line {line} too")
    others[system] = at


def key_of(word):
    """A machine's number, or its address in small letters with colons."""
    if re.fullmatch("[1-9][0-9]{0,15}", word):
        return int(word)
    if re.fullmatch("([0-9A-Fa-f]{2}[:-]){5}[0-9A-Fa-f]{2}", word):
        return word.lower().replace("-", ":")
    return None


def controller_of(where, address, words, driver, settings):
    if not re.fullmatch(driver.ADDRESS, address):
        raise Wrong(f"{where}: {address}: it isn't a controller's address")
    options = {}
    known = {"user": ".+", "password": ".+", **driver.OPTIONS}
    for word in words:
        name, _, value = word.partition("=")
        if name in options or not re.fullmatch(known.get(name, "(?!)"), value):
            raise Wrong(f"{where}: {word}: " + ("it stands there twice" if name in options else f"there are {', '.join(known)}"))
        options[name] = value
    for name in ("user", "password"):
        if name not in options and name not in settings:
            raise Wrong(f"{where}: {name} is missing, here and in its kind")
    return driver(address.lower(), settings, options)


class Files:
    """The settings as their files are now: looked at each time, read anew once one has changed."""

    def __init__(self, path, acts):
        self.path, self.acts, self.guard, self.held = path, acts, threading.Lock(), None
        self.settings, self.read, self.said = None, {}, None
        self.renew(None)

    def current(self):
        """The settings. Wrong, while the files are wrong: those before them aren't used either."""
        with self.guard:
            if self.settings is None or any(map(self.is_changed, self.read)):
                before, self.settings = self.settings, None
                try:
                    self.renew(before)
                except Wrong as fault:
                    now = str(fault), [text for text, *_ in self.read.values()]
                    if self.said != now:
                        say("nothing is done for any order until this is good:", fault)
                    self.said = now
                    raise
            return self.settings

    def is_changed(self, path):
        """A file that is too young to be told by its mark is read again."""
        text, known, is_secret = self.read[path]
        if marked(path) == known:
            return False
        try:
            now, known = text_of(path, is_secret)
        except Wrong:
            return True
        self.read[path] = text, known, is_secret
        return now != text or (path == self.path and not self.is_held())

    def is_held(self):
        """Whether the lock is that of the settings file as it is now."""
        return not self.acts or (marked(self.path) or ())[:2] == mark(os.fstat(self.held.fileno()))[:2]

    def renew(self, before):
        self.read = {}
        if self.acts:
            self.lock()
        settings = Settings(self.path, self.read)
        if not self.is_held():
            raise Wrong(f"{self.path}: it was replaced while it was read")
        if before or self.said:
            say(f"settings, secrets and table were read anew: {len(settings.table)} machines")
        self.settings, self.said = settings, None

    def lock(self):
        """One such program at a time acts by these settings, also where their file was replaced."""
        try:
            file = open(self.path, encoding="utf-8", opener=at_once)
            if self.held and os.path.sameopenfile(file.fileno(), self.held.fileno()):
                return file.close()
            fcntl.flock(file, fcntl.LOCK_EX | fcntl.LOCK_NB)
        except BlockingIOError as fault:
            raise Wrong(f"{self.path}: another hall-power acts by this file, and only one may") from fault
        except OSError as fault:
            raise Wrong(f"{self.path}: {fault.strerror}") from fault
        self.held = file
        return None


# ---- The desk
class Order(NamedTuple):
    number: int
    machine: int
    kind: str


def body_of(answer):
    """A response's octets: not more of them, and not for longer, than is sensible."""
    text, end = b"", clock() + 3 * DESK_LIMIT
    while piece := answer.read1(1 << 16):
        text += piece
        if len(text) > LONGEST or clock() > end:
            raise ValueError("the answer has no end")
    return text


class Desk:
    """By HTTP or HTTPS, by no proxy of the environment, and by no redirect: those would see the token."""

    def __init__(self, url, token, reader):
        found = re.fullmatch(r"(https?)://((?:\[[0-9A-Fa-f:.]+\]|[A-Za-z0-9._-]+)(?::([0-9]{1,5}))?)/?", url)
        if not found or not 0 < int(found[3] or 80) < 65536:
            raise Wrong("the desk's address is http://HOST or http://HOST:PORT, or https://")
        self.url, self.token, self.reader = url.rstrip("/"), token, reader
        self.place, self.context = found[2], ssl.create_default_context() if found[1] == "https" else None

    @contextmanager
    def connected(self):
        connection = None
        try:
            if self.context:
                connection = http.client.HTTPSConnection(self.place, timeout=DESK_LIMIT, context=self.context)
            else:
                connection = http.client.HTTPConnection(self.place, timeout=DESK_LIMIT)
            try:
                connection.connect()
            except BROKEN as fault:
                raise DeskFault(f"{self.url} doesn't answer: {fault!r}") from fault
            connection.auto_open = 0
            yield connection
        finally:
            if connection:
                connection.close()

    def ask(self, connection, path, token, body=None):
        """The status and the object that are answered."""
        try:
            connection.request("GET" if body is None else "POST", path, body, {"Authorization": "Bearer " + token})
            answer = connection.getresponse()
            found = json.loads(body_of(answer))
        except BROKEN as fault:
            raise DeskFault(f"{self.url}{path} doesn't answer as a desk: {fault!r}") from fault
        if not isinstance(found, dict):
            raise DeskFault(f"{self.url}{path} doesn't answer as a desk: {answer.status}, and no object")
        return answer.status, found

    def listed(self, path, name, token):
        """The list of this name in what is answered by 200."""
        with self.connected() as connection:
            status, found = self.ask(connection, path, token)
        if status != 200 or not isinstance(found.get(name), list):
            raise DeskFault(f"{self.url}{path} answers {status} {found.get('refusal', f'without {name}')}")
        return found[name]

    def waiting(self):
        """The orders that wait, by their numbers; a list of which any part isn't as a desk writes it is none."""
        orders = {}
        for it in self.listed("/orders", "orders", self.token):
            order = Order(*map(it.get, Order._fields)) if isinstance(it, dict) else Order(None, None, None)
            if type(order.number) is not int or type(order.machine) is not int or order.kind not in ("cycle", "off") or order.number in orders:
                raise DeskFault(f"{self.url}/orders has what is no order of a desk: {it}")
            orders[order.number] = order
        return orders

    def addresses(self, machine):
        return [str(address).lower() for address in self.listed(f"/machines/{machine}", "interfaces", self.reader)]

    def answer(self, connection, order, outcome):
        """Whether the outcome is taken; if not, the order is void."""
        status, found = self.ask(connection, f"/orders/{order.number}", self.token, json.dumps({"outcome": outcome}))
        if status == 200 and found.get("result") in ("counted", "repeat"):
            return True
        if status in (404, 409, 410) and "refusal" in found:
            return False
        raise DeskFault(f"{outcome} is not taken yet: {self.url}/orders/{order.number} answers {status} {found.get('refusal', '')}")


# ---- Controllers: whether the machine is off, and the acts `network` (next boot by network), `off` and `on`
class Controller:
    """Is equal to another if it is told the same in the same way."""
    SETTINGS = frozenset()

    def __init__(self, address, settings, options):
        self.address, self.options, self.settings = address, options, {**settings, **options}

    def __eq__(self, other):
        return type(self) is type(other) and vars(self) == vars(other)

    def __str__(self):
        return self.address

    def place(self):
        return self.address.strip("[].")

    def password(self):
        return password_of(self, self.settings["password"])


class Ipmitool(Controller):
    ADDRESS = r"[A-Za-z0-9:][A-Za-z0-9._:%-]*"
    OPTIONS = {"boot": "uefi|bios"}
    FOR_GOOD = re.compile("RAKP 2 HMAC is invalid|unauthorized name|invalid user name|insufficient privilege level", re.I)

    def run(self, limit, options, words):
        self.password()     # ipmitool reads it itself, whoever else may
        tool = ["ipmitool", "-I", "lanplus", "-H", self.address, "-U", self.settings["user"], "-f", self.settings["password"]]
        what = f"{self}: {' '.join(words)}:"
        try:
            it = subprocess.run([*tool, *options, "chassis", *words], stdin=subprocess.DEVNULL, timeout=limit, capture_output=True, text=True, errors="replace")
        except subprocess.TimeoutExpired as fault:
            raise ControllerFault(f"{what} no answer within {limit} seconds") from fault
        except FileNotFoundError as fault:
            raise ControllerFault(f"{what} ipmitool is missing (Debian's package ipmitool)") from fault
        except (OSError, ValueError) as fault:
            raise ControllerFault(f"{what} ipmitool can't be run: {fault}") from fault
        if it.returncode:
            refused = Refused if self.FOR_GOOD.search(it.stderr) else ControllerFault
            raise refused(f"{what} {it.stderr.strip() or f'ipmitool ended with {it.returncode}'}")
        return it.stdout

    def is_off(self):
        said = self.run(LOOK_LIMIT, [], ["power", "status"]).strip()
        if said not in ("Chassis Power is off", "Chassis Power is on"):
            raise ControllerFault(f"{self}: power status: it says neither on nor off: {said}")
        return said == "Chassis Power is off"

    @contextmanager
    def prepared(self, act):
        """The act, ready. Each message of it is sent once: one that is sent again later isn't this moment's any more."""
        self.password()
        network = ["bootdev", "pxe", *(["options=efiboot"] if self.options.get("boot", "uefi") == "uefi" else [])]
        words = {"network": network, "off": ["power", "off"], "on": ["power", "on"]}[act]
        yield lambda: self.run(ACT_LIMIT, ["-N", "3", "-R", "1"], words)


class Redfish(Controller):
    """DSP0266, over https with the system's certificates, those of a file, or one certificate by its SHA-256."""
    SETTINGS = frozenset({"certificates"})
    ADDRESS = r"(\[[0-9A-Fa-f:.]+\]|[A-Za-z0-9._-]+)(:[0-9]{1,5})?"
    OPTIONS = {"system": "[A-Za-z0-9._-]+", "boot": "uefi|bios", "fingerprint": "([0-9A-Fa-f]{2}:?){31}[0-9A-Fa-f]{2}"}
    FOR_GOOD = (401, 403, 404, 405)

    def place(self):
        return self.address.removesuffix(":443").strip("[].")

    def context(self, fingerprint):
        if not fingerprint:
            return ssl.create_default_context(cafile=self.settings.get("certificates"))
        context = ssl.SSLContext(ssl.PROTOCOL_TLS_CLIENT)
        context.check_hostname, context.verify_mode = False, ssl.CERT_NONE
        return context

    @contextmanager
    def connected(self):
        """A connection to this controller and no other."""
        fingerprint = self.options.get("fingerprint", "").replace(":", "").lower()
        connection = None
        try:
            try:
                connection = http.client.HTTPSConnection(self.address, timeout=LOOK_LIMIT, context=self.context(fingerprint))
                connection.connect()
                certificate = connection.sock.getpeercert(True)
            except BROKEN as fault:
                raise ControllerFault(f"{self}: {fault!r}") from fault
            if fingerprint and hashlib.sha256(certificate).hexdigest() != fingerprint:
                raise Refused(f"{self}: another certificate than that of its fingerprint")
            connection.auto_open = 0    # else it would connect again, and look at no fingerprint
            yield connection
        finally:
            if connection:
                connection.close()

    def headers(self, data, more=()):
        user = f"{self.settings['user']}:{self.password()}".encode()
        return {"Authorization": "Basic " + base64.b64encode(user).decode(), "Accept": "application/json",
                **({"Content-Type": "application/json"} if data else {}), **dict(more)}

    def exchange(self, connection, method, path, data, headers):
        """The answer's octets and its ETag."""
        what = f"{self}: {method} {path}:"
        try:
            connection.request(method, path, data, headers)
            answer = connection.getresponse()
            text = body_of(answer)
        except BROKEN as fault:
            raise ControllerFault(f"{what} {fault!r}") from fault
        if answer.status not in ((200,) if method == "GET" else (200, 202, 204)):
            refused = Refused if answer.status in self.FOR_GOOD else ControllerFault
            raise refused(f"{what} {answer.status} {text[:200].decode(errors='replace')}")
        return text, answer.getheader("ETag")

    def get(self, path):
        """The object at a path, and its ETag."""
        with self.connected() as connection:
            text, tag = self.exchange(connection, "GET", path, None, self.headers(None))
        try:
            found = json.loads(text)
        except BROKEN as fault:
            raise ControllerFault(f"{self}: GET {path}: its answer isn't whole JSON: {fault}") from fault
        return self.of_type(dict, found, f"GET {path}: its answer"), tag

    def of_type(self, kind, found, what):
        if not isinstance(found, kind) or found == "":
            raise ControllerFault(f"{self}: {what} isn't {'an object' if kind is dict else 'a list' if kind is list else 'a text'}: {str(found)[:100]}")
        return found

    def path_of(self, found, what):
        if not re.fullmatch("/[!-~]*", self.of_type(str, found, what)):
            raise ControllerFault(f"{self}: {what} isn't a path: {found}")
        return found

    def path(self):
        """The path of its system: the one that is named, or the only one."""
        if "system" in self.options:
            return f"/redfish/v1/Systems/{self.options['system']}"
        found = self.of_type(list, self.get("/redfish/v1/Systems")[0].get("Members"), "Members")
        if len(found) != 1:
            raise ControllerFault(f"{self}: it has {len(found)} systems: name one by system=ID in the table")
        return self.path_of(self.of_type(dict, found[0], "the member of Members").get("@odata.id"), "@odata.id")

    def is_off(self):
        return self.of_type(str, self.get(self.path())[0].get("PowerState"), "PowerState") == "Off"

    def request(self, act):
        """What an act's request has: method, path, body, and more headers."""
        path = self.path()
        found, tag = self.get(path)
        if act == "network":
            boot = {"BootSourceOverrideTarget": "Pxe", "BootSourceOverrideEnabled": "Once"}
            if "boot" in self.options:
                boot["BootSourceOverrideMode"] = {"uefi": "UEFI", "bios": "Legacy"}[self.options["boot"]]
            return "PATCH", path, {"Boot": boot}, [("If-Match", tag)] if tag else []
        actions = self.of_type(dict, found.get("Actions", {}), "Actions")
        reset = self.of_type(dict, actions.get("#ComputerSystem.Reset", {}), "#ComputerSystem.Reset")
        target = self.path_of(reset.get("target", f"{path}/Actions/ComputerSystem.Reset"), "target")
        return "POST", target, {"ResetType": {"off": "ForceOff", "on": "On"}[act]}, []

    @contextmanager
    def prepared(self, act):
        """The act, ready: one request, over a connection that stands."""
        method, path, body, more = self.request(act)
        data = json.dumps(body)
        headers = self.headers(data, more)
        with self.connected() as connection:
            # what the controller hasn't got soon, or until this connection is closed, it never gets
            connection.sock.setsockopt(socket.IPPROTO_TCP, socket.TCP_USER_TIMEOUT, UNSENT_LIMIT * 1000)
            connection.sock.setsockopt(socket.SOL_SOCKET, socket.SO_LINGER, struct.pack("ii", 1, 0))
            yield lambda: self.exchange(connection, method, path, data, headers)


# ---- One order
class Work:
    """What is done for an order, try by try, until it is answered or void."""

    def __init__(self, files, order, words):
        self.files, self.order, self.words = files, order, words
        self.name = f"order {order.number}, {order.kind} of machine {order.machine}:"
        self.due = clock()
        self.end = self.due + words.try_for
        self.future, self.over, self.said, self.is_left = None, None, None, False
        self.settings, self.missing = None, None
        self.begin(None)

    def begin(self, aim):
        """What was done and found is one desk's and one controller's alone."""
        self.aim, self.faults, self.pause, self.was_off, self.outcome, self.is_sent = aim, 0, PAUSES[0], False, None, False

    def is_running(self):
        return self.future is not None and not self.future.done()

    def aim_of(self, settings):
        """The desk, and the machine's controller, or none."""
        try:
            found, self.missing = settings.controller(self.order.machine), None
        except NoController as fault:
            found, self.missing = None, fault
        return settings.desk.url, found

    def still(self):
        """The settings, if the order's controller is the same in them."""
        settings = self.files.current()
        if settings is not self.settings:
            if self.aim_of(settings) != self.aim:
                raise Anew
            self.settings = settings
        return settings

    def fresh(self):
        """Returns directly before an act, or an answer: the order stands in a list that was asked for after all waits, and the
        controller is the one with which it was begun."""
        for _ in range(LISTS):
            settings = self.files.current()
            if self.aim_of(settings) != self.aim:
                raise Anew
            asked = clock()
            if settings.desk.waiting().get(self.order.number) != self.order:
                raise Withdrawn
            if self.files.current() is settings and clock() - asked <= FRESH:
                return
        raise DeskFault(f"{settings.desk.url}/orders took over {FRESH:g} second, {LISTS} times")

    def act(self, controller, what):
        with controller.prepared(what) as go:
            self.fresh()
            go()

    def switch_off(self, controller):
        """Until its controller says that it is off. Many controllers refuse `off` of what is off."""
        if controller.is_off():
            return
        self.act(controller, "off")
        end = clock() + self.words.off_within
        while clock() < end:
            time.sleep(min(2, self.words.off_within))
            self.still()
            if controller.is_off():
                return
        raise ControllerFault(f"{controller}: it is still on, {self.words.off_within:g} seconds after `off`")

    def carry_out(self):
        """Sets the outcome that is to be answered."""
        self.settings = self.files.current()
        aim = self.aim_of(self.settings)
        if aim != self.aim:
            if self.aim is not None:
                say(self.name, "it has another controller now, or another desk, and is begun anew")
            self.begin(aim)
        controller, cycle = aim[1], self.order.kind == "cycle"
        if self.outcome == "failed" or (self.outcome == "done" and cycle):
            return
        if controller is None:
            raise self.missing
        if not cycle:
            self.switch_off(controller)     # in each try: it must be off when that is answered
        elif not self.was_off or controller.is_off():   # else an `on` has come whose answer was lost
            self.act(controller, "network")
            self.switch_off(controller)
            self.was_off = True
            self.act(controller, "on")
        self.comes_to("done")

    def comes_to(self, outcome):
        """What is to be answered is found: its first tries to be sent are close together again."""
        if self.outcome != outcome:
            self.outcome, self.pause = outcome, PAUSES[0]

    def answer(self):
        desk = self.files.current().desk
        with desk.connected() as connection:
            self.fresh()
            self.is_sent = True
            is_taken = desk.answer(connection, self.order, self.outcome)
        if is_taken:
            self.ends(self.outcome, self.outcome)
        else:
            self.ends("void", "void: the desk doesn't want its outcome any more")

    def attempt(self):
        """One try, in a thread of its own."""
        try:
            self.carry_out()
            self.answer()
        except Withdrawn:
            self.waits_no_more()
        except Anew:
            self.due = clock()
        except ControllerFault as fault:
            self.fails(fault)
        except Wrong:
            self.again(self.words.every, None)      # its line is there
        except DeskFault as fault:
            self.again(self.longer(), fault)
        except Exception as fault:      # a mistake of this program's: with a line, and without an end of the others
            self.again(self.longer(), f"{type(fault).__name__}: {fault}")

    def fails(self, fault):
        """A try has failed. The first one doesn't make the order `failed`, unless it will never be otherwise."""
        if isinstance(fault, Unlisted) and self.words.only_listed:
            return self.leaves(fault)
        if isinstance(fault, Refused) or (self.faults and clock() >= self.end):
            self.comes_to("failed")
            self.due = clock()
            return say(self.name, "failed:", fault)
        self.faults += 1
        text = str(fault)
        is_known = isinstance(fault, Unlisted) and self.said == text
        self.said = text
        return self.again(self.longer(), None if is_known else fault)

    def leaves(self, fault):
        if self.words.once:
            return self.ends("left", f"left to another program: {fault}")
        if not self.is_left:
            say(self.name, f"left to another program: {fault}")
        self.is_left, self.due = True, clock() + self.longer()
        return None

    def longer(self):
        """The pause until the next try; a last one comes when its share of the time is over."""
        pause, self.pause = self.pause, min(2 * self.pause, PAUSES[1])
        return min(pause, self.end - clock()) if clock() < self.end else pause

    def again(self, pause, fault):
        end = self.end + (self.words.try_for if self.outcome else 0)    # as long again for the desk to take an outcome
        if self.words.once and clock() >= end and not isinstance(fault, ControllerFault):
            return self.ends("unanswered", f"not answered: {fault or 'the settings are wrong'}")
        self.due = clock() + pause
        if fault is not None:
            say(self.name, f"tried again in {pause:.0f} seconds:", fault)
        return None

    def waits_no_more(self):
        if self.is_sent:
            self.ends("failed" if self.outcome == "failed" else "void", f"void: it waits no more, after {self.outcome} was sent and not answered")
        else:
            self.ends("void", None if self.is_left else "withdrawn")

    def ends(self, over, text):
        self.over = over
        if text:
            say(self.name, text)

    def dry(self):
        """Says what would be done."""
        try:
            controller = self.files.current().controller(self.order.machine)
            is_off = controller.is_off()
        except Unlisted as fault:
            return say(self.name, "would be left to another program:" if self.words.only_listed else "would fail:", fault)
        except Exception as fault:
            return say(self.name, "would fail:", fault if isinstance(fault, (ControllerFault, DeskFault, Wrong)) else repr(fault))
        acts = [] if is_off else ["off"]
        if self.order.kind == "cycle":
            acts = ["next boot by network", *acts, "on"]
        return say(self.name, f"{controller} would be told:", ", ".join(acts) or "nothing, it is off")


# ---- The program
class Rounds:
    """The orders that wait, of a machine one at a time, of 64 machines at once."""

    def __init__(self, files, words):
        self.files, self.words, self.works = files, words, {}
        self.pool = ThreadPoolExecutor(AT_ONCE)

    def look(self):
        """Asks which orders wait. One whose work has ended may stand in a list that was asked for before."""
        resting = [work for work in self.works.values() if not work.is_running()]
        waiting = self.files.current().desk.waiting()
        for work in resting:
            if work.over is None and waiting.get(work.order.number) != work.order:
                work.waits_no_more()
            if work.over:
                del self.works[work.order.machine]
        for order in waiting.values():
            if order.machine not in self.works:
                self.works[order.machine] = Work(self.files, order, self.words)

    def step(self):
        for work in self.works.values():
            if work.over is None and not work.is_running() and work.due <= clock():
                work.future = self.pool.submit(work.attempt)


def serve(files, words):
    """For good."""
    rounds, due = Rounds(files, words), clock()
    while True:
        try:
            if clock() >= due:
                due = clock() + words.every
                rounds.look()
            rounds.step()
        except Wrong:
            pass        # its line is there
        except DeskFault as fault:
            say("asking again:", fault)
        except Exception as fault:
            say("asking again:", f"{type(fault).__name__}: {fault}")
        time.sleep(min(words.every, 0.2))


def once(files, words):
    """The orders that wait now. Whether none failed."""
    rounds = Rounds(files, words)
    rounds.look()
    while any(work.over is None for work in rounds.works.values()):
        rounds.step()
        time.sleep(0.1)
    return all(work.over in ("done", "void", "left") for work in rounds.works.values())


def dry_run(files, words):
    with ThreadPoolExecutor(AT_ONCE) as pool:
        list(pool.map(Work.dry, [Work(files, order, words) for order in files.current().desk.waiting().values()]))


def looked_at(controller):
    """Whether a controller answers, and what."""
    try:
        return True, f"{controller}: {'off' if controller.is_off() else 'on'}"
    except ControllerFault as fault:
        return False, str(fault)
    except Exception as fault:
        return False, f"{controller}: {type(fault).__name__}: {fault}"


def check(files):
    """Asks the desk, and each controller whether its machine is on, and changes nothing. Whether all answered."""
    settings, silent = files.current(), 0
    for path, name, token in (("/orders", "orders", settings.desk.token), ("/machines", "machines", settings.desk.reader)):
        try:
            if token:
                say(settings.desk.url, f"has {len(settings.desk.listed(path, name, token))} {'orders that wait' if name == 'orders' else name}")
        except DeskFault as fault:
            silent += 1
            say(fault)
    with ThreadPoolExecutor(AT_ONCE) as pool:
        for machine, (answers, text) in zip(settings.table, pool.map(looked_at, settings.table.values())):
            silent += not answers
            say(f"machine {machine}, {text}")
    return silent == 0


def seconds(word):
    value = float(word)
    if not 0 < value <= 86400:
        raise ValueError
    return value


def words_of_line():
    parser = argparse.ArgumentParser(
        prog="hall-power", description="Carries out the power orders of a server hall's desk.",
        epilog="Exit status: 0 as asked, 1 something failed, 2 wrong usage or configuration.")
    parser.add_argument("--config", default=CONFIG, metavar="FILE", help="the settings (%(default)s); one such program at a time acts by them")
    parser.add_argument("--every", type=seconds, default=5, metavar="SECONDS", help="how long it is from one look for orders to the next (5)")
    parser.add_argument("--try-for", type=seconds, default=300, metavar="SECONDS",
                        help="how long an order is tried before it is answered `failed`, from when it was first seen (300). Keep it well under the limits of "
                        "Releasing and Exiting rescue mode, 600")
    parser.add_argument("--off-within", type=seconds, default=30, metavar="SECONDS",
                        help="how long a machine may take to be off, once it is told to, before that try has failed (30)")
    parser.add_argument("--only-listed", action="store_true", help="leaves the orders of machines that the table doesn't have to another program")
    mode = parser.add_mutually_exclusive_group()
    mode.add_argument("--once", action="store_true",
                      help="carries out the orders that wait now, each tried as long as --try-for says, and ends; with status 1 if one failed or "
                      "isn't answered")
    mode.add_argument("--dry-run", action="store_true", help="says what would be done for the orders that wait now, and does and answers nothing")
    mode.add_argument("--check", action="store_true", help="asks the desk and each controller, changes nothing, and ends; with status 1 if one doesn't answer")
    return parser.parse_args()


def main():
    words = words_of_line()
    try:
        files = Files(words.config, acts=not words.check and not words.dry_run)
        needed = sum(isinstance(controller, Ipmitool) for controller in files.settings.table.values())
        if needed and shutil.which("ipmitool") is None:
            raise Wrong(f"ipmitool is missing (Debian's package ipmitool), which {needed} lines of the table need")
        if words.check:
            return 0 if check(files) else 1
        if words.dry_run:
            return dry_run(files, words) or 0
        if words.once:
            return 0 if once(files, words) else 1
    except Wrong as fault:
        say("hall-power:", fault)
        return 2
    except DeskFault as fault:
        say("hall-power:", fault)
        return 1
    except Exception as fault:
        say(f"hall-power: {type(fault).__name__}: {fault}")
        return 1
    return serve(files, words)


if __name__ == "__main__":
    try:
        sys.exit(main())
    except KeyboardInterrupt:
        os._exit(130)   # as by a signal: nothing waits for what is in the midst
