"""hallview as it runs, and what view_peer.py counts."""
import http.client
import itertools
import json
import os
import socket
import subprocess
import tempfile
import time

LOOPBACK = "127.0.0.1"
PATIENCE = 120.0    # seconds for what takes a few, however busy the machine is


class Checks:
    """How many checks there were, and how many failed."""

    def __init__(self):
        self.count, self.failed = 0, 0

    def wants(self, what, is_so, seen=""):
        """Counts a check, and prints one that fails with what was seen instead."""
        self.count += 1
        if not is_so:
            self.failed += 1
            print(f"FAILED: {what}: {str(seen)[:600]}", flush=True)
        return is_so

    @staticmethod
    def skip(what):
        print(f"not tried: {what}", flush=True)

    @staticmethod
    def say(line):
        print(line, flush=True)


class Answer:
    """A response: its status, its fields by name in lower case, and its body."""

    def __init__(self, status, fields, body):
        self.status, self.fields, self.body = status, {name.lower(): value for name, value in fields}, body

    def text(self):
        return self.body.decode()

    def json(self):
        return json.loads(self.body)


class View:
    """A hallview that runs, with these words on its command line, at a port that the system picks. `with` ends it."""

    def __init__(self, program, *words):
        self.program, self.words = program, words
        self.running, self.port, self.errors = None, None, tempfile.TemporaryFile()

    def __enter__(self):
        self.running = subprocess.Popen([self.program, *self.words, "--listen", f"{LOOPBACK}:{self.port or 0}"], stdin=subprocess.DEVNULL,
                                        stdout=subprocess.PIPE, stderr=self.errors, text=True)
        self.ready = self.running.stdout.readline()
        begin, _, port = self.ready.rstrip("\n").rpartition(":")
        if begin != f"hallview ready at http://{LOOPBACK}":
            self.__exit__()
            raise SystemExit(f"view_served: hallview isn't ready: {self.ready!r} {self.said()!r}")
        self.port = int(port)
        return self

    def __exit__(self, *_):
        self.running.kill()
        self.running.wait()
        self.running.stdout.close()

    def said(self):
        """What it has written to standard error."""
        self.errors.seek(0)
        return self.errors.read().decode(errors="replace")

    @property
    def base(self):
        return f"http://{LOOPBACK}:{self.port}"

    def connect(self, patience=PATIENCE):
        return socket.create_connection((LOOPBACK, self.port), patience)

    def ask(self, target="/", method="GET", patience=PATIENCE, **fields):
        """The answer to one request, on a connection of its own."""
        connection = http.client.HTTPConnection(LOOPBACK, self.port, timeout=patience)
        try:
            connection.request(method, target, headers=fields)
            response = connection.getresponse()
            return Answer(response.status, response.getheaders(), response.read())
        finally:
            connection.close()

    def state(self):
        return self.ask("/state.json").json()

    def hall(self, name):
        """What is known of a hall."""
        return next(hall for hall in self.state()["halls"] if hall["name"] == name)

    def wait_for(self, is_so, seconds=PATIENCE):
        """Waits until a state is so, and returns it; None if none becomes so."""
        end = time.time() + seconds
        while time.time() < end:
            state = self.state()
            if is_so(state):
                return state
            time.sleep(0.1)
        return None

    def descriptors(self):
        """How many files and sockets it has open."""
        return len(os.listdir(f"/proc/{self.running.pid}/fd"))

    def memory(self):
        """Its resident memory in MB."""
        with open(f"/proc/{self.running.pid}/status", encoding="ascii") as lines:
            return next(int(line.split()[1]) / 1024 for line in lines if line.startswith("VmRSS:"))

    def processor_seconds(self):
        """The processor time that it has taken, of its own and of the system's in its name."""
        with open(f"/proc/{self.running.pid}/stat", encoding="ascii") as file:
            words = file.read().rpartition(")")[2].split()
        return (int(words[11]) + int(words[12])) / os.sysconf("SC_CLK_TCK")


def first_difference(wanted, came):
    """The first line in which two texts differ."""
    for number, lines in enumerate(itertools.zip_longest(wanted.splitlines(), came.splitlines()), 1):
        if lines[0] != lines[1]:
            return f"line {number} should be {lines[0]!r:.250} and is {lines[1]!r:.250}"
    return "the ends differ"


def is_written(view, target, written, **fields):
    """Whether an answer is what is written of the state at its moment, the answer, and the first difference. Where the state before it isn't that after
    it, it may be of one between them: then another answer is looked at."""
    for _ in range(50):
        before, answer, after = view.state(), view.ask(target, **fields), view.state()
        moments = range(before["now"], after["now"] + 1)
        texts = [written({**state, "now": now}) for state in (before, after) for now in moments]
        if answer.text() in texts:
            return True, answer, ""
        if {**before, "now": 0} == {**after, "now": 0}:
            return False, answer, first_difference(texts[0], answer.text())
    raise SystemExit("view_served: the state is another one at each look")


def is_up(state):
    """Whether each hall's last answer was a list."""
    return all(hall["up"] for hall in state["halls"])


def written(path, text):
    """Writes a file that only its owner reads, and returns its path."""
    with open(path, "w", encoding="utf-8", opener=lambda name, flags: os.open(name, flags, 0o600)) as file:
        file.write(text)
    return path


def halls_file(path, halls):
    """Writes a file of halls: each name's desk and token."""
    folder = os.path.dirname(os.path.abspath(path))
    tables = []
    for name, (desk, token) in halls.items():
        written(f"{folder}/{name}.token", token + "\n")
        tables.append(f'[{name}]\ndesk = "{desk}"\ntoken_file = "{name}.token"\n')
    return written(path, "\n".join(tables))
