"""A case of power_cases.py: a folder, a desk and controllers of its own, and what hall_power.py did and said there."""
import os, re, subprocess, sys, time
from pretend_controllers import ON, Controller, Redfish
from pretend_desk import POWER, READER, Desk

PATIENCE = 120     # seconds until what must come has come
SECRET = "redfish's secret"


def certificate():
    """The controllers' certificate and key, bmc.pem and bmc.key."""
    words = "req -x509 -newkey ec -pkeyopt ec_paramgen_curve:prime256v1 -nodes -days 2 -subj /CN=bmc -keyout bmc.key -out bmc.pem"
    subprocess.run(["openssl", *words.split()], check=True, capture_output=True)


def ipmitool(folder):
    """The stand-in as a program of a folder, for controllers of its folder `controllers`."""
    script = os.path.join(os.path.dirname(os.path.abspath(__file__)), "pretend_controllers.py")
    with open(os.path.join(folder, "ipmitool"), "w") as file:
        print(f"#!/bin/sh\nexec {sys.executable} -B {script} ipmitool {folder}/controllers \"$@\"", file=file)
    os.chmod(os.path.join(folder, "ipmitool"), 0o700)


class Case:
    """Its folder, its desk, its Redfish server, and what a program said."""

    def __init__(self, name, power, trial):
        self.folder, self.power, self.trial = os.path.abspath(f"case_{name}"), power, trial
        self.events, self.running, self.results = [], [], []
        os.makedirs(os.path.join(self.folder, "controllers"))
        self.desk = Desk(lambda *event: self.events.append(event))
        self.redfish = self.server()
        self.write("token", POWER + "\n")
        self.write("reader", READER + "\n")
        self.write("password", SECRET + "\n")
        self.settings()

    def server(self):
        return Redfish(os.path.join(self.folder, "controllers"), "bmc.pem", "bmc.key", "desk:" + SECRET, lambda *event: self.events.append(event))

    def path(self, name):
        return os.path.join(self.folder, name)

    def write(self, name, text, mode=0o640):
        """A file that is whole at each moment."""
        with open(self.path(name + ".new"), "w") as file:
            file.write(text)
        os.chmod(self.path(name + ".new"), mode)
        os.rename(self.path(name + ".new"), self.path(name))

    def settings(self, redfish=("desk", "password")):
        kind = "".join(f'{word} = "{value if word == "user" else self.path(value)}"\n' for word, value in zip(("user", "password"), redfish))
        files = "".join(f'{name} = "{self.path(name)}"\n' for name in ("token", "reader", "table"))
        self.write("toml", f'desk = "{self.desk.url}"\n{files}'
                   f'[controllers.ipmi]\ndriver = "ipmitool"\nuser = "desk"\npassword = "{self.path("password")}"\n'
                   f'[controllers.redfish]\ndriver = "redfish"\n{kind}')

    def machine(self, name, state=ON):
        Controller(self.path("controllers"), name).set(state)

    def line(self, machine, name, *options, server=None, fingerprint=None):
        place, fingerprint = (server or self.redfish).place, fingerprint or self.trial.fingerprint
        return " ".join([str(machine), "redfish", place, f"system={name}", f"fingerprint={fingerprint}", *options])

    def table(self, *lines):
        self.write("table", "".join(line + "\n" for line in lines))

    def order(self, number, machine, kind="off"):
        self.desk.waiting[number] = machine, kind

    def told(self, name):
        return [word for _, word in Controller(self.path("controllers"), name).told()]

    def is_off(self, name):
        return Controller(self.path("controllers"), name).is_off()

    def surroundings(self, path=None):
        return {"PATH": path or f"{self.folder}:{os.environ['PATH']}", "PYTHONDONTWRITEBYTECODE": "1"}

    def begin(self, *words, every="0.3", try_for="4", program=None, path=None, log=None):
        with log or open(self.path("log"), "a") as log:
            it = subprocess.Popen([sys.executable, *(program or [self.power]), "--config", self.path("toml"), "--every", every, "--try-for", try_for,
                                   "--off-within", "60", *words], stderr=log, cwd=self.folder, env=self.surroundings(path))
        self.running.append(it)
        return it

    def ended(self, *words, **more):
        """Its status, and what it said, where it ends by itself."""
        before = len(self.log())
        status = self.begin(*words, **more).wait(PATIENCE)
        return status, self.log()[before:]

    def log(self):
        try:
            with open(self.path("log"), errors="replace") as log:
                return log.read()
        except FileNotFoundError:
            return ""

    def comes(self, what, is_so):
        end = time.monotonic() + PATIENCE
        while not is_so() and time.monotonic() < end:
            time.sleep(0.03)
        self.wants(what, is_so())

    def outcomes(self):
        return [(number, outcome) for number, outcome, _ in self.desk.answered]

    def answers(self, *outcomes):
        """Waits until so many outcomes were taken, and compares them."""
        end = time.monotonic() + PATIENCE
        while len(self.desk.answered) < len(outcomes) and time.monotonic() < end:
            time.sleep(0.03)
        self.wants(f"answered {outcomes}", sorted(self.outcomes()) == sorted(outcomes), self.outcomes())

    def says(self, what, count=None):
        found = len(re.findall(what, self.log()))
        self.wants(f"it says {what!r}" + (f", {count} times" if count else ""), found == count if count is not None else found, found)

    def wants(self, what, is_so, seen=""):
        self.results.append((what, bool(is_so), seen))

    def end(self):
        for it in list(self.running):
            it.kill()
            it.wait()
        self.desk.shutdown()
        self.redfish.shutdown()
