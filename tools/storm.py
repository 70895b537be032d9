#!/usr/bin/env python3
"""A hall that is commissioned at once, or comes back after a power cut: a command for each of so many machines; then each one's order is
answered, it asks for its script, and reports that its work has started and that it is done. Each of these is kept before it is answered.
Prints how many of each the desk does in a second, with one client and with more at a time (storm.c); the hall's file is in the folder at hand.

With DELAY each commit waits so many microseconds longer for the disk (slow_disk.c). Needs cc.

Usage: storm.py HALLBOOT [MACHINES [DELAY [CLIENTS..]]]"""
import json, os, re, subprocess, sys, tempfile, uuid
from served_hall import ADMIN, Hall, address, digest, whole

POWER = "powers-secret-1"
WORDS = re.compile(r"hall\.(\w+)=(\S+)")


def get(target):
    return f"GET {target} HTTP/1.1\r\nHost: desk\r\n\r\n".encode()


def post(target, members, token=None):
    body = json.dumps(members)
    bearer = f"Authorization: Bearer {token}\r\n" if token else ""
    return f"POST {target} HTTP/1.1\r\nHost: desk\r\n{bearer}Content-Length: {len(body)}\r\n\r\n{body}".encode()


def commission(machine):
    return post("/commands", {"key": str(uuid.uuid4()), "command": "commission", "machine": machine, "tests": False}, ADMIN)


def answered(file):
    """The bodies of the answers in a file of storm's, all of which must have the status 200."""
    with open(file, "rb") as answers:
        while line := answers.readline():
            status, body = whole(answers.read(int(line)))
            if status != 200:
                raise SystemExit(f"storm: {status} {body.decode()}")
            yield body.decode()


class Storm:
    """So many clients of a hall, how many requests they have sent, and the seconds that these took."""

    def __init__(self, hall, clients):
        self.hall, self.clients, self.sent, self.seconds = hall, clients, 0, 0.0

    def send(self, requests):
        """The answers to requests, and how many there were in a second."""
        with open("requests", "wb") as file:
            file.writelines(b"%d\n%b" % (len(request), request) for request in requests)
        words = ["./storm", "127.0.0.1", str(self.hall.http), str(self.clients), "requests", "answers"]
        seconds = float(subprocess.run(words, check=True, stdout=subprocess.PIPE, text=True).stdout) / 1e6
        self.sent, self.seconds = self.sent + len(requests), self.seconds + seconds
        return list(answered("answers")), len(requests) / seconds


def row(hall, machines, clients):
    """How many commands, orders' answers, scripts and reports so many clients are given in a second; and for how many seconds."""
    storm = Storm(hall, clients)
    _, commands = storm.send([commission(machine) for machine in machines])
    orders = json.loads(hall.ask("/orders", POWER)[1])["orders"]
    _, answers = storm.send([post(f"/orders/{order['number']}", {"outcome": "done"}, POWER) for order in orders])
    scripts, fetches = storm.send([get(f"/ipxe/{address(order['machine'])}") for order in orders])
    boots = [dict(WORDS.findall(script)) for script in scripts]
    rates = [storm.send([post(f"/report/{boot['boot']}/{boot['token']}", {"stage": stage}) for boot in boots])[1] for stage in ("started", "done")]
    rates = [commands, answers, fetches, 2 / sum(1 / rate for rate in rates), storm.sent / storm.seconds]
    return f"{clients:4}" + "".join(f"{rate:10.0f}" for rate in rates) + f"{storm.seconds:10.1f}"


def main():
    program, *numbers = sys.argv[1:]
    count, delay, *clients = (*map(int, numbers), *(400, 0)[len(numbers):])
    clients = clients or [1, 8, 32, 64]
    program = os.path.abspath(program) if os.path.exists(program) else program
    sources = os.path.dirname(os.path.abspath(__file__))
    os.chdir(tempfile.mkdtemp(prefix="storm-", dir="."))
    for words in ["-pthread", "-o", "storm", f"{sources}/storm.c"], ["-shared", "-fPIC", "-o", "slow_disk.so", f"{sources}/slow_disk.c"]:
        subprocess.run(["cc", "-O2", "-Wall", *words], check=True)
    with Hall(program, "storm") as hall:
        hall.add(count * len(clients))
        if delay:
            os.environ.update(LD_PRELOAD=os.path.abspath("slow_disk.so"), SLOW_DISK=str(delay))
        hall.serve()
        os.environ.pop("LD_PRELOAD", None)
        hall.command(command="add_operator", operator="power", role="power", digest=digest(POWER))
        hall.command(command="add_image", image="live64", arch="uefi64", kernel="http://files.example/k", initrd="http://files.example/i", args=[])
        hall.command(command="set_live", image="live64")
        print(f"a second, each commit {delay} us slower:\n clients commands    orders   scripts   reports       all   seconds")
        for at, some in enumerate(clients):
            print(row(hall, range(at * count + 1, (at + 1) * count + 1), some), flush=True)
        hall.stop()


main()
