"""A hall of some 300 machines in many statuses that a desk serves: for view_peer.py."""
import json
import re
import subprocess
import time
import uuid
from contextlib import contextmanager

from served_hall import ADMIN, Hall, address
from view_served import LOOPBACK, written

NAME = "hall"                                            # as hallview names the hall of a lone --desk
POOLS = [("default", 120), ("lab", 100), ("gpu", 80)]    # how many machines each has


class FilledHall(Hall):
    """A hall, and how an operator and its machines reach its desk."""

    def __init__(self, program, hallctl, name):
        super().__init__(program, name)
        self.hallctl = hallctl
        written("ada.token", ADMIN + "\n")

    @property
    def url(self):
        return f"http://{LOOPBACK}:{self.http}"

    def ctl(self, *words):
        """What a line of hallctl prints, in the name of the admin ada; it must be done."""
        line = [self.hallctl, "--desk", self.url, "--token-file", "ada.token", "--timeout", "60", *map(str, words)]
        it = subprocess.run(line, stdin=subprocess.DEVNULL, capture_output=True, text=True, timeout=300)
        if it.returncode:
            raise SystemExit(f"view_hall: hallctl {' '.join(map(str, words))}: status {it.returncode}: {it.stdout}{it.stderr}")
        return it.stdout

    def report(self, number, *stages):
        """A machine starts, and reports these stages of the work that its script names."""
        script = self.ask(f"/ipxe/{address(number)}")[1].decode()
        boot, token = re.search(r"hall\.boot=(\d+) hall\.token=(\w+)", script).groups()
        for stage in stages:
            status, said = self.ask(f"/report/{boot}/{token}", body=json.dumps({"stage": stage}))
            if status != 200:
                raise SystemExit(f"view_hall: machine {number} reports {stage}: {status} {said!r}")

    def machines(self):
        """The desk's own list."""
        return json.loads(self.ask("/machines", ADMIN)[1])["machines"]

    def check_silence(self, checks, view):
        """The token stands in no output of hallview."""
        with open("view.token", encoding="ascii") as file:
            token = file.read().strip()
        texts = [view.ask(target).text() for target in ["/", f"/machines/{NAME}/1", "/metrics", "/state.json"]]
        checks.wants("the token stands in no output", not any(token in text for text in [view.ready, view.said(), *texts]))
        checks.wants("hallview says nothing to standard error", view.said() == "", view.said())


def imported(hall):
    """Imports the machines, while nothing serves the hall."""
    rows, number = ["key,mac,arch,uuid,pool"], 0
    for pool, count in POOLS:
        for _ in range(count):
            number += 1
            rows.append(f"{uuid.uuid4()},{address(number)},uefi64,{uuid.uuid5(uuid.NAMESPACE_OID, address(number))},{pool}")
    written("machines.csv", "\n".join(rows) + "\n")
    said = hall.run("import", "--token-file", "ada.token", "--at", str(int(time.time())), "machines.csv")
    if said.count(" 200 ") != number:
        raise SystemExit(f"view_hall: not all machines are imported: {said[:300]}")


def begun(hall):
    """Makes operators, pools and images."""
    hall.ctl("add-operator", "view", "--role", "user", "--new-token", "view.token")
    for pool, _ in POOLS[1:]:
        hall.ctl("add-pool", pool)
    for pool, _ in POOLS:
        hall.ctl("grant", pool, "view")
    for image in ["live64", "jammy", "noble"]:
        hall.ctl("add-image", image, "--arch", "uefi64", "--kernel", f"http://files.example/{image}/k", "--initrd", f"http://files.example/{image}/i")
    hall.ctl("set-live", "live64")


def worked(hall):
    """Has the machines work, and fail; 1 to 40 stay New, and 41 to 60 at their first work."""
    hall.ctl("commission", "41-300")
    for number in range(61, 67):
        hall.report(number, "started", "failed")
    for number in range(67, 301):
        hall.report(number, "started", "done")
    hall.ctl("test", "67-76")
    for number in range(67, 71):
        hall.report(number, "started", "failed")
    hall.ctl("break", "90-92")
    hall.ctl("allocate", "101-200")
    hall.ctl("deploy", "121-180", "--image", "jammy")
    hall.ctl("deploy", "181-200", "--image", "noble")
    for number in [*range(131, 141), *range(197, 201)]:
        hall.report(number, "started", "failed")
    for number in range(141, 197):
        hall.report(number, "started", "done")
    hall.ctl("lock", "150")
    hall.ctl("rescue", "151-153", "--yes")
    hall.report(151, "started")
    hall.report(152, "failed")
    hall.ctl("release", "160-165", "--erase", "none", "--yes")
    hall.ctl("release", "166-168", "--erase", "quick", "--yes")
    hall.ctl("release", "169-170", "--erase", "full", "--yes")
    for number in [166, 169]:
        hall.report(number, "started", "failed")


@contextmanager
def filled(hallboot, hallctl):
    """A hall of 300 machines whose desk runs, with a token for hallview in `view.token`."""
    with FilledHall(hallboot, hallctl, NAME) as hall:
        hall.serve()
        begun(hall)
        hall.stop()
        imported(hall)
        hall.serve()
        worked(hall)
        yield hall
