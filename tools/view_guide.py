"""docs/VIEW.md word by word: its commands and its file of halls, with the names of desks replaced by addresses here. For view_peer.py."""
import os
import re
import shlex
import shutil
import signal
import subprocess
import time
import urllib.request
from pathlib import Path

from served_hall import ADMIN, Hall
from view_served import LOOPBACK, written

TOP = Path(__file__).resolve().parent.parent
PAGE = f"http://{LOOPBACK}:8067"
NOBODY = f"http://{LOOPBACK}:9"     # where no desk is
MACHINES = 3
COUNT = f"Machines: {MACHINES}"


def blocks():
    """The indented blocks of the guide, each as its lines."""
    text = (TOP / "docs/VIEW.md").read_text(encoding="utf-8")
    return [[line[4:] for line in block.strip("\n").split("\n")] for block in re.findall(r"(?:^ {4}.*\n|^\n(?= {4}))+", text, re.MULTILINE)]


def ended(line, surroundings, folder="."):
    """The status of a line that ends, and what it writes."""
    it = subprocess.run(line, shell=True, cwd=folder, env=surroundings, stdin=subprocess.DEVNULL, capture_output=True, text=True, timeout=120)
    return it.returncode, it.stdout + it.stderr


def shows(seconds, *texts, without=None):
    """Whether the page comes to have these texts, and none that it is to be without."""
    end = time.monotonic() + seconds
    while time.monotonic() < end:
        try:
            with urllib.request.urlopen(PAGE, timeout=5) as answer:
                text = answer.read().decode()
        except OSError:
            text = ""
        if all(one in text for one in texts) and (without is None or text and without not in text):
            return True
        time.sleep(0.2)
    return False


class Running:
    """A line whose program goes on until Ctrl-C."""

    def __init__(self, line, surroundings):
        self.line, self.surroundings, self.errors = line, surroundings, Path("running.errors")

    def __enter__(self):
        with self.errors.open("w", encoding="utf-8") as errors:
            self.it = subprocess.Popen(shlex.split(self.line), env=self.surroundings, stdin=subprocess.DEVNULL, stdout=subprocess.PIPE, stderr=errors,
                                       text=True, restore_signals=True, preexec_fn=lambda: signal.signal(signal.SIGINT, signal.SIG_DFL))
        self.ready = self.it.stdout.readline()
        return self

    def interrupt(self):
        """Presses Ctrl-C: how it ended, and what it wrote beside its first line."""
        self.it.send_signal(signal.SIGINT)
        status = self.it.wait(10)
        return status, self.it.stdout.read() + self.errors.read_text(encoding="utf-8")

    def __exit__(self, *_):
        self.it.kill()
        self.it.wait()
        self.it.stdout.close()


def start_it(checks, hall, block, surroundings):
    """The first block: an operator is added, and one hall is shown; its desk goes away and comes back; Ctrl-C."""
    add, show = (line.replace("http://desk.hall.example", hall.url) for line in block)
    status, said = ended(add, surroundings)
    checks.wants(f"the guide's line is done: {add}", status == 0, said)
    with Running(show, surroundings) as view:
        checks.wants("hallview says where it is", view.ready == f"hallview ready at {PAGE}\n", view.ready)
        checks.wants("the page has the machines", shows(20, COUNT))
        hall.stop()
        checks.wants("a desk that went away is named, with the age of what is shown", shows(30, "The desk takes no connection. What is shown of it is"))
        hall.serve()
        checks.wants("a desk that came back is shown as of now", shows(30, COUNT, without="What is shown of it is"))
        status, said = view.interrupt()
        checks.wants("Ctrl-C ends it, without a word", status in (0, -signal.SIGINT, 130) and said == "", (status, said))


def rules(checks, block, surroundings):
    """The block of Prometheus' tool."""
    for line in block:
        if shutil.which("promtool") is None:
            checks.skip(line)
            continue
        status, said = ended(line, surroundings, TOP)
        checks.wants(f"the guide's line is done: {line}", status == 0, said)


def more_halls(checks, hall, block, surroundings):
    """The file of halls, of which one has no desk, and the lines after it."""
    first = next(at for at, line in enumerate(block) if line.startswith("hall"))
    text = "\n".join(block[:first]).replace("http://desk.berlin.example", hall.url).replace("http://desk.munich.example", NOBODY)
    folder = Path(surroundings["HOME"]) / ".config/hall"
    folder.mkdir(parents=True)
    for name in ["berlin", "munich"]:
        shutil.copy("view.token", folder / f"{name}.token")
    written(folder / "halls.toml", text)
    show, *lines = (line.split("  #")[0].strip() for line in block[first:])
    with Running(show.replace("halls.toml", str(folder / "halls.toml")), surroundings) as view:
        checks.wants("hallview shows both halls", view.ready == f"hallview ready at {PAGE}\n", view.ready)
        checks.wants("the page has both halls", shows(20, COUNT, "berlin", "munich: The desk takes no connection."))
        checks.wants("Ctrl-C ends it", view.interrupt()[0] in (0, -signal.SIGINT, 130))
    for line in lines:
        status, said = ended(line, surroundings)
        checks.wants(f"the guide's line answers: {line}", "berlin" in said if line.endswith("halls") else said.count("New") == MACHINES, (status, said))


def trial(checks, program):
    folder = Path("guide-programs")
    folder.mkdir()
    for name, path in {"hallview": program, "hallctl": os.environ["HALLCTL"]}.items():
        (folder / name).symlink_to(Path(path).resolve())
    with Hall(os.environ["HALLBOOT"], "guide") as hall:
        hall.url = f"http://{LOOPBACK}:{hall.http}"
        hall.add(MACHINES)
        hall.serve()
        home = Path("guide-home")
        home.mkdir()
        surroundings = {"PATH": f"{folder.resolve()}:{os.environ['PATH']}", "HOME": str(home.resolve()), "HALL_DESK": hall.url,
                        "HALL_TOKEN_FILE": written("ada.token", ADMIN + "\n")}
        start, prometheus, halls = blocks()
        start_it(checks, hall, start, surroundings)
        rules(checks, prometheus, surroundings)
        more_halls(checks, hall, halls, surroundings)
