"""A reader of the guides, for mending_trial.py: the guides' blocks, the reader's terminals, and a desk at free ports."""
import os, re, shlex, signal, subprocess, sys, tempfile, time
from moved_trial import Log
from served_hall import ports

HERE = os.path.dirname(os.path.realpath(__file__))
PATIENCE = 240.0    # seconds for what takes one or two
ASKS = re.compile(r"^(\s*hallctl (?:--token-file \S+ )?(?:delete|release|rescue|exit-rescue) (?:(?!--yes).)*?)(\s*#.*)?$")


def comes(what, is_so, patience=PATIENCE):
    """Waits for something that comes of itself."""
    end = time.monotonic() + patience
    while not is_so():
        if time.monotonic() > end:
            raise SystemExit(f"mending_trial: this doesn't come: {what}")
        time.sleep(0.05)


def text_in(path):
    try:
        with open(path) as file:
            return file.read()
    except FileNotFoundError:
        return ""


def octets_of(path):
    with open(path, "rb") as file:
        return file.read()


def with_yes(lines):
    """The lines, with --yes where hallctl asks: nobody can be asked here."""
    return "\n".join(ASKS.sub(r"\1 --yes\2", line) for line in lines.split("\n"))


class Guide:
    """A guide whose blocks are taken as they stand there. The folders of the system are the trial's."""

    def __init__(self, name, folders=()):
        self.file, self.folders = os.path.join(HERE, "..", "docs", name), dict(folders)

    def asked(self, *words):
        what, *text = words
        it = subprocess.run([sys.executable, "-B", f"{HERE}/guide_blocks.py", what, self.file, *text], capture_output=True, text=True, timeout=PATIENCE)
        if it.returncode:
            raise SystemExit(f"mending_trial: {it.stderr.strip()}")
        return it.stdout.rstrip("\n")

    def block(self, text):
        lines = self.asked("block", text)
        for theirs, its in self.folders.items():
            lines = lines.replace(theirs, its)
        return with_yes(lines)

    def left(self):
        """The blocks that nothing was taken of."""
        return self.asked("left").splitlines()


def programs_in(folder, hallboot, hallctl):
    """The programs that the guides name, in a folder for PATH."""
    os.mkdir(folder)
    for name, program in (("hallboot", hallboot), ("hallctl", hallctl)):
        os.symlink(program, os.path.join(folder, name))
    for name in ("hall_moved", "hall_lists"):
        path = os.path.join(folder, name.replace("_", "-"))
        with open(path, "w") as file:
            file.write(f'#!/bin/sh\nexec {shlex.quote(sys.executable)} -B {shlex.quote(f"{HERE}/../lists/{name}.py")} "$@"\n')
        os.chmod(path, 0o700)


class Reader:
    """A terminal of the reader's: a shell in a folder, which keeps what was exported and what it started."""

    def __init__(self, folder, programs):
        self.folder, self.number, self.others = folder, 0, []
        self.typed = tempfile.mkdtemp(prefix="typed.", dir=os.getcwd())
        self.its = {name: value for name, value in os.environ.items() if not name.startswith(("HALL_", "XDG_"))}
        self.its.update(PATH=f"{programs}:{os.environ['PATH']}", HOME=folder)
        self.shell = subprocess.Popen(["bash", "--norc"], cwd=folder, env=self.its, stdin=subprocess.PIPE, text=True, start_new_session=True)

    def __enter__(self):
        return self

    def __exit__(self, *_):
        for it in [self.shell, *self.others]:
            try:
                os.killpg(it.pid, signal.SIGKILL)
            except ProcessLookupError:
                pass
            it.wait()
        self.shell.stdin.close()

    def types(self, lines, patience=PATIENCE):
        """What the lines printed, what they complained of, and of each that failed its status and words."""
        self.number += 1
        at = os.path.join(self.typed, str(self.number))
        failed = f"""trap 'echo "$?: $BASH_COMMAND" >> {at}.failed' ERR"""
        with open(f"{at}.lines", "w") as file:
            file.write(f"{failed}\n{lines}\ntrap - ERR\n")
        self.shell.stdin.write(f". {at}.lines > {at}.said 2> {at}.errors < /dev/null; echo ended > {at}.ended\n")
        self.shell.stdin.flush()
        comes(f"the end of: {lines}", lambda: text_in(f"{at}.ended") or self.shell.poll() is not None, patience)
        return text_in(f"{at}.said"), text_in(f"{at}.errors"), text_in(f"{at}.failed")

    def other(self, line):
        """Another terminal of the same folder, in which one program runs."""
        self.others.append(subprocess.Popen(["bash", "--norc", "-c", f"exec {line}"], cwd=self.folder, env=self.its, stdin=subprocess.DEVNULL, start_new_session=True))
        return self.others[-1]

    def interrupts(self, it):
        """Ctrl-C in another terminal."""
        it.send_signal(signal.SIGINT)
        it.wait(PATIENCE)


class Desk(Log):
    """A desk over a hall that is there already."""

    def __init__(self, program, file, log, *words):
        self.program, self.file, self.host, self.running = program, file, "127.0.0.1", None
        self.log, self.words = log, words

    def serve(self):
        """Serves it, at other ports where another program has taken one meanwhile."""
        for _ in range(5):
            self.discover, self.boot, self.http = ports()
            self.start()
            if self.running.stdout.readline() == "hall desk ready\n":
                return
            self.__exit__()
            self.running.stdout.close()
        raise SystemExit("mending_trial: the desk isn't ready")
