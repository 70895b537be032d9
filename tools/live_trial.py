"""live/hall-live against answers of every kind: live_trial.py SCRIPT FOLDER DISK, two new folders, the first in RAM. Run by live_trial.sh, which says what is looked at."""
import collections, itertools, os, re, shutil, signal, socket, subprocess, sys, tempfile, threading
from concurrent.futures import ThreadPoolExecutor

COUNTED, REPEAT = b'{"result":"counted"}', b'{"result":"repeat"}'
TOKEN = "000102030405060708090a0b0c0d0e0f"
STUB = '#!/bin/sh\necho "${0##*/} $*" >> "$CALLS"\nexit ${STUB_STATUS:-0}\n'
PROGRAM = '#!/bin/sh\necho "work ${0##*/} $hall_erase" >> "$CALLS"\nexit ${WORK_STATUS:-0}\n'
TIMEOUT = shutil.which("timeout")
PURPOSES = [("commission", ""), ("test", ""), ("deploy", ""), ("erase", "quick"), ("erase", "full"), ("rescue", "")]


# ---- What a server may answer, and what that is by the rules
def response(status, body, fields="", length=None):
    return f"HTTP/1.1 {status} X\r\nContent-Length: {len(body) if length is None else length}\r\n{fields}Connection: close\r\n\r\n".encode() + body


def refusal(status, name):
    return response(status, b'{"refusal":"%s"}' % name.encode())


ANSWERS = {
    "counted": response(200, COUNTED),
    "repeat": response(200, REPEAT),
    "404": refusal(404, "NoBoot"),
    "409": refusal(409, "Spent"),
    "410": refusal(410, "Stale"),
    "400": refusal(400, "BadRequest"),
    "503": refusal(503, "Unavailable"),
    "foreign 200": response(200, b"<html><body><h1>It works!</h1></body></html>"),
    "foreign 404": response(404, b"<html>Not Found</html>"),
    "foreign 502": response(502, b"<html>Bad Gateway</html>"),
    "redirect": response(302, b"", "Location: /counted\r\n"),
    "cut": response(200, COUNTED, length=len(COUNTED) + 9),
    "mute": None,
    "late": response(200, COUNTED),
    "a byte more": response(200, COUNTED + b"\n"),
    "an escape more": response(200, COUNTED + b" 200\\c"),
    "empty 200": response(200, b""),
    "counted with 201": response(201, COUNTED),
}
SLOW = {"mute", "late"}     # what ends curl by its limit


def is_no_answer(answer):
    return answer in SLOW or answer in ("cut", "503", "foreign 502")


def leave(answers):
    """How many `started` are sent, and what becomes of the machine by the first answer that decides."""
    for sent, answer in enumerate(answers, 1):
        if is_no_answer(answer):
            continue
        if answer == "counted":
            return sent, "work"
        return sent, "off" if answer in ("404", "409", "410") else "anew"
    raise AssertionError("no answer decides")


def verdict(answers):
    """How many verdicts are sent, and whether the last one is taken."""
    for sent, answer in enumerate(answers, 1):
        if answer in ("counted", "repeat"):
            return sent, True
        if answer in ("404", "409", "410", "400"):
            return sent, False
    raise AssertionError("no answer decides")


Case = collections.namedtuple("Case", "name purpose kind started verdicts fails", defaults=[("counted",), ("counted",), False])


def wanted(case):
    """The reports that come, how often the work runs, and what is called in the end."""
    sent, becomes = leave(case.started)
    reports = ["started"] * sent
    if becomes != "work" or case.purpose == "rescue":
        return reports, [], {"off": ["poweroff"], "anew": ["reboot"], "work": []}[becomes]
    sent, is_taken = verdict(case.verdicts)
    reports += ["failed" if case.fails else "done"] * sent
    ends = "reboot" if case.purpose == "deploy" and not case.fails and is_taken else "poweroff"
    return reports, [f"work hall-{case.purpose} {case.kind}"], [ends]


def cases():
    """Each answer as the first and each as the second: of `started` for each purpose, of both verdicts; `counted` is the third."""
    pairs = [(first, second, "counted") for first, second in itertools.product(ANSWERS, repeat=2)]
    for purpose, kind in PURPOSES:
        for answers in pairs:
            if is_no_answer(answers[0]) or answers[1] == "counted":     # else the second is never asked for
                yield Case(f"{purpose} {kind}: started {answers}", purpose, kind, started=answers)
    for purpose, kind in PURPOSES[:-1]:
        for fails in (False, True):
            for answers in pairs:
                whole = purpose == ("erase" if fails else "deploy") and kind != "quick"
                if verdict(answers)[0] > 1 and whole or answers[1] == "counted":
                    yield Case(f"{purpose} {kind}: {'failed' if fails else 'done'} {answers}", purpose, kind, verdicts=answers, fails=fails)


# ---- A server that plays them
class Server(threading.Thread):
    """Answers each case, which has a path of its own, by its lists; what belongs to no case by the desk's refusal of a path."""

    def __init__(self):
        super().__init__(daemon=True)
        self.listener = socket.create_server(("127.0.0.1", 0), backlog=256)
        self.port = self.listener.getsockname()[1]
        self.plays, self.strays = {}, []

    def run(self):
        while True:
            threading.Thread(target=self.serve, args=(self.listener.accept()[0],), daemon=True).start()

    def serve(self, client):
        with client:
            try:
                client.settimeout(120)
                self.answer(client)
            except OSError:
                pass

    def answer(self, client):
        octets = b""
        while b"\r\n\r\n" not in octets:
            piece = client.recv(4096)
            if not piece:
                return
            octets += piece
        head, body = octets.split(b"\r\n\r\n", 1)
        length = int((re.search(rb"(?i)\r\ncontent-length: *(\d+)", head) or [0, 0])[1])
        while len(body) < length:
            body += client.recv(4096)
        line = head.split(b"\r\n")[0].decode()
        found = re.fullmatch(r"POST (/\d+)(/report/\S+) HTTP/1.1", line)
        play = self.plays.get(found[1]) if found else None
        if play is None:
            self.strays.append(line)
            return client.sendall(refusal(404, "NoRoute"))
        self.play(client, play.next(found[2], body))

    def play(self, client, answer):
        if answer in SLOW:      # until the client has gone
            while client.recv(4096):
                pass
        if answer != "mute":
            client.sendall(ANSWERS[answer])


class Play:
    """The lists of a case, and what came."""

    def __init__(self, started, verdicts):
        self.lists = {"started": list(started), "verdict": list(verdicts)}
        self.paths, self.reports, self.lock = set(), [], threading.Lock()

    def next(self, path, body):
        found = re.fullmatch(rb'\{"stage":"(started|done|failed)"\}', body)
        stage = found[1].decode() if found else repr(body)
        with self.lock:
            self.paths.add(path)
            self.reports.append(stage)
            left = self.lists["started" if stage == "started" else "verdict"]
            return left.pop(0) if len(left) > 1 else left[0]


class Listener(threading.Thread):
    """A proxy that is named in the environment, and counts who comes."""

    def __init__(self):
        super().__init__(daemon=True)
        self.listener, self.came = socket.create_server(("127.0.0.1", 0)), 0
        self.url = f"http://127.0.0.1:{self.listener.getsockname()[1]}"

    def run(self):
        while True:
            self.listener.accept()[0].close()
            self.came += 1


# ---- A machine: a folder, with a copy of the script in which the paths of the system lead to it
PATHS = {"/proc/cmdline": "cmdline", "/etc/hall-live-image": "image", "/run": "run", "/usr/local/bin": "programs"}


def copied(script, folder, limit):
    """The script with the system's paths replaced, or SystemExit where it has another one: it might switch off this host."""
    code = "".join(line for line in open(script) if not line.startswith("#"))
    path = r"(?<![\w./])(?:/[a-z][\w.-]*)+"
    known = "|".join(sorted(map(re.escape, PATHS), key=len, reverse=True))
    text = re.sub(rf"(?<![\w./])(?:{known})(?![\w.-])", lambda found: f"{folder}/{PATHS[found[0]]}", code)
    text = re.sub("--max-time [0-9]+", f"--max-time {limit}", text)
    others = [one for one in re.findall(path, text) if not one.startswith(folder) and one != "/dev/null"]
    if others:
        raise SystemExit(f"live_trial: {script} has paths that aren't replaced: {' '.join(others)}")
    return "#!/bin/sh\n" + text


class Machine:
    def __init__(self, trial, marker="tmpfs"):
        self.trial = trial
        self.folder = tempfile.mkdtemp(dir=trial.folder)
        self.calls, self.said, self.status = f"{self.folder}/calls", "", None
        for name in ("bin", "programs", "home"):
            os.mkdir(f"{self.folder}/{name}")
        for name in ("poweroff", "reboot", "sync", "sleep"):
            os.symlink(trial.stub, f"{self.folder}/bin/{name}")
        for name in ("cat", "curl", "mkdir", "stat"):   # and nothing else of this host, whose poweroff it would be
            os.symlink(shutil.which(name), f"{self.folder}/bin/{name}")
        for name in ("commission", "test", "deploy", "erase"):
            os.symlink(trial.program, f"{self.folder}/programs/hall-{name}")
        self.mark(marker)

    def mark(self, marker):
        if marker == "tmpfs":
            write(f"{self.folder}/image", "")
        elif marker == "folder":
            os.mkdir(f"{self.folder}/image")
        elif marker:
            os.symlink(marker, f"{self.folder}/image")

    def command_line(self, words):
        write(f"{self.folder}/cmdline", words + "\n")

    def begun(self, limit=60, **more):
        write(f"{self.folder}/hall-live", copied(self.trial.script, self.folder, limit))
        surroundings = {"PATH": f"{self.folder}/bin", "HOME": f"{self.folder}/home", "CALLS": self.calls, **more}
        return subprocess.Popen([TIMEOUT, "-s", "KILL", "240", "/bin/sh", f"{self.folder}/hall-live"], cwd=self.folder, env=surroundings, text=True, stdin=subprocess.DEVNULL,
                                stdout=subprocess.PIPE, stderr=subprocess.STDOUT, process_group=0)

    def run(self, limit=60, **more):
        running = self.begun(limit, **more)
        self.trial.running.add(running)
        try:
            self.said, _ = running.communicate(timeout=200)
            self.status = running.returncode
        except subprocess.TimeoutExpired:
            os.killpg(running.pid, signal.SIGKILL)
            self.said, self.status = running.communicate()[0] + "(it didn't end)", None
        self.trial.running.discard(running)

    def called(self, *names):
        try:
            lines = open(self.calls).read().splitlines()
        except FileNotFoundError:
            lines = []
        return [line for line in lines if line.split()[0] in names]

    def acts(self):
        return [line.split()[0] for line in self.called("poweroff", "reboot")]

    def gone(self):
        shutil.rmtree(self.folder)


def write(path, text):
    with open(path, "w") as file:
        file.write(text)


def executable(path, text):
    write(path, text)
    os.chmod(path, 0o755)
    return path


# ---- The trial
class Trial:
    def __init__(self, script, folder, disk):
        self.script, self.folder, self.disk = script, folder, disk
        self.stub, self.program = executable(f"{folder}/stub", STUB), executable(f"{folder}/program", PROGRAM)
        self.server, self.proxy = Server(), Listener()
        self.server.start()
        self.proxy.start()
        self.numbers, self.checks, self.faults, self.left_out, self.running = itertools.count(1), 0, [], [], set()

    def wants(self, what, is_so, seen=""):
        self.checks += 1
        if not is_so:
            self.faults.append(f"{what}: {seen}")

    def words(self, play, purpose, kind, boot="7"):
        """The words of a script of the desk for a new case."""
        number = next(self.numbers)
        self.server.plays[f"/{number}"] = play
        erase = f" hall.erase={kind}" if kind else ""
        return f"quiet hall.purpose={purpose}{erase} hall.boot={boot} hall.token={TOKEN} hall.desk=http://127.0.0.1:{self.server.port}/{number}"

    def seen(self, case, limit):
        play, machine = Play(case.started, case.verdicts), Machine(self)
        machine.command_line(self.words(play, case.purpose, case.kind))
        machine.run(limit, WORK_STATUS="3" if case.fails else "0")
        seen = play.reports, machine.called("work"), machine.acts()
        if not play.paths <= {f"/report/7/{TOKEN}"}:
            seen = play.paths, *seen
        machine.gone()
        return seen, machine.said

    def case(self, case):
        """What differs from what is wanted. Under load an answer may take over a second: then the case is played again with the script's limit."""
        is_slow = any(answer in SLOW for answer in case.started + case.verdicts)
        for limit in (1, 5) if is_slow else (60,):
            seen, said = self.seen(case, limit)
            if seen == wanted(case):
                return None
            if len(self.faults) > 20:
                break
        return f"{case.name}: wanted {wanted(case)}, seen {seen}: {said}"

    def all_cases(self):
        listed = sorted(cases(), key=lambda case: -sum(answer in SLOW for answer in case.started + case.verdicts))
        with ThreadPoolExecutor(16) as workers:
            for fault in workers.map(self.case, listed):
                self.wants(fault, fault is None)

    def nothing(self, what, machine, play, **more):
        machine.run(**more)
        seen = play.reports, machine.called("work", "poweroff", "reboot", "sync"), machine.status, machine.said
        self.wants(f"{what}: nothing is done, by one line, with status 0", seen[:3] == ([], [], 0) and seen[3].count("\n") == 1, seen)

    def elsewhere(self):
        """Where it is in no live image, or no desk has started it."""
        markers = {"without its file": None, "with a folder for its file": "folder", "with a link that leads nowhere": "/nowhere"}
        if is_ram(self.disk):
            self.left_out.append("a file on a disk: the temporary folder is in RAM")
        else:
            write(f"{self.disk}/image", "")
            markers["with its file on a disk"] = f"{self.disk}/image"
        for what, marker in markers.items():
            for purpose, kind in PURPOSES:
                play, machine = Play(["counted"], ["counted"]), Machine(self, marker)
                machine.command_line(self.words(play, purpose, kind))
                self.nothing(f"{purpose} {kind} {what}", machine, play)
        for line in ("", "quiet root=/dev/sda1", "quiet hall", "hall. hall.x=1", "xhall.purpose=erase hall.erase"):
            play, machine = Play(["counted"], ["counted"]), Machine(self)
            machine.command_line(line)
            self.nothing(f"the command line {line!r}", machine, play, hall_purpose="erase", hall_erase="full", hall_boot="7", hall_token=TOKEN,
                         hall_desk=f"http://127.0.0.1:{self.server.port}/0")

    def twice(self):
        play, machine = Play(["counted"], ["counted"]), Machine(self)
        machine.command_line(self.words(play, "erase", "full"))
        machine.run()
        reports, calls = list(play.reports), machine.called("work", "poweroff", "reboot")
        machine.run()
        self.wants("a second run does nothing", (reports, calls) == (["started", "done"], ["work hall-erase full", "poweroff -f"])
                   and (play.reports, machine.called("work", "poweroff", "reboot"), machine.status) == (reports, calls, 0), machine.said)
        play, machine = Play(["counted"], ["counted"]), Machine(self)
        machine.command_line(self.words(play, "erase", "full"))
        both = [machine.begun() for _ in range(2)]
        for one in both:
            one.communicate(timeout=200)
        self.wants("of two at once one works", play.reports == ["started", "done"] and len(machine.called("work")) == 1, play.reports)

    def strange_words(self):
        """Words that no desk writes switch the machine off, and nothing is sent."""
        strange = ["../../bin/sh", "commission/../test", "shutdown", "Deploy", "erase", "rescue.", "test.quick", ".", "*", "-", "deploy;reboot"]
        for purpose in strange + [f"{name} hall.erase=full" for name in ("commission", "test", "deploy", "rescue")] + ["erase hall.erase=fast"]:
            play, machine = Play(["counted"], ["counted"]), Machine(self)
            machine.command_line(self.words(play, purpose, ""))
            machine.run()
            self.off_unsent(f"hall.purpose={purpose}", play, machine)
        for desk in ("", "http://", "https://127.0.0.1:{}", "127.0.0.1:{}", "file:///etc"):
            play, machine = Play(["counted"], ["counted"]), Machine(self)
            line = self.words(play, "erase", "full")
            machine.command_line(line[:line.index("hall.desk=")] + "hall.desk=" + desk.format(self.server.port))
            machine.run()
            self.off_unsent(f"hall.desk={desk}", play, machine)

    def off_unsent(self, what, play, machine):
        seen = play.reports, machine.called("work"), machine.acts()
        self.wants(f"{what}: nothing is sent, and it switches off", seen == ([], [], ["poweroff"]), (seen, machine.said))

    def cut_lines(self):
        """A command line that was cut at its end runs nothing; where something is left of it, the machine is switched off."""
        for purpose, kind in (("commission", ""), ("erase", "full"), ("rescue", "")):
            whole = self.words(Play(["counted"], ["counted"]), purpose, kind)
            address = whole.index("http://") + len(f"http://127.0.0.1:{self.server.port}")
            ends = [end for word in re.finditer(r"\S+", whole) for end in (word.start(), word.start() + len(word[0]) // 2, word.end() - 1)]
            for end in sorted({end for end in ends if end <= whole.index("http://") + 7} | {address + 1}):
                machine = Machine(self)
                machine.command_line(whole[:end])
                machine.run()
                is_left = re.search(r"hall\.(purpose|erase|boot|token|desk)=.", whole[:end])
                self.wants(f"cut at {whole[:end][-30:]!r}", (machine.called("work"), machine.acts()) == ([], ["poweroff"] if is_left else []), machine.said)
                machine.gone()

    def patterns(self):
        """Words with * and ? stay as they are, whatever files there are."""
        play, machine = Play(["counted"], ["counted"]), Machine(self)
        for name in ("hall.boot=12", "hall.purpose=erase", "hall.erase=full", "hall.purpose=deploy"):
            write(f"{machine.folder}/{name}", "")
        line = self.words(play, "commission", "", boot="1?")
        machine.command_line(f"* hall.p* {line} * hall.[p]urpose=* hall.e*")
        machine.run()
        self.wants("words with * and ? aren't expanded", (play.paths, machine.called("work"), machine.acts())
                   == ({f"/report/1?/{TOKEN}"}, ["work hall-commission "], ["poweroff"]), (play.paths, machine.said))
        play, machine = Play(["counted"], ["counted"]), Machine(self)
        write(f"{machine.folder}/hall.boot=12", "")
        machine.command_line("* ? " + self.words(play, "commission", "", boot="1*") + " * ?????")
        machine.run()
        self.wants("a boot with * is asked for as it is", (play.paths, machine.called("work"), machine.acts())
                   == ({f"/report/1*/{TOKEN}"}, ["work hall-commission "], ["poweroff"]), (play.paths, machine.said))

    def silence(self):
        """No desk for good; and a poweroff that fails, or a program that is missing."""
        for what in ("503", "cut"):
            play, machine = Play([what], ["counted"]), Machine(self)
            machine.command_line(self.words(play, "erase", "full"))
            machine.run()
            seen = play.reports, machine.called("work"), machine.acts()
            self.wants(f"{what} for good: started 60 times, then it starts anew", seen == (["started"] * 60, [], ["reboot"]), seen)
        for answer, ends in (("410", "poweroff"), ("repeat", "reboot"), ("foreign 200", "reboot")):
            play, machine = Play([answer], ["counted"]), Machine(self)
            machine.command_line(self.words(play, "erase", "full"))
            machine.run(STUB_STATUS="1")
            seen = play.reports, machine.called("work"), machine.acts()
            self.wants(f"{answer}, and {ends} fails: nothing more", seen == (["started"], [], [ends]), seen)
        play, machine = Play(["counted"], ["counted"]), Machine(self)
        machine.command_line(self.words(play, "deploy", ""))
        os.unlink(f"{machine.folder}/programs/hall-deploy")
        machine.run()
        self.wants("a program that is missing has failed", (play.reports, machine.acts()) == (["started", "failed"], ["poweroff"]), machine.said)

    def proxies(self):
        """A proxy that the environment or .curlrc names gets nothing."""
        play, machine = Play(["counted"], ["counted"]), Machine(self)
        machine.command_line(self.words(play, "erase", "full"))
        write(f"{machine.folder}/home/.curlrc", f'proxy = "{self.proxy.url}"\n')
        machine.run(**dict.fromkeys(["http_proxy", "https_proxy", "all_proxy", "HTTP_PROXY", "HTTPS_PROXY", "ALL_PROXY"], self.proxy.url))
        seen = self.proxy.came, play.reports, machine.acts()
        self.wants("a proxy of the environment or of .curlrc gets nothing", seen == (0, ["started", "done"], ["poweroff"]), seen)

    def run(self):
        self.all_cases()
        for part in (self.elsewhere, self.twice, self.strange_words, self.cut_lines, self.patterns, self.silence, self.proxies):
            part()

    def ended(self, *_):
        """Leaves nothing running where it is ended itself."""
        for running in list(self.running):
            if running.returncode is None:
                os.killpg(running.pid, signal.SIGKILL)
        os._exit(1)


def is_ram(folder):
    return subprocess.run(["stat", "-f", "-c", "%t", folder], capture_output=True, text=True, check=True).stdout.strip() in ("1021994", "858458f6")


def main(script, folder, disk):
    if not is_ram(folder):
        raise SystemExit(f"live_trial: {folder} isn't in RAM, which the trial wants")
    trial = Trial(script, folder, disk)
    signal.signal(signal.SIGTERM, trial.ended)
    trial.run()
    for text in trial.faults[:40]:
        print("BAD:", text)
    for text in trial.left_out:
        print("left out:", text)
    print(f"live_trial: {trial.checks} checks, {len(trial.faults)} failed (each answer to each report of each purpose, and where it must do nothing)")
    sys.exit(1 if trial.faults else 0)


if __name__ == "__main__":
    main(*sys.argv[1:])
