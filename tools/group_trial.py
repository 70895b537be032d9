"""Groups of hallboot serve under kills: group_trial.py PROGRAM ROUNDS SEED. Run by group_trial.sh, which says what is looked at."""
import asyncio, collections, csv, io, json, mmap, os, random, re, signal, subprocess, sys, tempfile, time, uuid
from group_answers import fits
from group_client import ENDING, POWER, Client, client_of, image_of
from group_wires import spelled
from served_hall import ADMIN, Hall, address, digest, whole

CLIENTS = 64
OTHERS = 400                   # machines that are nobody's, so that lists are long
DELAYS = (3000, 6000, 12000)   # microseconds by which a sync takes longer
SYNCS = (2, 400)               # how many end before a kill
SECONDS = 6.0                  # in which they end, or fewer do; less where the time is short
LOOKS = 2.5                    # seconds beside these for each kill
SHARED = 1 / 3                 # the least share of changes that must have shared a commit
MOST_WORDS = 60                # lines of BAD
LIBRARIES = ("count_syncs", "slow_disk")
SIGNALS = (signal.SIGTERM, signal.SIGHUP, signal.SIGINT, signal.SIGALRM)


class Stopped(SystemExit):
    """The trial can't go on."""


class Gate:
    """Lets clients pass while the hall is served."""

    def __init__(self):
        self.opened, self.round, self.waiting, self.left = asyncio.Event(), 0, 0, 0

    async def passed(self):
        """Waits until the hall is served; for the so-manieth time, as is returned."""
        while not self.opened.is_set():
            self.waiting += 1
            await self.opened.wait()
            self.waiting -= 1
        return self.round

    def is_killed(self, since):
        """Whether the desk was killed to which clients were let pass for the so-manieth time."""
        return not self.opened.is_set() or self.round != since

    def open(self):
        self.round += 1
        self.opened.set()

    async def is_still(self, count, seconds):
        """Whether so many clients wait here, or have left, within so many seconds."""
        until = time.monotonic() + seconds
        while self.waiting + self.left < count and time.monotonic() < until:
            await asyncio.sleep(0.002)
        return self.waiting + self.left == count


class Numbers:
    """The numbers of machines, boots and orders that clients were told, each with the first address of the machine that it is for."""

    def __init__(self):
        self.homes = {"id": {}, "boot": {}, "order": {}}

    def take(self, kind, number, home):
        """Whether a number wasn't told before."""
        is_new = number not in self.homes[kind]
        self.homes[kind].setdefault(number, home)
        return is_new

    def home(self, kind, number):
        return self.homes[kind].get(number)


class Syncs:
    """How many syncs a serving desk has begun and ended, as count_syncs.c counts them, and how many others had begun before; and how much it has sent
    before what it had written was synced."""

    def __init__(self, path):
        with open(path, "w+b") as file:
            file.truncate(24)
            self.counts = memoryview(mmap.mmap(file.fileno(), 24)).cast("Q")
        self.path, self.before = os.path.abspath(path), 0

    def begun(self):
        return self.counts[0]

    def ended(self):
        return self.counts[1]

    def hasty(self):
        return self.counts[2]

    def all(self):
        return self.before + self.begun()

    def anew(self):
        self.before = self.all()
        self.counts[0] = self.counts[1] = self.counts[2] = 0


def rows_of_export(text):
    """The rows of machines as `hallboot export` prints them, which has a part of each."""
    for it in csv.DictReader(io.StringIO(text)):
        yield {"id": int(it["id"]), "interfaces": it["macs"].split(), "arch": it["arch"], "uuid": it["uuid"] or None, "pool": it["pool"],
               "status": it["status"], "owner": it["owner"] or None, "image": it["image"] or None, "locked": it["locked"] == "yes",
               "version": int(it["version"])}


def other_row(number):
    """The row of a machine that served_hall.py has added, and nobody touches."""
    return {"arch": "uefi64", "boot": None, "deadline": None, "erase": None, "id": number, "image": None, "interfaces": [address(number)], "locked": False,
            "order": None, "owner": None, "pool": "default", "status": "New", "uuid": str(uuid.UUID(bytes=number.to_bytes(16, "little"))), "version": 1}


class Trial:
    """A hall, the clients that it is served to, and what is looked at after each kill."""

    def __init__(self, hall, rounds, seed):
        self.hall, self.rounds, self.seed, self.chance = hall, rounds, seed, random.Random(seed)
        self.gate, self.numbers, self.syncs = Gate(), Numbers(), Syncs("syncs")
        self.checks, self.failed, self.is_ending, self.closed = 0, 0, False, []
        self.kills = self.within = self.done = self.undone = self.answers = self.commits = 0
        self.others = {address(number): other_row(number) for number in range(1, OTHERS + 1)}
        self.clients = [Client(self, number) for number in range(CLIENTS)]
        self.until = time.monotonic() + 20 + 7.5 * rounds

    def bad(self, words):
        self.failed += 1
        if self.failed <= MOST_WORDS:
            print(f"BAD: seed {self.seed}, kill {self.kills}: {words}", file=sys.stderr, flush=True)

    def check(self, holds, words):
        self.checks += 1
        if not holds:
            self.bad(words)

    # ---- the hall
    def make(self):
        """Machines that are nobody's, operators and live images, by a disk of its own time."""
        self.hall.add(OTHERS)
        for home, row in self.others.items():
            self.numbers.take("id", row["id"], home)
        self.hall.serve()
        self.hall.command(command="add_operator", operator="power", role="power", digest=digest(POWER))
        for client in self.clients:
            self.hall.command(command="add_operator", operator=f"c{client.number}", role="admin", digest=digest(client.token))
        for arch in ("bios", "uefi64"):
            self.hall.command(command="add_image", **image_of(f"live-{arch}", arch, "live"))
            self.hall.command(command="set_live", image=f"live-{arch}")
        self.hall.stop()

    def serve(self):
        self.syncs.anew()
        os.environ.update(LD_PRELOAD=" ".join(os.path.abspath(f"{name}.so") for name in LIBRARIES), COUNT_SYNCS=self.syncs.path,
                          SLOW_DISK=str(self.chance.choice(DELAYS)))
        try:
            self.hall.serve()
        finally:
            os.environ.pop("LD_PRELOAD")

    async def play(self):
        """Clients go on until some syncs have ended, and a moment longer."""
        now, syncs = time.monotonic(), self.chance.randint(*SYNCS)
        until = now + min(SECONDS, max(0.5, (self.until - now) / (self.rounds - self.kills) - LOOKS))
        self.gate.open()
        while self.syncs.ended() < syncs and time.monotonic() < until and self.hall.running.poll() is None:
            await asyncio.sleep(0.001)
        self.check(self.syncs.ended() >= SYNCS[0], f"{self.syncs.ended()} syncs have ended in {time.monotonic() - now:.1f} seconds")
        await asyncio.sleep(self.chance.uniform(0, 0.02))

    async def kill(self):
        running, self.hall.running = self.hall.running, None
        self.gate.opened.clear()
        status = running.poll()
        running.kill()
        running.wait()
        running.stdout.close()
        self.check(status is None, f"the desk ended by itself, with status {status}")
        self.check(not self.syncs.hasty(), f"{self.syncs.hasty()} times something was sent to a client before what was written was synced")
        self.kills += 1
        self.within += self.syncs.begun() > self.syncs.ended()
        if not await self.gate.is_still(CLIENTS, 60):
            raise Stopped("clients wait for answers of a desk that was killed")

    # ---- what the hall has
    def said(self, command, *words, given=b""):
        """What hallboot prints of the hall, which isn't served."""
        it = subprocess.run([self.hall.program, command, "--db", self.hall.file, *words], input=given, capture_output=True, timeout=120)
        if it.returncode:
            raise Stopped(f"hallboot {command}: status {it.returncode}, {it.stderr.decode(errors='replace')}")
        return it.stdout

    def requested(self, octets):
        """The answer to a request over the hall, which isn't served."""
        return self.said("request", "--at", str(int(time.time())), "--fresh", "00" * 16, "--host", f"127.0.0.1:{self.hall.http}", given=octets)

    def look(self):
        """The hall has what its clients know, by export, by its list, and by the answer to a command that was answered."""
        self.compare(list(rows_of_export(self.said("export").decode())), "by export", is_counted=True)
        status, body = whole(self.requested(spelled("GET", "/machines", ADMIN)))
        self.compare(json.loads(body)["machines"] if status == 200 else [], "by request")
        told = [client.told[-1] for client in self.clients if client.told]
        for octets, answer, _ in self.chance.sample(told, min(1, len(told))):
            came = self.requested(octets)
            self.check(came == answer, f"by request: {octets!r} was answered {answer!r}, and after the kill {came!r}")

    def compare(self, shown, how, is_counted=False):
        """Each machine that is shown is a client's, as that knows it, and no other is there."""
        left = {row["interfaces"][0]: row for row in shown}
        self.check(len(left) == len(shown), f"{how}: {len(shown) - len(left)} machines have an address of another one")
        lost = {client.number for client in self.clients if client.is_lost}
        left = {home: row for home, row in left.items() if client_of(home) not in lost}
        clients = [client for client in self.clients if client.number not in lost]
        for home, row in collections.ChainMap(self.others, *(client.kept for client in clients)).items():
            self.check_row([row], left.pop(home, None), how)
        for client in (client for client in clients if client.home):
            fitting = self.check_row(client.wanted(), left.pop(client.home, None), how)
            self.done += is_counted and fitting == [False, True]
            self.undone += is_counted and fitting == [True, False]
        self.check(not left, f"{how}: machines that nobody has added: {left}")

    def check_row(self, rows, shown, how):
        """Which of the rows a machine has, that must have one of them."""
        fitting = [fits(row, shown) for row in rows]
        self.check(any(fitting), f"{how}: {shown} in place of {' or '.join(map(words_of, rows))}")
        return fitting

    def check_counts(self):
        """The report of the hall counts the machines that it exports."""
        exported = collections.Counter((row["pool"], row["status"]) for row in rows_of_export(self.said("export").decode()))
        lines = re.findall(r"(?m)^(\S+) +(.*?) *(\d+)$", self.said("report").decode())
        counted = {(pool, status): int(count) for pool, status, count in lines}
        self.check(counted == {**exported, ("total", ""): exported.total()}, f"the report counts {counted}, and the export has {exported}")

    def check_numbers(self):
        """Each number up to the last one was told to a client."""
        if any(client.is_lost for client in self.clients):
            return
        for kind, homes in self.numbers.homes.items():
            missing = {*range(1, max(homes, default=0) + 1)} - {*homes}
            self.check(not missing, f"numbers that no client was told, of kind {kind}: {sorted(missing)[:20]}")

    # ---- the whole
    async def run(self):
        # a client in whose task a signal came has nothing to say of it
        asyncio.get_running_loop().set_exception_handler(lambda *_: None)
        self.make()
        tasks = [asyncio.create_task(client.run()) for client in self.clients]
        for _ in range(self.rounds):
            if time.monotonic() > self.until:
                raise Stopped(f"only {self.kills} kills of {self.rounds} within the time")
            if all(client.is_lost for client in self.clients):
                raise Stopped("all clients have given up")
            self.serve()
            await self.play()
            await self.kill()
            self.look()
        await self.end(tasks)

    async def end(self, tasks):
        """Each client is answered what isn't yet, and all again that was."""
        self.answers, self.commits, self.is_ending = self.sum_of("answers"), self.syncs.all(), True
        self.serve()
        self.gate.open()
        _, waiting = await asyncio.wait(tasks, timeout=ENDING + 30)
        self.check(not waiting, f"{len(waiting)} clients aren't answered in the end")
        self.compare(json.loads(self.hall.ask("/machines", ADMIN)[1])["machines"], "by GET /machines")
        self.hall.stop()
        self.look()
        self.check_counts()
        self.check_numbers()

    def judge(self):
        """Whether groups were met, and kills in their midst."""
        changed, closed = self.sum_of("changed"), len(self.closed)
        with open(self.hall.log) as log:
            late = sum(line.endswith(" closed late\n") for line in log)
        # a change that is alone in its commit has a sync of its own
        shared = 1 - self.syncs.all() / max(changed, 1)
        self.check(shared >= SHARED, f"of {changed} changes, {self.syncs.all()} may have been alone in their commits")
        self.check(closed <= late, f"{closed} connections ended without a whole answer while the desk ran, and by its log {late} were late; the first: "
                   f"{'; '.join(self.closed[:3])}")
        self.check(self.kills < 10 or (self.done and self.undone), f"kills left {self.done} changes done without an answer, and {self.undone} undone")

    def sum_of(self, name):
        return sum(getattr(client, name) for client in self.clients)

    def figures(self):
        answers, changed, commits = self.sum_of("answers"), self.sum_of("changed"), max(self.syncs.all(), 1)
        before_end = self.answers / max(self.commits, 1) if self.is_ending else answers / commits
        return (f"{self.kills} kills, {self.within} of them within a sync; {CLIENTS} clients, {answers} answers, {before_end:.1f} a commit before the end; "
                f"{changed} changes by {self.syncs.all()} commits, {changed / commits:.1f} each; at the kills "
                f"{self.sum_of('unanswered')} requests without an answer, {self.sum_of('cut')} of them cut, {self.done} changes of machines done and "
                f"{self.undone} not; {self.sum_of('told_again')} answers given again, {self.sum_of('untold')} not; {len(self.closed)} connections late; "
                f"seed {self.seed}")


def words_of(row):
    return "none" if row is None else str({name: value if isinstance(value, (int, str, list, type(None))) else "?" for name, value in row.items()})


def ended(number, _):
    for other in SIGNALS:
        signal.signal(other, signal.SIG_IGN)
    raise Stopped("the time is over" if number == signal.SIGALRM else "ended by a signal")


def main(program, rounds, seed):
    for number in SIGNALS:
        signal.signal(number, ended)
    program = os.path.abspath(program) if os.path.exists(program) else program
    sources = os.path.dirname(os.path.abspath(__file__))
    with tempfile.TemporaryDirectory(prefix="group_trial-") as work:
        os.chdir(work)
        for name in LIBRARIES:
            subprocess.run(["cc", "-O2", "-Wall", "-shared", "-fPIC", "-o", f"{name}.so", f"{sources}/{name}.c"], check=True)
        with Hall(program, "hall") as hall:
            signal.signal(signal.SIGTERM, ended)
            signal.alarm(70 + 8 * rounds)
            trial = Trial(hall, rounds, seed)
            try:
                asyncio.run(trial.run())
                trial.judge()
            except (Exception, SystemExit) as fault:
                trial.check(False, str(fault) if isinstance(fault, SystemExit) else repr(fault))
            signal.alarm(0)
    checks = trial.checks + trial.sum_of("checks")
    print(f"group_trial: {checks} checks, {trial.failed} failed ({trial.figures()})")
    return 1 if trial.failed else 0


if __name__ == "__main__":
    os.umask(0o077)
    print(f"group_trial: seed {sys.argv[3]}", flush=True)
    try:
        sys.exit(main(sys.argv[1], int(sys.argv[2]), int(sys.argv[3])))
    except Stopped as fault:
        sys.exit(f"group_trial: {fault}")
