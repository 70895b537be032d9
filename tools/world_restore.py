"""Copies of a pretended world's hall, and what an operator does once the hall is lost, for world.py: docs/TROUBLE.md, "Restore a backup", step by step, while
machines, controllers and the desk's clock go on."""
import asyncio, csv, io, json, os, re, shlex, shutil, signal, subprocess, sys, uuid
from moved_trial import bare, parts

HERE = os.path.dirname(os.path.abspath(__file__))
COPY = re.compile(r"served\.db(\.before|\.\d[\w.:-]*)?|\d+\.db")
TOKENS = {"ada": "ada", "admin": "ada", "olga": "olga", "otto": "otto", "pow": "pow"}
# How who looks at a machine brings it where `adopt` takes it: the lines for each status, which switch nothing; `last` answers the order of the line before.
BY_HAND = {
    "Failed commissioning": ["commission {}", "abort {}", "last failed"], "Failed testing": ["override {}"], "Broken": ["fix {}"],
    "Deployed": ["release {} --erase none --yes", "last failed"],
    **dict.fromkeys(("Commissioning", "Testing", "Deploying", "Disk erasing"), ["abort {}", "last failed"]),
    **dict.fromkeys(("Allocated", "Failed deployment", "Failed releasing", "Failed disk erasing"), ["break {}", "fix {}"]),
    **dict.fromkeys(("Rescue mode", "Failed to enter rescue mode", "Failed to exit rescue mode"), ["exit-rescue {} --yes", "last done"]),
}


class Copies:
    """The copies of a hall: by its service, by `hallboot backup`, and of its file with its log while nothing serves it."""

    def __init__(self, world):
        self.world, self.choice, self.folder, self.moments = world, world.stream("copies"), f"{world.folder}/copies", {}
        self.every, self.count, self.log_from = self.choice.choice([None, 1, 2, 3]), 0, 0
        os.mkdir(self.folder)

    def words(self):
        """The service's words."""
        return ["--backup", f"{self.folder}/served.db", "--backup-every", str(self.every), "--backup-keep", "4"] if self.every else []

    def all(self):
        return sorted(f"{self.folder}/{name}" for name in os.listdir(self.folder) if COPY.fullmatch(name))

    async def take(self):
        """Makes one while nothing serves the hall. The moment of one by hand isn't in its file: who makes it knows it."""
        self.count += 1
        path, desk = f"{self.folder}/{self.count}.db", self.world.desk
        if self.choice.random() < 0.5:
            for end in ("-wal", ""):
                if os.path.exists(desk.file + end):
                    shutil.copy(desk.file + end, path + end)
            self.moments[path] = desk.moment()
        else:
            status, text = await said(self.world, desk.hallboot, "backup", "--db", desk.file, "--to", path)
            if status:
                raise RuntimeError(f"backup: {text}")
        self.world.note(f"a copy is made: {os.path.basename(path)}")

    def forget(self):
        """Those of a hall that isn't whole yet, or that was lost, are put away."""
        for path in self.all():
            os.unlink(path)
        self.moments, self.log_from = {}, os.path.getsize(self.world.desk.log)


async def said(world, *words, **more):
    """The status and the output of a program in the hall's folder, by the desk's clock."""
    it = await asyncio.create_subprocess_exec(*words, cwd=world.folder, env={**world.desk.surroundings(), **more}, stdin=subprocess.DEVNULL,
                                              stdout=subprocess.PIPE, stderr=subprocess.STDOUT)
    try:
        text, _ = await it.communicate()
    finally:
        if it.returncode is None:
            it.kill()
    return it.returncode, text.decode(errors="replace")


def text_of(row):
    """A machine of an export as hall-moved says it."""
    return ", ".join((row["status"], f"owner {row['owner']}" if row["owner"] else "nobody's", f"image {row['image']}" if row["image"] else "no image"))


def numbers_in(words):
    """Those of `1,3-4`."""
    found = set()
    for first, last in re.findall(r"(\d+)(?:-(\d+))?", words):
        found |= set(range(int(first), int(last or first) + 1))
    return found


class Stopped(Exception):
    """The guide can't be followed to its end: what it is is found already."""


class Restoring:
    """One hall that is lost and restored. What a planted mistake leaves out is in the world's `skips`."""

    def __init__(self, world):
        self.world, self.desk, self.watch, self.skips = world, world.desk, world.watch, world.skips
        self.choice, self.hallboot, self.offs = world.stream(f"restoring {world.restored}"), world.desk.hallboot, set()

    def find(self, text):
        self.watch.find(7, text)
        raise Stopped

    async def wants(self, *words):
        """What a line of the guide prints, which must end well."""
        status, text = await said(self.world, *words)
        if status:
            self.find(f"a line of the guide failed: {' '.join(words[1:])}: status {status}: {text[-400:]}")
        return text

    async def export(self, file):
        rows = csv.DictReader(io.StringIO(await self.wants(self.hallboot, "export", "--db", file)))
        return {int(row["id"]): row for row in rows}

    async def run(self):
        """From the loss until both programs serve again."""
        await asyncio.sleep(0.3 + self.world.lateness)      # what was answered before is seen
        copies = sorted(self.world.copies.all(), key=os.path.getmtime)
        self.copy = self.choice.choice(copies[:max(len(copies) // 2, 1)] if self.choice.random() < 0.6 else copies)
        self.watch.counts["restores"] += 1
        self.kept = {number for number in self.world.machines if self.watch.is_kept(number, self.world.now())}
        self.world.note(f"the hall is lost, and restored from {os.path.basename(self.copy)}; Deployed are {sorted(self.kept)}")
        self.watch.lost()
        self.truth = await self.lost()
        if "stop" not in self.skips:
            await self.world.power.stop()
        try:
            await self.restored()
            await self.mended()
            await self.look()
        except Stopped:
            pass
        self.world.copies.forget()
        await self.desk.serve()
        self.world.power.again() if "stop" in self.skips else self.world.power.start()

    async def lost(self):
        """The lost hall's machines, which the operator can't see any more. Its file goes, or its log, or it stays."""
        for end in ("", "-wal"):
            if os.path.exists(self.desk.file + end):
                shutil.copy(self.desk.file + end, f"{self.world.folder}/lost.db{end}")
        machines = await self.export("lost.db")
        for end in self.choice.choice([(), ("-wal", "-shm"), ("", "-wal", "-shm")]):
            if os.path.exists(self.desk.file + end):
                os.unlink(self.desk.file + end)
        for name, who in TOKENS.items():
            with open(f"{self.world.folder}/{name}.token", "w") as file:
                file.write(self.world.secrets[who] + "\n")
        return machines

    async def restored(self):
        """The guide's second step."""
        await self.wants(self.hallboot, "restore", "--db", "hall.db", "--from", self.copy)
        self.old = await self.export("hall.db")

    async def moved(self, file, *more):
        """The guide's third step: what hall-moved says of each machine, its lines, and which machines it says to look at. Those in `offs` are to be off."""
        moment = self.world.copies.moments.get(self.copy)
        since = ["--since", str(moment)] if moment else []
        text = await self.wants(sys.executable, "-B", f"{HERE}/../lists/hall_moved.py", "--db", file, "--log", self.desk.log, *since, *more)
        with open(f"{self.world.folder}/moved.txt", "a") as kept:
            kept.write(text)
        for line in text.splitlines():
            self.world.note(f"hall-moved: {line}") if line.strip() else None
        head = text.split("\nmachine ")[0]
        doubts = {int(it) for it in re.findall(r"^WARN: .*\bmachine (\d+)\b", head, re.M)}
        machines, steps = parts(text)
        self.offs |= doubts | {number for number, lines in machines.items() if any("ook that it is off" in line for line in lines)}
        return machines, steps, doubts | numbers_in(" ".join(re.findall(r"^7\. .*: machines (.*)\.$", text, re.M)))

    def compared(self, machines, looks):
        """What hall-moved says of each machine is what the lost hall had, or it says to look at it. Where the log lacks the line, nobody can know."""
        for number, row in self.truth.items():
            by_log = next((line[12:] for line in machines.get(number, []) if line.startswith("by the log: ")), None) or text_of(self.old[number])
            is_locked = ", locked" in by_log if number in machines else self.old[number]["locked"] == "yes"
            is_same = by_log.startswith(text_of(row) if row["status"] == "Deployed" else row["status"] + ",") and is_locked == (row["locked"] == "yes")
            if is_same or number in looks:
                continue
            if self.is_logged(number, row):
                self.watch.find(7, f"machine {number} was {text_of(row)}, locked {row['locked']}, and hall-moved says: {by_log}")
            self.watch.races["unlogged"] += 1
            looks.add(number)
            self.offs.add(number)
            self.world.note(f"unlogged: machine {number} was {text_of(row)}, and hall-moved says: {by_log}")

    def is_logged(self, number, row):
        """Whether the log's last lines of the machine, since the hall was last restored, have its status and lock."""
        with open(self.desk.log, errors="replace") as file:
            file.seek(self.world.copies.log_from)
            text = file.read().replace('\\"', '"')
        statuses = re.findall(rf"; machine {number}: (?:.* to |new, )([A-Z][a-z ]+)", text)
        locks = re.findall(rf"POST /commands (lock|unlock) of machine {number} by \w+: 200|; machine {number}: ", text)
        return (statuses or [self.old[number]["status"]])[-1] == row["status"] and (locks[-1:] == ["lock"]) == (row["locked"] == "yes")

    async def mended(self):
        """The guide's third step to the seventh of hall-moved."""
        machines, steps, looks = await self.moved("hall.db")
        self.compared(machines, looks)
        for again in range(1, 5):
            await self.loopback()
            is_refused = await self.types(steps)
            await self.stop()
            if not is_refused:
                break
            self.watch.counts["refused lines"] += 1
            await self.wants(self.hallboot, "backup", "--db", "hall.db", "--to", f"again.{self.world.restored}.{again}.db")
            _, steps, more = await self.moved(f"again.{self.world.restored}.{again}.db", "--backup", await self.whole_copy())
            looks |= more
        else:
            self.find("lines of hall-moved are refused again and again")
        await self.adopts(steps[5])
        if steps[6] or looks:
            await self.loopback()
            for line in bare(steps[6]):
                await self.types_line(line)
            by_hand = await self.by_hand(looks) if "looks" not in self.skips else {}
            await self.stop()
            await self.adopts_by_hand(by_hand)

    async def whole_copy(self):
        """The copy that the hall was restored from, or where it has a log beside it a backup of that, as hall-moved asks for."""
        if not os.path.exists(f"{self.copy}-wal"):
            return self.copy
        whole = f"{self.world.folder}/whole.{self.world.restored}.db"
        if not os.path.exists(whole):
            await self.wants(self.hallboot, "backup", "--db", self.copy, "--to", whole)
        return whole

    async def loopback(self):
        """The guide's fourth step: the hall is served where nothing else reaches it."""
        text = await self.desk.start(self.desk.choice.choice([0, 2000, 20000]), "--loopback", "--log", "loopback.log")
        found = re.fullmatch(r"discover \S+\nboot \S+\nhttp 127\.0\.0\.1:(\d+)\nhall desk ready\n", text)
        if not found:
            self.find(f"the desk isn't ready on loopback: {text}")
        self.port = int(found[1])
        self.desk.leak = self.port if "stop" in self.skips else None
        await self.world.ask(self.port, "GET", "/orders", token=self.world.secrets["pow"])
        await asyncio.sleep(self.choice.uniform(0.1, 0.6) + (2 if self.desk.leak else 0))     # the operator reads

    async def stop(self):
        self.desk.leak = None
        if self.desk.running.returncode is None:
            self.desk.running.send_signal(signal.SIGINT)
        try:
            await asyncio.wait_for(self.desk.running.wait(), 60)
        except asyncio.TimeoutError:
            self.find("the desk on loopback isn't ended by Ctrl-C within a minute")

    async def types(self, steps):
        """The lines of steps 2 to 4. Whether one is refused; a void order of step 2 will do."""
        for number in (2, 3, 4):
            for line in bare(steps[number]) if not (number == 2 and "orders" in self.skips) else []:
                if not await self.types_line(line) and number > 2:
                    return True
        return False

    async def types_line(self, line):
        """Types a line of hallctl's: whether it is done."""
        program = self.world.programs.get("hallctl")
        if program:
            status, text = await said(self.world, program, *shlex.split(line)[1:], HALL_DESK=f"http://127.0.0.1:{self.port}", HALL_TOKEN_FILE="admin.token")
        else:
            path, token, members = request_of(line)
            status, body = await self.world.ask(self.port, "POST", path, members, self.world.secrets[TOKENS[token]])
            status, text = status != 200, body.decode()
        self.watch.counts["lines"] += 1
        self.world.note(f"the guide: {line}: {' '.join(text.split()) or 'done'}")
        return status == 0

    async def adopts(self, lines):
        """The guide's fifth step. Some are cut off, and said again."""
        for line in bare(lines) if "adopt" not in self.skips else []:
            words = shlex.split(line.replace("$(date +%s)", str(self.desk.moment())))[1:]
            if self.choice.random() < 0.3:
                await self.cut_off(words)
            text = await self.wants(self.hallboot, *words)
            self.watch.counts["adoptions"] += 1
            self.world.note(f"the guide: {line}: {' '.join(text.split())}")

    async def cut_off(self, words):
        it = await asyncio.create_subprocess_exec(self.hallboot, *words, cwd=self.world.folder, env=self.desk.surroundings(20000), stdin=subprocess.DEVNULL,
                                                  stdout=subprocess.DEVNULL, stderr=subprocess.DEVNULL)
        await asyncio.sleep(self.choice.uniform(0, 0.3))
        if it.returncode is None:
            it.kill()
        await it.wait()

    async def by_hand(self, looks):
        """What the guide leaves to who looks: a server that is used is to be adopted for its owner; where it says so, any other machine is switched off."""
        found = {}
        for number in sorted(looks):
            machine, row = self.world.machines[number], self.truth[number]
            self.watch.counts["looks by hand"] += 1
            if row["status"] == "Deployed" and (number in self.kept or machine.runs == f"image {row['image']}"):
                if await self.brought(number, row):
                    found[number] = row
            elif number in self.offs and machine.is_on and not machine.runs.startswith(("image ", "rescue ")):
                machine.switch_off("by hand, as the guide says")
        return found

    async def machine(self, number):
        _, body = await self.world.ask(self.port, "GET", f"/machines/{number}", token=self.world.secrets["ada"])
        return json.loads(body)

    async def brought(self, number, row):
        """Brings a machine where `adopt` takes it, if it isn't Deployed for its owner already."""
        for _ in range(12):
            it = await self.machine(number)
            if it["locked"] and not (it["status"] == "Deployed" and [it["owner"], it["image"]] == [row["owner"], row["image"]]):
                await self.types_line(f"hallctl unlock {number}")
            elif it["status"] == "Deployed" and [it["owner"], it["image"]] == [row["owner"], row["image"]]:
                if it["locked"] != (row["locked"] == "yes"):
                    await self.types_line(f"hallctl {'lock' if row['locked'] == 'yes' else 'unlock'} {number}")
                return False
            elif it["status"] in ("New", "Ready"):
                return True
            elif it["status"] not in BY_HAND:
                self.desk.ahead(max(it["deadline"] - self.desk.moment(), 0) + 1)     # who waits waits until it has failed
                await asyncio.sleep(0.2)
            else:
                for line in BY_HAND[it["status"]]:
                    order = f"--token-file pow.token order {(await self.machine(number))['order']} --"
                    await self.types_line(f"hallctl {line.replace('last ', order).format(number)}")
        raise RuntimeError(f"machine {number} can't be brought anywhere: {it}")

    async def adopts_by_hand(self, found):
        for number, row in found.items():
            await self.adopts([f"hallboot adopt --db hall.db --at $(date +%s) --image {row['image']} --owner-token-file {row['owner']}.token "
                               f"--admin-token-file admin.token --power-token-file pow.token --machines {number}"])
        locked = [number for number, row in found.items() if row["locked"] == "yes"]
        if locked:
            await self.loopback()
            for number in locked:
                await self.types_line(f"hallctl lock {number}")
            await self.stop()

    async def look(self):
        """The guide's last step: what was Deployed is Deployed for its owner, no other owner has what somebody had, and no order waits."""
        if self.skips:
            return
        machines = await self.export("hall.db")
        for number, row in self.truth.items():
            now = machines[number]
            if number in self.kept and (text_of(now), now["locked"]) != (text_of(row), row["locked"]):
                self.watch.find(7, f"machine {number} was {text_of(row)}, locked {row['locked']}, and is restored as {text_of(now)}, locked {now['locked']}")
            if row["owner"] and now["owner"] not in ("", row["owner"]):
                self.watch.races["owner"] += 1
                self.world.note(f"owner: machine {number} was {text_of(row)}, and is restored as {text_of(now)}")
        orders = await self.wants(self.hallboot, "report", "--db", "hall.db", "--what", "orders")
        if orders.strip():
            self.watch.find(7, f"orders wait after the guide: {orders.strip()}")


def request_of(line):
    """The path, the token's name and the members of a line of hallctl's."""
    words, token = shlex.split(line)[1:], "admin"
    if words[0] == "--token-file":
        token, words = words[1].removesuffix(".token"), words[2:]
    name, about = words[0].replace("-", "_"), words[1]
    if name == "order":
        return f"/orders/{about}", token, {"outcome": words[2].strip("-")}
    if not about.isdigit():
        raise RuntimeError(f"a line of hall-moved is of another hall than a world's: {line}")
    members = {"key": str(uuid.uuid4()), "command": name, "machine": int(about)}
    options = [word for word in words[2:] if word != "--yes"]
    members |= dict(zip((word.strip("-") for word in options[::2]), options[1::2]))
    return "/commands", token, members | ({"tests": False} if name == "commission" else {})
