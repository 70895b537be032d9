"""One pretended world, for world.py: a desk that is killed and started again over a slow disk and a clock that leaps, or restored (world_restore.py),
machines, operators, the power program and its controllers, and what happens to them, all of it chosen from one seed."""
import asyncio, hashlib, json, mmap, os, random, re, signal, struct, subprocess, sys, time, uuid
from served_hall import digest, ports
from world_machines import Controllers, Machine
from world_net import Network
from world_restore import Copies, Restoring
from world_watch import Watch

SECRETS = {name: f"{name}s-secret-1" for name in ("ada", "olga", "otto", "pow")}
MACHINES = 4
SECONDS = 15      # that a world lasts, after it is made
RESTORED = 3      # times that its hall may be lost
IMAGES = {"http://files.example/live/k": "live64", "http://files.example/jammy/k": "jammy", "http://files.example/noble/k": "noble"}
# What operators say to a machine of each status, with how often; each may be said by its owner or by an admin alone, so many are refused.
WISHES = {
    "New": {"commission": 9, "set_pool": 1}, "Commissioning": {"abort": 1, "wait": 12}, "Failed commissioning": {"commission": 1},
    "Testing": {"abort": 1, "wait": 10}, "Failed testing": {"override": 6, "test": 2, "commission": 1, "break": 1},
    "Ready": {"allocate": 20, "test": 1, "commission": 1, "break": 1}, "Allocated": {"deploy": 16, "release": 2, "break": 1},
    "Deploying": {"abort": 1, "wait": 25}, "Failed deployment": {"deploy": 6, "release": 3, "break": 1},
    "Deployed": {"wait": 30, "release": 4, "rescue": 1, "lock": 1}, "Disk erasing": {"abort": 1, "wait": 10},
    "Failed disk erasing": {"release": 8, "break": 1}, "Releasing": {"wait": 1}, "Failed releasing": {"release": 6, "break": 1},
    "Entering rescue mode": {"wait": 5, "abort": 1}, "Failed to enter rescue mode": {"rescue": 1, "exit_rescue": 3},
    "Rescue mode": {"exit_rescue": 4, "wait": 2}, "Exiting rescue mode": {"wait": 1}, "Failed to exit rescue mode": {"exit_rescue": 1},
    "Broken": {"fix": 4, "commission": 1, "rescue": 1},
}
ADMINS = {"commission", "test", "override", "fix", "set_pool"}
ANY = ["commission", "test", "override", "fix", "allocate", "deploy", "release", "abort", "rescue", "exit_rescue", "break", "lock", "unlock"]


class Desk:
    """The program, which serves one hall's file at free ports, and what it is killed by."""

    def __init__(self, world, hallboot, slow, clock):
        self.world, self.hallboot, self.libraries = world, hallboot, f"{slow} {clock}"
        self.file, self.log, self.running, self.port, self.leak = f"{world.folder}/hall.db", f"{world.folder}/desk.log", None, None, None
        self.choice, self.is_up = world.stream("desk"), asyncio.Event()
        self.log_words = world.stream("log").choice([[], ["--log-time", "utc"], ["--log-format", "json"]])
        with open(f"{world.folder}/clock", "wb") as file:
            file.write(bytes(8))
        with open(f"{world.folder}/clock", "r+b") as file:
            self.page = mmap.mmap(file.fileno(), 8)
        subprocess.run([hallboot, "init", "--db", self.file, "--admin", "ada", "--digest", digest(SECRETS["ada"])], check=True, capture_output=True, timeout=60)

    def ahead(self, seconds):
        """Lets time pass on the desk's clock alone."""
        struct.pack_into("q", self.page, 0, struct.unpack_from("q", self.page)[0] + seconds)

    def moment(self):
        """Seconds, by the desk's clock."""
        return int(time.time()) + struct.unpack_from("q", self.page)[0]

    def surroundings(self, delay=None):
        """Those of a program on the desk's host, which has its clock, and its disk where it serves."""
        slow = {} if delay is None else {"SLOW_DISK": str(delay)}
        return {"LD_PRELOAD": self.libraries, "OFFSET_CLOCK": f"{self.world.folder}/clock", "PATH": "/usr/bin:/bin", **slow}

    async def start(self, delay, *words):
        """Starts to serve, and returns what is printed until it is ready, or has ended."""
        with open(f"{self.world.folder}/desk.err", "ab") as faults:
            self.running = await asyncio.create_subprocess_exec(
                self.hallboot, "serve", "--db", self.file, "--turns", "1000000000000", "--log-connections", "no", *self.log_words, *words,
                cwd=self.world.folder, stdout=subprocess.PIPE, stderr=faults, env=self.surroundings(delay))
        said = ""
        while line := (await self.running.stdout.readline()).decode():
            said += line
            if line == "hall desk ready\n":
                return said
        await self.running.wait()
        return ""

    async def serve(self):
        delay = self.choice.choice([0, 0, 2000, 20000, 60000])
        for _ in range(20):
            discover, boot, http = ports()
            if await self.start(delay, "--discover", f"127.0.0.1:{discover}", "--boot", f"127.0.0.1:{boot}", "--http", f"127.0.0.1:{http}",
                                "--server", "127.0.0.1", "--next", "127.0.0.1", "--host", f"127.0.0.1:{self.world.networks['machines'].port}",
                                "--log", self.log, "--enlist", self.world.enlist, *self.world.copies.words()):
                self.port = http
                self.is_up.set()
                return self.world.note(f"the desk serves, its disk takes {delay / 1000:.0f} ms longer")
        raise SystemExit("world: the desk isn't ready")

    async def kill(self):
        self.is_up.clear()
        if self.running and self.running.returncode is None:
            self.running.kill()
            await self.running.wait()

    async def connection(self, name):
        """A connection of a network, which a desk on loopback has none of, unless a mistake is played."""
        port = self.port if self.is_up.is_set() else self.leak if name == "power" else None
        if port is None:
            raise ConnectionRefusedError
        return await asyncio.open_connection("127.0.0.1", port)


class Power:
    """power/hall_power.py, or a copy with a planted mistake, which is killed and started again."""

    def __init__(self, world, text):
        self.world, self.running, self.folder, self.is_stopped, self.since, self.ends = world, None, f"{world.folder}/power", False, 0.0, 0
        os.makedirs(f"{self.folder}/bin")
        os.symlink(world.teller, f"{self.folder}/bin/ipmitool")
        self.write("hall_power.py", text)
        self.write("token", SECRETS["pow"] + "\n")
        self.write("password", "ipmi's secret\n")
        self.write("hall-power.toml", f'desk = "http://127.0.0.1:{world.networks["power"].port}"\ntoken = "token"\ntable = "table"\n'
                   '[controllers.ipmi]\ndriver = "ipmitool"\nuser = "desk"\npassword = "password"\n')
        self.table()

    def write(self, name, text):
        with open(os.open(f"{self.folder}/{name}.new", os.O_CREAT | os.O_TRUNC | os.O_WRONLY, 0o600), "w") as file:
            file.write(text)
        os.rename(f"{self.folder}/{name}.new", f"{self.folder}/{name}")

    def table(self):
        wired = self.world.controllers.wired.items()
        self.write("table", "".join(f"{machine.number} ipmi {name}\n" for name, machine in wired))

    def start(self):
        if self.running:
            return
        self.is_stopped, self.since = False, self.world.now()
        surroundings = {"PATH": f"{self.folder}/bin", "WORLD_SOCKET": self.world.socket}
        with open(f"{self.folder}/said", "a") as said:
            words = [sys.executable, "-B", "hall_power.py", "--config", "hall-power.toml", "--every", "0.5", *self.world.programs["power_words"]]
            self.running = subprocess.Popen(words, cwd=self.folder, env=surroundings, stderr=said, stdout=said, process_group=0)

    def tended(self):
        """Starts it again after a moment where it has ended by itself, as its unit does. Returns what is a fault of its: to end for another reason than that
        the one before it isn't wholly gone, or for the third time in a row."""
        status = self.running.poll() if self.running else None
        if status is None:
            self.ends = 0 if self.running and self.world.now() - self.since > 3 else self.ends
            return None
        with open(f"{self.folder}/said", errors="replace") as said:
            words = (said.read().splitlines() or [""])[-1]
        self.running, self.ends = None, self.ends + 1
        self.world.note(f"the power program has ended, status {status}: {words[:200]}")
        asyncio.get_running_loop().call_later(0.7, self.again)
        return None if status == 2 and "another hall-power acts by this file" in words and self.ends < 3 else f"status {status}: {words[-300:]}"

    def again(self):
        if not self.is_stopped:
            self.start()

    async def stop(self):
        """As `systemctl stop` does it, until it is started again."""
        self.is_stopped = True
        if self.running and self.running.poll() is None:
            os.killpg(self.running.pid, signal.SIGTERM)
            for _ in range(50):
                await asyncio.sleep(0.1)
                if self.running is None or self.running.poll() is not None:
                    break
        self.kill()

    def kill(self):
        if self.running:
            if self.running.poll() is None:
                os.killpg(self.running.pid, signal.SIGKILL)
            self.running.wait()
        self.running = None


class Operator:
    """One operator, who looks at a machine, and says what suits it, mostly; each command is sent until it is answered, or given up."""

    def __init__(self, world, name):
        self.world, self.name, self.choice = world, name, world.stream(f"operator {name}")

    async def live(self):
        while True:
            await asyncio.sleep(self.choice.uniform(0.1, 0.9))
            number = self.choice.randrange(1, MACHINES + 1)
            row = self.world.watch.status.get(number)
            if row:
                await self.wish(number, row)

    async def wish(self, number, row):
        wishes = WISHES[row["status"]]
        what = self.choice.choices(list(wishes), wishes.values())[0]
        if row["locked"]:
            what = "unlock"
        elif self.choice.random() < 0.06:
            what = self.choice.choice(ANY)
        elif self.choice.random() < 0.9 and not self.may(what, row):
            return
        if what != "wait":
            await self.command(number, what, row)

    def may(self, what, row):
        if what == "allocate":
            return True
        return row["owner"] == self.name or self.name == "ada" and (row["owner"] is None or what not in ("deploy", "release"))

    async def command(self, number, what, row=None):
        members = {"key": str(uuid.UUID(int=self.choice.getrandbits(128), version=4)), "command": what, "machine": number}
        members |= {"deploy": {"image": self.choice.choice(["jammy", "noble"])}, "release": {"erase": self.choice.choice(["none", "quick", "quick", "full"])},
                    "commission": {"tests": self.choice.random() < 0.3}, "set_pool": {"pool": "default"}}.get(what, {})
        if row and self.choice.random() < 0.3:
            members["version"] = row["version"]
        for _ in range(self.choice.choice([1, 4, 15])):
            try:
                status, _ = await self.world.ask(self.world.networks["operators"].port, "POST", "/commands", members, SECRETS[self.name], patience=2)
                if status != 503:
                    return
            except (OSError, ValueError, asyncio.TimeoutError):
                pass
            await asyncio.sleep(self.choice.uniform(0.1, 0.6))


class World:
    def __init__(self, seed, folder, given, programs):
        self.seed, self.folder, self.given, self.programs = seed, folder, given, programs
        self.begun, self.history, self.lateness, self.latest, self.swapped = time.monotonic(), [], 0.0, 0.0, -1e9
        self.socket, self.teller, self.secrets = f"{folder}/s", programs["teller"], SECRETS
        self.choice, self.skips, self.restored, self.is_restored = self.stream("world"), set(), 0, True
        self.enlist = self.choice.choice(["yes", "no"])
        self.watch = Watch(self)
        self.networks = {"machines": Network(self, "machines", ("foreign 200", "foreign 404")), "power": Network(self, "power"),
                         "operators": Network(self, "operators")}
        self.machines = {number: Machine(self, number, programs["live"]) for number in range(1, MACHINES + 1)}
        self.controllers = Controllers(self)
        self.operators = {name: Operator(self, name) for name in ("ada", "olga", "otto")}
        self.desk = Desk(self, programs["hallboot"], programs["slow"], programs["clock"])
        self.copies = Copies(self)

    def stream(self, name):
        """The choices of one part of the world, which those of others don't shift."""
        return random.Random(hashlib.sha256(f"{self.seed} {name}".encode()).digest())

    def now(self):
        return time.monotonic() - self.begun

    def note(self, text):
        self.history.append(f"{self.now():7.3f} {text}")

    def by_mac(self, mac):
        return next((machine for machine in self.machines.values() if machine.mac == mac), None)

    def image_of(self, kernel):
        return IMAGES.get(kernel, "live64")

    async def ask(self, port, method, path, members=None, token=None, patience=120.0):
        """Status and body of one request, if they come whole."""
        data = b"" if members is None else json.dumps(members).encode()
        head = f"{method} {path} HTTP/1.1\r\nHost: desk\r\n" + (f"Authorization: Bearer {token}\r\n" if token else "")
        head += f"Content-Length: {len(data)}\r\n\r\n" if members is not None else "\r\n"
        return await asyncio.wait_for(self.exchange(port, head.encode() + data), patience)

    async def exchange(self, port, octets):
        reader, writer = await asyncio.open_connection("127.0.0.1", port)
        try:
            writer.write(octets)
            await writer.drain()
            answer = await reader.read(-1)
        finally:
            writer.close()
        head, end, body = answer.partition(b"\r\n\r\n")
        length = next((line.split(b":")[1] for line in head.split(b"\r\n") if line.lower().startswith(b"content-length:")), None)
        if not end or length is None or len(body) != int(length):
            raise ValueError("no whole answer")
        return int(head.split()[1]), body

    # ---- how it is made
    async def done(self, command, by="ada", **members):
        status, body = await self.ask(self.desk.port, "POST", "/commands", {"key": str(uuid.uuid4()), "command": command, **members}, SECRETS[by])
        if status != 200:
            raise SystemExit(f"world: {command}: {status} {body.decode()}")

    async def made(self):
        for name, role in (("olga", "user"), ("otto", "user"), ("pow", "power")):
            await self.done("add_operator", operator=name, role=role, digest=digest(SECRETS[name]))
        for name in ("ada", "olga", "otto"):
            await self.done("grant", pool="default", operator=name)
        for kernel, image in IMAGES.items():
            await self.done("add_image", image=image, arch="uefi64", kernel=kernel, initrd="http://files.example/i", args=["initrd=i", "quiet"])
        await self.done("set_live", image="live64")
        for machine in self.machines.values():
            await self.done("add_machine", mac=machine.mac, arch="uefi64", pool="default")
            await self.advanced(machine, self.choice.choice(["New", "Ready", "Allocated", "Deployed", "Deployed", "Deployed"]))
        self.copies.forget()

    async def advanced(self, machine, status):
        """Brings a machine to a status before the world begins."""
        steps = ["New", "Ready", "Allocated", "Deployed"].index(status)
        owner = self.choice.choice(["ada", "olga", "otto"])
        if steps > 0:
            await self.done("commission", machine=machine.number, tests=False)
            await self.worked(machine)
        if steps > 1:
            await self.done("allocate", by=owner, machine=machine.number)
        if steps > 2:
            await self.done("deploy", by=owner, machine=machine.number, image="jammy")
            await self.worked(machine)
            machine.disk.content = "image jammy"
            machine.switch_on("before the world begins")

    async def worked(self, machine):
        _, script = await self.ask(self.desk.port, "GET", f"/ipxe/{machine.mac}")
        boot, token = re.search(r"hall\.boot=(\d+) hall\.token=(\w+)", script.decode()).groups()
        for stage in ("started", "done"):
            await self.ask(self.desk.port, "POST", f"/report/{boot}/{token}", {"stage": stage})

    # ---- what is seen from outside
    async def called(self, reader, writer):
        """A stand-in of a program."""
        try:
            life, name, since, *words = (await reader.readline()).decode().rstrip("\n").split("\t")
            if name == "ipmitool":
                ago = time.clock_gettime(time.CLOCK_BOOTTIME) - float(since)
                status, text = await self.controllers.called(words, self.now() - max(ago, 0))
            else:
                number, _, count = life.partition(".")
                machine = self.machines[int(number)]
                status, text = await machine.called(name, words) if machine.life == int(count) else (1, "")
            writer.write(f"{status}\n{text}".encode())
            await writer.drain()
        except (OSError, ValueError):
            pass
        finally:
            writer.close()

    async def look(self):
        """Asks the desk directly, many times a second, and notes how late this host is."""
        while True:
            began = self.now()
            await asyncio.sleep(0.15)
            self.lateness = max(self.now() - began - 0.15, self.lateness * 0.98)
            self.latest = max(self.latest, self.lateness)
            sent = self.now()
            self.are_alive()
            try:
                await self.desk.is_up.wait()
                status, body = await self.ask(self.desk.port, "GET", "/machines", token=SECRETS["ada"], patience=5)
                if status == 200:
                    self.watch.looked(sent, json.loads(body)["machines"])
            except (OSError, ValueError, asyncio.TimeoutError):
                pass

    def are_alive(self):
        if self.desk.is_up.is_set() and self.desk.running.returncode is not None:
            self.watch.find(0, f"the desk ended by itself, status {self.desk.running.returncode}")
        if fault := self.power.tended():
            self.watch.find(0, f"the power program ended by itself, {fault}")

    def stir(self, what, machine):
        """Something that wants to be disturbed has happened: now and then it is, within a second."""
        row = self.watch.status.get(machine.number) or {}
        owner = self.operators.get(row.get("owner") or "ada")
        mood, later = self.choice.random(), self.choice.uniform(0, 1.2 if what != "script" else 0.4)
        counted = [(0.08, lambda: owner.command(machine.number, "abort")), (0.14, lambda: self.restarted(machine)), (0.18, self.desk_dies)]
        act = {"script": [(0.04, lambda: owner.command(machine.number, "abort")), (0.07, lambda: self.restarted(machine)), (0.09, self.leap)],
               "counted": [*counted, (0.25, self.restore)], "erasing": [*counted, (0.6, self.restore)],
               "order": [(0.3, lambda: self.stalled(machine)), (0.45, lambda: self.pressed(machine)), (0.5, lambda: self.restarted(machine)),
                         (0.6, self.desk_dies)],
               "deployed": [(0.2, lambda: self.restarted(machine)), (0.3, self.leap), (0.55, self.restore)]}[what]
        chosen = next((deed for chance, deed in act if mood < chance), None)
        if chosen:
            asyncio.get_running_loop().call_later(later, lambda: self.spawn(chosen()))

    # ---- events
    async def restarted(self, machine):
        machine.restart("by nobody's wish")

    async def pressed(self, machine):
        machine.switch_on("by hand")

    async def stalled(self, machine):
        """The machine's controller answers late, and somebody switches the machine on by hand meanwhile, so that its order may be withdrawn."""
        self.controllers.stall(machine, self.choice.uniform(2, 9))
        await asyncio.sleep(self.choice.uniform(0, 0.6))
        machine.switch_on("by hand, while its controller stalls")

    async def leap(self):
        seconds = self.choice.choice([300, 300, 650, 650, 650, 1900, 2500, 7300])
        self.desk.ahead(seconds)
        self.note(f"the desk's clock leaps by {seconds} seconds")

    async def desk_dies(self):
        if not self.desk.is_up.is_set():
            return
        self.note("the desk is killed")
        await self.desk.kill()
        if self.choice.random() < 0.5:
            await self.copies.take()
        await asyncio.sleep(self.choice.uniform(0, 1.5))
        await self.desk.serve()

    async def power_dies(self):
        if self.power.is_stopped or not self.power.running:
            return
        self.note("the power program is killed")
        self.power.kill()
        await asyncio.sleep(self.choice.uniform(0, 1))
        self.power.again()

    async def weather(self):
        for network in self.networks.values():
            network.is_rough = self.choice.random() < 0.4
        self.controllers.is_rough = self.choice.random() < 0.5
        its = {**self.networks, "controllers": self.controllers}
        self.note("weather: " + ", ".join(f"{name} {'rough' if it.is_rough else 'calm'}" for name, it in its.items()))

    async def swap(self):
        """Two controllers are unplugged, plugged in the other way round, and the table says so."""
        if not self.programs["rereads"] or self.controllers.unplugged:
            return
        one, other = self.choice.sample(sorted(self.controllers.wired), 2)
        self.note(f"{one} and {other} are unplugged")
        self.controllers.unplugged = {one, other}
        wired = self.controllers.wired
        wired[one], wired[other] = wired[other], wired[one]
        self.power.table()
        await asyncio.sleep(self.choice.uniform(1, 2))
        self.controllers.unplugged, self.swapped = set(), self.now()
        self.note(f"{one} and {other} are swapped")

    async def restore(self):
        """The hall is lost, and restored by the guide from any of its copies."""
        if self.desk.is_up.is_set() and self.copies.all() and self.restored < RESTORED:
            await self.desk.kill()
            self.restored, self.is_restored = self.restored + 1, False
            await Restoring(self).run()
            self.is_restored, self.left = True, max(self.left, 6)

    async def happen(self):
        """Events at any moments."""
        events = [(self.desk_dies, 2), (self.leap, 1), (self.weather, 3), (self.power_dies, 1), (self.swap, 2), (self.restore, 1),
                  (lambda: self.restarted(self.choice.choice(list(self.machines.values()))), 2),
                  (lambda: self.pressed(self.choice.choice(list(self.machines.values()))), 3)]
        await self.weather()
        while True:
            await asyncio.sleep(self.choice.uniform(0.2, 1.4))
            event = self.choice.choices([act for act, _ in events], [odds for _, odds in events])[0]
            if event == self.desk_dies:
                await event()
            else:
                self.spawn(event())

    def spawn(self, work):
        task = asyncio.get_running_loop().create_task(work)
        self.tasks.add(task)
        task.add_done_callback(self.ended)

    def ended(self, task):
        self.tasks.discard(task)
        if not task.cancelled() and task.exception():
            self.broken = task.exception()

    async def lived(self):
        """The whole life of the world; ended by SIGTERM it leaves nothing running."""
        task = asyncio.get_running_loop().create_task(self.run())
        asyncio.get_running_loop().add_signal_handler(signal.SIGTERM, task.cancel)
        await task

    async def run(self):
        self.tasks, self.broken = set(), None
        for network in self.networks.values():
            await network.open()
        answers = await asyncio.start_unix_server(self.called, self.socket)
        self.power = Power(self, self.programs["power"])
        try:
            await self.desk.serve()
            await self.made()
            self.power.start()
            for work in (self.look(), self.happen(), *(operator.live() for operator in self.operators.values())):
                self.spawn(work)
            self.left, latest = self.given.seconds, self.now() + 2.5 * self.given.seconds     # longer where this host is slow, or the hall is restored
            while (not self.is_restored or self.left > 0 and self.now() < latest) and not self.broken and len(self.watch.findings) < 5:
                before = self.now()
                await asyncio.sleep(0.2)
                self.left, latest = (self.left - 0.2, latest) if self.is_restored else (self.left, latest + self.now() - before)
        finally:
            await self.close(answers)
        if self.broken:
            raise self.broken

    async def close(self, answers):
        for task in list(self.tasks):
            task.cancel()
        for machine in self.machines.values():
            machine.end()
        self.power.kill()
        for network in self.networks.values():
            network.close()
        answers.close()
        await self.desk.kill()
        await asyncio.sleep(0.1)
