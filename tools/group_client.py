"""A client of group_trial.py: one machine after the other lives its life by what the client sends, a command, a script, a report, an order at a time, and
others at the same moment. So it knows what each answer must be, and what the hall has."""
import time
from group_answers import Deadline, Hole, Right, Rows, Same, Token, fits, parts_of, refused
from group_wires import SAME, Ended, Request, Wires, spelled
from served_hall import digest

POWER = "powers-secret-1"
KEPT = 0.3         # the share of machines that stay in the hall as they are in the end
ENDING = 30.0      # seconds of repeats after the last kill
LIMITS = {"Commissioning": 1800, "Testing": 3600, "Deploying": 2400, "Disk erasing": 7200, "Releasing": 600, "Entering rescue mode": 1200,
          "Exiting rescue mode": 600}
PURPOSES = {"Commissioning": "commission", "Testing": "test", "Deploying": "deploy", "Disk erasing": "erase", "Entering rescue mode": "rescue",
            "Rescue mode": "rescue"}
HELD = b"#!ipxe\necho This machine is held by the hall desk\npoweroff\n"
OWN_DISK = {"bios": b"#!ipxe\nsanboot --no-describe --drive 0x80\n", "uefi64": b"#!ipxe\nexit\n"}
# what is asked in between, and how often; the last three where there is a machine
ASIDES = {"lists": 2, "orders": 2, "again": 4, "reuses": 3, "refusals": 5, "contests": 4, "looks": 4, "boots": 8, "strangers": 1}
COUNTED, REPEAT = (Right(200, f'{{"result":"{word}"}}'.encode(), is_done=True) for word in ("counted", "repeat"))


def address(client, life, card):
    return f"52:54:{client + 1:02x}:{life >> 8:02x}:{life & 255:02x}:{card:02x}"


def client_of(home):
    """The number of the client whose machine has this address; -1 where it is none of a client's."""
    return int(home[6:8], 16) - 1


def image_of(name, arch, *args):
    """The members of a command that adds an image."""
    return {"image": name, "arch": arch, "kernel": f"http://files.example/{name}/k", "initrd": f"http://files.example/{name}/i", "args": list(args)}


def entered(row, status, queues=False, **others):
    """The row of a machine that enters a status now, with a new order or without one."""
    row = row | others
    is_free, is_erasing = status in ("Ready", "Broken"), status == "Disk erasing"
    return row | {
        "boot": row["boot"] if status == "Rescue mode" else None, "deadline": Deadline(LIMITS[status]) if status in LIMITS else None,
        "erase": row["erase"] if is_erasing else None, "image": None if is_free else row["image"], "order": Hole("order") if queues else None,
        "owner": None if is_free else row["owner"], "status": status, "version": row["version"] + 1}


def kind_in(status):
    """The kind of the order for which a machine in this status waits, if it does."""
    return "cycle" if status in PURPOSES or status == "Exiting rescue mode" else "off"


def about(row):
    """What a command on a machine answers."""
    return {name: row[name] for name in ("id", "status", "version")}


def shows(row, **words):
    """A machine as an answer shows it, or that there is none."""
    return refused("NoMachine", **words) if row is None else Right(200, *parts_of(row), **words)


class Asides(Wires):
    """What a client asks for in between, which leaves its machine as it is."""

    def __init__(self, trial, number):
        super().__init__(trial, number)
        self.token, self.keys, self.lives, self.names = f"clients-secret-{number}", 0, 0, 0
        self.told_again = self.untold = 0
        self.told, self.reported, self.kept = [], [], {}    # what is answered so again; the same while the machine is there; machines that stay
        self.name, self.boot, self.secret, self.stage, self.repeated = None, None, None, None, 0

    def new_key(self):
        """A key, which other clients have too, for other commands."""
        self.keys += 1
        return f"00000000-0000-4000-8000-{self.keys:012x}"

    def keyed(self, members, says, *others):
        key = self.new_key()
        return Request(spelled("POST", "/commands", self.token, {"key": key, **members}), Right(200, *parts_of(says), is_done=True), *others, key=key)

    def keep_answer(self, request):
        self.told.append((request.octets, request.answer, request.key))

    async def does(self, **members):
        """A command on the hall, by itself."""
        request = self.keyed(members, {})
        await self.ask(request, is_change=True)
        self.keep_answer(request)

    async def asides(self):
        """After a kill what was answered last is asked for again; else now and then something else."""
        if self.told and self.repeated != self.trial.gate.round:
            self.repeated = self.trial.gate.round
            await self.repeats(self.told[-3:] + self.reported[-1:])
        ways = list(ASIDES)[:None if self.row else -3]
        while self.chance.random() < 0.4:
            way, = self.chance.choices(ways, [ASIDES[way] for way in ways])
            await getattr(self, way)()

    async def repeats(self, told):
        """What was answered is sent again, octet for octet, all at one moment."""
        await self.ask(*(Request(octets, Same(answer)) for octets, answer, _ in told))
        self.told_again += len(told)

    async def again(self):
        if self.told:
            await self.repeats(self.chance.sample(self.told, min(2, len(self.told))))

    async def reuses(self):
        """Another command under a key that was used."""
        if self.told:
            key = self.chance.choice(self.told)[2]
            members = {"key": key or self.new_key(), "command": "add_pool", "pool": "default"}
            await self.ask(Request(spelled("POST", "/commands", self.token, members), refused("KeyReused" if key else "Taken")))

    async def looks(self):
        await self.ask(Request(spelled("GET", f"/machines/{self.row['id']}", self.token), shows(self.row)))

    async def boots(self):
        """The machine's script, where no boot is issued with it."""
        if self.row["status"] not in PURPOSES or self.stage == "offered":
            await self.ask(self.script())

    def script(self):
        """The machine's request for a script, and the script that it must be given."""
        row, kind = self.row, "text/plain"
        purpose = PURPOSES.get(row["status"])
        octets = spelled("GET", f"/ipxe/{self.chance.choice(row['interfaces'])}")
        if purpose is None:
            is_own = row["status"] in ("Deployed", "Exiting rescue mode")
            return Request(octets, Right(200, OWN_DISK[row["arch"]] if is_own else HELD, kind=kind))
        image, word = (self.name, f"own={self.name}") if purpose == "deploy" else (f"live-{row['arch']}", "live")
        first = f"#!ipxe\nkernel http://files.example/{image}/k {word} hall.purpose={purpose}{' hall.erase=' + row['erase'] if row['erase'] else ''} hall.boot="
        last = f" hall.desk=http://127.0.0.1:{self.trial.hall.http}\ninitrd http://files.example/{image}/i\nboot\n"
        is_offered = self.stage == "offered"
        boot, token = (str(self.boot).encode(), self.secret.encode()) if is_offered else (Hole("boot"), Token("token"))
        return Request(octets, Right(200, first.encode(), boot, b" hall.token=", token, last.encode(), kind=kind, is_done=True))

    async def lists(self):
        await self.ask(Request(spelled("GET", "/machines", self.token), Rows("machines", self.judge_machines)))

    def judge_machines(self, rows, is_whole):
        """What is wrong with a list of machines, of which this client's, and those that are nobody's, are as it knows them."""
        known = {home: row for home, row in {**self.trial.others, **self.kept, self.home: self.row}.items() if row}
        if any(one["id"] >= next_one["id"] for one, next_one in zip(rows, rows[1:])):
            return "machines that aren't in the order of their numbers"
        for row in rows:
            home = row["interfaces"][0]
            if self.trial.numbers.home("id", row["id"]) not in (None, home):
                return f"{row}, which isn't the machine of this number"
            if client_of(home) in (-1, self.number) and not fits(known.pop(home, None), row):
                return f"{row} in place of what the client knows of {home}"
        return f"a list without {list(known)}" if is_whole and known else None

    async def orders(self):
        await self.ask(Request(spelled("GET", "/orders", self.token), Rows("orders", self.judge_orders)))

    def judge_orders(self, rows, is_whole):
        """What is wrong with a list of orders, of which this client's machine waits for one, or for none."""
        own = {"kind": kind_in(self.row["status"]), "machine": self.row["id"], "number": self.row["order"]} if self.row else None
        for row in rows:
            homes = {self.trial.numbers.home("id", row["machine"]), self.trial.numbers.home("order", row["number"])} - {None}
            if len(homes) > 1:
                return f"{row}, which are of the machines of {homes}"
            if own and row["machine"] == own["machine"] and row != own:
                return f"{row} in place of {own}"
        return f"a list without {own}" if is_whole and own and own["number"] and own not in rows else None

    async def refusals(self):
        """Something that is refused, and leaves the hall as it is."""
        nobody = 10**9 + self.number
        wishes = [({"command": "add_pool", "pool": "default"}, "Taken"), ({"command": "lock", "machine": nobody}, "NoMachine")]
        others = [("GET", f"/machines/{nobody}", self.token, None, "NoMachine"), ("GET", f"/machines/{nobody}", self.name, None, "UnknownToken"),
                  ("GET", f"/ipxe/{address(254, self.number, 0)}", None, None, "NoMachine"),
                  ("POST", f"/orders/{nobody}", POWER, {"outcome": "done"}, "NoOrder")]
        if self.row:
            number, version = self.row["id"], self.row["version"]
            wishes += [({"command": "override", "machine": number}, "Locked" if self.row["locked"] else "WrongStatus"),
                       ({"command": "set_pool", "machine": number, "pool": f"no-{self.number}"}, "NoPool"),
                       ({"command": "commission", "machine": number, "tests": True, "version": version + 1}, "StaleVersion"),
                       ({"command": "add_machine", "mac": self.home, "arch": "bios", "pool": "default"}, "Taken")]
        if self.row and self.row["image"]:
            wishes.append(({"command": "delete_image", "image": self.name}, "InUse"))
        if self.boot:
            others.append(("POST", f"/report/{self.boot}/{'0' * 32}", None, {"stage": "done"}, "NoBoot"))
        if self.row and self.stage == "done":
            others.append(("POST", f"/report/{self.boot}/{self.secret}", None, {"stage": "failed"}, "Spent"))
        others += [("POST", "/commands", self.token, {"key": self.new_key(), **members}, name) for members, name in wishes]
        *words, name = self.chance.choice(others)
        await self.ask(Request(spelled(*words), refused(name)))

    async def contests(self):
        """Two commands of which only one can be done."""
        self.names += 1
        both = [self.keyed({"command": "add_pool", "pool": f"{self.name}-{self.names}"}, {}, refused("Taken")) for _ in range(2)]
        await self.ask(*both)
        done = [request for request in both if b"Taken" not in request.answer]
        self.check(len(done) == 1, f"{both[0].octets!r} and another one for the same pool: {[request.answer for request in both]}")
        for request in done:
            self.keep_answer(request)

    async def strangers(self):
        """A new operator sees the machine, and is unknown once it is disabled."""
        self.names += 1
        name = f"{self.name}-{self.names}"
        octets = spelled("GET", f"/machines/{self.row['id']}", f"{name}-secret")
        await self.does(command="add_operator", operator=name, role="user", digest=digest(f"{name}-secret"))
        await self.ask(Request(octets, shows(self.row)))
        await self.does(command="disable_operator", operator=name)
        await self.ask(Request(octets, refused("UnknownToken")))


class Client(Asides):
    """A client with the lives of its machines."""

    async def run(self):
        try:
            await self.lives_on()
            await self.ends()
        except Exception as fault:
            self.is_lost = True
            self.check(False, f"it gives up: {fault!r}")
        self.trial.gate.left += 1

    async def lives_on(self):
        """One life after the other, until the trial ends."""
        try:
            while True:
                await self.life()
        except Ended:
            pass

    async def life(self):
        await self.adds()
        await self.commissions()
        for _ in range(self.chance.randint(1, 4)):
            await self.deploys()
            await self.locks()
            if self.chance.random() < 0.4:
                await self.rescues()
            await self.releases()
        await self.leaves()

    async def ends(self):
        """All that was answered is sent again."""
        self.is_ending = True
        if self.row:
            await self.looks()
        told, until = self.told + self.reported, time.monotonic() + ENDING
        self.chance.shuffle(told)
        while told and time.monotonic() < until:
            await self.repeats(told[-4:])
            del told[-4:]
        self.untold = len(told)

    # ---- one change at a time
    async def changes(self, request, after=SAME):
        """A change is made, in half of the cases with another request at the same moment whose answer depends on it."""
        await self.asides()
        beside = self.beside(request, after)
        await self.ask(request, *beside, after=after, is_change=True)
        for other in beside:
            self.check(other.octets != request.octets or other.answer == request.answer,
                       f"{request.octets!r} was sent twice at one moment, and answered {request.answer!r} and {other.answer!r}")
        if self.row and any(isinstance(value, Hole) for value in self.row.values()):
            await self.looks()

    def beside(self, request, after):
        """The same octets by another client, another command under the same key, or a look at the machine, or nothing."""
        drawn = self.chance.random()
        if drawn < 0.15 and request.is_steady:
            return [Request(request.octets, *request.rights)]
        if drawn < 0.3 and request.key:
            octets = spelled("POST", "/commands", self.token, {"key": request.key, "command": "set_live", "image": "none"})
            return [Request(octets, refused("NoImage"), refused("KeyReused", is_done=True))]
        if drawn < 0.5 and after is not SAME:
            if self.row is None:
                return [Request(spelled("GET", f"/ipxe/{self.home}"), refused("NoMachine"), Right(200, HELD, kind="text/plain", is_done=True))]
            return [Request(spelled("GET", f"/machines/{self.row['id']}", self.token), shows(self.row), shows(after, is_done=True))]
        return []

    async def commands(self, members, says, after=SAME):
        request = self.keyed(members, says)
        await self.changes(request, after)
        self.keep_answer(request)

    async def acts(self, command, after, **members):
        """A command on the machine, perhaps one that wants its version."""
        number, version = self.row["id"], self.row["version"]
        if self.chance.random() < 0.3:
            members["version"] = version
        await self.commands({"command": command, "machine": number, **members}, {"id": number} if after is None else about(after), after)

    async def moves(self, command, status, queues=True, others=(), **members):
        """A command by which the machine enters a status, with a new order or without one."""
        await self.acts(command, entered(self.row, status, queues, **dict(others)), **members)
        self.stage = None

    async def tells(self, octets, after=SAME):
        """What a machine or the power program says, which counts once."""
        await self.changes(Request(octets, COUNTED, again=(REPEAT,)), after)
        # its octets, as those of any answer, are the status line's, the fields' and the body's
        self.reported.append((octets, b"".join(REPEAT.parts), None))

    async def reports(self, stage, after=SAME):
        await self.tells(spelled("POST", f"/report/{self.boot}/{self.secret}", None, {"stage": stage}), after)
        self.stage = stage

    async def switches(self, after=None):
        """The power program's answer to the machine's order."""
        after = after or self.row | {"order": None, "version": self.row["version"] + 1}
        await self.tells(spelled("POST", f"/orders/{self.row['order']}", POWER, {"outcome": "done"}), after)

    async def fetches(self):
        """The machine is issued a boot."""
        request = self.script()
        await self.changes(request, self.row | {"boot": Hole("boot"), "version": self.row["version"] + 1})
        self.boot, self.secret, self.stage = request.values["boot"], request.values["token"], "offered"

    async def works(self, status, queues=False):
        """The machine starts, perhaps once more, and does its work, by which it enters a status."""
        if self.chance.random() < 0.5:
            await self.switches()
        await self.fetches()
        await self.reports("started")
        if self.chance.random() < 0.2:
            stale = spelled("POST", f"/report/{self.boot}/{self.secret}", None, {"stage": "done"})
            await self.fetches()
            await self.ask(Request(stale, refused("Stale")))
            await self.reports("started")
        await self.reports("done", entered(self.row, status, queues))

    # ---- a machine's life
    async def adds(self):
        """A pool, an image and a machine, perhaps with a second card."""
        self.lives += 1
        self.name, self.home = f"c{self.number}-{self.lives}", address(self.number, self.lives, 0)
        self.row = self.boot = self.stage = None
        self.reported = []
        arch = self.chance.choice(["bios", "uefi64"])
        members = {"command": "add_machine", "mac": self.home, "arch": arch, "pool": "default"}
        if self.chance.random() < 0.5:
            members["uuid"] = f"{self.number + 1:08x}-{self.lives:04x}-4000-8000-000000000000"
        row = {"arch": arch, "boot": None, "deadline": None, "erase": None, "id": Hole("id"), "image": None, "interfaces": [self.home], "locked": False,
               "order": None, "owner": None, "pool": "default", "status": "New", "uuid": members.get("uuid"), "version": 1}
        await self.commands({"command": "add_pool", "pool": self.name}, {})
        await self.commands({"command": "add_image", **image_of(self.name, arch, f"own={self.name}")}, {})
        await self.commands(members, about(row), row)
        if self.chance.random() < 0.3:
            card = address(self.number, self.lives, 1)
            await self.acts("add_interface", self.row | {"interfaces": [self.home, card], "version": self.row["version"] + 1}, mac=card)
        await self.acts("set_pool", self.row | {"pool": self.name, "version": self.row["version"] + 1}, pool=self.name)

    async def commissions(self):
        """Commissioning, with tests or without; perhaps it is aborted first."""
        if self.chance.random() < 0.2:
            await self.moves("commission", "Commissioning", tests=False)
            order = self.row["order"]
            await self.moves("abort", "New")
            await self.ask(Request(spelled("POST", f"/orders/{order}", POWER, {"outcome": "done"}), refused("Withdrawn")))
        tests = self.chance.random() < 0.3
        await self.moves("commission", "Commissioning", tests=tests)
        if tests:
            await self.works("Testing", queues=True)
            self.stage = None
        await self.works("Ready")

    async def deploys(self):
        """An owner has the machine Deployed, with its own image."""
        await self.moves("allocate", "Allocated", False, {"owner": f"c{self.number}"})
        await self.moves("deploy", "Deploying", True, {"image": self.name}, image=self.name)
        await self.works("Deployed")

    async def locks(self):
        await self.acts("lock", self.row | {"locked": True, "version": self.row["version"] + 1})
        await self.refusals()
        await self.acts("unlock", self.row | {"locked": False, "version": self.row["version"] + 1})

    async def rescues(self):
        await self.moves("rescue", "Entering rescue mode")
        await self.fetches()
        await self.reports("started", entered(self.row, "Rescue mode"))
        await self.moves("exit_rescue", "Exiting rescue mode")
        await self.switches(entered(self.row, "Deployed"))

    async def releases(self):
        """The machine is released, perhaps erased first, and is Ready once it is off."""
        erase = self.chance.choice(["none", "quick", "full"])
        if erase == "none":
            await self.moves("release", "Releasing", erase=erase)
        else:
            await self.moves("release", "Disk erasing", True, {"erase": erase}, erase=erase)
            await self.works("Releasing", queues=True)
        await self.switches(entered(self.row, "Ready"))

    async def leaves(self):
        """The machine goes, or stays as it is for good, and perhaps its image goes before."""
        if self.chance.random() < 0.3:
            await self.commands({"command": "delete_image", "image": self.name}, {})
        if self.chance.random() >= KEPT:
            return await self.acts("delete", None)
        self.kept[self.home] = self.row
        self.told += self.reported
        self.home = self.row = None
