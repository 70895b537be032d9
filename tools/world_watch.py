"""What a pretended world may not do, for world.py: the watch sees each exchange with the desk as it is on the wire, what the desk says of its
machines, their disks and their power, and keeps what it found. It knows nothing of the programs' insides.

1. A machine's disk is written only by a boot of its own and its purpose, once, after the desk's `counted` to its `started` came on a connection of
   this start of the machine; and never begun after an abort of it was answered.
2. The disk of a machine that is Deployed isn't touched. It is Deployed from when the desk said so until its owner or an admin sends a command of
   LEAVING that isn't refused and wasn't done before.
3. A machine that is Deployed and on isn't told to switch off by its controller, and no script of the desk says so, or gives it work.
4. No machine gets from Releasing to Ready by an order that was answered done while it was on and no controller had said that it is off.
5. An erasing that was counted done and led to Ready left nothing on the disk, and a deployment that is counted done has its image there.
6. A live image whose boot the desk refused doesn't restart its machine.
7. A hall that was restored by the guide has each machine that was Deployed as Deployed for its owner, no order waits, no line of the guide fails, and
   hall-moved says of each machine what the lost hall had (world_restore.py).
Number 0 is all else: a program that ended by itself, a script of no known form.

Races that no protocol can prevent are counted apart:
- leave: a machine's work begins though an abort was answered meanwhile, where the request whose answer is its leave was sent before that abort
  was answered: the leave was on its way.
- order: a controller is told to switch off a machine that is Deployed by then, where a list of orders that had an order for this machine was
  asked for within the last second (LIST_AGE), and before it was Deployed: the order was withdrawn between the list and the act.
- swap: a controller is told something within the last second (LIST_AGE) after it was wired to another machine.
What a restored hall can't know is counted apart too:
- key: a command is done a second time with its key, which was answered by the hall that was lost.
- unlogged: the desk was killed between a change and its line in the log, so hall-moved can't say it: who looks finds it.
- owner: a machine was at work for one owner, and the restored hall has it for another. hall-moved warns, and has no line that mends it: what the work
  came to isn't known.
A controller that acts later than it said is no race: what counts is the moment at which it was told."""
import collections, json, re
from pretend_machine import OWN_DISK

LIST_AGE = 1.0      # seconds that a list of orders may be old at an act
SLACK = 0.3         # seconds that a program may take from its look at the clock to its act, beside twice what the world sees of its host's lateness
ASKING = {"commission": {"commission"}, "test": {"commission", "test"}, "deploy": {"deploy"}, "erase": {"release"}}     # the commands that lead to a work
LEAVING = {"release", "rescue", "exit_rescue"}      # what the owner of a Deployed machine, or an admin, may say to have it switched
WORK = re.compile(r"kernel (\S+)(.*)")


def key_of(boot, token):
    """What a script of work is known by: a number comes twice where a hall is restored, with another token."""
    return f"{boot} {token}"


class Boot:
    """A script of work that was given, what was answered to its `started`, and whether its work has begun."""

    def __init__(self, machine, words, kernel, at):
        self.machine, self.words, self.kernel, self.given = machine, words, kernel, at
        self.purpose, self.counted, self.leaves, self.begun = words["purpose"], None, [], None
        self.refused = self.asked = None


class Order:
    def __init__(self, members, at):
        self.machine, self.kind, self.first, self.last = members["machine"], members["kind"], at, at


class Watch:
    def __init__(self, world):
        self.world, self.findings, self.races, self.counts = world, [], collections.Counter(), collections.Counter()
        self.boots, self.orders, self.keys = {}, {}, {}
        self.commands = collections.defaultdict(list)       # of each machine, the exchanges of its commands
        self.deployed = {}      # of each machine, the last moments at which the desk was asked and said Deployed
        self.spells = {}        # of each machine, when the desk had first said Deployed, without a command of LEAVING since
        self.status = {}        # of each machine, what the desk said last
        self.lost_keys = {}     # those of commands that a lost hall had done
        self.lost_at = -1.0     # when a hall was lost last
        self.told_off = {}      # of each machine, when its controller said last that it is off
        self.unseen = {}        # machines whose `off` was answered done while they were on and no controller had said that they are off
        self.erased = {}        # machines whose erasing ended done, and its boot

    def find(self, number, text):
        self.findings.append(f"{number}: {text}")
        self.world.note(f"FINDING {number}: {text}")

    def lost(self):
        """The hall is lost, and a copy of it restored: numbers, versions and keys go on from there, and so does a boot that hadn't started in the copy.
        What was Deployed stays so, and what was aborted."""
        for boot in self.boots.values():
            boot.begun = None
        self.lost_keys |= self.keys
        self.lost_at = self.world.now()
        self.orders, self.keys, self.status, self.unseen, self.erased = {}, {}, {}, {}, {}

    # ---- the wire
    def sent(self, exchange):
        command = exchange.members.get("command")
        if command and "machine" in exchange.members:
            exchange.version = self.status.get(exchange.members["machine"], {}).get("version", 0)
            exchange.is_repeat = False
            self.commands[exchange.members["machine"]].append(exchange)

    def came(self, request, opened):
        """A machine's request, whatever becomes of it."""
        found = re.match(rb'POST /report/(\d+)/(\w+) (?s:.*)"started"', request)
        boot = found and self.boots.get(key_of(found[1].decode(), found[2].decode()))
        if boot:
            boot.asked = max(boot.asked or 0, opened)

    def answered(self, exchange):
        """What the desk answered."""
        note = f"{exchange.way}: {exchange.method} {without_token(exchange.path)} {said(exchange)}: {exchange.status} {short(exchange.body)}"
        if exchange.path not in ("/orders", "/machines") or exchange.status not in (200, None):
            self.world.note(note + (f" ({exchange.fate})" if exchange.fate != "straight" else ""))
        if exchange.status != 200:
            return
        if exchange.path.startswith("/ipxe/"):
            self.script(exchange)
        elif exchange.path.startswith("/report/"):
            self.report(exchange)
        elif exchange.path == "/orders":
            self.listed(exchange)
        elif exchange.path.startswith("/orders/"):
            self.order_answered(exchange)
        elif exchange.path == "/commands":
            self.commanded(exchange)

    def script(self, exchange):
        found = WORK.search(exchange.body.decode())
        machine = self.world.by_mac(exchange.path[6:])
        words = dict(word[5:].split("=", 1) for word in found[2].split() if word.startswith("hall.")) if found else {}
        if machine and words:
            self.boots.setdefault(key_of(words["boot"], words["token"]), Boot(machine, words, found[1], exchange.sent))
            self.counts["scripts of work"] += 1
            self.world.stir("script", machine)
        is_kept = machine and self.is_kept(machine.number, exchange.ended) and self.spells[machine.number] < exchange.sent
        if is_kept and exchange.body.decode() not in OWN_DISK:
            self.find(3, f"machine {machine.number} is Deployed, and its script is {'work' if words else 'that of a machine that is held'}")

    def boot_of(self, exchange):
        found = re.match(r"/report/(\d+)/(\w+)$", exchange.path)
        return found and self.boots.get(key_of(*found.groups()))

    def report(self, exchange):
        boot, stage = self.boot_of(exchange), exchange.members.get("stage")
        if boot is None or exchange.body != b'{"result":"counted"}':
            return
        self.counts[f"{boot.purpose} {stage}"] += 1
        if stage == "started":
            boot.counted = exchange.ended
            self.world.stir("erasing" if boot.purpose == "erase" else "counted", boot.machine)
        elif stage == "done" and boot.purpose == "deploy":
            self.is_deployed(boot.machine.number, exchange.sent, exchange.ended)
            disk = boot.machine.disk
            if disk.content != f"image {self.world.image_of(boot.kernel)}":
                self.find(5, f"machine {boot.machine.number}: done of deploy boot {exchange.path.split('/')[2]} counted, its disk has {disk.content}")
            self.world.stir("deployed", boot.machine)
        elif stage == "done" and boot.purpose == "erase":
            self.erased[boot.machine.number] = boot

    def listed(self, exchange):
        for members in read_list(exchange.body, "orders"):
            if members["number"] not in self.orders:
                self.orders[members["number"]] = Order(members, exchange.opened)
                self.world.stir("order", self.world.machines[members["machine"]])
            order = self.orders[members["number"]]
            order.last = max(order.last, exchange.opened)

    def order_answered(self, exchange):
        """A done `off` of a machine that is on, and of which no controller has said that it is off since the order was listed."""
        order = self.orders.get(int(exchange.path.split("/")[2]))
        if order is None or exchange.body != b'{"result":"counted"}' or exchange.members.get("outcome") != "done":
            return
        self.counts[f"{order.kind} done"] += 1
        machine = self.world.machines[order.machine]
        if order.kind == "off" and machine.is_on and self.told_off.get(order.machine, -1) < order.first:
            self.unseen[order.machine] = exchange.path.split("/")[2]

    def commanded(self, exchange):
        """A command that was done: now, or before, where its key was answered before or its version is none after that which was seen."""
        key, version = exchange.members.get("key"), json.loads(exchange.body).get("version")
        if key in self.lost_keys and key not in self.keys:
            self.races["key"] += 1
        if key in self.keys or version is not None and version <= exchange.version:
            exchange.is_repeat = True
            return
        self.keys[key] = exchange
        self.counts[exchange.members.get("command")] += 1

    def delivered(self, exchange, at):
        """An answer of the desk that is passed on whole."""
        boot = self.boot_of(exchange)
        if boot is None or exchange.members.get("stage") != "started":
            return
        if exchange.status == 200 and exchange.body == b'{"result":"counted"}':
            boot.leaves.append(exchange.opened)
        if exchange.status in (404, 409, 410):
            boot.refused = exchange.opened

    # ---- what the desk says of its machines, when it is asked directly
    def looked(self, sent, rows):
        now = self.world.now()
        for row in rows:
            number, before = row["id"], self.status.get(row["id"])
            self.status[number] = row
            if before is None or before["status"] != row["status"]:
                self.world.note(f"desk: machine {number}: {row['status']}, version {row['version']}")
                self.counts["statuses"] += 1
            if row["status"] == "Deployed":
                self.is_deployed(number, sent, now)
            if row["status"] not in ("Disk erasing", "Releasing", "Failed releasing", "Ready"):
                self.erased.pop(number, None)
            if row["status"] == "Ready" and before and before["status"] == "Releasing":
                self.is_ready(number)
            elif row["status"] != "Releasing":
                self.unseen.pop(number, None)

    def is_deployed(self, number, sent, ended):
        if not self.is_kept(number, sent):
            self.spells[number] = ended
        self.deployed[number] = sent, ended

    def is_ready(self, number):
        machine = self.world.machines[number]
        order, boot = self.unseen.pop(number, None), self.erased.pop(number, None)
        if order:
            self.find(4, f"machine {number} is Ready, it was on when order {order} was answered done, and its controller hadn't said that it is off")
        if boot and machine.disk.content != "erased":
            self.find(5, f"machine {number} is Ready after an erasing that was done, and its disk has {machine.disk.content}")

    def is_kept(self, number, at):
        """Whether a machine must be left as it is: the desk said Deployed, and nothing was said since that may have ended that."""
        if number not in self.deployed:
            return False
        since, _ = self.deployed[number]
        for exchange in self.commands[number]:
            is_open = exchange.sent <= at and (exchange.ended is None or exchange.ended >= since)
            is_void = exchange.is_repeat or exchange.status not in (200, None)
            if exchange.members["command"] in LEAVING and is_open and not is_void:
                return False
        return True

    # ---- disks and power
    def begins(self, machine, key, purpose):
        """A program begins that writes the machine's disk."""
        boot, now, number = self.boots.get(key), self.world.now(), key.split()[0]
        self.counts["works"] += 1
        where = f"machine {machine.number}: {purpose} of boot {number} begins"
        if boot is None or boot.machine is not machine or boot.purpose != purpose:
            return self.find(1, f"{where}, which no script has given it")
        if boot.begun is not None:
            self.find(1, f"{where} a second time")
        boot.begun = now
        leave = max((opened for opened in boot.leaves if opened >= machine.since), default=None)
        if boot.counted is None or leave is None:
            self.find(1, f"{where}, and the desk's counted didn't come on a connection of its own")
        for exchange in self.commands[machine.number]:
            is_done = exchange.status == 200 and not exchange.is_repeat and exchange.ended <= now
            if exchange.members["command"] == "abort" and is_done and boot.given <= exchange.sent and not self.is_asked_again(machine, purpose, exchange):
                if leave is None or exchange.ended < leave:
                    self.find(1, f"{where} after its abort was answered")
                else:
                    self.races["leave"] += 1
        self.touches(machine, f"{purpose} of boot {number}")

    def is_asked_again(self, machine, purpose, abort):
        """Whether its owner asked for the work again after an abort, and then the hall was lost: a copy from before the abort has the machine at that
        work, as the lost hall had it, with the boot of then."""
        return any(it.members["command"] in ASKING[purpose] and it.status == 200 and not it.is_repeat and abort.ended <= it.ended <= self.lost_at
                   for it in self.commands[machine.number])

    def touches(self, machine, what):
        if self.is_kept(machine.number, self.world.now()):
            self.find(2, f"machine {machine.number}: its disk is touched by {what}, while it is Deployed")

    def told(self, controller, machine, word, since):
        """A controller is told to switch off its machine, by a program that was called at a moment."""
        if word != "off" or not machine.is_on or not self.is_kept(machine.number, self.world.now()):
            return
        spell = self.spells[machine.number]
        youngest = max((order.last for order in self.orders.values() if order.machine == machine.number and order.last <= spell), default=None)
        allowed = LIST_AGE + SLACK + 2 * self.world.lateness
        if youngest is not None and (since <= spell or since - youngest <= allowed):
            self.races["order"] += 1
            self.world.note(f"race: order: machine {machine.number}, listed {since - youngest:.1f} s before")
        elif since - self.world.swapped <= allowed:
            self.races["swap"] += 1
            self.world.note(f"race: swap: machine {machine.number}")
        else:
            age = "none was listed before" if youngest is None else f"listed {since - youngest:.1f} s before"
            self.find(3, f"machine {machine.number} is Deployed and on, and {controller} is told to switch it off; an order for it: {age}")

    def restarts(self, machine, key):
        """The live image restarts its machine by itself."""
        boot = self.boots.get(key)
        if boot and boot.begun is None and boot.refused and boot.refused >= machine.since and boot.refused >= (boot.asked or 0):
            self.find(6, f"machine {machine.number}: boot {key.split()[0]} was refused, and the machine restarts in place of switching off")


def read_list(body, name):
    try:
        return json.loads(body)[name]
    except (ValueError, LookupError):
        return []


def without_token(path):
    return re.sub(r"(/report/\d+)/.*", r"\1", path)


def said(exchange):
    return " ".join(f"{name}={value}" for name, value in exchange.members.items() if name != "key")


def short(body):
    text = body.decode(errors="replace").replace("\n", " ")
    return text if len(text) < 90 else f"{len(text)} octets"
