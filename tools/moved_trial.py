"""lists/hall_moved.py over a hall that was restored: moved_trial.py HALLBOOT HALL_MOVED HALLCTL. Run by moved_trial.sh, which says what is looked at."""
import gzip, json, os, re, shlex, sqlite3, subprocess, sys, time, uuid
from served_hall import ADMIN, Hall, address, digest

READY = "commission works "
IN_USE = READY + "allocate:olga deploy:olga:jammy works "
BOBS = "allocate:bob deploy:bob:noble works "
FREED = "release:olga:none answered "
UNFREE = ["release --erase none --yes", "order failed", "break", "fix"]    # from Deployed to Ready, without a switch
OUT = ["exit-rescue --yes", "order done"]

# What is done to a machine before the copy and after it; by the life cycle's rules where that leaves it, in the log and in the copy; whether an old order
# waits in the copy; and the lines that mend it, without its number.
# A line is no answer of the program's: it is the shortest way of the life cycle that passes no script and answers each of its own orders.
MACHINES = {
    1: (IN_USE, FREED + BOBS, "Deployed bob noble", "Deployed olga jammy", False, UNFREE),
    2: (READY, "allocate:olga deploy:olga:jammy works", "Deployed olga jammy", "Ready", False, []),
    3: (READY + "allocate:olga deploy:olga:jammy", "works", "Deployed olga jammy", "Deploying olga jammy", True, []),
    4: (IN_USE + "release:olga:quick", "works answered " + BOBS, "Deployed bob noble", "Disk erasing olga jammy", True, ["break", "fix"]),
    5: (IN_USE + "rescue:olga started", "exit:olga answered", "Deployed olga jammy", "Rescue mode olga jammy", False, OUT),
    6: ("commission", "works allocate:olga deploy:olga:jammy works", "Deployed olga jammy", "Commissioning", True,
        ["commission", "abort", "order failed"]),
    7: (READY + "test started failed", "override", "Ready", "Failed testing", False, ["override"]),
    8: (READY, "delete", "gone", "Ready", False, []),
    9: (IN_USE, "lock:olga", "Deployed olga jammy locked", "Deployed olga jammy", False, ["lock"]),
    10: (READY, "break", "Broken", "Ready", False, ["break"]),
    11: (READY, "allocate:olga", "Allocated olga", "Ready", False, ["olga allocate"]),
    12: (IN_USE, "release:olga:quick started", "Disk erasing olga jammy", "Deployed olga jammy", False, []),
    13: (READY, "", None, "Ready", False, []),
    14: (READY + "break", "fix allocate:bob deploy:bob:jammy works", "Deployed bob jammy", "Broken", False, ["fix"]),
    15: (READY + "test answered", "works allocate:olga deploy:olga:jammy works", "Deployed olga jammy", "Testing", False,
         ["abort", "order failed", "override"]),
    16: ("commission", "works " + BOBS, "Deployed bob noble", "Commissioning", True, ["commission", "abort", "order failed"]),
    17: (IN_USE + "lock:olga", "unlock:olga " + FREED + BOBS, "Deployed bob noble", "Deployed olga jammy locked", False, ["unlock"] + UNFREE),
    18: (IN_USE, FREED + "allocate:olga deploy:olga:noble works lock:olga", "Deployed olga noble locked", "Deployed olga jammy", False, UNFREE),
    19: (READY + "allocate:bob", "release:bob:none answered allocate:olga deploy:olga:jammy works", "Deployed olga jammy", "Allocated bob", False,
         ["break", "fix"]),
    20: (IN_USE + "rescue:olga started exit:olga", "answered", "Deployed olga jammy", "Exiting rescue mode olga jammy", True, OUT),
    21: (IN_USE + "rescue:olga", "started", "Rescue mode olga jammy", "Entering rescue mode olga jammy", True, OUT),
    22: (IN_USE, "rescue:olga started exit:olga answered", "Deployed olga jammy", "Deployed olga jammy", False, []),
    23: (READY + "allocate:olga deploy:olga:jammy answered", "works release:olga:none answered " + BOBS, "Deployed bob noble", "Deploying olga jammy", False,
         ["abort", "order failed", "break", "fix"]),
    24: (IN_USE + FREED.replace(" answered", ""), "answered", "Ready", "Releasing olga jammy", True, ["break", "fix"]),
    25: (READY, "allocate:bob deploy:bob:noble started failed", "Failed deployment bob noble", "Ready", False, ["bob allocate"]),
    26: ("commission works break", "rescue: started exit: answered", "Broken", "Broken", False, []),
    27: ("commission", "started", "Commissioning", "Commissioning", True, []),
    28: ("commission", "answered", "Commissioning", "Commissioning", True, []),
    29: (READY, "card pool", "Ready", "Ready", False, [f"add-interface --mac {address(1029)}", "set-pool --pool east"]),
    30: (IN_USE + "rescue:olga answered", "started exit:olga answered", "Deployed olga jammy", "Entering rescue mode olga jammy", False, []),
    31: (IN_USE, "release:olga:quick started failed", "Failed disk erasing olga jammy", "Deployed olga jammy", False, []),
    32: (READY + "test answered", "works", "Ready", "Testing", False, ["override"]),
    33: (IN_USE, "rescue:olga started", "Rescue mode olga jammy", "Deployed olga jammy", False, []),
    34: (IN_USE, "release:olga:quick started abort:olga", "Failed disk erasing olga jammy", "Deployed olga jammy", False, []),
}
OVERDUE = [16, 32]      # their deadlines pass in the copy, so that the desk ends their work, and withdraws an order
GONE = 35         # by the log: added since, and deleted
ADDED = 36        # by the log: added since, and Deployed for olga by jammy
OWNER_CHANGED = [1, 4, 17, 19, 23]
SWITCHED_OFF = [2, 14, 16, 19]
ERASED = [4]
ADOPTS = ["--image jammy --owner-token-file bob.token --power-token-file pow.token --machines 14",
          "--image noble --owner-token-file bob.token --admin-token-file admin.token --power-token-file pow.token --machines 1,4,16-17,23",
          "--image jammy --owner-token-file olga.token --admin-token-file admin.token --power-token-file pow.token --machines 2-3,6,15,19,36",
          "--image noble --owner-token-file olga.token --power-token-file pow.token --machines 18"]
LOOKS = {8: "ada deleted it at", 12: "Its disks were being erased for olga.", 21: "By the log it is in Rescue mode", 27: "It was being commissioned.",
         28: "It was being commissioned.", 30: "In the restored hall it is in Entering rescue mode, which allows nothing: wait until 20",
         31: "Its disks may still have olga's data: olga releases it again, with --erase", 33: "By the log it is in Rescue mode",
         34: "Its live image may still be at work: look that it is off.", GONE: "It was added and deleted since."}
TOUCHED = {27: "its boot has changed at 20", 28: "its order has changed at 20"}
AGAIN = ["add-operator zoe --role ROLE --digest DIGEST", "add-pool east", "grant east zoe",
         "add-image focal --arch ARCH --kernel URI --initrd URI", "set-live focal",
         f"add-machine --mac {address(GONE)} --arch ARCH --pool POOL --uuid UUID", f"delete {GONE} --yes",
         f"add-machine --mac {address(ADDED)} --arch ARCH --pool POOL --uuid UUID"]
URIS = {"kernel": "http://files.example/k", "initrd": "http://files.example/i", "args": []}


class Log(Hall):
    """A hall whose log has moments in the form at hand: seconds, UTC or JSON."""

    words = ()

    def ask(self, target, token=None, body=None, patience=120.0, source="127.0.0.1"):
        return super().ask(target, token, body, patience, source)

    def start(self):
        self.running = subprocess.Popen(
            [self.program, "serve", "--db", self.file, "--discover", f"127.0.0.1:{self.discover}", "--boot", f"127.0.0.1:{self.boot}",
             "--http", f"{self.host}:{self.http}", "--turns", "1000000000000", "--server", "127.0.0.1", "--next", "127.0.0.1",
             "--host", f"127.0.0.1:{self.http}", "--log", self.log, *self.words], stdout=subprocess.PIPE, text=True)

    def again(self, log, *words):
        """Serves it with another log."""
        self.stop()
        self.log, self.words = log, words
        self.serve()

    def machine(self, number):
        return json.loads(self.ask(f"/machines/{number}", ADMIN)[1])

    def works(self, number, *stages):
        script = self.ask(f"/ipxe/{address(number)}")[1].decode()
        boot, token = re.search(r"hall\.boot=(\d+) hall\.token=(\w+)", script).groups()
        for stage in stages:
            self.ask(f"/report/{boot}/{token}", body=json.dumps({"stage": stage}))

    def does(self, number, words):
        """What is done to a machine, word by word: a command with its operator, or what the machine or the power program does."""
        for word in words.split():
            name, *of = word.split(":")
            if name == "works":
                self.works(number, "started", "done")
            elif name in ("started", "failed"):
                self.works(number, name)
            elif name == "answered":
                self.ask(f"/orders/{self.machine(number)['order']}", "pow", json.dumps({"outcome": "done"}))
            elif name == "card":
                self.command(command="add_interface", machine=number, mac=address(1000 + number))
            elif name == "pool":
                self.command(command="set_pool", machine=number, pool="east")
            else:
                members = {"commission": {"tests": False}, "deploy": {"image": of[-1] if of else ""},
                           "release": {"erase": of[-1] if of else ""}}.get(name, {})
                self.command(of[0] if of and of[0] else ADMIN, command={"exit": "exit_rescue"}.get(name, name), machine=number, **members)


class Trial:
    def __init__(self):
        self.checks, self.faults = 0, []

    def wants(self, what, is_so, seen=""):
        self.checks += 1
        if not is_so:
            self.faults.append(f"{what}: {seen}")


def first_life(hall):
    for name, role in (("olga", "user"), ("bob", "user"), ("eve", "user"), ("pow", "power")):
        hall.command(command="add_operator", operator=name, role=role, digest=digest(name))
    hall.command(command="add_pool", pool="lab")
    for name in ("olga", "bob", "eve"):
        hall.command(command="grant", pool="lab", operator=name)
    for image in ("live64", "jammy", "noble"):
        hall.command(command="add_image", image=image, arch="uefi64", **URIS)
    hall.command(command="set_live", image="live64")
    for number, (before, *_) in MACHINES.items():
        hall.command(command="add_machine", mac=address(number), arch="uefi64", pool="lab")
        hall.does(number, before)


def next_second():
    """A hall is used on in another second than that of its backup; what a restored hall replaces is kept under a name with the second."""
    now = int(time.time())
    while int(time.time()) == now:
        time.sleep(0.01)


def second_life(hall):
    next_second()
    hall.serve()
    hall.command(command="add_operator", operator="zoe", role="user", digest=digest("zoe"))
    hall.command(command="disable_operator", operator="eve")
    hall.command(command="add_pool", pool="east")
    hall.command(command="grant", pool="east", operator="zoe")
    hall.command(command="add_image", image="focal", arch="uefi64", **URIS)
    for number, (_, since, *_) in MACHINES.items():
        if number == 14:
            hall.again("second.log", "--log-time", "utc")
        if number == 20:
            hall.again("third.log", "--log-format", "json")
        hall.does(number, since)
    for number in (GONE, ADDED):
        hall.command(command="add_machine", mac=address(number), arch="uefi64", pool="lab")
    hall.command(command="delete", machine=GONE)
    hall.does(ADDED, IN_USE + "card")
    hall.command(command="set_live", image="focal")
    hall.stop()


def statements(file, *texts):
    tables = sqlite3.connect(file)
    for text in texts:
        tables.execute(text)
    tables.commit()
    tables.close()


def ask_moved(moved, *words):
    it = subprocess.run([sys.executable, moved, *words], capture_output=True, text=True, timeout=300)
    return it.returncode, it.stdout, it.stderr


def parts(out):
    """The lines of each machine, and those of each step, indented ones without their comment."""
    machines, steps, at = {}, {number: [] for number in range(1, 8)}, []
    for line in out.splitlines():
        if it := re.match(r"machine (\d+)\b", line):
            at = machines.setdefault(int(it[1]), [])
        elif it := re.match(r"(\d)\. ", line):
            at = steps[int(it[1])]
        elif line.startswith("    "):
            at.append(line.strip())
    return machines, steps


def bare(lines):
    return [it for it in (line.split("    #")[0] for line in lines) if not it.startswith("#")]


def text_of(words):
    """`Deployed olga jammy locked` as the program says it."""
    status = next(it for it in ("Disk erasing", "Failed disk erasing", "Rescue mode", "Entering rescue mode", "Exiting rescue mode", "Failed testing", "Failed deployment",
                                words.split()[0]) if words.startswith(it))
    rest = words[len(status):].split()
    is_locked = "locked" in rest
    names = [it for it in rest if it != "locked"]
    said = [status, f"owner {names[0]}" if names else "nobody's", f"image {names[1]}" if len(names) > 1 else "no image"]
    return ", ".join(said + ["Deployed before"] * status.lower().endswith("rescue mode") + ["locked"] * is_locked)


def meant_orders(copy):
    """The lines that answer what waits: a machine's order is the one that its row names."""
    tables = sqlite3.connect(copy)
    rows = dict(tables.execute("SELECT id, waiting FROM machines WHERE waiting IS NOT NULL"))
    last, = tables.execute("SELECT orders FROM hall").fetchone()
    tables.close()
    return {number: f"hallctl --token-file pow.token order {order} --failed" for number, order in rows.items()}, last


def meant_lines(last):
    """The lines of step 4, with the orders that they queue one after another."""
    lines = []
    for number, (*_, acts) in MACHINES.items():
        for words in acts:
            last += words in ("release --erase none --yes", "abort", "commission", "exit-rescue --yes")
            name, _, rest = words.partition(" ")
            lines.append({"order": f"hallctl --token-file pow.token order {last} --{rest}", "olga": f"hallctl --token-file olga.token {rest} {number}",
                          "bob": f"hallctl --token-file bob.token {rest} {number}"}.get(name, f"hallctl {name} {number} {rest}".strip()))
    return lines + [f"hallctl add-interface {ADDED} --mac {address(1000 + ADDED)}"]


def looks_at(trial, out, copy):
    machines, steps = parts(out)
    waits, last = meant_orders(copy)
    trial.wants("the machines that moved", sorted(machines) == sorted([number for number, it in MACHINES.items() if it[1]] + [GONE, ADDED]), sorted(machines))
    for number, (_, since, now, old, has_order, _) in MACHINES.items():
        its = machines.get(number, [])
        if since:
            said = "by the log: deleted at 20" if now == "gone" else f"by the log: {text_of(now)}" + " since 20" * (number not in TOUCHED)
            trial.wants(f"machine {number} by the log", its and its[0].startswith(said), its)
            trial.wants(f"machine {number} in the restored hall", its[1:2] == [f"in the restored hall: {text_of(old)}"], its)
        trial.wants(f"machine {number}: whether its order waits", (number in waits) == has_order, waits.get(number))
    for what, text, numbers in (("its owner changed", "WARN: its owner has changed", OWNER_CHANGED), ("it is switched off", "would be switched off", SWITCHED_OFF),
                                ("it is erased", "have its disks erased", ERASED)):
        found = [number for number, its in machines.items() if any(text in line for line in its)]
        trial.wants(f"WARN where {what}", set(numbers) <= set(found) and (text != "WARN: its owner has changed" or found == numbers), found)
    for number, text in [*LOOKS.items(), *TOUCHED.items()]:
        trial.wants(f"machine {number}: what is looked at by hand", any(line.startswith(text) for line in machines.get(number, [])), machines.get(number))
    trial.wants("the orders that wait", sorted(bare(steps[2])) == sorted(waits.values()), steps[2])
    trial.wants("an overdue one is the desk's", [line for line in steps[2] if "`Withdrawn` will do" in line and f"of machine {OVERDUE[0]}," in line], steps[2])
    trial.wants("what the hall lacks", sorted(bare(steps[3])) == sorted(f"hallctl {it}" for it in AGAIN), steps[3])
    trial.wants("the lines that mend machines", bare(steps[4]) == meant_lines(last), (bare(steps[4]), meant_lines(last)))
    trial.wants("a line of adopt for each owner and image", bare(steps[5]) == [f"hallboot adopt --db hall.db --at $(date +%s) {it}" for it in ADOPTS], steps[5])
    trial.wants("what comes last", bare(steps[6]) == ["hallctl disable-operator eve", "hallctl lock 18"], steps[6])
    trial.wants("what is looked at by hand", out.endswith("\n7. Look at by hand, as said above, before the power program starts: machines 8,12,21,27-28,30-31,33-35.\n"), out[-200:])
    return steps


# ---- The lines are typed
FILLED = {"ROLE": "user", "DIGEST": digest("zoe"), "ARCH": "uefi64", "URI": URIS["kernel"], "POOL": "lab", " --uuid UUID": ""}


def filled(line):
    for word, its in FILLED.items():
        line = line.replace(word, its)
    return line


def by_http(hall, line):
    """A line of hallctl as the desk's request: whether it is done, or withdrawn already."""
    words = shlex.split(line)[1:]
    token = ADMIN
    if words[0] == "--token-file":
        token, words = words[1].removesuffix(".token"), words[2:]
    name, about = words[0].replace("-", "_"), [it for it in words[1:] if not it.startswith("--")]
    options = dict(zip((it for it in words if it.startswith("--")), (words[at + 1] if at + 1 < len(words) else "" for at, it in enumerate(words) if it.startswith("--"))))
    if name == "order":
        return hall.ask(f"/orders/{about[0]}", token, json.dumps({"outcome": words[-1].strip("-")}))
    members = {it.strip("-"): value for it, value in options.items() if it not in ("--yes", "--uuid")}
    if name in ("add_operator", "disable_operator"):
        members["operator"] = about[0]
    elif name in ("add_pool", "grant"):
        members.update(zip(("pool", "operator"), about))
    elif name in ("add_image", "set_live"):
        members.update(image=about[0], **({"args": []} if name == "add_image" else {}))
    elif name != "add_machine":
        members["machine"] = int(about[0])
    if name == "commission":
        members["tests"] = False
    return hall.ask("/commands", token, json.dumps({"key": str(uuid.uuid4()), "command": name, **members}))


def by_hallctl(hall, hallctl, line):
    it = subprocess.run([hallctl, *shlex.split(line)[1:]], capture_output=True, text=True, timeout=300, stdin=subprocess.DEVNULL,
                        env={**os.environ, "HALL_DESK": f"http://127.0.0.1:{hall.http}", "HALL_TOKEN_FILE": "admin.token"})
    return it.returncode, it.stdout + it.stderr


def asks(trial, hall, hallctl, line, number):
    """hallctl asks before this line, so it refuses it where nobody can be asked, and changes nothing."""
    before = hall.machine(number)
    status, said = by_hallctl(hall, hallctl, line)
    trial.wants(f"without --yes this is refused: {line}", status == 2 and "say --yes" in said and hall.machine(number) == before, (status, said))


def typed(trial, hall, hallctl, line):
    line = filled(line)
    if hallctl:
        if its := re.search(r" (?:release|exit-rescue) (\d+) .*--yes$|^hallctl delete (\d+) --yes$", line):
            asks(trial, hall, hallctl, line.removesuffix(" --yes"), int(its[1] or its[2]))
        status, said = by_hallctl(hall, hallctl, line)
        done = status == 0
    else:
        status, body = by_http(hall, line)
        done, said = status == 200, body.decode()
    trial.wants(line, done or " order " in line and "Withdrawn" in said, said)


def boots_of(file):
    tables = sqlite3.connect(file)
    count, = tables.execute("SELECT count(*) FROM boots").fetchone()
    tables.close()
    return count


ADOPTABLE = {"New", "Ready", "Allocated", "Failed deployment"}
MENDED = {5: "Deployed", 7: "Ready", 9: "Deployed", 10: "Broken", 11: "Allocated", 20: "Deployed", 21: "Deployed", 24: "Ready", 25: "Allocated", 26: "Broken", 32: "Ready"}


def adopted_by(numbers):
    found = set()
    for part in numbers.split(","):
        first, _, last = part.partition("-")
        found |= set(range(int(first), int(last or first) + 1))
    return found


def on_loopback(trial, hall, steps):
    """The line of step 1 is typed: the hall is served where it says."""
    line = shlex.split(bare(steps[1])[0])
    trial.wants("step 1 serves on loopback", line[:2] == ["hallboot", "serve"] and "--loopback" in line, line)
    hall.running = subprocess.Popen([hall.program, *line[1:]], stdout=subprocess.PIPE, text=True)
    said = [hall.running.stdout.readline() for _ in range(4)]
    it = re.fullmatch(r"discover \S+\nboot \S+\nhttp 127\.0\.0\.1:(\d+)\nhall desk ready\n", "".join(said))
    if not it:
        raise SystemExit(f"moved_trial: the desk isn't ready on loopback: {said}")
    hall.http = int(it[1])


def mends(trial, hall, hallctl, steps):
    """The lines of steps 1 to 4 are typed: each is done, no machine is given work, no order is left, and adopt can take what it names."""
    for name in ("olga", "bob", "pow", "admin"):
        with open(f"{name}.token", "w") as file:
            file.write(f"{ADMIN if name == 'admin' else name}\n")
    boots = boots_of(hall.file)
    on_loopback(trial, hall, steps)
    if hallctl:
        asks(trial, hall, hallctl, "hallctl rescue 22", 22)
    for line in bare(steps[2]) + bare(steps[3]) + bare(steps[4]):
        typed(trial, hall, hallctl, line)
    trial.wants("no order waits any more", json.loads(hall.ask("/orders", "pow")[1]) == {"orders": []}, hall.ask("/orders", "pow"))
    for line in ADOPTS:
        owner = re.search(r"--owner-token-file (\w+)\.token", line)[1]
        for number in adopted_by(line.split()[-1]):
            it = hall.machine(number)
            trial.wants(f"machine {number} can be adopted", it["status"] in ADOPTABLE and it["owner"] in (None, owner) and
                        ("admin.token" in line or it["status"] != "New"), it)
    for number, status in MENDED.items():
        it = hall.machine(number)
        trial.wants(f"machine {number} is mended", it["status"] == status and it["locked"] == (number == 9), it)
    hall.stop()
    with open("loopback.log") as file:
        said = file.read()
    trial.wants("no line leads through a script that writes or erases", not re.search(r" to (Deploying|Disk erasing)$", said, re.MULTILINE))
    trial.wants("no machine was given a script", boots_of(hall.file) == boots, (boots_of(hall.file), boots))


def adopts(trial, hall, hallctl, steps):
    """The lines of steps 5 and 6 are typed."""
    for line in bare(steps[5]):
        it = subprocess.run(["bash", "-c", line.replace("hallboot", shlex.quote(hall.program), 1)], capture_output=True, text=True, timeout=300)
        numbers = sorted(adopted_by(line.split()[-1]))
        trial.wants(line, it.returncode == 0 and it.stdout == "".join(f"machine {number}: Deployed\n" for number in numbers), it.stdout + it.stderr)
    on_loopback(trial, hall, steps)
    for line in bare(steps[6]):
        typed(trial, hall, hallctl, line)
    for line in ADOPTS:
        image, owner = re.search(r"--image (\w+) --owner-token-file (\w+)\.token", line).groups()
        for number in adopted_by(line.split()[-1]):
            it = hall.machine(number)
            trial.wants(f"machine {number} is adopted", (it["status"], it["owner"], it["image"], it["locked"]) == ("Deployed", owner, image, number == 18), it)
            script = hall.ask(f"/ipxe/{address(number)}")
            trial.wants(f"machine {number} starts its own disk", script == (200, b"#!ipxe\nexit\n"), script)
    trial.wants("no order waits at the end", json.loads(hall.ask("/orders", "pow")[1]) == {"orders": []}, hall.ask("/orders", "pow"))
    refused = hall.ask("/commands", "eve", json.dumps({"key": str(uuid.uuid4()), "command": "allocate", "machine": 13}))
    trial.wants("eve's token is refused again", refused == (401, b'{"refusal":"UnknownToken"}'), refused)
    hall.stop()


# ---- What is refused, and where the log is not whole
def refusals(trial, hall, moved, copy, logs):
    def refused(what, status, text, *words):
        got, out, said = ask_moved(moved, *words)
        trial.wants(f"refused: {what}", got == status and out == "" and text in said and (status == 2 or said.startswith("hall-moved: ") and said.count("\n") == 1),
                    (got, out[:200], said))

    refused("a log that begins after the backup", 1, "after the backup", "--db", copy, "--log", "third.log", "--since", str(int(time.time()) - 100000))
    refused("no file", 1, "missing.db", "--db", "missing.db", "--log", *logs)
    refused("a file that is no hall's", 1, "isn't a hall's file", "--db", "second.log", "--log", *logs)
    refused("a log that isn't there", 1, "missing.log", "--db", copy, "--log", *logs, "missing.log")
    with open("other.log", "w") as file:
        file.write("Nov 30 10:00:00 desk kernel: no log of a desk\n")
    refused("a log of another program", 1, "no line of a desk's log", "--db", copy, "--log", "other.log")
    refused("a moment of no form", 2, "yesterday", "--db", copy, "--log", *logs, "--since", "yesterday")
    refused("no log", 2, "--journal", "--db", copy)
    refused("a log and the journal", 2, "not allowed", "--db", copy, "--journal", "--log", *logs)
    stand_in("journal", "exit 3")
    refused("a journal that can't be read", 1, "ended with status 3", "--db", copy, "--journal", "--journalctl", "./journal")
    hall.log = "served.log"
    hall.serve()
    refused("a hall that is served", 1, "in use" if hall.file + "-wal" not in os.listdir() else "hall.db", "--db", hall.file, "--log", *logs)
    hall.stop()


def stand_in(name, *lines):
    with open(name, "w") as file:
        file.write("#!/bin/sh\n" + "\n".join(lines) + "\n")
    os.chmod(name, 0o700)


def body_of(out):
    """All but the lines that say of which moments the log is."""
    return out.partition(" machines have moved since.")[2]


def other_logs(trial, moved, copy, logs, stamp, whole):
    """Other forms of the same log, and logs that aren't whole."""
    def says(what, is_so, *words, db=copy):
        status, out, said = ask_moved(moved, "--db", db, *words)
        trial.wants(what, status == 0 and is_so(out), (status, said, out[:1500]))

    lines = []
    for name in sorted(logs, reverse=True):    # second.log, moved.log.1.gz ..: the desk wrote them in this order
        lines.append((gzip.open if name.endswith(".gz") else open)(name, "rt").read())
    first, second, third = lines[2], lines[1], lines[0]
    with open("all.log", "w") as file:
        file.write(first + second + third)
    stand_in("journal", 'echo "$*" > journal.asked', "echo 'Started the desk.'", "cat all.log")
    says("the journal", lambda out: body_of(out) == body_of(whole), "--journal", "--journalctl", "./journal")
    with open("journal.asked") as file:
        asked = file.read().strip()
    trial.wants("how the journal is asked", re.fullmatch(rf"-u hallboot -o cat --no-pager -q --since=@{stamp - 7 * 86400}", asked), asked)
    says("--since", lambda out: "by --since" in out and body_of(out) == body_of(whole), "--log", "all.log", "--since", str(stamp))

    def with_log(text):
        with open("other.log", "w") as file:
            file.write(text)
        return "--log", "other.log"

    later = stamp + 100
    repeat = next(line.split(" ", 2)[2] for line in first.splitlines() if "lock of machine 17" in line)
    says("a repeated command changes nothing", lambda out: body_of(out) == body_of(whole), *with_log(first + second + third + f"{later} 10.0.0.9:1 {repeat}\n"))
    says("a line that is missing", lambda out: re.search(r"^WARN: .*: machine 1 was Ready by the lines before, and then Allocated", out, re.MULTILINE),
         *with_log("".join(line for line in (first + second + third).splitlines(True) if "allocate of machine 1 by bob" not in line)))
    says("lines that were lost", lambda out: re.search(r"^WARN: .*: 3 lines were lost", out, re.MULTILINE), *with_log(first + second + third + f"{later} - lost 3\n"))
    says("a request that was answered 503", lambda out: "WARN: 1 requests were answered 503" in out,
         *with_log(first + second + third + f"{later} 10.0.0.9:1 POST /commands allocate of machine 13 by olga: unavailable\n"))
    tables = sqlite3.connect(copy)
    version, = tables.execute("SELECT version FROM machines WHERE id = 13").fetchone()
    tables.close()
    moves = [("allocate", "Ready", "Allocated", 1), ("break", "Allocated", "Broken", 2), ("fix", "Broken", "Ready", 3), ("allocate", "Ready", "Allocated", 1)]
    says("a hall that was restored in between", lambda out: re.search(r"^WARN: .*: machine 13 had version \d+, and then \d+: was a hall restored", out, re.MULTILINE),
         *with_log(first + second + third + "".join(
             f'{later} 10.0.0.9:1 POST /commands {word} of machine 13 by ada: 200 {{"id":13,"status":"{after}","version":{version + more}}}; '
             f"machine 13: {before} to {after}\n" for word, before, after, more in moves)))
    enlisted = f"{later} 10.1.0.1:67 discover DISCOVER 52:54:00:99:99:99 uefi64: ipxe-x86_64.efi; machine {ADDED + 1}: new, New\n"
    says("a machine that enlisted itself", lambda out: f"    hallctl add-machine --mac 52:54:00:99:99:99 --arch uefi64 --pool default --uuid UUID    # machine {ADDED + 1}\n" in out,
         *with_log(first + second + third + enlisted))
    says("a file of the log is missing", lambda out: "WARN: no line between" in out, *with_log(first + second + third + f"{later + 90000} - backup failed\n"))
    says("a log that begins after the backup, with --incomplete", lambda out: "WARN: the log begins after the backup" in out and "--incomplete" in out,
         "--log", "third.log", "--since", str(stamp - 100000), "--incomplete")
    statements("old.db", "PRAGMA user_version = -1")
    says("a moment after 2038", lambda out: "2106-02-07T06:28:15Z, by the moment in the file" in out, "--log", "all.log", db="old.db")
    lines = first.splitlines(True)
    at = next((at for at, line in enumerate(lines) if int(line.split()[0]) > stamp), len(lines))
    with_backup = "".join(lines[:at]) + f"{stamp} - backup of 4096 octets in 2 ms\n" + "".join(lines[at:])
    statements("old.db", "PRAGMA user_version = 0")
    os.utime("old.db", (stamp + 5, stamp + 5))
    says("a copy without a moment, by the log's backup before it", lambda out: "by the log's last backup" in out and body_of(out) == body_of(whole),
         *with_log(with_backup + second + third), db="old.db")
    says("a copy without a moment, by its time", lambda out: "by the file's time alone" in out, "--log", "all.log", db="old.db")


def main(hallboot, moved, hallctl):
    trial = Trial()
    with Log(hallboot, "hall") as hall:
        hall.log = "moved.log"
        hall.serve()
        first_life(hall)
        hall.stop()
        hall.run("backup", "--to", "copy.db")
        # all other deadlines are far ahead, however slow this is
        statements("copy.db", "UPDATE machines SET deadline = deadline + 86400 WHERE deadline IS NOT NULL", f"UPDATE machines SET deadline = 1 WHERE id IN {tuple(OVERDUE)}", f"PRAGMA user_version = {int(time.time())}")
        tables = sqlite3.connect("copy.db")
        stamp, = tables.execute("PRAGMA user_version").fetchone()
        tables.close()
        second_life(hall)
        with gzip.open("moved.log.1.gz", "wb") as file:
            file.write(open("moved.log", "rb").read())
        os.remove("moved.log")
        logs = ["third.log", "second.log", "moved.log.1.gz"]
        hall.run("restore", "--from", "copy.db")
        before = open(hall.file, "rb").read()
        status, out, said = ask_moved(moved, "--db", "copy.db", "--log", *logs)
        trial.wants("it says what moved", status == 0 and said == "" and "by the moment in the file" in out, (status, said, out[:300]))
        restored = ask_moved(moved, "--db", hall.file, "--log", *logs, "--since", str(stamp))[1]
        trial.wants("of the restored hall as of its backup", body_of(restored) == body_of(out), restored[:300])
        trial.wants("the hall is as it was", open(hall.file, "rb").read() == before)
        steps = looks_at(trial, out, "copy.db")
        open("old.db", "wb").write(open("copy.db", "rb").read())
        other_logs(trial, moved, "copy.db", logs, stamp, out)
        if not trial.faults:    # wrong lines are not typed
            mends(trial, hall, hallctl, steps)
            hall.run("backup", "--to", "mended.db")
            again = parts(ask_moved(moved, "--db", "mended.db", "--backup", "copy.db", "--log", *logs)[1])[1]
            trial.wants("a hall that is mended wants no more", [bare(again[step]) for step in (2, 3, 4)] == [[], [], []], again)
            adopts(trial, hall, hallctl, steps)
            refusals(trial, hall, moved, "copy.db", logs)
    for text in trial.faults:
        print("moved_trial:", text)
    print(f"moved_trial: {trial.checks} checks, {len(trial.faults)} failed (machines that moved since a backup, by three forms of the log, and what mends them, "
          f"by {'hallctl' if hallctl else 'HTTP'}, and hallboot)")
    sys.exit(1 if trial.faults else 0)


if __name__ == "__main__":
    main(*sys.argv[1:])
