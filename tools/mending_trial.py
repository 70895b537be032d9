"""The guides for restoring and for taking over, followed word by word: mending_trial.py HALLBOOT HALLCTL. Run by mending_trial.sh, which says what is
looked at."""
import json, os, re, shutil, signal, sys, time, traceback, uuid
import mending_copies, mending_takeover
from mending_reader import Desk, Guide, Reader, comes, programs_in, text_in, with_yes
from moved_trial import BOBS, FREED, IN_USE, READY, URIS, Log, Trial, parts
from served_hall import ADMIN, address, digest

OWN_DISK, HELD = b"#!ipxe\nexit\n", b"#!ipxe\necho This machine is held by the hall desk\npoweroff\n"
# What is done to each machine before the backup (None: it isn't there yet) and after it, and what it is then, by the rules of the life cycle.
LIVES = {
    1: (IN_USE, "", "Deployed olga jammy"),
    2: (READY, BOBS, "Deployed bob noble"),
    3: (IN_USE + "release:olga:quick", "works answered allocate:olga deploy:olga:noble works", "Deployed olga noble"),
    4: ("commission", "answered works allocate:olga deploy:olga:jammy works", "Deployed olga jammy"),
    5: (IN_USE, FREED + BOBS, "Deployed bob noble"),
    6: (IN_USE + "release:olga:none", "answered", "Ready - -"),
    7: (READY, "", "Ready - -"),
    8: (IN_USE + "rescue:olga started", "exit:olga answered", "Deployed olga jammy"),
    9: ("", READY + "allocate:olga deploy:olga:jammy works lock:olga", "Deployed olga jammy"),
    10: (READY + "allocate:olga deploy:olga:jammy answered", "works", "Deployed olga jammy"),
    11: (None, READY + BOBS, "Deployed bob noble"),
}
WAITING = {3: "Disk erasing", 4: "Commissioning", 6: "Releasing"}     # in the backup, each with an order that waits
UUIDS = {number: str(uuid.UUID(int=0x33221100554477668899AABBCCDD0000 + number)) for number in LIVES}


def adds(hall, number):
    hall.command(command="add_machine", mac=address(number), arch="uefi64", pool="lab", uuid=UUIDS[number])


def first_life(hall):
    for name, role in (("olga", "user"), ("bob", "user"), ("pow", "power")):
        hall.command(command="add_operator", operator=name, role=role, digest=digest(name))
    hall.command(command="add_pool", pool="lab")
    for name in ("olga", "bob"):
        hall.command(command="grant", pool="lab", operator=name)
    for image in ("live64", "jammy", "noble"):
        hall.command(command="add_image", image=image, arch="uefi64", **URIS)
    hall.command(command="set_live", image="live64")
    for number, (before, *_) in LIVES.items():
        if before is not None:
            adds(hall, number)
            hall.does(number, before)


def second_life(hall):
    for number, (before, since, _) in LIVES.items():
        if before is None:
            adds(hall, number)
        hall.does(number, since)


def tokens_in(folder):
    for name in ("olga", "bob", "pow", "ada", "admin"):
        with open(os.path.join(folder, f"{name}.token"), "w") as file:
            file.write(f"{ADMIN if name in ('ada', 'admin') else name}\n")


def orders_of(hall, token="pow"):
    return json.loads(hall.ask("/orders", token)[1])["orders"]


def state_of(hall, number):
    it = hall.machine(number)
    return " ".join(it.get(member) or "-" for member in ("status", "owner", "image"))


def looks_at_unmended(trial, hallboot, restored):
    """What the guide warns of: the restored hall as it is, served apart."""
    os.mkdir("apart")
    shutil.copyfile(restored, "apart/hall.db")
    with Desk(hallboot, "apart/hall.db", "apart/desk.log") as desk:
        desk.serve()
        trial.wants("without the mending a server that runs is switched off", desk.ask(f"/ipxe/{address(2)}") == (200, HELD), desk.ask(f"/ipxe/{address(2)}"))
        script = desk.ask(f"/ipxe/{address(3)}")[1]
        trial.wants("without the mending a server that runs is erased", b" hall.purpose=erase " in script, script)
        waits = {it["machine"] for it in orders_of(desk)}
        trial.wants("without the mending old orders wait", waits == set(WAITING), waits)
        for number, status in WAITING.items():
            trial.wants(f"machine {number} is as it was when the hall was backed up", desk.machine(number)["status"] == status, state_of(desk, number))
        desk.stop()


def looks_at_mended(trial, hallboot, file):
    """The mended hall from outside, as machines, the power program and operators see it."""
    with Desk(hallboot, file, "served.log") as desk:
        desk.serve()
        for number, (*_, meant) in LIVES.items():
            trial.wants(f"machine {number} is {meant} again", state_of(desk, number) == meant, state_of(desk, number))
            script, is_deployed = desk.ask(f"/ipxe/{address(number)}"), meant.startswith("Deployed")
            trial.wants(f"machine {number} {'starts its own disk' if is_deployed else 'is held'}", script == (200, OWN_DISK if is_deployed else HELD), script)
        trial.wants("machine 9 is locked again", desk.machine(9)["locked"], desk.machine(9))
        trial.wants("no order waits", orders_of(desk) == [], orders_of(desk))
        desk.stop()
    trial.wants("machines that start change nothing", not re.search(r"; machine \d+:", text_in("served.log")), text_in("served.log"))


def types_all(trial, reader, lines, what):
    for line in lines:
        if not line.startswith("#"):
            said, errors, failed = reader.types(with_yes(line))
            trial.wants(f"{what}: {line}", not failed, failed + said + errors)
            its = re.search(r"# machine (\d+)$", line)
            if its:
                trial.wants(f"{what}: the number of the machine that is added", said.startswith(f"machine {its[1]}: New"), said)


def filled(lines):
    """The lines with what the log doesn't have: a machine's architecture, pool and UUID."""
    for line in lines:
        its = re.search(r"# machine (\d+)$", line)
        for word, value in (("ARCH", "uefi64"), ("POOL", "lab"), ("UUID", UUIDS[int(its[1])])) if its else ():
            line = line.replace(word, value)
        yield line


def serves_on_loopback(trial, guide, reader):
    """The guide's fourth step, up to the lines of moved.txt: the desk that serves."""
    addresses = os.path.join(reader.folder, "addresses")
    if os.path.exists(addresses):
        os.remove(addresses)
    it = reader.other(guide.block("hallboot serve --db hall.db --loopback"))
    comes("the desk on loopback", lambda: "hall desk ready\n" in text_in(addresses) or it.poll() is not None)
    said, errors, failed = reader.types(guide.block("hallctl hello"))
    trial.wants("the desk on loopback says hello, and lists orders", not failed and "your role is admin" in said, failed + said + errors)
    return it


def mends(trial, guide, reader):
    """Steps 3 to 5 of the guide, by what hall-moved prints."""
    said, errors, failed = reader.types(guide.block("hall-moved --db hall.db --log"))
    moved = text_in(os.path.join(reader.folder, "moved.txt"))
    trial.wants("hall-moved says what has moved", not failed and said + errors == "" and "by the moment in the file" in moved, failed + errors + moved[:300])
    machines, steps = parts(moved)
    trial.wants("the machines that have moved", set(machines) == {number for number, it in LIVES.items() if it[1]}, sorted(machines))
    trial.wants("it doubts nothing of this log", not re.search(r"^WARN", moved, re.MULTILINE), moved[:600])
    desk = serves_on_loopback(trial, guide, reader)
    for step in (2, 3, 4):
        types_all(trial, reader, filled(steps[step]), f"step {step}")
    said = reader.types("hallctl --token-file pow.token orders")[0]
    trial.wants("no order waits after step 4", not re.search(r"\d", said), said)
    reader.interrupts(desk)
    log = text_in(os.path.join(reader.folder, "loopback.log"))
    trial.wants("no line led through a script that writes or erases", "POST /orders/" in log and not re.search(r" to (Deploying|Disk erasing)$", log, re.MULTILINE), log)
    example = guide.block("hallboot adopt --db hall.db")
    for line in steps[5]:
        meant = set(re.findall(r" (--[a-z-]+)", example))
        trial.wants("its lines of adopt are as the guide's example", set(re.findall(r" (--[a-z-]+)", line)) - {"--admin-token-file"} == meant, line)
    types_all(trial, reader, steps[5], "step 5")
    trial.wants("a lock comes last", steps[6] == ["hallctl lock 9"], steps[6])
    desk = serves_on_loopback(trial, guide, reader)
    types_all(trial, reader, steps[6], "step 6")
    reader.interrupts(desk)


def restores(trial, hallboot, programs):
    here = os.getcwd()
    folders = {name: os.path.join(here, name) for name in ("hall", "log", "backups")}
    for path in folders.values():
        os.mkdir(path)
    guide = Guide("TROUBLE.md", {"/var/lib/hallboot": folders["hall"], "/var/log/hallboot": folders["log"], "/var/backups/hallboot": folders["backups"]})
    tokens_in(folders["hall"])
    with Log(hallboot, "hall/hall") as hall, Reader(folders["hall"], programs) as reader:
        hall.log, hall.words = "log/desk.log.1", ("--log-time", "utc")
        hall.serve()
        first_life(hall)
        hall.stop()
        hall.run("backup", "--to", "backups/hall.db")
        moment = time.time()
        comes("the second after the backup", lambda: time.time() >= int(moment) + 1)    # what follows is later than the backup's moment
        hall.log = "log/desk.log"
        hall.serve()
        second_life(hall)
        meant = {number: state_of(hall, number) for number in LIVES}
        trial.wants("before the restore the hall is as said", meant == {number: it[2] for number, it in LIVES.items()}, meant)
        trial.wants("the guide's first step stops both", guide.block("systemctl stop") == "systemctl stop hallboot hall-power")
        hall.stop()
        said, errors, failed = reader.types(guide.block("hallboot restore --db hall.db --from"))
        kept = re.search(r"^what was there is kept as (\S+)$", said, re.MULTILINE)
        trial.wants("it is restored, and what was there is kept", not failed and kept and os.path.isfile(kept[1]), failed + said + errors)
        looks_at_unmended(trial, hallboot, "hall/hall.db")
        mends(trial, guide, reader)
        looks = guide.block("hallboot export --db hall.db").split("\n")
        trial.wants("the guide's last step starts both", looks[2:] == ["systemctl start hallboot hall-power"], looks)
        said, errors, failed = reader.types(looks[0])
        deployed = {int(line.split(",")[0]) for line in said.splitlines() if ",Deployed," in line}
        trial.wants("the export has who is Deployed", not failed and deployed == {number for number, it in LIVES.items() if it[2].startswith("Deployed")}, said + errors)
        orders = reader.types(looks[1])
        trial.wants("the report has no order", orders == ("", "", ""), orders)
        looks_at_mended(trial, hallboot, "hall/hall.db")
    left = [it for it in guide.left() if "under Restore a backup" in it]
    trial.wants("all blocks of Restore a backup are followed", left == [], left)


PARTS = {"restore": restores, "takeover": mending_takeover.takes_over, "copies": mending_copies.copies}


def main(hallboot, hallctl, *chosen):
    trial = Trial()
    signal.signal(signal.SIGINT, signal.default_int_handler)    # a desk is ended by Ctrl-C, also where this runs in the background
    signal.signal(signal.SIGTERM, lambda *_: sys.exit("mending_trial: ended by SIGTERM"))
    programs = os.path.join(os.getcwd(), "bin")
    programs_in(programs, os.path.realpath(hallboot), os.path.realpath(hallctl))
    for name in chosen or PARTS:
        try:
            PARTS[name](trial, hallboot, programs)
        except (Exception, SystemExit) as fault:
            trial.wants("each part comes to its end", False, "".join(traceback.format_exception(fault)[-3:]) if isinstance(fault, Exception) else fault)
    for text in trial.faults:
        print("mending_trial:", text)
    print(f"mending_trial: {trial.checks} checks, {len(trial.faults)} failed (a hall that is restored and mended, and one that is taken over, by the guides' lines; "
          "copies, their moments, and what takes them)")
    sys.exit(1 if trial.faults else 0)


if __name__ == "__main__":
    main(*sys.argv[1:])
