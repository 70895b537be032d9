"""docs/TAKEOVER.md, followed word by word, for mending_trial.py; an adoption that is killed and said again; and what adopt refuses."""
import os, re, resource, shutil, signal, subprocess, time, uuid
from mending_reader import PATIENCE, Desk, Guide, Reader, text_in
from served_hall import address

SERVERS = 40
OWN_DISK = b"#!ipxe\nexit\n"


def rows_of(header_and_row):
    """The guide's machines.csv with as many rows as there are servers, and the first address of each row."""
    header, first = header_and_row.split("\n")
    rows = [first] + [f"{uuid.UUID(int=number)},{address(number)},uefi64,{uuid.UUID(int=(1 << 100) + number)},lab" for number in range(2, SERVERS + 1)]
    return "\n".join([header, *rows]) + "\n", [row.split(",")[1] for row in rows]


def exported(reader, file="hall.db"):
    return reader.types(f"hallboot export --db {file}")[0]


def numbers_and_states(export):
    """Of each machine its number, status, owner and image."""
    return [(it[0], *it[5:8]) for it in (line.split(",") for line in export.splitlines()[1:])]


def looks_at_server(trial, hallboot, folder, macs):
    with open(os.path.join(folder, "pow.token")) as file:
        power = file.read().strip()
    with Desk(hallboot, os.path.join(folder, "hall.db"), os.path.join(folder, "desk.log")) as desk:
        desk.serve()
        scripts = {mac: desk.ask(f"/ipxe/{mac}") for mac in macs}
        trial.wants("each server starts its own disk", set(scripts.values()) == {(200, OWN_DISK)}, scripts)
        orders = desk.ask("/orders", power)
        trial.wants("the power program finds no order", orders == (200, b'{"orders":[]}'), orders)
        desk.stop()
    said = text_in(os.path.join(folder, "desk.log"))
    trial.wants("servers that start change nothing", not re.search(r"; machine \d+:", said), said[:500])


# When an adoption is killed: where the hall's file or its log would have so many octets more, or after so many seconds. The kernel does the first at the
# octet, however fast the machine is; so these come first, and leave servers for the others
KILLS = [20_000, 60_000, 150_000, 0.005, 0.02, 0.08, 300_000, 600_000]


def size_of(path):
    return os.path.getsize(path) if os.path.exists(path) else 0


def is_killed(line, reader, folder, limit):
    """Starts the line of adopt, and has it killed when its time or its room is over: whether it had to be."""
    room = max(size_of(os.path.join(folder, name)) for name in ("hall.db", "hall.db-wal")) + limit
    bounds = (lambda: resource.setrlimit(resource.RLIMIT_FSIZE, (room, room))) if limit >= 1 else None
    with open(os.path.join(folder, "printed"), "w") as printed:
        it = subprocess.Popen(["bash", "--norc", "-c", f"exec {line}"], cwd=folder, env=reader.its, stdin=subprocess.DEVNULL, stdout=printed,
                              stderr=subprocess.STDOUT, preexec_fn=bounds)
    try:
        it.wait(limit if limit < 1 else PATIENCE)
    except subprocess.TimeoutExpired:
        it.kill()
    return it.wait() in (-signal.SIGKILL, -signal.SIGXFSZ)


def killed(trial, reader, line, folder):
    """The guide's line of adopt is killed several times, and said again: how many times the hall was in between then."""
    midst = 0
    for limit in KILLS:
        if not is_killed(line, reader, folder, limit):
            continue
        its = {state[1] for state in numbers_and_states(exported(reader, f"{folder}/hall.db"))}
        midst += its not in ({"New"}, {"Deployed"})
    it = subprocess.run(["bash", "--norc", "-c", line], cwd=folder, env=reader.its, stdin=subprocess.DEVNULL, capture_output=True, text=True, timeout=PATIENCE)
    trial.wants("an adoption that was killed is said again, and ends with 0", it.returncode == 0, it.stdout[-300:] + it.stderr)
    return midst


def refuses(trial, reader, folder, before):
    """What adopt refuses: a clear line, a status that isn't 0, and nothing changed."""
    with open(os.path.join(folder, "no_servers.csv"), "w") as file:
        file.write("number,image\n1,jammy\n")
    adopt = "hallboot adopt --why --db hall.db --at $(date +%s)"
    which, owner, power, admin = "--image jammy --machines 1", "--owner-token-file olga.token", "--power-token-file pow.token", "--admin-token-file ada.token"
    for what, status, text, words in (
            ("no token file", 1, "missing.token", f"{which} --owner-token-file missing.token {power} {admin}"),
            ("an empty token file", 1, "hallboot: BadInput", f"{which} --owner-token-file /dev/null {power} {admin}"),
            ("no option for the power program's token", 2, "power-token-file", f"{which} {owner} {admin}"),
            ("the power program's token for the owner's", 1, "the owner token is no enabled admin's or user's", f"{which} --owner-token-file pow.token {power} {admin}"),
            ("the owner's token for the power program's", 1, "the power token is no enabled operator's of role power", f"{which} {owner} --power-token-file olga.token {admin}"),
            ("the owner's token for the admin's", 1, "the admin token is no enabled admin's", f"{which} {owner} {power} --admin-token-file olga.token"),
            ("a token of nobody's", 1, "the owner token is no enabled admin's or user's", f"{which} --owner-token-file nobody.token {power} {admin}"),
            ("a New machine without an admin's token", 1, "machine 1: not adopted, it is New", f"{which} {owner} {power}"),
            ("a machine that isn't there", 1, "machine 9999: there is none", f"--image jammy --machines 9999 {owner} {power} {admin}"),
            ("machines that are no numbers", 1, "--machines", f"--image jammy --machines 1-x {owner} {power} {admin}"),
            ("a file of servers without its header", 1, "its first line isn't machine,image", f"--servers no_servers.csv {owner} {power} {admin}"),
            ("a file of servers that isn't there", 1, "nowhere.csv", f"--servers nowhere.csv {owner} {power} {admin}")):
        said, errors, failed = reader.types(f"{adopt} {words}")
        trial.wants(f"adopt refuses {what}", failed.startswith(f"{status}: ") and text in said + errors, (failed, said, errors))
    after = exported(reader)
    trial.wants("what adopt refuses changes nothing", after == before, after[:600])


def makes_hall(trial, guide, reader):
    """The guide's first two steps, with what they print: the addresses of the machines' first cards."""
    said, errors, failed = reader.types(guide.block("umask 077"))
    trial.wants("a hall on loopback", not failed and "hall created\n" in said, failed + said + errors)
    addresses = text_in(os.path.join(reader.folder, "addresses"))
    form = r"discover 127\.0\.0\.1:\d+\nboot 127\.0\.0\.1:\d+\nhttp 127\.0\.0\.1:\d+\nhall desk ready\n"
    trial.wants("it prints three addresses, and that it is ready", re.fullmatch(form, addresses), addresses)
    example = guide.asked("span", "http 127.0.0.1")
    trial.wants("the form of an address is the guide's", re.search("^" + re.sub(r"\\?\d+$", r"\\d+", re.escape(example)) + "$", addresses, re.MULTILINE), example)
    for text, what in (("add-operator olga", "operators, a pool and a live image"), ("add-image jammy", "an image for each system")):
        said, errors, failed = reader.types(guide.block(text))
        trial.wants(what, not failed and "added" in said, failed + said + errors)
    rows, macs = rows_of(Guide("INSTALL.md").block("key,mac,arch"))
    with open(os.path.join(reader.folder, "machines.csv"), "w") as file:
        file.write(rows)
    said, errors, failed = reader.types(guide.block("hallctl import machines.csv"))
    trial.wants("the machines are imported", not failed and len(re.findall(r"^machine \d+: New, version 1, ", said, re.MULTILINE)) == SERVERS, failed + said[:300] + errors)
    with open(os.path.join(reader.folder, "servers.csv"), "w") as file:
        file.write(guide.block("machine,image") + "\n" + "".join(f"{number},jammy\n" for number in range(3, SERVERS + 1)))
    return macs


def takes_over(trial, hallboot, programs):
    folder, cut = os.path.join(os.getcwd(), "taken"), os.path.join(os.getcwd(), "cut")
    os.mkdir(folder)
    guide = Guide("TAKEOVER.md", {"/var/lib/hallboot": folder})
    with Reader(folder, programs) as reader:
        macs = makes_hall(trial, guide, reader)
        stops, adopts = guide.block("hallboot adopt").split("\n", 1)
        trial.wants("the desk is stopped first", stops == "kill %1 && wait" and not reader.types(stops)[2], stops)
        new = exported(reader)
        shutil.copytree(folder, cut)
        with open(os.path.join(folder, "nobody.token"), "w") as file:
            file.write("nobody\n")
        refuses(trial, reader, folder, new)
        said, errors, failed = reader.types(adopts)
        lines = "".join(f"machine {number}: Deployed\n" for number in range(1, SERVERS + 1))
        trial.wants("the guide's line of adopt prints each as Deployed", (said, errors, failed) == (lines, "", ""), failed + said[:300] + errors)
        looks = guide.block("hallboot export --db hall.db").split("\n")
        said, errors, failed = reader.types(looks[0])
        meant = [(str(number), "Deployed", "olga", "jammy") for number in range(1, SERVERS + 1)]
        trial.wants("the export has each as Deployed, with its owner and image", not failed and numbers_and_states(said) == meant, said[:300] + errors)
        export = said
        orders = reader.types(looks[1])
        trial.wants("the report has no order", len(looks) == 2 and orders == ("", "", ""), (looks, orders))
        said, errors, failed = reader.types(adopts)
        after = exported(reader)
        trial.wants("a second adoption says the same, and changes nothing", (said, failed) == (lines, "") and after == export, failed + errors + after[:300])
        looks_at_server(trial, hallboot, folder, macs)
        midst = killed(trial, reader, adopts, cut)
        trial.wants("it was killed in the midst of its servers", midst >= 2, midst)
        after = exported(reader, f"{cut}/hall.db")
        trial.wants("an adoption that was killed comes to the same end", after == export, after[:600])
        looks_at_server(trial, hallboot, cut, macs)
    trial.wants("all blocks of the guide are followed", guide.left() == [], guide.left())
