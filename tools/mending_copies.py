"""Copies of a hall, for mending_trial.py: their moments, those of `serve --backup`, which are kept or refused, and what takes a copy; `serve --loopback`."""
import datetime, os, re, shutil, sqlite3, subprocess, time
from mending_reader import PATIENCE, Guide, Reader, comes, octets_of, text_in
from moved_trial import URIS, Log, next_second
from served_hall import address, digest

LONG_AGO = 1577836800    # 2020-01-01T00:00:00Z
REFUSED = "- backup refused, the copy there has later numbers: move it away"
A_COPY = re.compile(r"^\d+ - backup of \d+ octets in \d+ ms$", re.MULTILINE)


def moment_in(path):
    tables = sqlite3.connect(f"file:{path}?mode=ro&immutable=1", uri=True)
    moment, = tables.execute("PRAGMA user_version").fetchone()
    tables.close()
    return moment


def text_of(moment):
    return datetime.datetime.fromtimestamp(moment, datetime.timezone.utc).strftime("%Y-%m-%dT%H:%M:%SZ")


def copied(path, to, moment=LONG_AGO):
    """A copy as `cp` without -p makes it: its time is another one."""
    shutil.copyfile(path, to)
    os.utime(to, (moment, moment))


def life(hall):
    """A hall with a machine that is commissioned, so that it has a boot and an order."""
    hall.command(command="add_operator", operator="pow", role="power", digest=digest("pow"))
    hall.command(command="add_pool", pool="lab")
    hall.command(command="add_image", image="live64", arch="uefi64", **URIS)
    hall.command(command="set_live", image="live64")
    more(hall, 1)


def more(hall, number):
    hall.command(command="add_machine", mac=address(number), arch="uefi64", pool="lab")
    hall.command(command="commission", machine=number, tests=False)
    hall.works(number, "started", "done")


def looks_at_moments(trial, hall, reader):
    begin = time.time()
    hall.run("backup", "--to", "early.db")
    moment = moment_in("early.db")
    trial.wants("a copy of `backup` has its moment", int(begin) <= moment <= time.time(), (begin, moment))
    copied("early.db", "cp.db")
    trial.wants("its copy has it too", moment_in("cp.db") == moment, moment_in("cp.db"))
    said = reader.types(f"hall-moved --db {os.path.abspath('cp.db')} --log {os.path.abspath(hall.log)}")[0]
    trial.wants("hall-moved goes by it", f"the backup's moment is {text_of(moment)}, by the moment in the file" in said, said[:300])
    said = hall.run("restore", "--from", "cp.db")
    trial.wants("a restored hall has it", moment_in(hall.file) == moment, moment_in(hall.file))
    trial.wants("restore prints the moment in the copy", f" of {text_of(moment)}: " in said, said)
    copied("early.db", "none.db")
    with open("none.db", "r+b") as file:
        file.seek(60)
        file.write(bytes(4))
    os.utime("none.db", (LONG_AGO, LONG_AGO))
    next_second()
    said = hall.run("restore", "--from", "none.db")
    trial.wants("of a copy without a moment restore prints when it was last changed", f" of {text_of(LONG_AGO)}: " in said, said)
    next_second()
    hall.run("restore", "--from", "cp.db")


def busy(hall, is_so):
    """Whether something is so, by a desk that is asked meanwhile: a quiet one looks every eight seconds whether a copy is due."""
    hall.ask(f"/ipxe/{address(1)}")
    return is_so()


def looks_at_kept(trial, hall):
    """Copies of serve: the one before is kept, and two dated ones."""
    os.mkdir("kept")
    copied("early.db", "kept/hall.db")
    hall.log, hall.words = "kept.log", ("--backup", "kept/hall.db", "--backup-every", "1", "--backup-keep", "2")
    begin = time.time()
    hall.serve()
    more(hall, 2)

    def dated():
        return sorted(name for name in os.listdir("kept") if re.fullmatch(r"hall\.db\.20\d\d-\d\d-\d\dT\d\d-\d\d-\d\dZ", name))

    comes("five copies of serve", lambda: busy(hall, lambda: len(A_COPY.findall(text_in("kept.log"))) >= 5))
    # between two steps of one copy there are three
    comes("two dated copies, and no more", lambda: busy(hall, lambda: len(dated()) == 2), 60)
    trial.wants("the oldest dated copy went first", f"hall.db.{text_of(LONG_AGO).replace(':', '-')}" not in dated(), dated())
    trial.wants("the copy that was there before the service is kept", octets_of("kept/hall.db.before") == octets_of("early.db"), sorted(os.listdir("kept")))
    hall.stop()
    moment = moment_in("kept/hall.db")
    trial.wants("a copy of serve has its moment", int(begin) <= moment <= time.time(), (begin, moment))
    trial.wants("nothing else is left", len([it for it in os.listdir("kept") if it not in ("hall.db", "hall.db.before", *dated())]) <= 1, sorted(os.listdir("kept")))


def looks_at_refused(trial, hall):
    """A hall that is behind a copy leaves it."""
    hall.run("backup", "--to", "later.db")
    hall.run("restore", "--from", "early.db")
    os.mkdir("behind")
    shutil.copyfile("later.db", "behind/hall.db")
    hall.log, hall.words = "behind.log", ("--backup", "behind/hall.db", "--backup-every", "1", "--backup-keep", "2")
    hall.serve()
    comes("a line that the backup is refused", lambda: busy(hall, lambda: text_in("behind.log").count(REFUSED) >= 2))
    trial.wants("a copy with later numbers stays as it is", octets_of("behind/hall.db") == octets_of("later.db") and os.listdir("behind") == ["hall.db"], os.listdir("behind"))
    trial.wants("no copy is made meanwhile", not A_COPY.search(text_in("behind.log")), text_in("behind.log")[-300:])
    os.rename("behind/hall.db", "later.kept")
    comes("a copy, once that one is moved away", lambda: busy(hall, lambda: A_COPY.search(text_in("behind.log"))), 60)
    trial.wants("no copy is refused any more", (comes("another one", lambda: busy(hall, lambda: len(A_COPY.findall(text_in("behind.log"))) >= 2), 60),
                REFUSED not in text_in("behind.log")[A_COPY.search(text_in("behind.log")).start():])[1], text_in("behind.log")[-300:])
    hall.stop()


def takes(trial, reader, guide, copy, what):
    """What takes a copy, in a folder with a hall of its own: restoring by the program and by hand, hall-lists."""
    folder, meant = reader.folder, reader.types(f"hall-lists --json {copy} receipts")
    trial.wants(f"hall-lists takes {what}", not meant[2] and '"receipts"' in meant[0], meant)
    for way in (f"hallboot restore --db hall.db --from {copy}", guide.block("bash -e <<'END'")):
        for name in os.listdir(folder):
            if name.startswith("hall.db"):
                os.remove(os.path.join(folder, name))
        copied("early.db", os.path.join(folder, "hall.db"))
        said, errors, failed = reader.types(way)
        its = reader.types("hallboot report --db hall.db --what 2")
        trial.wants(f"{way.splitlines()[0].split(' --')[0]} takes {what}", not failed and not its[2] and "Ready" in its[0], (said, errors, failed, its))


def looks_at_takers(trial, programs):
    folder, backups = os.path.abspath("byhand"), os.path.abspath("copies")
    os.mkdir(folder)
    os.mkdir(backups)
    copy = os.path.join(backups, "hall.db")
    shutil.copyfile("later.db", copy)
    guide = Guide("REFERENCE.md", {"/var/backups/hallboot": backups})
    with Reader(folder, programs) as reader:
        takes(trial, reader, guide, copy, "a copy")
        said, errors, failed = reader.types(f"hallboot report --db {copy}")
        trial.wants("a report of a copy", not failed and "Ready" in said, failed + said + errors)
        takes(trial, reader, guide, copy, "a copy that was reported on")
        with open(f"{copy}-wal", "wb") as file:
            file.write(bytes(41))
        takes(trial, reader, guide, copy, "a copy with a log of 41 octets")
        with open(f"{copy}-wal", "wb") as file:
            file.write(bytes(42))
        before = octets_of(os.path.join(folder, "hall.db"))
        said, errors, failed = reader.types(guide.block("bash -e <<'END'").partition("\nhallboot report")[0])
        trial.wants("a copy with a longer log isn't restored by hand", failed.startswith("1: ") and "the backup has a log" in errors and
                    octets_of(os.path.join(folder, "hall.db")) == before, failed + said + errors)


def looks_at_loopback(trial, hallboot, hall):
    folder = os.getcwd()
    words = [hallboot, "serve", "--db", hall.file, "--loopback", "--turns", "1000000000000000"]
    with subprocess.Popen(words, stdout=subprocess.PIPE, text=True, cwd=folder) as it:
        try:
            lines = [it.stdout.readline() for _ in range(4)]
            form = r"discover 127\.0\.0\.1:(\d+)\nboot 127\.0\.0\.1:(\d+)\nhttp 127\.0\.0\.1:(\d+)\nhall desk ready\n"
            found = re.fullmatch(form, "".join(lines))
            trial.wants("serve --loopback prints three addresses, and that it is ready", found, lines)
            hall.http = int(found[3])
            hall.command(command="commission", machine=1, tests=False)
            script = hall.ask(f"/ipxe/{address(1)}")[1].decode()
            trial.wants("a script names its address", f" hall.desk=http://127.0.0.1:{hall.http}" in script, script)
        finally:
            it.kill()
    for option in ("--http", "--discover", "--boot"):
        it = subprocess.run([*words, option, "127.0.0.1:8080", "--why"], capture_output=True, text=True, timeout=PATIENCE)
        trial.wants(f"--loopback with {option} is refused", it.returncode == 1 and it.stdout == "" and it.stderr.startswith("hallboot: BadInput\n") and option in it.stderr,
                    (it.returncode, it.stdout, it.stderr))


def copies(trial, hallboot, programs):
    os.mkdir("first")
    with Log(hallboot, "copied") as hall, Reader(os.path.abspath("first"), programs) as reader:
        hall.serve()
        life(hall)
        hall.stop()
        looks_at_moments(trial, hall, reader)
        looks_at_kept(trial, hall)
        looks_at_refused(trial, hall)
        looks_at_takers(trial, programs)
        looks_at_loopback(trial, hallboot, hall)
