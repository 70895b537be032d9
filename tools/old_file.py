# A hall's file of the first version is carried over, also where memory or the program ends. The argument says how many requests for memory apart those
# are that are refused. The variable HALLBOOT names the program.
import os, re, shutil, sqlite3, subprocess, sys, tempfile
from concurrent.futures import ThreadPoolExecutor
from spoiled import ENDED, Spoiler, end, end_without_compiler

TOOL, APART, HALLBOOT = "old_file", int(sys.argv[1]), os.environ["HALLBOOT"]
CASES = os.path.join(os.path.dirname(os.path.abspath(__file__)), "..", "crates", "play_desk", "data", "migration.tables.cases")
MIGRATE = [HALLBOOT, "migrate", "--db", "old.db"]
checks = failed = 0


def check(holds, words):
    global checks, failed
    checks += 1
    if not holds:
        failed += 1
        print(f"BAD: {words}", file=sys.stderr)


def texts():
    """The SQL of the first case, which makes the tables of the first version."""
    with open(CASES) as file:
        first = re.split("^== ", file.read(), flags=re.MULTILINE)[1]
    return re.findall("^sql (.*)$", first, re.MULTILINE)


def make(folder, *more):
    """A file of the first version, and what is done to it besides."""
    tables = sqlite3.connect(f"{folder}/old.db")
    for text in [*texts(), *more]:
        tables.execute(text)
    tables.commit()
    tables.close()


def dump(folder):
    """All that the tables have, by SQLite itself, which looks at a copy."""
    with tempfile.TemporaryDirectory() as copy:
        for name in os.listdir(folder):
            shutil.copy(f"{folder}/{name}", copy)
        tables = sqlite3.connect(f"{copy}/old.db")
        try:
            return "\n".join(tables.iterdump())
        finally:
            tables.close()


def run(folder, *words, text=""):
    return subprocess.run([HALLBOOT, *words], cwd=folder, input=text, capture_output=True, text=True, timeout=300)


def ends(folder, status, output, message, *words):
    done = run(folder, *words)
    got = (done.returncode, done.stdout.rstrip("\n"), done.stderr.rstrip("\n"))
    check(got == (status, output, message), f"{words}: {got}")


def ask(folder, moment, target, body):
    """The response to a request of olga's."""
    text = f"{target} HTTP/1.1\r\nHost: hall.example\r\nAuthorization: Bearer hello\r\nContent-Length: {len(body)}\r\n\r\n{body}"
    return run(folder, "request", "--db", "old.db", "--at", str(moment), "--fresh", "f" * 32, text=text).stdout


def carry_over(folder):
    """What is said of a file that is carried over."""
    make(folder)
    ends(folder, 1, "", "hallboot: OtherVersion", "export", "--db", "old.db")
    ends(folder, 0, "migrated", "", *MIGRATE[1:])
    ends(folder, 0, "already", "", *MIGRATE[1:])
    exported = run(folder, "export", "--db", "old.db").stdout.split("\n")
    check(len(exported) == 5 and exported[1].startswith("1,52:54:00:12:34:56,uefi64,,lab,Disk erasing,olga"), f"the export: {exported}")
    machine = run(folder, "report", "--db", "old.db", "--what", "1").stdout.split("\n")
    check("version 12" in machine and "erase full" in machine, f"machine 1: {machine}")
    check("hall.purpose=erase hall.erase=full hall.boot=4 hall.token=000102030405060708090a0b0c0d0e0f " in ask(folder, 1440, "GET /ipxe/52:54:00:12:34:56", ""),
          "its script is that of boot 4")
    again = '{"key":"00000000-0000-4000-8000-000000000014","command":"release","machine":1,"erase":true}'
    check(ask(folder, 1450, "POST /commands", again).endswith('\n\n{"id":1,"status":"Disk erasing","version":11}'), "the release is answered as before")
    tables = sqlite3.connect(f"{folder}/old.db")
    check(tables.execute("PRAGMA integrity_check").fetchall() == [("ok",)], "SQLite finds the file whole")
    check(tables.execute("SELECT machine, erase FROM wipes ORDER BY machine").fetchall() == [(1, 1), (2, 1)], "both machines are erased in full")
    tables.close()


def spoiled(spoiler, first, refuse, stop):
    """The verdict on a migration that is spoiled there: what it left, or what is wrong."""
    with tempfile.TemporaryDirectory() as folder:
        shutil.copy(f"{first}/old.db", folder)
        done = spoiler.run(MIGRATE, "", refuse, stop, folder).done
        left = {FIRST: "first", SECOND: "second"}.get(dump(folder), "neither")
        if done.returncode == 0:
            return "unseen" if left == "second" and done.stdout == "migrated\n" else f"status 0, {done.stdout!r}, and the tables are of the {left} schema"
        if done.returncode not in (1, ENDED) or left == "neither":
            return f"status {done.returncode}, {done.stderr!r}, and the tables are of {left} schema"
        next_one = run(folder, *MIGRATE[1:])
        if next_one.stdout != {"first": "migrated\n", "second": "already\n"}[left] or dump(folder) != SECOND:
            return f"the next migration: {next_one.stdout!r}, {next_one.stderr!r}"
        return left


def spoil_all(spoiler, first, what, tries):
    """Spoils migrations; in words, what they left."""
    counts = {"unseen": 0, "first": 0, "second": 0}
    with ThreadPoolExecutor(os.cpu_count()) as pool:
        for number, verdict in zip(tries, pool.map(lambda n: spoiled(spoiler, first, *((n, 0) if what == "request" else (0, n))), tries)):
            check(verdict in counts, f"{what} {number}: {verdict}")
            if verdict in counts:
                counts[verdict] += 1
    return f"{counts['unseen']} unseen, {counts['first']} left the first schema, {counts['second']} the second"


end_without_compiler(TOOL)
with tempfile.TemporaryDirectory() as folder:
    carry_over(folder)
with tempfile.TemporaryDirectory() as first, tempfile.TemporaryDirectory() as second, Spoiler() as spoiler:
    make(first)
    shutil.copy(f"{first}/old.db", second)
    FIRST = dump(first)
    done, requests, calls, _ = spoiler.run(MIGRATE, "", folder=second)
    SECOND = dump(second)
    check(done.stdout == "migrated\n" and FIRST != SECOND and calls > 0, f"a migration that nothing spoils: {done}, {calls} calls")
    refused, stopped = range(1, requests + 1, APART), range(1, calls + 1)
    whole = (f"{len(refused)} of {requests} requests for memory of a migration: {spoil_all(spoiler, first, 'request', refused)}; "
             f"ended before each of {calls} calls on files: {spoil_all(spoiler, first, 'call', stopped)}")
with tempfile.TemporaryDirectory() as folder:
    make(folder, "UPDATE hall SET schema = 9")
    ends(folder, 1, "", "hallboot: OtherVersion", *MIGRATE[1:])
with tempfile.TemporaryDirectory() as folder:
    tables = sqlite3.connect(f"{folder}/old.db")
    tables.executescript("CREATE TABLE a (b); DROP TABLE a")
    tables.close()
    ends(folder, 1, "", "hallboot: NotAHall", *MIGRATE[1:])
end(TOOL, checks, failed, whole)
