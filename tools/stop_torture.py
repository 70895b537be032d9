"""Stops and faults of hallboot serve: stop_torture.py PROGRAM ROUNDS SEED. Run by stop_torture.sh, which says what is looked at."""
import hashlib, json, os, random, shutil, signal, socket, sqlite3, subprocess, sys, tempfile, threading, time

program, rounds, seed = sys.argv[1], int(sys.argv[2]), int(sys.argv[3])
TOKEN = "operators-secret-1"
CLIENTS = 8
PATIENCE = 10.0  # for how many seconds a command is sent again to a service that met a fault
SLOW = 5000  # microseconds of a sync in which others come, so that the next commit is that of several
CALLS = ["pwrite64", "fdatasync", "ftruncate", "openat"]
chance = random.Random(seed)


def ports():
    kept = [socket.socket(socket.AF_INET, kind) for kind in (socket.SOCK_DGRAM, socket.SOCK_DGRAM, socket.SOCK_STREAM)]
    for s in kept:
        s.bind(("127.0.0.1", 0))
    found = [s.getsockname()[1] for s in kept]
    for s in kept:
        s.close()
    return found


class Desk:
    """A service over the file, perhaps with one call of the system that fails, or that makes a copy of its file each second, or over a disk
    that syncs so many microseconds slower."""

    def __init__(self, fault=None, backup=None, delay=0):
        discover, boot, self.http = ports()
        words = [program, "serve", "--db", "hall.db", "--discover", f"127.0.0.1:{discover}", "--boot", f"127.0.0.1:{boot}",
                 "--http", f"127.0.0.1:{self.http}", "--turns", "1000000000000", "--server", "127.0.0.1", "--next", "127.0.0.1",
                 "--host", f"127.0.0.1:{self.http}"] + (["--backup", backup, "--backup-every", "1"] if backup else [])
        if fault:
            call, error, when = fault
            # (only calls on the hall's files, not those on sockets and libraries)
            words = ["strace", "-f", "-o", "calls", "-P", os.path.abspath("hall.db"), "-P", os.path.abspath("hall.db-wal"),
                     "-e", f"trace={','.join(CALLS)}", "-e", f"inject={call}:error={error}:when={when}"] + words
        if delay:
            words = ["strace", "-f", "-q", "-o", "/dev/null", "-e", "trace=fdatasync,fsync", "-e", f"inject=fdatasync,fsync:delay_exit={delay}"] + words
        self.running = subprocess.Popen(words, stdout=subprocess.PIPE, stderr=subprocess.PIPE, text=True, start_new_session=True)
        self.is_ready = "hall desk ready" in self.running.stdout.readline()

    def kill(self):
        """Kills the service, and strace with it."""
        try:
            os.killpg(self.running.pid, signal.SIGKILL)
        except ProcessLookupError:
            pass
        self.running.wait()
        self.running.stdout.close()
        self.running.stderr.close()

    def post(self, body):
        """The whole answer's status and body, or None where none came."""
        head = f"POST /commands HTTP/1.1\r\nAuthorization: Bearer {TOKEN}\r\nContent-Length: {len(body)}\r\n\r\n"
        octets = b""
        try:
            with socket.create_connection(("127.0.0.1", self.http), 5) as s:
                s.sendall(head.encode() + body)
                while more := s.recv(65536):
                    octets += more
        except OSError:
            return None
        head, end, body = octets.partition(b"\r\n\r\n")
        lengths = [line for line in head.split(b"\r\n") if line.lower().startswith(b"content-length:")]
        if not end or not lengths or len(body) != int(lengths[0].split(b":")[1]):
            return None
        return int(head.split()[1]), body


class Client(threading.Thread):
    """Adds machines, one after the other, and commissions or deletes each; it goes on with what got no answer, or 503."""

    def __init__(self, number):
        super().__init__(daemon=True)
        self.number, self.made, self.answers, self.open, self.machine, self.wrong = number, 0, {}, None, None, None

    def next_command(self):
        if self.open:
            return self.open
        self.made += 1
        key = f"00000000-0000-4000-8000-{self.number:04x}{self.made:08x}"
        if self.machine is None:
            wish = {"command": "add_machine", "mac": f"52:54:{self.number:02x}:{self.made >> 16:02x}:{self.made >> 8 & 255:02x}:{self.made & 255:02x}",
                    "arch": "uefi64", "pool": "default"}
        else:
            wish = {"command": chance.choice(["delete", "commission"]), "machine": self.machine}
            if wish["command"] == "commission":
                wish["tests"] = False
        self.open = json.dumps({"key": key, **wish}, separators=(",", ":")).encode()
        return self.open

    def send(self, desk, patience=0.0):
        """Sends a command, and again for so many seconds until an answer comes; whether one came."""
        body = self.next_command()
        end = time.monotonic() + patience
        answer = desk.post(body)
        while (answer is None or answer[0] == 503) and time.monotonic() < end:
            time.sleep(0.02)
            answer = desk.post(body)
        if answer is None or answer[0] == 503:
            return False
        if answer[0] != 200:
            self.wrong = f"{body.decode()}: {answer}"
            return False
        self.answers[body] = answer
        self.machine = json.loads(answer[1])["id"] if self.machine is None else None
        self.open = None
        return True

    def run(self):
        while self.goes_on and self.send(self.desk, self.patience):
            pass

    def begin(self, desk, patience):
        """The same client with a thread of its own, which sends to this service until an answer stays out for so many seconds."""
        again = Client(self.number)
        again.made, again.answers, again.open, again.machine = self.made, self.answers, self.open, self.machine
        again.desk, again.patience, again.goes_on = desk, patience, True
        again.start()
        return again


def copied(to):
    """Copies both files."""
    for name in ("hall.db", "hall.db-wal"):
        if os.path.exists(name):
            shutil.copyfile(name, to + name[4:])
        elif os.path.exists(to + name[4:]):
            os.remove(to + name[4:])


def receipts_of(file, what):
    """The receipts of a copy, by key, which is whole and has no key and no address twice."""
    tables = sqlite3.connect(file)
    whole = tables.execute("PRAGMA integrity_check").fetchall()
    assert whole == [("ok",)], (what, whole)
    receipts = {key: (status, body.encode()) for key, status, body in tables.execute("SELECT lower(hex(request)), status, body FROM receipts")}
    assert tables.execute("SELECT count(*) FROM receipts").fetchone()[0] == len(receipts), (what, "a key twice")
    rows, macs = tables.execute("SELECT count(*), count(DISTINCT mac) FROM interfaces").fetchone()
    assert rows == macs, (what, "an address twice")
    tables.close()
    return receipts


def check_answers(receipts, answers, what):
    """Each answered command has its receipt, with the answer."""
    for body, answer in answers.items():
        key = json.loads(body)["key"].replace("-", "")
        assert key in receipts, (what, "an answered command is lost", body)
        assert receipts[key] == answer, (what, "another answer", body, receipts[key], answer)


def check(clients, what):
    """The file is whole, and has each answered command once, and of each client at most one that wasn't answered."""
    assert not any(client.wrong for client in clients), (what, [client.wrong for client in clients])
    copied("copy")
    receipts = receipts_of("copy.db", what)
    for client in clients:
        check_answers(receipts, client.answers, what)
    answered = sum(len(client.answers) for client in clients)
    unanswered = sum(client.open is not None for client in clients)
    assert answered <= len(receipts) <= answered + unanswered, (what, answered, len(receipts), unanswered)
    return answered


def snapshot(desk, clients, what):
    """Both files as they are at one moment of the service have what was answered before."""
    answered = [dict(client.answers) for client in clients]
    os.kill(desk.running.pid, signal.SIGSTOP)
    copied("snapshot")
    os.kill(desk.running.pid, signal.SIGCONT)
    receipts = receipts_of("snapshot.db", what)
    for answers in answered:
        check_answers(receipts, answers, what)


def look_at_backups(desk, clients, what):
    """A copy that was begun after some answers has them, and is whole."""
    for _ in range(2):
        answered, seen = [dict(client.answers) for client in clients], set()
        end = time.monotonic() + 30
        while len(seen) < 3 and time.monotonic() < end:    # the second one after now was begun after now
            if os.path.exists("kept.db"):
                seen.add(os.stat("kept.db").st_mtime_ns)
            time.sleep(0.002)
        assert len(seen) >= 3 or not answered, (what, "no copies are made", seen)
        shutil.copyfile("kept.db", "looked.db")
        receipts = receipts_of("looked.db", what)
        for answers in answered:
            check_answers(receipts, answers, what)


def repeat(clients, what):
    """Over a service without faults each open command is answered, and some earlier ones have their first answer."""
    desk = Desk()
    assert desk.is_ready, (what, "the file can't be opened again", desk.running.stderr.read())
    for client in clients:
        if client.open:
            assert client.send(desk), (what, "a repeat isn't answered", client.open)
        for body in chance.sample(sorted(client.answers), min(3, len(client.answers))):
            assert desk.post(body) == client.answers[body], (what, "another answer to a repeat", body)
    desk.kill()


def play(clients, desk, seconds, what, snapshots=0, patience=0.0):
    """The clients send for so long, or until no answer comes any more; then the service is killed, at once unless they are patient."""
    begun = [client.begin(desk, patience) for client in clients]
    for _ in range(snapshots):
        time.sleep(chance.uniform(0.01, 0.1))
        snapshot(desk, begun, what)
    end = time.monotonic() + seconds
    while time.monotonic() < end and any(client.is_alive() for client in begun):
        time.sleep(0.002)
    if not patience:
        desk.kill()
    for client in begun:
        client.goes_on = False
    for client in begun:
        client.join(patience + 20)
    desk.kill()
    return begun


with tempfile.TemporaryDirectory() as work:
    os.chdir(work)
    os.umask(0o077)
    digest = hashlib.sha256(TOKEN.encode()).hexdigest()
    subprocess.run([program, "init", "--db", "hall.db", "--admin", "ada", "--digest", digest], check=True, stdout=subprocess.DEVNULL)
    clients, seen = [Client(number) for number in range(CLIENTS)], {"kills": 0, "snapshots": 0, "faults": 0, "met": 0}
    desk = Desk()
    image = {"command": "add_image", "image": "live", "arch": "uefi64", "kernel": "http://files.example/k", "initrd": "http://files.example/i", "args": []}
    for number, wish in enumerate([image, {"command": "set_live", "image": "live"}]):
        body = json.dumps({"key": f"00000000-0000-4000-9000-{number:012x}", **wish}).encode()
        clients[0].answers[body] = desk.post(body)
        assert clients[0].answers[body] == (200, b"{}"), clients[0].answers
    desk.kill()
    for turn in range(rounds):
        delay = SLOW if turn % 2 else 0
        what = f"seed {seed}, kill {turn}, {delay} us slower"
        desk = Desk(delay=delay)
        assert desk.is_ready, (what, desk.running.stderr.read())
        clients = play(clients, desk, chance.uniform(0.02, 0.6), what, snapshots=2)
        check(clients, what)
        repeat(clients, what)
        seen["kills"] += 1
        seen["snapshots"] += 2
    what = f"seed {seed}, backups"
    desk = Desk(backup="kept.db")
    assert desk.is_ready, (what, desk.running.stderr.read())
    begun = [client.begin(desk, 0.0) for client in clients]
    look_at_backups(desk, begun, what)
    desk.kill()
    for client in begun:
        client.goes_on = False
        client.join(20)
    receipts_of("kept.db", what)
    assert not os.path.exists("kept.db-wal"), what
    clients = begun
    check(clients, what)
    repeat(clients, what)
    for turn in range(rounds):
        fault = (CALLS[turn % len(CALLS)], chance.choice(["EIO", "ENOSPC"]), chance.randint(1, 40))
        what = f"seed {seed}, fault {turn}: {fault}"
        desk = Desk(fault)
        if desk.is_ready:
            clients = play(clients, desk, 1.0, what, patience=PATIENCE)
            unanswered = [client.open for client in clients if client.open]
            assert not unanswered, (what, "the service doesn't answer again", unanswered)
        desk.kill()
        seen["met"] += "INJECTED" in open("calls", errors="replace").read()
        seen["faults"] += 1
        check(clients, what)
        repeat(clients, what)
    answered = check(clients, "at the end")
    print(f"{seen['kills']} kills, {seen['snapshots']} snapshots, {seen['met']} of {seen['faults']} faults met a call, {answered} commands answered, each there once; seed {seed}")
