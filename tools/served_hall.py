"""A hall in the folder at hand that hallboot serves at free ports, for flood.py and power_trial.py."""
import hashlib, json, signal, socket, sqlite3, subprocess, sys, uuid

ADMIN = "admins-secret-1"


def digest(token):
    return hashlib.sha256(token.encode()).hexdigest()


def ports():
    kept = [socket.socket(socket.AF_INET, kind) for kind in (socket.SOCK_DGRAM, socket.SOCK_DGRAM, socket.SOCK_STREAM)]
    for s in kept:
        s.bind(("127.0.0.1", 0))
    found = [s.getsockname()[1] for s in kept]
    for s in kept:
        s.close()
    return found


def address(number):
    """The hardware address of the so-manieth machine that is made."""
    return f"52:54:{number >> 24 & 255:02x}:{number >> 16 & 255:02x}:{number >> 8 & 255:02x}:{number & 255:02x}"


class Hall:
    """A new hall with the admin ada, which is served by HTTP at this host's address. `with` ends what serves it."""

    restores_signals = True    # whether the program has signals that this one ignores by their default

    def __init__(self, program, name, host="127.0.0.1"):
        self.program, self.file, self.host, self.running = program, f"{name}.db", host, None
        self.log, self.discover, self.boot, self.http = f"{name}.log", *ports()
        self.run("init", "--admin", "ada", "--digest", digest(ADMIN))

    def __enter__(self):
        signal.signal(signal.SIGTERM, lambda *_: sys.exit("served_hall: ended by SIGTERM"))
        return self

    def __exit__(self, *_):
        if self.running:
            self.running.kill()
            self.running.wait()

    def run(self, what, *words):
        return subprocess.run([self.program, what, "--db", self.file, *words], check=True, capture_output=True, text=True, timeout=300).stdout

    def start(self):
        """Starts to serve, and doesn't wait until it is ready."""
        self.running = subprocess.Popen(
            [self.program, "serve", "--db", self.file, "--discover", f"127.0.0.1:{self.discover}", "--boot", f"127.0.0.1:{self.boot}",
             "--http", f"{self.host}:{self.http}", "--turns", "1000000000000", "--server", "127.0.0.1", "--next", "127.0.0.1",
             "--host", f"127.0.0.1:{self.http}", "--log", self.log], stdout=subprocess.PIPE, text=True, restore_signals=self.restores_signals)

    def serve(self):
        self.start()
        line = self.running.stdout.readline()
        if line != "hall desk ready\n":
            raise SystemExit(f"served_hall: the desk isn't ready: {line!r}")

    def stop(self):
        self.running.send_signal(signal.SIGTERM)
        self.running.wait(60)
        self.running.stdout.close()
        self.running = None

    def add(self, count):
        """Writes so many New machines into the file, while nothing serves the hall."""
        with sqlite3.connect(self.file) as tables:
            tables.executemany("INSERT INTO machines VALUES (?, 2, ?, 'default', 0, NULL, NULL, 0, NULL, 0, 1, NULL, NULL, 0, NULL)",
                               ((number, number.to_bytes(16, "little")) for number in range(1, count + 1)))
            tables.executemany("INSERT INTO interfaces VALUES (?, ?)",
                               ((bytes.fromhex(address(number).replace(":", "")), number) for number in range(1, count + 1)))
            tables.execute("INSERT INTO counts VALUES ('default', 0, ?)", (count,))
            tables.execute("UPDATE hall SET machine = ?", (count,))
        tables.close()

    def ask(self, target, token=None, body=None, patience=120.0, source="127.0.0.1"):
        """The answer to one request: its status and its body, if it came whole; else OSError."""
        head = f"{'GET' if body is None else 'POST'} {target} HTTP/1.1\r\nHost: desk\r\n"
        if token is not None:
            head += f"Authorization: Bearer {token}\r\n"
        if body is not None:
            head += f"Content-Length: {len(body)}\r\n"
        octets = bytearray()
        with socket.create_connection(("127.0.0.1", self.http), patience, (source, 0)) as s:
            s.sendall((head + "\r\n" + (body or "")).encode())
            while more := s.recv(1 << 20):
                octets += more
        return whole(bytes(octets))

    def command(self, token=ADMIN, **members):
        """A command, of the admin's if nothing else is said, which must be done."""
        status, body = self.ask("/commands", token, json.dumps({"key": str(uuid.uuid4()), **members}))
        if status != 200:
            raise SystemExit(f"served_hall: {members}: {status} {body.decode()}")
        return json.loads(body)

    def statuses(self):
        """The statuses of all machines."""
        return [machine["status"] for machine in json.loads(self.ask("/machines", ADMIN)[1])["machines"]]

    def memory(self, what):
        """A line of what the system says of the program's memory, in MB: VmRSS is what it has, VmHWM the most since `forget`."""
        with open(f"/proc/{self.running.pid}/status") as lines:
            return next(int(line.split()[1]) / 1024 for line in lines if line.startswith(what + ":"))

    def forget(self):
        with open(f"/proc/{self.running.pid}/clear_refs", "w") as file:
            file.write("5")


def whole(octets):
    """Status and body of a response that is whole."""
    head, end, body = octets.partition(b"\r\n\r\n")
    lengths = [line.split(b":")[1] for line in head.split(b"\r\n") if line.lower().startswith(b"content-length:")]
    if not end or not lengths or len(body) != int(lengths[0]):
        raise ConnectionError(f"no whole answer came, but {len(octets)} octets")
    return int(head.split()[1]), body
