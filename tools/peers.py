"""Talks to a desk: peers.py WHAT ADDRESS DISCOVER-PORT BOOT-PORT HTTP-PORT [TOKEN or COUNT]. Run by real_peers.sh, whose desk has the
server 10.8.0.1, the TFTP server 10.8.0.2 and the host ADDRESS:HTTP-PORT.
peers.py compare ANSWERED EXPORT REPORT: each machine that was answered is in the export, and as many are in the report.
peers.py relayed CARD CAPTURE: a client without an address, behind a relay agent."""
import csv, json, os, select, socket, struct, sys, time

OPTIONS = bytes.fromhex("3c20505845436c69656e743a417263683a30303030373a554e44493a3030333031365d0200075e03010310"
                        "61110000112233445566778899aabbccddeeff")
COOKIE = bytes.fromhex("63825363")


def frame(kind, mac, last=b"", ciaddr=bytes(4)):
    """A DISCOVER (1) or REQUEST (3) of a 64-bit UEFI machine (RFC 2131 section 2, RFC 4578)."""
    head = bytes.fromhex("01010600112233440000" "8000") + ciaddr + bytes(12) + mac + bytes(10 + 64 + 128)
    return head + COOKIE + bytes([53, 1, kind]) + OPTIONS + last + b"\xff"


def reply(kind, mac, file, last, ciaddr=bytes(4)):
    """What the desk answers: 2 an OFFER, 5 an ACK."""
    head = bytes.fromhex("02010600112233440000" "8000") + ciaddr + bytes(4) + bytes([10, 8, 0, 2]) + bytes(4) + mac + bytes(10 + 64)
    options = bytes([53, 1, kind, 54, 4, 10, 8, 0, 1, 60, 9]) + b"PXEClient" + OPTIONS[-19:] + last + b"\xff"
    return (head + file.ljust(128, b"\0") + COOKIE + options).ljust(300, b"\0")


def datagram(port, octets, patience=5.0):
    """Sends a datagram, and gives the answer, None if there is none."""
    with socket.socket(socket.AF_INET, socket.SOCK_DGRAM) as s:
        s.settimeout(patience)
        s.connect((address, port))
        s.send(octets)
        try:
            return s.recv(65535)
        except TimeoutError:
            return None


def same(got, wanted, what):
    if got != wanted:
        sys.exit(f"{what}: {got.hex() if got else got}, not {wanted.hex() if wanted else wanted}")


def frames():
    mac = bytes.fromhex("525400123456")
    loader, item = b"ipxe-x86_64.efi", bytes.fromhex("2b04060108ff")
    same(datagram(discover, frame(1, mac)), reply(2, mac, loader, item), "OFFER")
    same(datagram(discover, frame(1, mac)), reply(2, mac, loader, item), "the same OFFER")
    home = bytes([10, 8, 0, 10])
    asked, told = bytes.fromhex("2b07470400000000ff"), bytes.fromhex("2b0a060108470400000000ff")
    same(datagram(boot, frame(3, mac, asked, home)), reply(5, mac, loader, told, home), "ACK")
    url = b"http://%s:%d/ipxe/52:54:00:12:34:56" % (address.encode(), http)
    same(datagram(discover, frame(1, mac, b"\x4d\x04iPXE")), reply(2, mac, url, item), "OFFER to iPXE")
    same(datagram(discover, frame(3, mac), 0.5), None, "a REQUEST at the discover port")
    same(datagram(boot, frame(1, mac), 0.5), None, "a DISCOVER at the boot port")
    same(datagram(discover, frame(1, bytes.fromhex("525400123457")), 0.5), None, "the UUID of another machine")
    same(datagram(discover, frame(1, mac)[:239], 0.5), None, "239 octets")
    same(datagram(discover, b"", 0.5), None, "no octets")


def connected():
    return socket.create_connection((address, http), 5)


def answer(s):
    """All octets until the desk closes."""
    octets = b""
    while True:
        more = s.recv(65536)
        if not more:
            return octets
        octets += more


def asked(target):
    with connected() as s:
        s.sendall(f"GET {target} HTTP/1.1\r\n\r\n".encode())
        return answer(s)


def is_closed(s):
    """Whether the desk has closed a connection to which it sent nothing."""
    waiting = select.poll()
    waiting.register(s, select.POLLIN)
    if not waiting.poll(0):
        return False
    try:
        return s.recv(1) == b""
    except ConnectionResetError:
        return True


def timed(what, limit, call):
    begin = time.monotonic()
    got = call()
    took = time.monotonic() - begin
    if took > limit:
        sys.exit(f"{what}: {took:.2f} seconds")
    return got


def silent():
    held = [connected() for _ in range(20)]
    begin = time.monotonic()
    for s in held[::2]:
        s.sendall(b"GET /machines HTTP/1.1\r\nHost:")
    for _ in range(3):
        if not timed("a DISCOVER", limit, lambda: datagram(discover, frame(1, bytes.fromhex("525400123456")))):
            sys.exit("no OFFER")
        if b" 404 " not in timed("a request", limit, lambda: asked("/ipxe/00:00:00:00:00:01")):
            sys.exit("no answer")
    if any(is_closed(s) for s in held):
        sys.exit("a silent connection is closed before two seconds")
    while not all([is_closed(s) for s in held]):
        if time.monotonic() - begin > 4:
            sys.exit("a silent connection is open after four seconds")
        time.sleep(0.05)
    if time.monotonic() - begin < 1.9:
        sys.exit("silent connections are closed before two seconds")


def many():
    held = [connected() for _ in range(1024)]
    if b" 404 " not in timed("the 1,025th connection", limit, lambda: asked("/ipxe/00:00:00:00:00:01")):
        sys.exit("no answer at the 1,025th connection")
    closed = [is_closed(s) for s in held]
    if not closed[0] or any(closed[1:]):
        sys.exit(f"closed for the 1,025th: {[at for at, it in enumerate(closed) if it]}")


def slow():
    with connected() as s:
        for octet in b"GET /ipxe/00:00:00:00:00:01 HTTP/1.1\r\n\r\n":
            s.sendall(bytes([octet]))
            time.sleep(0.01)
        if b" 404 " not in answer(s):
            sys.exit("no answer to a request octet by octet")
    with connected() as s:
        s.sendall(b"GET /ipxe/00:00:00:00:00:01 HTTP/1.1\r\n\r\n")
        octets = b""
        while more := s.recv(1):
            octets += more
            time.sleep(0.01)
        if not octets.endswith(b'{"refusal":"NoMachine"}'):
            sys.exit("an answer octet by octet")


def scripts(count):
    """Asks for a machine's script so many times, each of which the log has a line for."""
    for _ in range(int(count)):
        if b" 200 " not in timed("a script", limit, lambda: asked("/ipxe/52:54:00:12:34:56")):
            sys.exit("no script")


def commands(token):
    """Adds machines until the desk is gone, and prints the address of each that was answered."""
    for number in range(1, 60000):
        mac = f"02:00:00:00:{number >> 8:02x}:{number & 255:02x}"
        body = json.dumps({"key": f"00000000-0000-4000-9000-{number:012x}", "command": "add_machine", "mac": mac, "arch": "bios", "pool": "lab"})
        try:
            with connected() as s:
                s.sendall(f"POST /commands HTTP/1.1\r\nAuthorization: Bearer {token}\r\nContent-Length: {len(body)}\r\n\r\n{body}".encode())
                got = answer(s)
        except OSError:
            return
        if b'"status":"New"' not in got:
            if not got:
                return
            sys.exit(f"{got}")
        print(mac, flush=True)
    sys.exit("the desk didn't end")


def summed(octets):
    """The checksum of an IP header (RFC 791 section 3.1)."""
    total = sum(struct.unpack("!%dH" % (len(octets) // 2), octets))
    while total >> 16:
        total = (total & 0xffff) + (total >> 16)
    return 0xffff - total


def relayed(card, capture):
    """Sends a DISCOVER from a card without an address, each second again for a minute, and writes the answer's frame to a capture file."""
    mac = bytes.fromhex("525400123499")
    octets = frame(1, mac)
    udp = struct.pack("!HHHH", 68, 67, 8 + len(octets), 0) + octets
    ip = struct.pack("!BBHHHBBHII", 0x45, 0, 20 + len(udp), 1, 0, 64, 17, 0, 0, 0xffffffff)
    ip = ip[:10] + struct.pack("!H", summed(ip)) + ip[12:]
    with socket.socket(socket.AF_PACKET, socket.SOCK_RAW, socket.htons(0x0800)) as s:
        s.bind((card, 0))
        s.settimeout(1)
        began, sent, got = time.monotonic(), 0, b""
        while not (got[23:24] == b"\x11" and got[36:38] == struct.pack("!H", 68)):
            if time.monotonic() >= began + 60:
                sys.exit("no answer within a minute")
            if time.monotonic() >= began + sent:
                s.send(b"\xff" * 6 + mac + b"\x08\x00" + ip + udp)
                sent += 1
            try:
                got = s.recv(65535)
            except TimeoutError:
                got = b""
    with open(capture, "wb") as out:
        out.write(struct.pack("<IHHiIIIIIII", 0xa1b2c3d4, 2, 4, 0, 0, 65535, 1, 0, 0, len(got), len(got)) + got)


def compare(answered, export, report):
    machines = {mac for row in csv.DictReader(open(export, newline="")) for mac in row["macs"].split()}
    told = open(answered).read().split()
    if not told:
        sys.exit("no command was answered")
    lost = [mac for mac in told if mac not in machines]
    if lost:
        sys.exit(f"lost: {lost}")
    total = int(open(report).read().split()[-1])
    if total != len(machines) or total not in (len(told) + 1, len(told) + 2):
        sys.exit(f"{total} machines in the report, {len(machines)} in the export, {len(told)} answered")


what, *words = sys.argv[1:]
limit = float(os.environ.get("REAL_PEERS_LIMIT", "0.5"))  # how long an answer may take, in seconds
if what in ("compare", "relayed"):
    {"compare": compare, "relayed": relayed}[what](*words)
else:
    address, (discover, boot, http) = words[0], map(int, words[1:4])
    {"frames": frames, "silent": silent, "many": many, "slow": slow, "scripts": scripts, "commands": commands}[what](*words[4:])
