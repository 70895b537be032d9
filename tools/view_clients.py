"""Clients of hallview that are from elsewhere, wrong, idle or slow: for view_peer.py. What is wanted is an order of events, since a machine may be busy:
a page comes while the others are there, and they are cut off in what they do. How long a page takes is measured by view_figures.py."""
import json
import time

from view_hall import NAME
from view_served import LOOPBACK, PATIENCE

TRIES = 20            # crowds of clients beside which a page is asked for, where a busy machine was late
MANY = 300            # idle connections, more than are kept
LONG_HEAD = 9_000     # octets, more than a head may have


def status_of(view, octets):
    """The status of what answers these octets; 0 where the connection is closed without one."""
    with view.connect() as s:
        came = b""
        try:
            s.sendall(octets)
            while b"\r\n" not in came and (piece := s.recv(4096)):
                came += piece
        except ConnectionError:
            pass
    return int(came.split()[1]) if came.startswith(b"HTTP/1.") else 0


class Many:
    """So many connections that wait. `with` closes them."""

    def __init__(self, view, count):
        self.view, self.all = view, [view.connect() for _ in range(count)]

    def __enter__(self):
        return self

    def __exit__(self, *_):
        for s in self.all:
            s.close()

    def send(self, octets):
        """Sends the same on each that is still open."""
        for s in self.all:
            try:
                s.sendall(octets)
            except ConnectionError:
                pass

    def are_there(self):
        """Whether hallview has one of them open, beside an exchange with the desk and the connection of a page."""
        return self.view.descriptors() > self.view.alone + 2

    def are_closed(self):
        """Whether hallview comes to have closed its end of each."""
        end = time.monotonic() + PATIENCE
        while self.are_there() and time.monotonic() < end:
            time.sleep(0.1)
        return not self.are_there()


def page(view):
    """The status of a page, or what was wrong."""
    try:
        return view.ask("/").status
    except OSError as fault:
        return fault


def beside(checks, view, crowd, count, octets, are_closed):
    """Wants a page that comes before the last of a crowd's connections is closed, on which these octets were sent, and then all of these closed.
    A busy machine may come too late to both: then there is another crowd. One that serves others only once a crowd is gone is always late."""
    for _ in range(TRIES):
        with Many(view, count) as many:
            many.send(octets)
            status = page(view)
            is_beside = status == 200 and many.are_there()
            is_cut_off = many.are_closed()
        if is_beside or status != 200:
            break
    checks.wants(f"a page comes beside {crowd}", is_beside, status)
    checks.wants(are_closed, is_cut_off, view.descriptors())


def strangers(checks, view):
    """Requests for other hosts, by other methods, and for what isn't there."""
    for host in ["evil.example", "evil.example:8067", f"{LOOPBACK}.evil.example", "localhost.evil.example", "127.0.0.2", "[::2]", ""]:
        for target in ["/", f"/machines/{NAME}/1", "/metrics", "/state.json", "/healthz"]:
            answer = view.ask(target, Host=host)
            checks.wants(f"the host {host!r} is refused {target}", answer.status == 403 and len(answer.body) < 100, answer.status)
    for host in ["localhost:x", "user@localhost", "localhost/", "[::1", "a b"]:
        checks.wants(f"no host is {host!r}", view.ask("/", Host=host).status == 400)
    for host in [f"{LOOPBACK}:{view.port}", "localhost", "LOCALHOST:1", "[::1]:8067"]:
        checks.wants(f"the host {host} is answered", view.ask("/healthz", Host=host).body == b"ok\n")
    request = f"GET http://evil.example/ HTTP/1.1\r\nHost: {LOOPBACK}\r\nConnection: close\r\n\r\n".encode()
    checks.wants("another host in the target is refused", status_of(view, request) == 403)
    checks.wants("a request without a host is refused", status_of(view, b"GET / HTTP/1.1\r\nConnection: close\r\n\r\n") == 400)
    for method in ["POST", "PUT", "DELETE", "PATCH"]:
        answer = view.ask("/", method)
        checks.wants(f"{method} is no method here", answer.status == 405 and answer.fields.get("allow") == "GET, HEAD", answer.status)
    answer = view.ask("/", "HEAD")
    checks.wants("HEAD has the fields alone", answer.status == 200 and answer.body == b"" and int(answer.fields["content-length"]) > 1000, answer.fields)
    checks.wants("a page of none", [view.ask(target).status for target in ["/x", "/machines/none/1", "/machines/hall/x", "/machines/hall"]] == [404] * 4)
    checks.wants("it serves", view.ask("/healthz").body == b"ok\n")


def spoiled(checks, view):
    """Requests that are too long, or none."""
    head = f"GET / HTTP/1.1\r\nHost: {LOOPBACK}\r\n".encode()
    wrong = {
        f"a head of {LONG_HEAD} octets": (431, head + b"X: " + b"a" * (LONG_HEAD - len(head) - 7) + b"\r\n\r\n"),
        "a long target": (414, b"GET /" + b"a" * LONG_HEAD + b" HTTP/1.1\r\n\r\n"),
        "a body": (413, head + b"Content-Length: 5\r\n\r\nhello"),
        "what is no HTTP": (400, b"\x16\x03\x01\x02\x00\x01\x00"),
        "a length of letters": (400, head + b"Content-Length: x\r\n\r\n"),
        "two lengths": (400, head + b"Content-Length: 0\r\nContent-Length: 1\r\n\r\n"),
        "a bare line": (400, b"hello\r\n\r\n"),
        "a null": (400, b"GET /\0 HTTP/1.1\r\nHost: localhost\r\n\r\n"),
        "two hosts": (400, head + b"Host: evil.example\r\n\r\n"),
    }
    for what, (wanted, octets) in wrong.items():
        status = status_of(view, octets)
        checks.wants(f"{what} is refused", status == wanted, f"{status} and not {wanted}")
    checks.wants("a page comes after spoiled requests", (status := page(view)) == 200, status)


def idle(checks, view):
    """More connections than are kept, which ask for nothing."""
    beside(checks, view, f"{MANY} idle connections", MANY, b"", "idle connections are closed")


def slow_asker(checks, view):
    """Connections on which a request comes an octet at a time."""
    request = f"GET / HTTP/1.1\r\nHost: {LOOPBACK}\r\nX: ".encode() + b"a" * 1000
    beside(checks, view, "clients that ask slowly", 20, request[:9], "who asks for half is cut off")
    with Many(view, 20) as many:
        for octet in request:
            many.send(bytes([octet]))
            time.sleep(0.1)
            if not many.are_there():
                break
        checks.wants("who asks slowly is cut off while it asks", not many.are_there(), view.descriptors())


def slow_reader(checks, view):
    """Connections on which more answers are asked for than the system keeps, and none is taken."""
    requests = f"GET / HTTP/1.1\r\nHost: {LOOPBACK}\r\n\r\n".encode() * 100
    beside(checks, view, "clients that take nothing", 5, requests, "who takes nothing is cut off")
    checks.wants("a page comes after clients that took nothing", (status := page(view)) == 200, status)


def answers_on_one(view, pieces):
    """What comes on one connection on which these pieces of requests are sent, until it has three answers or is closed."""
    came = b""
    try:
        with view.connect() as s:
            for piece in pieces:
                s.sendall(piece)
                time.sleep(0.1)
            while came.count(b"\r\n\r\nok\n") < 3 and (piece := s.recv(4096)):
                came += piece
    except OSError:
        pass
    return came


def kept_alive(checks, view):
    """Several requests on one connection, of which one comes in pieces; on another one, where a busy machine was so late that it was cut off."""
    head = f"GET /healthz HTTP/1.1\r\nHost: {LOOPBACK}\r\n\r\n".encode()
    for _ in range(TRIES):
        came = answers_on_one(view, [head[:9], head[9:], head + head[:20], head[20:]])
        if came.count(b"\r\n\r\nok\n") == 3:
            break
    checks.wants("a connection is kept for more requests", came.count(b"\r\n\r\nok\n") == 3, came)


def alone(view):
    """How many files and sockets are open a little later."""
    time.sleep(0.05)
    return view.descriptors()


def trial(checks, _hall, view):
    before = json.dumps(view.hall(NAME)["machines"])
    view.alone = min(alone(view) for _ in range(40))
    strangers(checks, view)
    spoiled(checks, view)
    kept_alive(checks, view)
    idle(checks, view)
    slow_asker(checks, view)
    slow_reader(checks, view)
    checks.wants("no request changed a machine", json.dumps(view.hall(NAME)["machines"]) == before)
