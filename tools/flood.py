"""Bad nights of hallboot serve: flood.py PROGRAM all|floods|overdue|lists.. Run by flood.sh, which says what is looked at."""
import errno, heapq, itertools, multiprocessing, resource, select, socket, struct, sys, time
from collections import deque
from flood_lists import lists
from flood_overdue import overdue
from served_hall import Hall, whole

KINDS = ["silent", "one octet", "half a head", "trickling"]    # what a connection of a flood sends
HALF = b"GET /ipxe/52:54:00:12:34:56 HTTP/1.1\r\nHost: x"
RATES, ADDRESSES, WAITS = [1000, 3000], [1, 16], [0.002, 0.02]
BEFORE, DURING, PATIENCE = 1.5, 3.0, 4.0    # seconds of a flood before the honest clients and beside them; of patience with each
HONEST = 120                                # requests of honest clients a second
MAX_OPEN = min(12_000, resource.getrlimit(resource.RLIMIT_NOFILE)[0] - 100)    # connections of a flood
now = time.monotonic


class Table:
    """What is printed: rows that are good, and rows that miss what is wanted."""

    def __init__(self):
        self.missed = 0

    def header(self, first, *columns):
        print(f"\n{first:20}" + "".join(f"{column:15}" for column in columns), flush=True)

    def row(self, is_good, first, *columns):
        print(f"{first!s:20}" + "".join(f"{column!s:15}" for column in columns), "good" if is_good else "MISSED", flush=True)
        self.missed += not is_good


# ---- Floods
class Flood:
    """Connections of one kind, so many new ones a second, that are held until the desk closes them."""

    def __init__(self, kind, rate, sources, port):
        self.kind, self.rate, self.sources, self.desk = kind, rate, sources, ("127.0.0.1", port)
        self.poll, self.held, self.begun, self.next_octets = select.epoll(), {}, 0, deque()
        self.octets = {"silent": b"", "one octet": b"G", "half a head": HALF, "trickling": b"G"}[kind]

    def begin(self):
        s = socket.socket(socket.AF_INET, socket.SOCK_STREAM | socket.SOCK_NONBLOCK)
        s.setsockopt(socket.SOL_IP, 24, 1)    # IP_BIND_ADDRESS_NO_PORT: the port is chosen for both addresses
        s.setsockopt(socket.SOL_SOCKET, socket.SO_LINGER, struct.pack("ii", 1, 0))
        s.bind((self.sources[self.begun % len(self.sources)], 0))
        if s.connect_ex(self.desk) not in (0, errno.EINPROGRESS):    # no port is free: the rate that is reached says so
            return s.close()
        self.begun += 1
        self.held[s.fileno()] = s
        self.poll.register(s, select.EPOLLIN | (select.EPOLLOUT if self.octets else 0))

    def end(self, s):
        del self.held[s.fileno()]
        self.poll.unregister(s)
        s.close()

    def connected(self, s):
        """The first octets, and one each tenth of a second of a connection that trickles."""
        try:
            s.send(self.octets)
        except OSError:
            return self.end(s)
        self.poll.modify(s, select.EPOLLIN)
        if self.kind == "trickling":
            self.next_octets.append((now() + 0.1, s, 1))

    def trickle(self):
        while self.next_octets and self.next_octets[0][0] <= now():
            at, s, sent = self.next_octets.popleft()
            if self.held.get(s.fileno()) is not s:
                continue
            try:
                s.send(HALF[sent:sent + 1] or b"x")
                self.next_octets.append((at + 0.1, s, sent + 1))
            except OSError:
                self.end(s)

    def run(self, seconds, is_over):
        """Until it is over, or for so many seconds; how many connections a second were begun."""
        first = now()
        while now() < first + seconds and not is_over.is_set():
            due = int((now() - first) * self.rate)
            for _ in range(min(due - self.begun, 500)):
                if len(self.held) < MAX_OPEN:
                    self.begin()
            self.trickle()
            for file, events in self.poll.poll(0.001, 256):
                s = self.held[file]
                if events & (select.EPOLLIN | select.EPOLLHUP | select.EPOLLERR):
                    self.end(s)
                elif events & select.EPOLLOUT:
                    self.connected(s)
        reached = self.begun / (now() - first)
        for s in list(self.held.values()):
            self.end(s)
        return reached


def flood(to, is_over, *words):
    to.send(Flood(*words).run(BEFORE + DURING + 2 * PATIENCE, is_over))


# ---- Honest clients
class Honest:
    """One request each of many clients: connect, wait, send all of it, read the answer."""

    def __init__(self, port, mac):
        self.desk, self.request = ("127.0.0.1", port), f"GET /ipxe/{mac} HTTP/1.1\r\nHost: desk\r\n\r\n".encode()
        self.poll, self.held, self.due, self.begun = select.epoll(), {}, [], 0
        self.outcomes = {wait: [] for wait in WAITS}    # of each, the seconds that it took, None if it wasn't answered

    def begin(self):
        s = socket.socket(socket.AF_INET, socket.SOCK_STREAM | socket.SOCK_NONBLOCK)
        s.bind((f"127.0.1.{self.begun % 250 + 1}", 0))
        s.connect_ex(self.desk)
        self.held[s.fileno()] = {"socket": s, "wait": WAITS[self.begun % len(WAITS)], "begun": now(), "octets": b""}
        self.poll.register(s, select.EPOLLOUT)
        heapq.heappush(self.due, (now() + PATIENCE, s.fileno(), self.begun, "late"))
        self.begun += 1

    def end(self, one, is_answered):
        took = now() - one["begun"]
        self.outcomes[one["wait"]].append(took if is_answered else None)
        del self.held[one["socket"].fileno()]
        self.poll.unregister(one["socket"])
        one["socket"].close()

    def step(self, file, events):
        one = self.held[file]
        try:
            if events & select.EPOLLOUT:
                one["socket"].send(b"")
                self.poll.modify(file, select.EPOLLIN)
                return heapq.heappush(self.due, (now() + one["wait"], file, id(one), "send"))
            more = one["socket"].recv(65536)
            one["octets"] += more
            if not more:
                status, body = whole(one["octets"])
                self.end(one, status == 200 and body.startswith(b"#!ipxe\n"))
        except OSError:
            self.end(one, False)

    def happens(self, file, which, what):
        one = self.held.get(file)
        if what == "send" and one and id(one) == which:
            try:
                one["socket"].send(self.request)
            except OSError:
                self.end(one, False)
        elif what == "late" and one and now() >= one["begun"] + PATIENCE:
            self.end(one, False)

    def run(self):
        first = now()
        while self.held or now() < first + DURING:
            if now() < first + DURING and self.begun < (now() - first) * HONEST:
                self.begin()
            while self.due and self.due[0][0] <= now():
                self.happens(*heapq.heappop(self.due)[1:])
            for file, events in self.poll.poll(0.001):
                self.step(file, events)
        return self.outcomes


def flood_row(table, hall, kind, rate, addresses):
    reached = 0
    is_over = multiprocessing.Event()
    if rate:
        sources = [f"127.0.0.{number + 2}" for number in range(addresses)]
        at, to = multiprocessing.Pipe()
        other = multiprocessing.Process(target=flood, args=(to, is_over, kind, rate, sources, hall.http), daemon=True)
        other.start()
        time.sleep(BEFORE)
    outcomes = Honest(hall.http, "52:54:00:12:34:56").run()
    if rate:
        is_over.set()
        reached = at.recv() if at.poll(PATIENCE) else 0    # nothing comes of a flood that failed
        other.join(PATIENCE)
    for wait, took in outcomes.items():
        answered = [one for one in took if one is not None]
        longest = f"{max(answered) * 1000:.0f} ms" if answered else "-"
        is_good = len(answered) >= 0.99 * len(took) and len(took) >= 100 and reached >= 0.8 * rate
        name = kind if hall.host == "127.0.0.1" else f"{kind}, at {hall.host}"
        counts = f"{len(answered)} of {len(took)}"
        table.row(is_good, name, f"{reached:.0f} of {rate}", addresses, f"{wait * 1000:.0f} ms", counts, longest)


def floods(program, table):
    table.header("flood", "new a second", "addresses", "waits", "answered", "longest")
    for host, kinds, counts in [("127.0.0.1", KINDS, ADDRESSES), ("[::]", KINDS[:2], ADDRESSES[:1])]:
        with Hall(program, f"floods{len(counts)}", host) as hall:
            hall.serve()
            hall.command(command="add_machine", mac="52:54:00:12:34:56", arch="uefi64", pool="default")
            flood_row(table, hall, "none", 0, 0)
            for kind, rate, addresses in itertools.product(kinds, RATES, counts):
                flood_row(table, hall, kind, rate, addresses)
                time.sleep(0.5)


if __name__ == "__main__":
    multiprocessing.set_start_method("fork")
    trials, wanted, shown = {"floods": floods, "overdue": overdue, "lists": lists}, sys.argv[2:], Table()
    for name in trials if wanted == ["all"] else wanted:
        trials[name](sys.argv[1], shown)
    print(f"\nflood: {shown.missed} rows missed" if shown.missed else "\ngood: flood")
    sys.exit(bool(shown.missed))
