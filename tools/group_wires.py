"""What a client of group_trial.py sends, until all of it is answered, and what it makes of the answers."""
import asyncio, random, socket, time
from group_answers import Hole, Rows, Wrong, compact

PATIENCE = 5.0     # seconds in which an answer comes
WRONGS = 3         # wrong answers to one request, after which its client gives up
SAME = object()    # in place of a row: the machine stays as it is


class Ended(Exception):
    """The trial ends."""


class Lost(Exception):
    """The client doesn't know any more what the hall has."""


def spelled(method, path, token=None, members=None):
    """The octets of a request."""
    body = "" if members is None else compact(members)
    head = f"{method} {path} HTTP/1.1\r\nHost: desk\r\n"
    if token is not None:
        head += f"Authorization: Bearer {token}\r\n"
    if members is not None:
        head += f"Content-Length: {len(body)}\r\n"
    return f"{head}\r\n{body}".encode()


class Request:
    """Octets that are sent until they are answered. `again` may be answered too where they were sent before and no answer came."""

    def __init__(self, octets, *rights, again=(), key=None):
        self.octets, self.rights, self.again, self.key = octets, rights, again, key
        self.is_list = isinstance(rights[0], Rows)
        self.is_steady = len(rights) + len(again) == 1 and not self.is_list
        self.tries, self.wrongs, self.cuts, self.answer, self.values = 0, 0, [], None, {}


class Batch:
    """Requests that are sent at one moment, and the row of the client's machine before and after what they change."""

    def __init__(self, requests, before, after, is_change):
        self.requests, self.before, self.after, self.is_change = requests, before, after, is_change
        self.tries, self.sent, self.begun, self.may_be_done, self.was_done, self.is_done = 0, 0.0, 0, False, False, False

    def left(self):
        return [request for request in self.requests if request.answer is None]

    def rows(self):
        """The rows of which the hall has one."""
        if self.is_done:
            return [self.after]
        return [self.before, self.after] if self.may_be_done else [self.before]


class Wire:
    """A connection to the desk by which one request is sent. A slow one takes its answer in small pieces, so that the desk can't write it at once."""

    def __init__(self, is_slow):
        self.socket, self.is_open, self.is_slow = socket.socket(), False, is_slow
        self.socket.setblocking(False)
        if is_slow:
            self.socket.setsockopt(socket.IPPROTO_TCP, socket.TCP_MAXSEG, 536)
            self.socket.setsockopt(socket.SOL_SOCKET, socket.SO_RCVBUF, 4096)

    async def open(self, port):
        try:
            await asyncio.get_running_loop().sock_connect(self.socket, ("127.0.0.1", port))
            # where nobody listens, loopback may join a connection with itself
            self.is_open = self.socket.getsockname() != self.socket.getpeername()
        except OSError:
            pass

    def send(self, octets):
        try:
            if self.is_open:
                self.socket.sendall(octets)
        except OSError:
            pass

    async def received(self):
        """What comes until the connection ends; nothing where none was there."""
        octets, loop = b"", asyncio.get_running_loop()
        try:
            while self.is_open and (more := await loop.sock_recv(self.socket, 4096 if self.is_slow else 1 << 18)):
                octets += more
                if self.is_slow:
                    await asyncio.sleep(0.001)
        except OSError:
            pass
        finally:
            self.socket.close()
        return octets


class Wires:
    """What a client sends, until all of it is answered, and what it makes of the answers."""

    def __init__(self, trial, number):
        self.trial, self.number, self.chance = trial, number, random.Random(f"{trial.seed} {number}")
        self.checks = self.answers = self.changed = self.unanswered = self.cut = 0
        self.batch, self.row, self.home, self.is_ending, self.is_lost, self.round = None, None, None, False, False, 0

    def check(self, holds, words):
        self.checks += 1
        if not holds:
            self.trial.bad(f"client {self.number}: {words}")

    async def ask(self, *requests, after=SAME, is_change=False):
        """Sends requests at one moment, and again until each is answered; after what they change the machine has another row."""
        if self.trial.is_ending and not self.is_ending:
            raise Ended
        self.batch = batch = Batch(requests, self.row, self.row if after is SAME else after, is_change)
        while batch.left():
            await self.try_once(batch)
        self.row = self.learned(batch)
        self.batch = None
        self.changed += is_change

    async def try_once(self, batch):
        self.round = await self.trial.gate.passed()
        left = batch.left()
        self.chance.shuffle(left)
        batch.tries, batch.sent, batch.was_done, batch.begun = batch.tries + 1, time.monotonic(), batch.is_done, self.trial.syncs.begun()
        wires = [Wire(request.is_list) for request in left]
        for wire in wires:
            await wire.open(self.trial.hall.http)
        batch.may_be_done = batch.may_be_done or any(wire.is_open for wire in wires)
        for wire, request in zip(wires, left):
            wire.send(request.octets)
        for request, wire in zip(left, wires):
            octets = await wire.received()
            request.tries += 1
            self.judge(batch, request, octets, self.trial.syncs.ended())
        if not self.trial.gate.is_killed(self.round) and batch.left():
            await asyncio.sleep(0.02)

    def judge(self, batch, request, octets, ended):
        """Compares what came, when so many syncs had ended, with what may be answered."""
        found, faults = [], []
        for right in (*request.rights, *(request.again if request.tries > 1 else ())):
            try:
                if right.is_done or not batch.was_done:
                    found.append((right, *right.read(octets)))
            except Wrong as fault:
                faults.append(str(fault))
        self.checks += 1
        if not found:
            return self.wrong(request, f"was answered {octets[:900]!r}: {'; '.join(faults)}")
        right, values, is_whole = next((one for one in found if one[2]), found[0])
        if is_whole:
            request.answer, request.values = octets, values
            return self.answered(batch, request, right, ended)
        # its first octet says that it is done
        if octets and batch.is_change and all(one[0].is_done for one in found):
            batch.is_done = True
        self.missed(batch, request, octets)

    def answered(self, batch, request, right, ended):
        """The right answer came, when so many syncs had ended."""
        self.answers += 1
        if batch.is_change and right.is_done:
            batch.is_done = True
            self.check(batch.tries > 1 or ended > batch.begun, f"{request.octets!r} was answered, and no sync has begun and ended since it was sent")
        for cut in request.cuts if request.is_steady else ():
            self.check(request.answer.startswith(cut), f"{request.octets!r}: {cut!r} came before a kill, and after it the answer was {request.answer!r}")

    def missed(self, batch, request, octets):
        """No whole answer came. Where the desk wasn't killed, it closes what is late, and its log has a line for that."""
        if octets:
            request.cuts.append(octets)
        waited = time.monotonic() - batch.sent
        if self.trial.gate.is_killed(self.round):
            self.unanswered += 1
            self.cut += bool(octets)
            self.check(bool(octets) or waited < PATIENCE, f"{request.octets!r} had no answer for {waited:.1f} seconds, until the desk was killed")
        else:
            self.trial.closed.append(f"client {self.number}: {request.octets!r}: {octets[:300]!r}")

    def wrong(self, request, why):
        request.wrongs += 1
        self.check(False, f"{request.octets!r} {why}")
        if request.wrongs >= WRONGS:
            raise Lost(f"{WRONGS} wrong answers to one request")

    def learned(self, batch):
        """The row after a batch, with the numbers that its answers have, of which none was given to another one."""
        row = batch.after
        for request in batch.requests:
            for name, value in request.values.items():
                if name == "token":
                    continue
                if not isinstance(row[name], Hole):
                    self.check(row[name] == value, f"{request.octets!r}: {name} {value}, and another answer at the same moment has {row[name]}")
                    continue
                row = row | {name: value}
                if name != "deadline":
                    self.check(self.trial.numbers.take(name, value, self.home), f"{request.octets!r}: {name} {value} was given before, to the machine of "
                               f"{self.trial.numbers.home(name, value)}")
        return row

    def wanted(self):
        """The rows of which the hall has one, of the machine at hand."""
        return self.batch.rows() if self.batch else [self.row]
