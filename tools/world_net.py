"""The networks of a pretended world, for world.py: proxies between the desk and its machines, its operators and the power program, which lose,
delay, repeat and cut requests and answers. Each exchange with the desk is told to the world's watch, as it was on the wire."""
import asyncio, json, re

FOREIGN = {
    "foreign 200": b"HTTP/1.1 200 OK\r\nContent-Length: 44\r\nConnection: close\r\n\r\n<html><body><h1>It works!</h1></body></html>",
    "foreign 404": b"HTTP/1.1 404 Not Found\r\nContent-Length: 22\r\nConnection: close\r\n\r\n<html>Not Found</html>",
}
# How often each way is taken of 100 connections, in calm and in rough weather; all others pass straight.
CALM = {"slow": 6, "lost": 2, "late copy": 2}
ROUGH = {"refused": 5, "slow": 12, "slow answer": 12, "lost": 10, "held": 6, "cut": 6, "half": 3, "twice": 6, "late copy": 6}


class Exchange:
    """A request as it is sent to the desk, and what the desk answers to it: None where no whole answer came."""

    def __init__(self, way, octets, opened, sent):
        self.way, self.octets, self.opened, self.sent = way, octets, opened, sent
        head, _, body = octets.partition(b"\r\n\r\n")
        self.method, self.path = (head.split(b"\r\n")[0].decode("latin-1").split(" ") + ["", ""])[:2]
        self.members = read_object(body)
        self.ended = self.status = None
        self.body = b""

    def answered(self, octets, at):
        self.ended = at
        head, end, body = octets.partition(b"\r\n\r\n")
        length = re.search(rb"(?i)\r\ncontent-length: *(\d+)", head)
        if end and length and len(body) == int(length[1]):
            self.status, self.body = int(head.split()[1]), body


def read_object(body):
    try:
        found = json.loads(body)
    except ValueError:
        return {}
    return found if isinstance(found, dict) else {}


async def read_request(reader):
    """The octets of a request: its head, and as many after it as Content-Length says."""
    head = await reader.readuntil(b"\r\n\r\n")
    length = re.search(rb"(?i)\r\ncontent-length: *(\d+)", head)
    return head + (await reader.readexactly(int(length[1])) if length else b"")


class Network:
    """One proxy, at a free port. `is_rough` is its weather."""

    def __init__(self, world, name, foreign=()):
        self.world, self.name, self.choice = world, name, world.stream(f"network {name}")
        self.is_rough, self.foreign, self.tasks = False, foreign, set()

    async def open(self):
        self.server = await asyncio.start_server(self.connected, "127.0.0.1", 0, backlog=128)
        self.port = self.server.sockets[0].getsockname()[1]

    def close(self):
        self.server.close()
        for task in list(self.tasks):
            task.cancel()

    def drawn(self):
        odds = ROUGH if self.is_rough else CALM
        at = self.choice.randrange(100)
        for way, chance in odds.items():
            at -= chance
            if at < 0:
                return way
        return self.choice.choice(self.foreign) if self.is_rough and self.foreign and at < 4 else "straight"

    async def connected(self, reader, writer):
        task = asyncio.current_task()
        self.tasks.add(task)
        try:
            await self.passed(reader, writer, self.drawn(), self.world.now())
        except (OSError, asyncio.IncompleteReadError, asyncio.LimitOverrunError, asyncio.TimeoutError, ValueError, asyncio.CancelledError):
            pass
        finally:
            self.tasks.discard(task)
            writer.close()

    async def passed(self, reader, writer, way, opened):
        if way == "refused":
            return
        request = await asyncio.wait_for(read_request(reader), 10)
        self.world.watch.came(request, opened)
        if way in self.foreign:
            self.world.note(f"{self.name}: {way} to {request.split(b' HTTP')[0].decode()}")
            writer.write(FOREIGN[way])
            return await writer.drain()
        if way == "slow":
            await asyncio.sleep(self.choice.uniform(0.05, 2.5 if self.is_rough else 0.4))
        if way == "half":
            return await self.half(request)
        answer, exchange = await self.asked(request, opened, way)
        if way == "twice":
            answer, exchange = await self.asked(request, opened, way)
        if way == "late copy":
            self.later(self.copied(request))
        await self.returned(writer, way, answer, exchange)

    async def returned(self, writer, way, answer, exchange):
        if way == "slow answer":
            await asyncio.sleep(self.choice.uniform(0.1, 2.5))
        if way == "held":
            await asyncio.sleep(self.choice.uniform(1, 3))
        if way in ("lost", "held") or not answer:
            return
        if way == "cut":
            answer = answer[:self.choice.randrange(len(answer))]
        elif not writer.is_closing():
            self.world.watch.delivered(exchange, self.world.now())
        writer.write(answer)
        await writer.drain()

    async def half(self, request):
        reader, writer = await self.world.desk.connection(self.name)
        writer.write(request[:self.choice.randrange(len(request))])
        await writer.drain()
        writer.close()

    def later(self, work):
        task = asyncio.get_running_loop().create_task(work)
        self.tasks.add(task)
        task.add_done_callback(self.tasks.discard)

    async def copied(self, request):
        await asyncio.sleep(self.choice.uniform(0.1, 4))
        try:
            await self.asked(request, self.world.now(), "a late copy")
        except OSError:
            pass

    async def asked(self, request, opened, way):
        """The desk's answer, as far as it came, and the exchange."""
        exchange, answer = Exchange(self.name, request, opened, self.world.now()), b""
        exchange.fate = way
        self.world.watch.sent(exchange)
        try:
            reader, writer = await self.world.desk.connection(self.name)
            try:
                writer.write(request)
                await writer.drain()
                answer = await asyncio.wait_for(reader.read(-1), 20)
            finally:
                writer.close()
        except (OSError, asyncio.TimeoutError):
            pass
        finally:
            exchange.answered(answer, self.world.now())
            self.world.watch.answered(exchange)
        return answer, exchange
