#!/usr/bin/env python3
"""Machines for trials of a boot desk, and a power controller for them. Standard library only; nothing of the product is used.

A machine that is switched on does what firmware, loader and live image would do: it sends its DISCOVER as firmware (PXE 2.1 section 2.2,
RFC 4578) and again as iPXE (RFC 3004), takes each OFFER, asks for its script, and obeys it: it starts its own disk, powers off where it is
held, or works: it reports started, begins once that was counted, reports done or failed, and powers off, or restarts after a deployment. Where
the desk refuses `started` it powers off, by any other answer it starts anew. In rescue it stays up.

With --power-token-file it is also the power controller: it asks the desk for orders, switches its machines by them and answers. A machine
has the number that the desk gave it: --ids FIRST says that of the first one, else each machine is switched on once, at the start.

Usage: pretend_machine.py --discover ADDRESS:PORT --http ADDRESS:PORT [OPTION..]

Each step is a line. --quiet prints only what a machine may not be told. The exit status is 1 if there was such a line."""
import argparse
import asyncio
import json
import re
import struct
import sys
import time
import uuid

ARCHITECTURES = {"bios": 0, "uefi32": 6, "uefi64": 7, "arm64": 11}
LOADERS = {"bios": "undionly.kpxe", "uefi32": "ipxe-i386.efi", "uefi64": "ipxe-x86_64.efi", "arm64": "ipxe-arm64.efi"}
COOKIE = bytes([99, 130, 83, 99])
WORD = r"[A-Za-z0-9_./-][A-Za-z0-9_./:=,+@%?;-]*"
OWN_DISK = {"#!ipxe\nexit\n", "#!ipxe\nsanboot --no-describe --drive 0x80\n"}
HELD = "#!ipxe\necho This machine is held by the hall desk\npoweroff\n"
WORK = re.compile(rf"#!ipxe\nkernel (http://\S+)((?: {WORD})*)\n(?:initrd (http://\S+)\n)?boot\n")
PURPOSES = {"commission", "test", "deploy", "erase", "rescue"}
COUNTED, REPEAT, REFUSAL = (200, b'{"result":"counted"}'), (200, b'{"result":"repeat"}'), re.compile(rb'\{"refusal":"\w+"\}')


class Wrong(Exception):
    """What a machine may not be told."""


def option(code, value):
    return bytes([code, len(value)]) + value


def options_of(area):
    """Returns the options of an area, values of one code joined (RFC 2132 section 2, RFC 3396)."""
    found, at = {}, 0
    while at < len(area) and area[at] != 255:
        if area[at] == 0:
            at += 1
            continue
        if at + 1 >= len(area) or at + 2 + area[at + 1] > len(area):
            raise Wrong("an option runs past its area")
        code, size = area[at], area[at + 1]
        found[code] = found.get(code, b"") + area[at + 2:at + 2 + size]
        at += 2 + size
    return found


class Frames(asyncio.DatagramProtocol):
    """One socket for the frames of all machines, which are told apart by their transaction's number."""

    def __init__(self):
        self.waiting = {}

    def connection_made(self, transport):
        self.transport = transport

    def datagram_received(self, data, address):
        if len(data) >= 8:
            waiting = self.waiting.get(struct.unpack_from("!I", data, 4)[0])
            if waiting and not waiting.done():
                waiting.set_result(data)

    def error_received(self, error):
        pass


class Machine:
    """One machine: its card, its firmware, and what it is doing."""

    def __init__(self, hall, number):
        self.hall = hall
        first = int(hall.given.first_mac.replace(":", ""), 16)
        self.mac = (first + number).to_bytes(6, "big")
        self.name = self.mac.hex(":")
        self.arch = hall.given.arch
        self.uuid = None if hall.given.no_uuid else uuid.uuid5(uuid.NAMESPACE_OID, self.name).bytes
        self.run = None
        self.last_boot = 0
        self.deployed_by = None
        self.state = "off"

    def say(self, text):
        if not self.hall.given.quiet:
            print(f"{self.name} {text}", flush=True)

    # ---- power

    def on(self):
        self.off()
        self.run = asyncio.get_running_loop().create_task(self.boot())

    def off(self):
        if self.run and not self.run.done():
            self.run.cancel()
        self.state = "off"

    # ---- frames

    def discover(self, xid, is_ipxe):
        given = self.hall.given
        head = struct.pack("!BBBBIHH", 1, 1, 6, 1 if given.relay else 0, xid, 0, 0 if is_ipxe else 0x8000)
        head += bytes(12) + self.hall.relay + self.mac.ljust(16, b"\0") + bytes(192) + COOKIE
        number = ARCHITECTURES[self.arch]
        words = option(53, b"\1") + option(55, bytes([1, 3, 6, 43, 60, 66, 67]))
        words += option(60, b"PXEClient:Arch:%05d:UNDI:003016" % number)
        words += option(93, struct.pack("!H", number)) + option(94, b"\1\3\16")
        if self.uuid:
            words += option(97, b"\0" + self.uuid)
        if is_ipxe:
            words += option(77, b"iPXE")
        return head + words + b"\xff"

    async def offer(self, is_ipxe):
        """Returns the boot file of the desk's OFFER. A client asks again after ever longer pauses (RFC 2131 section 4.1)."""
        for wait in (1, 2, 4, 8, 16, 16, 16, 16):
            xid = self.hall.next_xid()
            answer = asyncio.get_running_loop().create_future()
            self.hall.frames.waiting[xid] = answer
            try:
                self.hall.frames.transport.sendto(self.discover(xid, is_ipxe), self.hall.discover)
                return self.read_offer(await asyncio.wait_for(answer, wait), xid)
            except asyncio.TimeoutError:
                pass
            finally:
                del self.hall.frames.waiting[xid]
        return None

    def read_offer(self, data, xid):
        if len(data) < 300 or data[236:240] != COOKIE:
            raise Wrong("an OFFER under 300 octets, or without the cookie")
        op, kind, size, _, answered = struct.unpack_from("!BBBBI", data)
        found = options_of(data[240:])
        checks = {
            "op, hardware or transaction": (op, kind, size, answered) == (2, 1, 6, xid),
            "another card's": data[28:34] == self.mac,
            "an address for the client": data[16:20] == bytes(4),
            "no OFFER": found.get(53) == b"\2",
            "no server identifier": len(found.get(54, b"")) == 4,
            "not PXEClient": found.get(60) == b"PXEClient",
            "another machine's UUID": found.get(97) == (b"\0" + self.uuid if self.uuid else None),
            "a boot server discovery": options_of(found.get(43, b"")).get(6) == b"\10",
        }
        for words, is_good in checks.items():
            if not is_good:
                raise Wrong(f"an OFFER with {words}")
        return data[108:236].rstrip(b"\0").decode("ascii")

    # ---- HTTP

    async def ask(self, method, path, body=None):
        """Returns the status and the body of a response. What isn't answered is asked again."""
        while True:
            try:
                return await self.hall.http(method, path, body)
            except (OSError, asyncio.TimeoutError, asyncio.IncompleteReadError, ValueError):
                await asyncio.sleep(1)

    async def report(self, words, stage):
        """Sends a stage until it has an answer other than 5xx; returns its status and body."""
        while True:
            status, body = await self.ask("POST", f"/report/{words['boot']}/{words['token']}", {"stage": stage})
            if status >= 500:
                await asyncio.sleep(1)
                continue
            self.say(f"reports {stage} of boot {words['boot']}: {status} {body.decode(errors='replace')}")
            return status, body

    async def leave(self, words):
        """Whether the work may begin; if not, whether the machine starts anew in place of switching off."""
        status, body = await self.report(words, "started")
        is_refused = status in (404, 409, 410) and REFUSAL.fullmatch(body)
        return (status, body) == COUNTED, not is_refused

    async def conclude(self, words, stage):
        """Sends a verdict until the desk has answered it; returns whether it counted."""
        while True:
            status, body = await self.report(words, stage)
            if (status, body) in (COUNTED, REPEAT):
                return True
            if 400 <= status < 500 and REFUSAL.fullmatch(body):
                return False
            await asyncio.sleep(1)

    # ---- a start

    async def boot(self):
        try:
            while await self.start():
                pass
        except Wrong as wrong:
            self.hall.wrong(f"{self.name} {wrong}")
        except asyncio.CancelledError:
            self.say("is switched off")
            raise

    async def start(self):
        """Starts by network, and does what it is told; returns whether it restarts."""
        self.state = "starting"
        loader = await self.offer(False)
        if loader is None:
            self.say("has no OFFER, and stands still")
            return False
        if loader != LOADERS[self.arch]:
            raise Wrong(f"has the loader {loader} for {self.arch}")
        address = await self.offer(True)
        if address is None:
            self.say("has no OFFER for its loader, and stands still")
            return False
        found = re.fullmatch(r"http://[A-Za-z0-9][A-Za-z0-9.:-]*(/ipxe/[0-9a-f:]{17})", address)
        if not found or found[1] != f"/ipxe/{self.name}":
            raise Wrong(f"has the script's address {address}")
        self.say(f"DISCOVER {self.arch}: {loader}, then {address}")
        for wait in (2, 4, 8, 16, 32, 60, 60, 60):
            status, script = await self.ask("GET", found[1])
            if status == 200:
                return await self.obey(script.decode("ascii"))
            self.say(f"has no script: {status} {script.decode(errors='replace')}")
            await asyncio.sleep(wait)
        return False

    async def obey(self, script):
        if script in OWN_DISK:
            is_bios = "sanboot" in script
            if is_bios != (self.arch == "bios"):
                raise Wrong("is told to start its own disk as another architecture does")
            self.say("starts its own disk")
            self.state = "own disk"
            return False
        if script == HELD:
            if self.deployed_by is not None:
                raise Wrong("is held right after its deployment was counted")
            self.say("is held, and powers off")
            self.state = "off"
            return False
        work = WORK.fullmatch(script)
        if not work:
            raise Wrong(f"has a script of no known form: {script!r}")
        words = dict(word[5:].split("=", 1) for word in work[2].split() if word.startswith("hall."))
        if words.get("purpose") not in PURPOSES or not re.fullmatch("[0-9a-f]{32}", words.get("token", "")):
            raise Wrong(f"has work without a purpose or a token: {script!r}")
        if ("erase" in words) != (words["purpose"] == "erase") or words.get("erase", "full") not in ("quick", "full"):
            raise Wrong(f"has a kind of erasing where none is, or the other way round: {script!r}")
        if self.deployed_by is not None:
            raise Wrong(f"is given work right after its deployment was counted: {words['purpose']}")
        if int(words["boot"]) < self.last_boot:
            raise Wrong(f"is given boot {words['boot']} after boot {self.last_boot}")
        self.last_boot = int(words["boot"])
        return await self.work(words, work[1])

    async def work(self, words, kernel):
        purpose = words["purpose"] + (f" {words['erase']}" if "erase" in words else "")
        self.say(f"boots {kernel} to {purpose}, boot {words['boot']}")
        self.state = purpose
        is_leave, starts_anew = await self.leave(words)
        if not is_leave:
            self.say("has no leave, and starts anew" if starts_anew else "isn't wanted any more, and powers off")
            self.state = "off"
            return starts_anew
        if words["purpose"] == "rescue":
            return False
        await asyncio.sleep(self.hall.given.work)
        fails = words["purpose"] in self.hall.given.fail
        counted = await self.conclude(words, "failed" if fails else "done")
        if words["purpose"] == "deploy" and counted and not fails:
            self.deployed_by = int(words["boot"])
            self.say("restarts")
            restarts = await self.start()
            self.deployed_by = None
            return restarts
        self.say("powers off")
        self.state = "off"
        return False


class Hall:
    """All machines, and the ways to the desk."""

    def __init__(self, given):
        self.given = given
        self.discover = given.discover
        self.relay = bytes(map(int, given.relay[0].split("."))) if given.relay else bytes(4)
        self.machines = [Machine(self, number) for number in range(given.machines)]
        self.xid = int(time.time()) % 2**31
        self.wrongs = 0
        self.places = None

    def next_xid(self):
        self.xid = (self.xid + 1) % 2**32
        return self.xid

    def wrong(self, text):
        self.wrongs += 1
        print(f"WRONG: {text}", flush=True)

    async def http(self, method, path, body=None, token=None):
        """Returns the status and the body of one request, on a connection of its own (RFC 9112)."""
        data = b"" if body is None else json.dumps(body).encode()
        head = f"{method} {path} HTTP/1.1\r\nHost: desk\r\nConnection: close\r\n"
        if token:
            head += f"Authorization: Bearer {token}\r\n"
        if body is not None:
            head += f"Content-Length: {len(data)}\r\n"
        async with self.places:
            return await asyncio.wait_for(self.exchange(head.encode() + b"\r\n" + data), 30)

    async def exchange(self, octets):
        reader, writer = await asyncio.open_connection(*self.given.http)
        try:
            writer.write(octets)
            await writer.drain()
            answer = await reader.read(-1)
        finally:
            writer.close()
        head, found, body = answer.partition(b"\r\n\r\n")
        if not found:
            raise ValueError("no response")
        size = re.search(rb"(?i)\r\ncontent-length: *(\d+)", head)
        if not size or len(body) != int(size[1]):
            raise ValueError("a response that is cut")
        return int(head.split()[1]), body

    async def control(self):
        """Carries out the desk's orders for these machines, and answers them."""
        given = self.given
        with open(given.power_token_file, encoding="ascii") as it:
            token = it.readline().strip()
        while True:
            try:
                status, body = await self.http("GET", "/orders", token=token)
                if status != 200:
                    self.wrong(f"orders: {status} {body.decode(errors='replace')}")
                for order in json.loads(body)["orders"] if status == 200 else []:
                    await self.carry_out(order, token)
            except (OSError, asyncio.TimeoutError, ValueError, KeyError):
                pass
            await asyncio.sleep(given.every)

    async def carry_out(self, order, token):
        place = order["machine"] - self.given.ids
        if not 0 <= place < len(self.machines):
            return
        machine = self.machines[place]
        if order["kind"] == "cycle":
            machine.say(f"is switched on, order {order['number']}")
            machine.on()
        else:
            machine.off()
            machine.say(f"is switched off, order {order['number']}")
        await self.http("POST", f"/orders/{order['number']}", {"outcome": "done"}, token)

    async def run(self):
        given = self.given
        self.places = asyncio.Semaphore(256)
        loop = asyncio.get_running_loop()
        local = given.relay or ("127.0.0.1" if given.discover[0].startswith("127.") else "0.0.0.0", 0)
        _, self.frames = await loop.create_datagram_endpoint(Frames, local_addr=local)
        control = loop.create_task(self.control()) if given.power_token_file else None
        if given.ids is None or given.on:
            for machine in self.machines:
                machine.on()
        if given.seconds:
            await asyncio.sleep(given.seconds)
        elif control:
            await control
        else:
            await asyncio.gather(*(machine.run for machine in self.machines if machine.run))
        if control:
            control.cancel()
        for machine in self.machines:
            machine.off()


def address(text):
    host, _, port = text.rpartition(":")
    return host, int(port)


def relay(text):
    host, _, port = text.partition(":")
    return host, int(port or 67)


def read_words():
    parser = argparse.ArgumentParser(description=__doc__.split("\n\n")[0], formatter_class=argparse.RawDescriptionHelpFormatter)
    parser.add_argument("--discover", type=address, required=True, metavar="ADDRESS:PORT", help="where DISCOVERs are sent")
    parser.add_argument("--http", type=address, required=True, metavar="ADDRESS:PORT", help="where scripts are asked for")
    parser.add_argument("--machines", type=int, default=1, metavar="N", help="how many machines (1)")
    parser.add_argument("--first-mac", default="52:54:00:12:34:56", metavar="MAC", help="the address of the first; the others follow")
    parser.add_argument("--arch", choices=ARCHITECTURES, default="uefi64", help="their architecture (uefi64)")
    parser.add_argument("--no-uuid", action="store_true", help="their firmware has no UUID")
    parser.add_argument("--relay", type=relay, metavar="ADDRESS[:PORT]", help="send as a relay agent at this address of this host (port 67)")
    parser.add_argument("--power-token-file", metavar="FILE", help="carry out the desk's orders, by the token in FILE")
    parser.add_argument("--ids", type=int, metavar="ID", help="the desk's number of the first machine; the others follow")
    parser.add_argument("--on", action="store_true", help="switch all on at the start, beside --ids")
    parser.add_argument("--every", type=float, default=1, metavar="SECONDS", help="how often orders are asked for (1)")
    parser.add_argument("--work", type=float, default=1, metavar="SECONDS", help="how long a machine works (1)")
    parser.add_argument("--fail", action="append", default=[], choices=sorted(PURPOSES), help="work that fails; may be repeated")
    parser.add_argument("--seconds", type=float, metavar="SECONDS", help="end after so long; else once no machine has more to do")
    parser.add_argument("--quiet", action="store_true", help="print only what a machine may not be told")
    given = parser.parse_args()
    if given.power_token_file and given.ids is None:
        parser.error("--power-token-file wants --ids, the number of the first machine")
    return given


def main():
    hall = Hall(read_words())
    try:
        asyncio.run(hall.run())
    except KeyboardInterrupt:
        pass
    sys.exit(1 if hall.wrongs else 0)


if __name__ == "__main__":
    main()
