"""Clients that ask for the list of all machines and don't read it, for flood.py."""
import multiprocessing, select, socket, time
from served_hall import Hall, address, digest

MACHINES, MORE_MEMORY = 10_000, 64.0    # MB beside rest
USER = "users-secret-1"
ASKS = f"GET /machines HTTP/1.1\r\nHost: desk\r\nAuthorization: Bearer {USER}\r\n\r\n".encode()
PATIENCE = 40.0                         # seconds until no client reads on
now = time.monotonic


class Client:
    """One list: the head of its response, and how many octets came."""

    def __init__(self, port, number):
        self.socket, self.head, self.size = socket.socket(socket.AF_INET, socket.SOCK_STREAM), b"", 0
        self.socket.bind((f"127.0.2.{number % 250 + 1}", 0))
        self.socket.settimeout(10)
        self.socket.connect(("127.0.0.1", port))
        self.socket.sendall(ASKS)

    def goes_on(self, buffer):
        """Reads once; whether more may come."""
        try:
            size = self.socket.recv_into(buffer)
        except OSError:
            return False
        if len(self.head) < 1024:
            self.head += buffer[:min(size, 1024)]
        self.size += size
        return size > 0

    def is_whole(self):
        head, end, _ = self.head.partition(b"\r\n\r\n")
        lengths = [line.split(b":")[1] for line in head.split(b"\r\n") if line.lower().startswith(b"content-length:")]
        return head.startswith(b"HTTP/1.1 200") and bool(end and lengths) and self.size == len(head) + 4 + int(lengths[0])


def asked(hall, count, pause):
    """So many clients ask, read nothing for some seconds, and then all: how many got the whole list, and how many wait still."""
    clients = [Client(hall.http, number) for number in range(count)]
    time.sleep(pause)
    poll, held, lists = select.epoll(), {client.socket.fileno(): client for client in clients}, 0
    for file in held:
        poll.register(file, select.EPOLLIN)
    end, buffer = now() + PATIENCE, bytearray(1 << 20)
    while held and now() < end:
        for file, _ in poll.poll(1.0):
            if not held[file].goes_on(buffer):
                client = held.pop(file)
                lists += client.is_whole()
                poll.unregister(file)
                client.socket.close()
    for client in held.values():
        client.socket.close()
    return lists, len(held)


def others(to, is_over, hall):
    """Who asks beside them, some ten times a second in turn: for a list with an unknown token, and for a script."""
    longest, wrong, count = {"401": 0.0, "script": 0.0}, [], 0
    while not is_over.wait(0.05):
        what, target, token, wanted = [("401", "/machines", "nobodys-secret", 401), ("script", f"/ipxe/{address(1)}", None, 200)][count % 2]
        begin = now()
        try:
            status, _ = hall.ask(target, token, source=f"127.0.1.{count % 250 + 1}")
            wrong += [] if status == wanted else [f"{what}: {status}"]
        except OSError as fault:
            wrong.append(f"{what}: {fault!r}")
        longest[what] = max(longest[what], now() - begin)
        count += 1
    to.send((longest, wrong, count))


def list_row(table, hall, count, pause):
    """A service of its own, so that what it has at rest is alike."""
    hall.serve()
    hall.ask(f"/ipxe/{address(1)}")
    rest = hall.memory("VmRSS")
    hall.forget()
    at, to = multiprocessing.Pipe()
    is_over = multiprocessing.Event()
    other = multiprocessing.Process(target=others, args=(to, is_over, hall), daemon=True)
    other.start()
    begin = now()
    lists, waiting = asked(hall, count, pause)
    took = now() - begin
    is_over.set()
    longest, wrong, asks = at.recv() if at.poll(20) else ({"401": 0.0, "script": 0.0}, ["nothing is known"], 0)
    other.join(20)
    more = hall.memory("VmHWM") - rest
    hall.stop()
    is_good = more <= MORE_MEMORY and not wrong and max(longest.values()) <= 1.0 and not waiting
    is_good = is_good and (asks >= 4 if pause else lists == count)
    table.row(is_good, count, f"{pause:.0f} s", f"{rest:.0f} MB", f"+{more:.0f} MB", *(f"{seconds * 1000:.0f} ms" for seconds in longest.values()),
              f"{lists} in {took:.1f} s")
    for text in wrong[:3]:
        print(f"    beside them {text}; {len(wrong)} of {asks}")


def lists(program, table):
    with Hall(program, "lists") as hall:
        hall.add(MACHINES)
        hall.serve()
        hall.command(command="add_operator", operator="olga", role="user", digest=digest(USER))
        hall.stop()
        table.header("clients", "read after", "at rest", "the most", "401 within", "script within", "whole lists")
        list_row(table, hall, 64, 0.0)
        list_row(table, hall, 400, 2.0)
        list_row(table, hall, 1024, 2.0)
