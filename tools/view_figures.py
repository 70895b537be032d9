"""What large halls cost hallview, as figures that are bounded loosely: for view_peer.py."""
import contextlib
import time

from view_desks import Desk, listed, machine, response
from view_served import View, halls_file

MACHINES, HALLS = 10_000, 50
EVERY = 5                                                     # seconds
SECONDS = 20                                                  # for which the share of a processor is taken
STATUSES = ["Ready", "Deployed", "Deployed", "Ready", "New", "Failed testing"]
# Bounds: milliseconds of a page and of metrics, MB for one hall and for fifty, and the share of a processor for fifty
PAGE, METRICS, ONE_HALL, ALL_HALLS, SHARE = 200, 100, 100, 1000, 0.25
READERS, KEPT = 6, 256                                        # clients that take nothing, and the MB that answers may hold for all


def large():
    """A desk whose list has as many machines as a hall may have, always the same."""
    pools = ["default", "gpu", "lab", "web"]
    machines = [machine(number, pools[number % 4], STATUSES[number % 6]) for number in range(1, MACHINES + 1)]
    return Desk(octets=response(listed(machines)))


def milliseconds(view, target):
    """How long an answer takes, at best of some."""
    times = []
    for _ in range(7):
        began = time.monotonic()
        view.ask(target)
        times.append((time.monotonic() - began) * 1000)
    return min(times)


@contextlib.contextmanager
def taking_nothing(view, target, count):
    """Has so many clients ask for it that take only the beginning of their answers; gives their statuses."""
    request = f"GET {target} HTTP/1.1\r\nHost: localhost\r\n\r\n".encode()
    with contextlib.ExitStack() as open_ones:
        clients = [open_ones.enter_context(view.connect(5)) for _ in range(count)]
        statuses = []
        for client in clients:
            client.sendall(request)
            statuses.append(int(client.recv(64).split()[1]))
        yield statuses


def slow_readers(checks, view):
    """Clients that ask for some 100 MB and take nothing: what is kept for them is bounded, and smaller answers still come."""
    before = view.memory()
    with taking_nothing(view, "/state.json", READERS) as statuses:
        refused, memory = statuses.count(503), view.memory()
        checks.wants("too many slow readers are asked to come again", 0 < refused < READERS and statuses.count(200) == READERS - refused, statuses)
        checks.wants("slow readers hold no more memory than this", memory < before + 1.5 * KEPT, f"{memory:.0f} MB")
        checks.wants("who serves is still said beside slow readers", view.ask("/healthz").body == b"ok\n")
        checks.wants("a client is told when to come again", view.ask("/state.json").fields.get("retry-after") == "1")
    time.sleep(1)
    checks.wants("once they are gone, all is answered", view.ask("/state.json").status == 200)


def waited_for(checks, view, halls, seconds):
    """Waits until each hall has its list. The state itself is large, so it is not looked at often."""
    end = time.monotonic() + seconds
    up = 0
    while up < halls and time.monotonic() < end:
        time.sleep(1)
        up = view.ask("/metrics").text().count("\nhall_list_seconds{")
    return checks.wants(f"the lists of {halls} halls come", up == halls, up)


def one_hall(checks, program, desk):
    with View(program, "--config", halls_file("halls.toml", {"large": (desk.url, "token")}), "--every", str(EVERY)) as view:
        waited_for(checks, view, 1, 60)
        page, search = milliseconds(view, "/"), milliseconds(view, "/?q=52-54-00-00-27&sort=-addresses")
        metrics, memory = milliseconds(view, "/metrics"), view.memory()
        checks.say(f"   {MACHINES} machines: a page {page:.0f} ms, a search {search:.0f} ms, metrics {metrics:.0f} ms, {memory:.0f} MB resident")
        checks.wants("a page of a large hall comes soon", max(page, search) < PAGE, f"{page:.0f} and {search:.0f} ms")
        checks.wants("metrics of a large hall come soon", metrics < METRICS, f"{metrics:.0f} ms")
        checks.wants("a large hall takes no more memory than this", memory < ONE_HALL, f"{memory:.0f} MB")


def many_halls(checks, program, desk):
    halls = {f"hall{number}": (desk.url, "token") for number in range(1, HALLS + 1)}
    with View(program, "--config", halls_file("halls.toml", halls), "--every", str(EVERY)) as view:
        waited_for(checks, view, HALLS, 180)
        time.sleep(EVERY)
        asked, began, before = len(desk.moments), time.monotonic(), view.processor_seconds()
        time.sleep(SECONDS)
        took = time.monotonic() - began
        share, lists = (view.processor_seconds() - before) / took, (len(desk.moments) - asked) / took
        page, metrics, memory = milliseconds(view, "/"), milliseconds(view, "/metrics"), view.memory()
        checks.say(f"   {HALLS} halls of {MACHINES} where nothing changes, --every {EVERY}: {share:.2f} of a processor for {lists:.1f} lists a second,"
                   f" {memory:.0f} MB resident, a page {page:.0f} ms, metrics {metrics:.0f} ms")
        checks.wants("many halls take no more of a processor than this", share < SHARE, f"{share:.2f}")
        checks.wants("many halls take no more memory than this", memory < ALL_HALLS, f"{memory:.0f} MB")
        checks.wants("each hall is asked for again", lists > HALLS / EVERY / 3, f"{lists:.1f} a second")
        slow_readers(checks, view)


def trial(checks, program):
    desk = large()
    one_hall(checks, program, desk)
    many_halls(checks, program, desk)
