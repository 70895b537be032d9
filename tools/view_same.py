"""hallview's pages and metrics beside those of view_page.py, octet by octet: for view_peer.py."""
import functools
import re
import socket

import view_metrics
import view_page
import view_templates
from view_desks import Desk, listed, machine, response
from view_hall import NAME
from view_served import LOOPBACK, View, halls_file, is_written

QUERIES = [
    "", "pool=lab", "status=Ready&sort=-id", "q=52-54-00-00-00-1", "status=failed%20TESTING", "owner=-&image=-&sort=deadline",
    "image=jammy&sort=-owner", f"hall={NAME}&sort=addresses", "pool=nowhere&page=9", "sort=-status&page=2&unknown=1&sort=id",
    "q=%22%3E%3Cscript%3Ealert(1)%3C/script%3E&hall=%00&sort=%27", "q=a+b%2&pool=%E2%80%AE%FF&status=%3Cb%3E",
]
FORMATS = [("text/plain", False, view_metrics.METRICS_TYPE), ("application/openmetrics-text; version=1.0.0", True, view_metrics.OPEN_TYPE)]


def same_page(checks, view, query):
    """The page of a query is the second writer's."""
    same, answer, difference = is_written(view, f"/?{query}", lambda state: view_page.halls_page(state, query))
    checks.wants(f"the page of ?{query} is octet by octet what view_page.py writes", same, difference)
    wanted = {name.lower(): value for name, value in view_templates.fields()}
    checks.wants(f"the fields of ?{query}", answer.status == 200 and wanted.items() <= answer.fields.items(), answer.fields)


def same_machine(checks, view, hall, number, status=200):
    """The page of a machine is the second writer's."""
    same, answer, difference = is_written(view, f"/machines/{hall}/{number}", lambda state: view_page.machine_page(state, hall, number))
    checks.wants(f"the page of machine {number} of {hall}", same and answer.status == status, (answer.status, difference))


def same_metrics(checks, view):
    """The metrics are the second writer's, in both formats."""
    for accept, is_open, kind in FORMATS:
        written = functools.partial(view_metrics.metrics_text, is_open=is_open)
        same, answer, difference = is_written(view, "/metrics", written, Accept=accept)
        checks.wants(f"metrics for {accept}", same and answer.fields["content-type"] == kind, (answer.fields["content-type"], difference))


def machines_in(page):
    """The numbers in the table of machines, as they stand there."""
    table = page[page.index('<section id="machines">'):]
    return [int(number) for number in re.findall(r'<th scope="row"><a href="/machines/[^"]*">(\d+)</a>', table[:table.index("</section>")])]


def pages(checks, hall, view):
    """A real hall, before a machine moves and after."""
    for query in QUERIES:
        same_page(checks, view, query)
    machines = hall.machines()
    listed_now = view.wait_for(lambda state: state["halls"][0]["machines"] == machines)
    checks.wants("the state has the desk's own list", listed_now, view.hall(NAME)["machines"][:2])
    found = machines_in(view.ask("/").text())
    checks.wants("each machine stands once in the table", found == [one["id"] for one in machines], found)
    seen = {one["status"]: one["id"] for one in machines}
    checks.say(f"   {len(machines)} machines in {len(seen)} statuses")
    for number in seen.values():
        same_machine(checks, view, NAME, number)
    same_machine(checks, view, NAME, 999999, 404)
    same_metrics(checks, view)
    hall.ctl("commission", "40")
    moved = view.wait_for(lambda state: any(one[1:] == [40, "New", "Commissioning"] for one in state["halls"][0]["moves"]))
    checks.wants("a move is seen", moved, view.hall(NAME)["moves"])
    same_machine(checks, view, NAME, 40)
    same_page(checks, view, "")
    same_metrics(checks, view)


def halls(checks, program):
    """Few halls: two that are up, one with no machine, one that is down since, and one of which nothing is known."""
    few = response(listed([machine(number, "lab", status) for number, status in enumerate(["Broken", "Ready", "Failed testing", "Broken"], 1)]))
    desks = {"east": Desk(), "west": Desk(octets=few), "empty": Desk(octets=response(listed([]))), "gone": Desk(octets=few)}
    with socket.socket() as nobody:
        nobody.bind((LOOPBACK, 0))
        table = {name: (desk.url, "secret") for name, desk in desks.items()} | {"never": (f"http://{LOOPBACK}:{nobody.getsockname()[1]}", "secret")}
        with View(program, "--config", halls_file("halls.toml", table), "--every", "2", "--name", "View.hall.example") as view:
            hosts = {host: view.ask("/healthz", Host=host).status for host in ["view.hall.example", "VIEW.hall.example:80", "hall.example", "localhost"]}
            checks.wants("a host of --name is answered", list(hosts.values()) == [200, 200, 403, 200], hosts)
            view.wait_for(lambda state: sum(one["listed"] is not None for one in state["halls"]) == len(desks))
            desks["gone"].close()
            states = view.wait_for(lambda state: {one["name"]: one["up"] for one in state["halls"]}["gone"] is False)
            checks.wants("a desk that is gone is down", states)
            for query in ["", "hall=west", "hall=gone&sort=-status", "hall=never", "hall=none", "sort=-hall&status=Broken", "q=west"]:
                same_page(checks, view, query)
            for name, number, status in [("west", 1, 200), ("gone", 3, 200), ("never", 1, 404)]:
                same_machine(checks, view, name, number, status)
            same_metrics(checks, view)
