#!/usr/bin/env python3
"""The pages and metrics of hallview, written a second time: view_peer.py compares them with the program's, octet by octet.

    view_page.py page STATE [QUERY]          what GET /?QUERY answers
    view_page.py machine STATE HALL ID       what GET /machines/HALL/ID answers
    view_page.py metrics STATE               what GET /metrics answers, as text 0.0.4
    view_page.py openmetrics STATE           the same as OpenMetrics 1.0
    view_page.py fields                      the fields of a page's response

STATE is a file with what GET /state.json answers."""
import json
import sys

from view_words import (
    MAX_MOVES, NO_QUERY, age_text, allowed_text, command_words, counted, hallctl, link, query_of, span, stamp, stamp_text, status_row,
    status_text, until)
from view_templates import Page, fields
from view_parts import View, hall_title, heading_of, put_end, put_halls, put_head, put_nav, put_trouble, put_work, title_of
from view_tables import put_day, put_machines
from view_metrics import metrics_text

def halls_page(state, query):
    """What `GET /?query` answers."""
    view = View(state, query_of(query))
    page = Page()
    put_head(page, state, title_of(view), heading_of(view))
    put_nav(page, view)
    put_halls(page, view)
    put_trouble(page, view)
    put_work(page, view)
    put_machines(page, view)
    put_day(page, view)
    put_end(page)
    return page.text()


def member_rows(state, machine):
    def text(name):
        return "-" if machine[name] is None else "%s" % machine[name]
    return [
        ("id", text("id")),
        ("status", machine["status"]),
        ("locked", "yes" if machine["locked"] else "no"),
        ("deadline", "-" if machine["deadline"] is None else until(machine["deadline"], state["now"])),
        ("order", text("order")),
        ("boot", text("boot")),
        ("version", text("version")),
        ("pool", machine["pool"]),
        ("owner", text("owner")),
        ("image", text("image")),
        ("erase", text("erase")),
        ("arch", machine["arch"]),
        ("uuid", text("uuid")),
        ("addresses", ", ".join(machine["interfaces"])),
    ]


def machine_page(state, name, id):
    """The page of a machine. Where the hall lists no such machine, its moves are shown."""
    hall = next(hall for hall in state["halls"] if hall["name"] == name)
    machine = next((machine for machine in hall["machines"] if machine["id"] == id), None)
    moves = [move for move in hall["moves"] if move[1] == id]
    heading = "Machine %d of %s" % (id, name)
    page = Page()
    put_head(page, state, "%s, %s" % (machine["status"] if machine else "not listed", heading), heading)
    page.put("machine_nav", link(NO_QUERY, {"hall": name}, ""), hall_title(state, hall))
    if machine is None:
        page.put("machine_do", "Not listed", "The last list of %s has no machine %d." % (name, id))
    else:
        page.put("machine_do", status_text(machine), "%s %s" % (status_row(machine)[3], allowed_text(machine["status"])))
        page.put("group_do", "In hallctl's words:")
        page.put("group_code", hallctl(state, hall, "machine %d" % id))
        for before, after in command_words(machine):
            page.put("group_code", hallctl(state, hall, "%s %d%s" % (before, id, after)))
        page.put("group_do_end")
        page.put("section_end")
        page.put("machine", "The list is %s" % age_text(state, hall))
        for label, text in member_rows(state, machine):
            page.put("member", label, text)
        page.put("table_end")
    page.put("section_end")
    page.put("moves", "Hallview began %s ago, and has seen %s of it since%s." % (
        span(state["now"] - state["began"]), counted(len(moves), "move", "moves"),
        "; the last %d are shown" % MAX_MOVES if len(moves) > MAX_MOVES else ""))
    if moves:
        page.put("moves_table")
        before = [None] + [move[0] for move in moves]
        rows = [(at, old, new, "-" if before[i] is None else span(at - before[i])) for i, (at, _, old, new) in enumerate(moves)]
        for at, old, new, after in reversed(rows[-MAX_MOVES:]):
            page.put("move", stamp(at), stamp_text(at), old, new, after)
        page.put("table_end")
    page.put("section_end")
    put_end(page)
    return page.text()

def read_state(path):
    with open(path, encoding="utf-8") as file:
        return json.load(file)


def main(words):
    if words[:1] == ["page"] and len(words) in (2, 3):
        sys.stdout.write(halls_page(read_state(words[1]), words[2] if len(words) == 3 else ""))
    elif words[:1] == ["machine"] and len(words) == 4:
        sys.stdout.write(machine_page(read_state(words[1]), words[2], int(words[3])))
    elif words[:1] in (["metrics"], ["openmetrics"]) and len(words) == 2:
        sys.stdout.write(metrics_text(read_state(words[1]), words[0] == "openmetrics"))
    elif words == ["fields"]:
        for name, value in fields():
            print(f"{name}: {value}")
    else:
        sys.exit(__doc__)


if __name__ == "__main__":
    main(sys.argv[1:])
