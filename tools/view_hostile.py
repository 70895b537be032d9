"""hallview over good desks and hostile ones: for view_peer.py."""
import re
import time

from view_desks import HOSTILE, TAG, Desk
from view_same import same_machine, same_page
from view_served import View, halls_file, is_up

EVERY = 2        # seconds
LONG = 75        # seconds, more than any exchange with a desk may take
MIDST = 45       # seconds after which a list that still comes is old
LATE = 1.5       # seconds by which a good desk may be asked later than at its time


def made():
    """The halls' desks, by the halls' names."""
    desks = {"good-a": Desk(), "good-b": Desk(), "good-z": Desk()}
    desks |= {name: Desk(way) for name, way in HOSTILE.items()}
    desks["closed"] = Desk()
    desks["redirect"] = Desk()
    desks["redirect"].redirect(desks["good-a"])
    return desks


def alerts(page):
    """What the page says of halls whose list is old, by their names."""
    found = re.findall(r'<p role="alert"><strong>([a-z-]+): ([^<]*)</strong>', page)
    return dict(found)


def watched(view, seconds):
    """Looks at the page for so long, and returns the longest time that it took."""
    end, slowest = time.monotonic() + seconds, 0.0
    while time.monotonic() < end:
        asked = time.monotonic()
        view.ask("/")
        slowest = max(slowest, time.monotonic() - asked)
        time.sleep(0.5)
    return slowest


def shown(checks, view, bad):
    """Hostile halls are shown as down with the age, and nothing of what they sent."""
    state = view.state()
    page = view.ask("/").text()
    told = alerts(page)
    for hall in state["halls"]:
        name = hall["name"]
        if name not in bad:
            checks.wants(f"{name} is up", hall["up"] and name not in told, hall["fault"])
            continue
        checks.wants(f"{name} is down, and why", not hall["up"] and hall["fault"].endswith("."), hall["fault"])
        checks.wants(f"{name} has the age of its list", re.search(r"What is shown of it is (\d+ s|1 min|2 min) old\.$", told.get(name, "")), told.get(name))
        row = page[page.index(f'<a href="/?hall={name}">'):]
        checks.wants(f"{name} is down in the table of halls", "<td><strong>down</strong></td><td><strong>" in row[:row.index("</tr>")], row[:300])
        checks.say(f"   {name}: {told.get(name)}")
    same_page(checks, view, "")
    same_page(checks, view, f"hall={bad[0]}")
    same_machine(checks, view, bad[0], 1)
    texts = [page, view.ask("/metrics").text(), view.ask("/state.json").text(), *(view.ask(f"/machines/{name}/1").text() for name in bad)]
    checks.wants("no tag of a desk's stands anywhere", not any(word in text for text in texts for word in (TAG, "alert(7)", "OpenSSH")))
    return texts


def trial(checks, program):
    desks = made()
    tokens = {name: f"secret-of-{name}" for name in desks}
    path = halls_file("halls.toml", {name: (desk.url, tokens[name]) for name, desk in desks.items()})
    with View(program, "--config", path, "--every", str(EVERY)) as view:
        state = view.wait_for(lambda state: all(hall["listed"] for hall in state["halls"]), 30)
        checks.wants("each desk is good at first", state, [hall["name"] for hall in view.state()["halls"] if not hall["listed"]])
        desks["closed"].close()
        began, slowest = time.monotonic(), watched(view, MIDST)
        told = alerts(view.ask("/").text()).get("drip")
        checks.wants("a list that takes long is old meanwhile", told and told.startswith("Its list wasn&#39;t renewed in time. What"), told)
        slowest = max(slowest, watched(view, LONG - MIDST))
        checks.wants("pages come soon meanwhile", slowest < 1, f"{slowest:.2f} s")
        for name in ["good-a", "good-b", "good-z"]:
            moments = [moment for moment in desks[name].moments if moment > began]
            pauses = [later - sooner for sooner, later in zip(moments, moments[1:])]
            checks.wants(f"{name} is asked on time beside hostile desks", pauses and max(pauses) < EVERY + LATE, f"{max(pauses, default=0):.2f} s")
        checks.say(f"   the slowest page took {slowest * 1000:.0f} ms, the longest pause of a good desk was {max(pauses, default=0):.2f} s")
        texts = shown(checks, view, [name for name in desks if not name.startswith("good")])
        for name, desk in desks.items():
            checks.wants(f"the desk of {name} got its own token alone", desk.tokens == {f"Bearer {tokens[name]}".encode()}, desk.tokens)
        checks.wants("no token stands in an output", not any(token in text for token in tokens.values() for text in [view.ready, view.said(), *texts]))
        for desk in desks.values():
            desk.way = None
        state = view.wait_for(lambda state: is_up({"halls": [hall for hall in state["halls"] if hall["name"] != "closed"]}), 120)
        checks.wants("desks that are good again are up again", state, [hall["name"] for hall in view.state()["halls"] if not hall["up"]])
