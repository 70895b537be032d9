"""What stands on the page of halls, written a second time: for view_page.py."""
from view_words import (
    LATE, LONG_WAIT, MAX_GROUPS, MAX_POOLS, MAX_TABLES, MAX_TROUBLE, MAX_WORK, NO_QUERY, NUMBER_OF, STATUSES, addresses_text,
    age_text, command_words, counted, fault_text, hallctl, is_passed, is_stale, kind_of, link, machine_link, or_dash, percent, share,
    since, since_text, span, spans, stamp, stamp_text, status_row, until, url_word, waiting_orders)

MANY_HALLS = "Counts and plots are shown for %d halls at most: choose one in the table of halls." % MAX_TABLES


class Group:
    """Machines or orders in trouble for the same cause, for which the same is done."""

    def __init__(self, hall, name, title, href, advice, words):
        self.hall, self.name, self.title, self.href, self.advice, self.words = hall, name, title, href, advice, words
        self.machines, self.orders = [], []

    def size(self):
        return len(self.machines) + len(self.orders)

    def id(self):
        """What identifies it on the page."""
        return "trouble-%s-%s" % (url_word(self.hall["name"]), self.name)


def detail_of(machine):
    """By what machines of one status want different commands: the image to deploy, the kind of erasing."""
    if machine["status"] == "Failed deployment" and machine["image"] is not None:
        return machine["image"]
    if machine["status"] == "Failed disk erasing" and machine["erase"] == "full":
        return "full"
    return ""


def hall_field(state, hall):
    """A query's field for a hall, where there are others."""
    return {"hall": hall["name"]} if len(state["halls"]) > 1 else {}


def failed_groups(state, hall):
    groups = {}
    for machine in hall["machines"]:
        if kind_of(machine) != "trouble":
            continue
        detail = detail_of(machine)
        key = (NUMBER_OF[machine["status"]], detail)
        if key not in groups:
            title = machine["status"] if detail == "" else "%s, %s" % (machine["status"], detail)
            image = {"image": detail} if machine["status"] == "Failed deployment" else {}
            href = link(NO_QUERY, {**hall_field(state, hall), "status": machine["status"], **image}, "#machines")
            name = "%d" % key[0] if detail == "" else "%d-%s" % key
            groups[key] = Group(hall, name, title, href, status_row(machine)[3], command_words(machine))
        groups[key].machines.append(machine)
    return [groups[key] for key in sorted(groups)]


def passed_group(state, hall, machines):
    href = link(NO_QUERY, {**hall_field(state, hall), "sort": "deadline"}, "#machines")
    if is_stale(state, hall):
        advice = "The list is older than that: the machine is done by now, or has failed. Look again once the desk answers."
    else:
        advice = "The desk should have failed it by now: are the desk's clock and this host's right? Look again."
    group = Group(hall, "deadline", "Deadline passed", href, advice, [("machine", "")])
    group.machines = machines
    return group


def orders_group(state, hall, orders):
    href = link(NO_QUERY, {**hall_field(state, hall), "sort": "deadline"}, "#machines")
    advice = ("Is the power program running? By hand, with a token of role power: look at the list directly before you act, since an "
              "order that isn't in it any more is void.")
    group = Group(hall, "orders", "Orders that wait for over five minutes", href, advice, [])
    group.orders = orders
    return group


def put_head(page, state, title, heading):
    page.put("head", title)
    page.put("style")
    page.put("body", heading, stamp(state["now"]), stamp_text(state["now"]))
    for hall in state["halls"]:
        if is_stale(state, hall):
            page.put("hall_fault", "%s: %s" % (hall["name"], fault_text(state, hall)), hallctl(state, hall, "hello"))


def put_end(page):
    page.put("main_end")
    page.put("script")
    page.put("end")


class View:
    """What a page shows: the halls, and what it counts in them."""

    def __init__(self, state, query):
        self.state, self.query = state, query
        self.halls = [hall for hall in state["halls"] if query["hall"] in ("", hall["name"])]
        self.several = len(self.halls) > 1
        self.groups, self.work, self.totals = [], [], []
        for hall in self.halls:
            self.add(hall)

    def add(self, hall):
        state = self.state
        groups = failed_groups(state, hall)
        passed = [machine for machine in hall["machines"] if kind_of(machine) == "work" and is_passed(state, machine)]
        if passed:
            groups.append(passed_group(state, hall, passed))
        work = [machine for machine in hall["machines"] if kind_of(machine) == "work" and not is_passed(state, machine)]
        orders = waiting_orders(state, hall)
        long = [order for order in orders if order[3] > LONG_WAIT]
        if long:
            groups.append(orders_group(state, hall, long))
        self.groups += groups
        self.work += [(machine["deadline"], hall, machine) for machine in work]
        trouble = sum(group.size() for group in groups)
        self.totals.append((hall, len(hall["machines"]), trouble, len(work), len(orders)))

    def trouble(self):
        return sum(total[2] for total in self.totals)

    def machines(self):
        return sum(total[1] for total in self.totals)

    def down(self):
        return len([hall for hall in self.halls if is_stale(self.state, hall)])


def title_of(view):
    words = []
    if view.down() > 0:
        words.append(counted(view.down(), "hall down", "halls down"))
    if view.trouble() > 0:
        words.append("%d in trouble" % view.trouble())
    words.append(heading_of(view))
    return ", ".join(words)


def hall_title(state, hall):
    return "Hall " + hall["name"] if state["named"] else "Hall of " + hall["desk"]


def heading_of(view):
    return hall_title(view.state, view.halls[0]) if len(view.halls) == 1 else counted(len(view.halls), "hall", "halls")


def put_nav(page, view):
    page.put("nav")
    page.put("nav_trouble" if view.trouble() > 0 else "nav_calm", "In trouble: %d" % view.trouble())
    page.put("nav_rest", "At work: %d" % len(view.work), "Machines: %d" % view.machines())
    if view.query["hall"] != "":
        page.put("nav_all")
    page.put("nav_end")


def put_halls(page, view):
    state = view.state
    page.put("halls")
    if not view.halls:
        page.put("note", "No hall has this name.")
        page.put("section_end")
        return
    page.put("halls_table")
    for hall, machines, trouble, work, orders in view.totals:
        page.put("hall", link(view.query, {"hall": hall["name"]}, ""), hall["name"])
        if is_stale(state, hall):
            page.put("hall_down", age_text(state, hall))
        else:
            page.put("hall_up", "%s, took %d ms" % (age_text(state, hall), hall["took_ms"]))
        if hall["listed"] is None:
            page.put("hall_counts", "-", "-", "-", "-")
        else:
            page.put("hall_counts", "%d" % machines, "%d" % trouble, "%d" % work, "%d" % orders)
    page.put("halls_end")
    if len(view.halls) > MAX_TABLES:
        page.put("note", MANY_HALLS)
    else:
        for hall in view.halls:
            put_counts(page, view, hall)
    page.put("section_end")


def aged(state, hall, text):
    """A text about a hall, with the age of what it rests on where that is old."""
    return text + ", " + age_text(state, hall) if is_stale(state, hall) else text


def counts_of(hall):
    """How many machines each pool has in each status, the pools by name."""
    pools = {}
    for machine in hall["machines"]:
        counts = pools.setdefault(machine["pool"], [0] * len(STATUSES))
        counts[NUMBER_OF[machine["status"]]] += 1
    return sorted(pools.items())


def put_counts(page, view, hall):
    state = view.state
    if not hall["machines"]:
        if hall["listed"] is not None:
            line = hallctl(state, hall, "add-machine --mac 52:54:00:12:34:56 --arch uefi64 --pool default")
            page.put("group_do", "%s has no machine. Add one, or start one over the network where the desk enlists:" % hall["name"])
            page.put("group_code", line)
            page.put("group_do_end")
        return
    name = hall["name"] if len(state["halls"]) > 1 else ""
    pools = counts_of(hall)
    largest = sorted(pools, key=lambda pool: (-sum(pool[1]), pool[0]))[:MAX_POOLS]
    shown = sorted(largest)
    others = len(pools) - len(shown)
    title = aged(state, hall, "%s by status and pool" % hall["name"])
    page.put("counts_shut" if view.several else "counts_open", title)
    page.put("counts", title)
    for pool, _ in shown:
        page.put("counts_pool", link(NO_QUERY, {"hall": name, "pool": pool}, "#machines"), pool)
    if others > 0:
        page.put("counts_others", counted(others, "other pool", "other pools"))
    page.put("counts_body")
    everything = len(hall["machines"])
    for number, (status, kind, _, _, _) in enumerate(STATUSES):
        count = sum(counts[number] for _, counts in pools)
        if count == 0:
            continue
        page.put("count", kind, link(NO_QUERY, {"hall": name, "status": status}, "#machines"), status, "%d" % count,
                 "%d%%" % max(1, percent(count, everything)), share(count, everything))
        put_pool_cells(page, [counts[number] for _, counts in shown], others, count)
        page.put("count_end")
    page.put("counts_foot", "%d" % everything)
    put_pool_cells(page, [sum(counts) for _, counts in shown], others, everything)
    page.put("counts_end")


def put_pool_cells(page, counts, others, count):
    if others > 0:
        counts = counts + [count - sum(counts)]
    for number in counts:
        if number == 0:
            page.put("count_none")
        else:
            page.put("count_pool", "%d" % number)


def put_trouble(page, view):
    page.put("trouble", "In trouble: %d" % view.trouble())
    if view.trouble() == 0:
        page.put("note", caption_ages(view, "No machine has failed, no deadline has passed, and no order waits for over five minutes") + ".")
    for group in view.groups[:MAX_GROUPS]:
        if group.orders:
            put_orders(page, view, group)
        else:
            put_group(page, view, group)
    if len(view.groups) > MAX_GROUPS:
        more = sum(group.size() for group in view.groups[MAX_GROUPS:])
        page.put("note", "%d more in trouble: choose a hall in the table of halls." % more)
    page.put("section_end")


def group_title(view, group):
    hall = group.hall["name"] + ": " if view.several else ""
    return aged(view.state, group.hall, "%s%s: %d" % (hall, group.title, group.size()))


def put_group(page, view, group):
    state, hall, machines = view.state, group.hall, group.machines
    title, passed = group_title(view, group), group.name == "deadline"
    page.put("group", group.id(), title)
    page.put("group_do", group.advice)
    if len(machines) > 1 and not passed:
        numbers, taken = spans([machine["id"] for machine in machines])
        page.put("group_all", "All of them:" if taken == len(machines) else "The first %d:" % taken)
        for before, after in group.words:
            page.put("group_code", hallctl(state, hall, "%s %s%s" % (before, numbers, after)))
    page.put("group_do_end")
    page.put("group_table", title)
    for column in ["Machine", "What to do", "Deadline" if passed else "Since", "Pool", "Owner", "Image", "Addresses"]:
        page.put("col", column)
    page.put("group_body")
    last = since(state, hall)
    for machine in machines[:MAX_TROUBLE]:
        page.put("row", machine_link(hall, machine), "%d" % machine["id"])
        page.put("cell_open")
        for before, after in group.words:
            page.put("cell_code", hallctl(state, hall, "%s %d%s" % (before, machine["id"], after)))
        page.put("cell_end")
        if passed:
            page.put("cell", "%s, %s ago" % (machine["status"], span(state["now"] - machine["deadline"])))
        else:
            page.put("cell", since_text(state, last, machine))
        for text in (machine["pool"], or_dash(machine["owner"]), or_dash(machine["image"]), addresses_text(machine)):
            page.put("cell", text)
        page.put("row_end")
    put_group_end(page, group)


def put_group_end(page, group):
    if group.size() > MAX_TROUBLE:
        page.put("group_more", group.href, "%d more" % (group.size() - MAX_TROUBLE))
    else:
        page.put("group_end")


def by_hand(kind, machine):
    if kind == "off":
        return "Once machine %d is off:" % machine
    return "Once machine %d was started again, by network:" % machine


def put_orders(page, view, group):
    state, hall = view.state, group.hall
    title = group_title(view, group)
    page.put("group", group.id(), title)
    page.put("group_do", group.advice)
    page.put("group_code", hallctl(state, hall, "--token-file pow.token orders"))
    page.put("group_do_end")
    page.put("group_table", title)
    for column in ["Machine", "Order", "Waits", "Status", "What to do"]:
        page.put("col", column)
    page.put("group_body")
    by_id = {machine["id"]: machine for machine in hall["machines"]}
    for number, id, kind, waits in group.orders[:MAX_TROUBLE]:
        page.put("row", "/machines/%s/%d" % (url_word(hall["name"]), id), "%d" % id)
        page.put("cell", "%s %d" % (kind, number))
        page.put("cell", span(waits))
        page.put("cell", by_id[id]["status"])
        page.put("cell_open")
        page.put("cell_text", by_hand(kind, id))
        page.put("cell_code", hallctl(state, hall, "--token-file pow.token order %d --done" % number))
        page.put("cell_end")
        page.put("row_end")
    put_group_end(page, group)


def put_work(page, view):
    state = view.state
    page.put("work", "At work: %d" % len(view.work))
    if not view.work:
        page.put("note", caption_ages(view, "No machine is at work") + ".")
        page.put("section_end")
        return
    several = len(view.halls) > 1
    page.put("work_table", caption_ages(view, "By deadline, the next one first"))
    page.put("col", "Machine")
    if several:
        page.put("col", "Hall")
    for column in ["Deadline", "Status", "Order", "Pool", "Owner", "Image"]:
        page.put("col", column)
    page.put("group_body")
    waits = {}
    for hall in view.halls:
        for number, id, kind, seconds in waiting_orders(state, hall):
            waits[(hall["name"], id)] = "%s %d, %s" % (kind, number, span(seconds))
    ordered = sorted(view.work, key=lambda row: (row[0], row[1]["name"], row[2]["id"]))
    for deadline, hall, machine in ordered[:MAX_WORK]:
        left, limit = deadline - state["now"], status_row(machine)[2]
        page.put("row_late" if left < LATE else "row", machine_link(hall, machine), "%d" % machine["id"])
        if several:
            page.put("cell", hall["name"])
        page.put("work_bar", "%d%%" % percent(limit - left, limit), until(deadline, state["now"]))
        page.put("cell", machine["status"])
        page.put("cell", waits.get((hall["name"], machine["id"]), "-"))
        for text in (machine["pool"], or_dash(machine["owner"]), or_dash(machine["image"])):
            page.put("cell", text)
        page.put("row_end")
    page.put("table_end")
    if len(ordered) > MAX_WORK:
        page.put("work_more", link(view.query, {"sort": "deadline"}, "#machines"), "%d more" % (len(ordered) - MAX_WORK))
    page.put("section_end")


def caption_ages(view, text):
    """A text about machines of all halls, with the age of what is old."""
    for hall in view.halls:
        if hall["listed"] is None:
            text += "; nothing is known of %s" % hall["name"]
        elif is_stale(view.state, hall):
            text += "; %s is %s" % (hall["name"], age_text(view.state, hall))
    return text
