"""The table of machines and the last day on hallview's page, written a second time: for view_page.py."""
import functools

from view_words import (
    CHOOSING, DAY, KINDS, MAX_OPTIONS, MAX_ROWS, MAX_TABLES, SLOT, STATUSES, addresses_text, counted, is_passed, kind_of, link,
    machine_link, or_dash, status_text, until)
from view_parts import MANY_HALLS, aged, caption_ages

# ---- machines, chosen and sorted

COLUMNS = [
    ("id", "Machine"),
    ("hall", "Hall"),
    ("status", "Status"),
    ("deadline", "Deadline"),
    ("pool", "Pool"),
    ("owner", "Owner"),
    ("image", "Image"),
    ("addresses", "Addresses"),
]


def column_value(column, hall, machine):
    """What machines are sorted by in a column; None comes last."""
    if column == "hall":
        return hall["name"]
    if column == "addresses":
        return ", ".join(machine["interfaces"])
    return machine[column]


def lower(text):
    return "".join(chr(ord(c) + 32) if "A" <= c <= "Z" else c for c in text)


def shows(hall, machine, text):
    """Whether a machine shows a text, which is in lower case. Addresses may be written with dashes."""
    texts = ["%d" % machine["id"], hall["name"], status_text(machine), machine["pool"], or_dash(machine["owner"]),
             or_dash(machine["image"]), machine["arch"], or_dash(machine["uuid"]), ", ".join(machine["interfaces"])]
    if any(text in lower(one) for one in texts):
        return True
    return "-" in text and text.replace("-", ":") in lower(texts[8])


def is_chosen(query, hall, machine):
    return ((query["q"] == "" or shows(hall, machine, lower(query["q"])))
            and (query["pool"] == "" or query["pool"] == machine["pool"])
            and (query["owner"] == "" or query["owner"] == or_dash(machine["owner"]))
            and (query["image"] == "" or query["image"] == or_dash(machine["image"]))
            and (query["status"] == "" or lower(query["status"]) == lower(machine["status"])))


def sort_of(query, columns):
    """The column and whether it falls; by number where it is none of these."""
    falls = query["sort"].startswith("-")
    name = query["sort"][1:] if falls else query["sort"]
    return (name, falls) if name in [column for column, _ in columns] else ("id", False)


def is_before(one, other, column, falls):
    """Which of two machines stands first: -1, 0 or 1. Those without a value come last, also if the column falls; those with the
    same value are in the order of halls and numbers."""
    a, b = column_value(column, one[0], one[1]), column_value(column, other[0], other[1])
    if (a is None) != (b is None):
        return 1 if a is None else -1
    if a is not None and a != b:
        return -1 if (a < b) != falls else 1
    a, b = (one[0]["name"], one[1]["id"]), (other[0]["name"], other[1]["id"])
    return -1 if a < b else 1 if a > b else 0


def chosen(view, columns):
    column, falls = sort_of(view.query, columns)
    rows = [(hall, machine) for hall in view.halls for machine in hall["machines"] if is_chosen(view.query, hall, machine)]
    return sorted(rows, key=functools.cmp_to_key(lambda one, other: is_before(one, other, column, falls)))


def page_number(query, pages):
    text = query["page"]
    if text.isascii() and text.isdigit() and len(text) < 9 and 1 <= int(text) <= pages:
        return int(text)
    return 1


def put_select(page, label, name, values, current):
    page.put("select", label + " ", name)
    if current != "" and current not in values:
        page.put("option_chosen", current, current)
    for value in values:
        page.put("option_chosen" if value == current else "option", value, "none" if value == "-" else value)
    page.put("select_end")


def values_of(view, name):
    return sorted({or_dash(machine[name]) for hall in view.halls for machine in hall["machines"]})[:MAX_OPTIONS]


def put_filter(page, view):
    query = view.query
    page.put("machines", query["q"])
    if len(view.state["halls"]) > 1:
        put_select(page, "Hall", "hall", [hall["name"] for hall in view.state["halls"]][:MAX_OPTIONS], query["hall"])
    put_select(page, "Pool", "pool", values_of(view, "pool"), query["pool"])
    put_select(page, "Status", "status", [row[0] for row in STATUSES], query["status"])
    put_select(page, "Owner", "owner", values_of(view, "owner"), query["owner"])
    put_select(page, "Image", "image", values_of(view, "image"), query["image"])
    if query["sort"] != "":
        page.put("form_sort", query["sort"])
    page.put("form_end")


def put_row(page, view, hall, machine):
    page.put("row", machine_link(hall, machine), "%d" % machine["id"])
    if view.several:
        page.put("cell", hall["name"])
    page.put("cell_strong" if kind_of(machine) == "trouble" else "cell", status_text(machine))
    if machine["deadline"] is None:
        page.put("cell", "-")
    else:
        page.put("cell_strong" if is_passed(view.state, machine) else "cell", until(machine["deadline"], view.state["now"]))
    for text in (machine["pool"], or_dash(machine["owner"]), or_dash(machine["image"]), addresses_text(machine)):
        page.put("cell", text)
    page.put("row_end")


def put_machines(page, view):
    query = view.query
    columns = [column for column in COLUMNS if column[0] != "hall" or view.several]
    put_filter(page, view)
    rows = chosen(view, columns)
    pages = max(1, (len(rows) + MAX_ROWS - 1) // MAX_ROWS)
    number = page_number(query, pages)
    first = (number - 1) * MAX_ROWS
    here = rows[first:first + MAX_ROWS]
    everything = view.machines()
    of_all = "%d of %s" % (len(rows), counted(everything, "machine", "machines"))
    part = "" if pages == 1 else ", here %d to %d" % (first + 1, first + len(here))
    if not here:
        part = caption_ages(view, "")
    if any(query[field] != "" for field in CHOOSING):
        page.put("machines_clear", of_all + part + " ", link(query, {field: "" for field in CHOOSING}, "#machines"))
    else:
        page.put("note", counted(everything, "machine", "machines") + part)
    put_pages(page, query, number, pages)
    if not here:
        page.put("section_end")
        return
    column, falls = sort_of(query, columns)
    titles = {name: title for name, title in columns}
    order = "Sorted by %s%s" % (lower(titles[column]), ", falling" if falls else "")
    page.put("machines_table", caption_ages(view, order))
    for name, title in columns:
        if name == column:
            target = link(query, {"sort": name if falls else "-" + name}, "#machines")
            page.put("sort_down" if falls else "sort_up", target, title)
        else:
            page.put("sort", link(query, {"sort": "" if name == "id" else name}, "#machines"), title)
    page.put("group_body")
    for hall, machine in here:
        put_row(page, view, hall, machine)
    page.put("table_end")
    put_pages(page, query, number, pages)
    page.put("section_end")


def put_pages(page, query, number, pages):
    if pages == 1:
        return
    page.put("pages")
    if number > 1:
        page.put("pages_link", link(query, {"page": "" if number == 2 else "%d" % (number - 1)}, "#machines"), "Page before")
    if number < pages:
        page.put("pages_link", link(query, {"page": "%d" % (number + 1)}, "#machines"), "Next page")
    page.put("nav_end")


# ---- the last day


def kinds_of(counts):
    """How many of these counts are of each kind."""
    sums = []
    for kind, _ in KINDS:
        sums.append(sum(count for number, count in enumerate(counts) if STATUSES[number][1] == kind))
    return sums


def samples_of(state, hall):
    """The samples of the last day, each with where it begins and ends, in minutes from 24 hours ago on."""
    start = state["now"] - DAY
    samples = []
    for at, counts in hall["history"]:
        if at + SLOT > start and at <= state["now"]:
            begins = max(at - start, 0) // 60
            ends = min(at + SLOT - start, DAY) // 60
            samples.append((begins, ends, counts))
    return samples


def path_of(samples, top, kinds):
    """The area under the sum of the first so many kinds, as steps: a part for each stretch without a gap."""
    words, last, height = [], None, None
    for begins, ends, counts in samples:
        y = 400 - sum(kinds_of(counts)[:kinds]) * 400 // top
        if begins != last:
            if last is not None:
                words.append("V400z")
            words.append("M%d 400V%d" % (begins, y))
        elif y != height:
            words.append("V%d" % y)
        words.append("H%d" % ends)
        last, height = ends, y
    if last is not None:
        words.append("V400z")
    return "".join(words)


def count_at(samples, minute, number):
    for begins, ends, counts in samples:
        if begins <= minute < ends:
            return "%d" % counts[number]
    return "-"


def put_day(page, view):
    page.put("day")
    if len(view.halls) <= MAX_TABLES:
        for hall in view.halls:
            put_plot(page, view.state, hall)
    else:
        page.put("note", MANY_HALLS)
    page.put("section_end")


def put_plot(page, state, hall):
    samples = samples_of(state, hall)
    top = max([sum(counts) for _, _, counts in samples], default=0)
    if top == 0:
        page.put("note", "%s: no machine was seen yet." % hall["name"])
        return
    title = aged(state, hall, "%s: %s at most" % (hall["name"], counted(top, "machine", "machines")))
    last = samples[-1][2]
    now = ", ".join("%d %s" % (number, lower(KINDS[i][1])) for i, number in enumerate(kinds_of(last)))
    most = max(kinds_of(counts)[0] for _, _, counts in samples)
    label = "Statuses of %s over the last day. At the end %s; %d failed or broken at most." % (hall["name"], now, most)
    page.put("plot", title, label)
    for kinds in range(len(KINDS), 0, -1):
        page.put("plot_path", KINDS[kinds - 1][0], path_of(samples, top, kinds))
    page.put("plot_end")
    for i, number in enumerate(kinds_of(last)):
        page.put("plot_kind", KINDS[i][0], "%s: %d" % (KINDS[i][1], number))
    caption = aged(state, hall, "%s over the last day" % hall["name"])
    page.put("plot_table", caption, caption)
    for number, row in enumerate(STATUSES):
        every = [counts[number] for _, _, counts in samples]
        if max(every) > 0:
            page.put("plot_row", row[0], count_at(samples, 0, number), count_at(samples, 360, number),
                     count_at(samples, 720, number), count_at(samples, 1080, number), "%d" % every[-1],
                     "%d" % min(every), "%d" % max(every))
    page.put("figure_end")
