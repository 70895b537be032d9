"""The metrics of hallview, written a second time: for view_page.py."""
from view_words import LEADS, MAX_ZEROS, NUMBER_OF, STATUSES, waiting_orders
from view_parts import counts_of

LABEL = str.maketrans({"\\": r"\\", '"': r'\"', "\n": r"\n"})
METRICS_TYPE = "text/plain; version=0.0.4; charset=utf-8"
OPEN_TYPE = "application/openmetrics-text; version=1.0.0; charset=utf-8"


def label_value(text):
    """A label's value between its quotes, in both formats."""
    return text.translate(LABEL)


def seconds_text(milliseconds):
    """Milliseconds as seconds, with three places."""
    return "%d.%03d" % (milliseconds // 1000, milliseconds % 1000)


def hall_machines(state, hall):
    pools = counts_of(hall)
    rows = []
    for pool, counts in pools:
        for number, count in enumerate(counts):
            if count > 0 or len(pools) <= MAX_ZEROS:
                rows.append(([("hall", hall["name"]), ("pool", pool), ("status", STATUSES[number][0])], "%d" % count))
    return rows


def hall_orders(state, hall):
    if hall["listed"] is None:
        return []
    orders = waiting_orders(state, hall)
    return [([("hall", hall["name"]), ("kind", kind)], "%d" % len([order for order in orders if order[2] == kind]))
            for kind in ("cycle", "off")]


def hall_deadlines(state, hall):
    rows = []
    for status, _, limit, _, _ in STATUSES:
        deadlines = [machine["deadline"] for machine in hall["machines"]
                     if machine["status"] == status and machine["deadline"] is not None]
        if deadlines:
            rows.append(([("hall", hall["name"]), ("status", status)], "%d" % (min(deadlines) - state["now"])))
    return rows


def hall_moves(state, hall):
    # Each way of the life cycle begins with zero, so that the first move on it is an increase; others are there once they were seen.
    counts = {(NUMBER_OF[before], NUMBER_OF[after]): 0 for befores, after in LEADS for before in befores}
    for _, _, before, after in hall["moves"]:
        key = (NUMBER_OF[before], NUMBER_OF[after])
        counts[key] = counts.get(key, 0) + 1
    return [([("hall", hall["name"]), ("from", STATUSES[before][0]), ("to", STATUSES[after][0])], "%d" % counts[(before, after)])
            for before, after in sorted(counts)]


def hall_up(state, hall):
    return [([("hall", hall["name"])], "1" if hall["up"] else "0")]


def hall_took(state, hall):
    if hall["listed"] is None:
        return []
    return [([("hall", hall["name"])], seconds_text(hall["took_ms"]))]


def hall_age(state, hall):
    # A desk that never answered has the age of hallview, so that an alarm needs no case of its own.
    return [([("hall", hall["name"])], "%d" % (state["now"] - (state["began"] if hall["listed"] is None else hall["listed"])))]


def hall_pause(state, hall):
    return [([("hall", hall["name"])], "%d" % hall["every"])]


# Family, type, unit, help, samples
FAMILIES = [
    ("hall_machines", "gauge", "", "Machines by pool and status, as the desk listed them last.", hall_machines),
    ("hall_orders_waiting", "gauge", "", "Power orders that wait, by kind.", hall_orders),
    ("hall_deadline_seconds_min", "gauge", "", "Seconds until the next deadline of a status; negative once it has passed.", hall_deadlines),
    ("hall_moves", "counter", "", "Moves of machines from one status to another that were seen since hallview began.", hall_moves),
    ("hall_list_pause_seconds", "gauge", "seconds", "How long it is from one list to the next.", hall_pause),
    ("hall_desk_up", "gauge", "", "Whether the desk's last answer was a list.", hall_up),
    ("hall_list_seconds", "gauge", "seconds", "How long the last list took.", hall_took),
    ("hall_list_age_seconds", "gauge", "seconds", "How old the last list is.", hall_age),
]


def metrics_text(state, is_open):
    """Metrics in Prometheus' text format 0.0.4, or in OpenMetrics 1.0."""
    out = []
    for family, kind, unit, help, samples in FAMILIES:
        name = family + "_total" if kind == "counter" else family
        shown = family if is_open else name
        out.append("# TYPE %s %s\n" % (shown, kind))
        if is_open and unit != "":
            out.append("# UNIT %s %s\n" % (shown, unit))
        out.append("# HELP %s %s\n" % (shown, help))
        for hall in state["halls"]:
            for labels, value in samples(state, hall):
                words = ",".join('%s="%s"' % (label, label_value(text)) for label, text in labels)
                out.append("%s{%s} %s\n" % (name, words, value))
    if is_open:
        out.append("# EOF\n")
    return "".join(out)
