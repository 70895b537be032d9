"""What hallview knows of statuses, queries and commands, written a second time: for view_page.py."""
import time
import urllib.parse

# The kinds of statuses, in the order in which they are stacked
KINDS = [
    ("trouble", "Failed or Broken"),
    ("work", "At work"),
    ("use", "In use"),
    ("ready", "Ready"),
    ("new", "New"),
]

# All statuses in the order of their numbers: text, kind, limit in seconds or 0, what to do, commands that do it. Of a command
# what stands before the machines' numbers and after them; IMAGE and ERASE stand for the machine's own.
STATUSES = [
    ("New", "new", 0, "Commission it.", [("commission", "")]),
    ("Commissioning", "work", 1800, "Wait.", []),
    ("Failed commissioning", "trouble", 0, "Look at the machine's console; commission again.", [("commission", "")]),
    ("Testing", "work", 3600, "Wait.", []),
    ("Failed testing", "trouble", 0, "Test again; override if it is good all the same, break if not.",
     [("test", ""), ("override", ""), ("break", "")]),
    ("Ready", "ready", 0, "Allocate it.", [("allocate", "")]),
    ("Allocated", "use", 0, "Deploy it.", [("deploy", " --image IMAGE")]),
    ("Deploying", "work", 2400, "Wait.", []),
    ("Failed deployment", "trouble", 0, "Look at the console; deploy again.", [("deploy", " --image IMAGE")]),
    ("Deployed", "use", 0, "Use it.", []),
    ("Releasing", "work", 600, "Wait until it is switched off; then it is Ready.", []),
    ("Failed releasing", "trouble", 0, "Is the power program running? Release again.", [("release", " --erase none")]),
    ("Disk erasing", "work", 7200, "Wait.", []),
    ("Failed disk erasing", "trouble", 0, "The disks may still have data: release again, and erase.",
     [("release", " --erase ERASE")]),
    ("Entering rescue mode", "work", 1200, "Wait.", []),
    ("Failed to enter rescue mode", "trouble", 0, "Rescue again, or exit.", [("rescue", ""), ("exit-rescue", "")]),
    ("Rescue mode", "use", 0, "Work on the machine.", [("exit-rescue", "")]),
    ("Exiting rescue mode", "work", 600, "Wait; then it is Deployed or Broken, as before.", []),
    ("Failed to exit rescue mode", "trouble", 0, "Is the power program running? Exit again.", [("exit-rescue", "")]),
    ("Broken", "trouble", 0, "Repair it, then fix or commission.", [("fix", ""), ("commission", "")]),
]
NUMBER_OF = {row[0]: number for number, row in enumerate(STATUSES)}

# Where machines go by the table of the life cycle (life_cycle/specs/Table.antt): from these statuses to this one
LEADS = [
    (["New", "Ready", "Failed commissioning", "Failed testing", "Broken"], "Commissioning"),
    (["Ready", "Failed testing", "Commissioning"], "Testing"),
    (["Failed testing", "Broken", "Commissioning", "Testing", "Releasing"], "Ready"),
    (["Ready", "Deploying"], "Allocated"),
    (["Allocated", "Failed deployment"], "Deploying"),
    (["Allocated", "Deployed", "Failed deployment", "Failed releasing", "Failed disk erasing", "Disk erasing"], "Releasing"),
    (["Allocated", "Deployed", "Failed deployment", "Failed releasing", "Failed disk erasing"], "Disk erasing"),
    (["Commissioning"], "New"),
    (["Commissioning"], "Failed commissioning"),
    (["Testing"], "Failed testing"),
    (["Deploying"], "Failed deployment"),
    (["Releasing"], "Failed releasing"),
    (["Disk erasing"], "Failed disk erasing"),
    (["Entering rescue mode"], "Failed to enter rescue mode"),
    (["Exiting rescue mode"], "Failed to exit rescue mode"),
    (["Deploying", "Exiting rescue mode"], "Deployed"),
    (["Deployed", "Broken", "Failed to enter rescue mode"], "Entering rescue mode"),
    (["Entering rescue mode"], "Rescue mode"),
    (["Rescue mode", "Failed to enter rescue mode", "Failed to exit rescue mode"], "Exiting rescue mode"),
    (["Ready", "Allocated", "Failed testing", "Failed deployment", "Failed releasing", "Failed disk erasing", "Exiting rescue mode"], "Broken"),
]

# An order that a machine waits for is to switch it off in these statuses, else to start it again
OFF = ["New", "Failed testing", "Allocated", "Releasing", "Failed disk erasing"]

LONG_WAIT = 300    # an order that waits longer is in trouble
LATE = 120    # less is left of a deadline: its bar is red
DAY = 86400
SLOT = 600    # history has a sample each
MAX_TABLES = 6    # halls whose counts and plots are all on one page
MAX_POOLS = 12    # columns of a table of counts
MAX_OPTIONS = 200    # options of a field of the filter
MAX_SPANS = 20    # spans of numbers in a command
MAX_GROUPS = 50    # groups in trouble
MAX_TROUBLE = 20    # rows of such a group
MAX_WORK = 100    # rows at work
MAX_ROWS = 500    # rows of machines on a page
MAX_MOVES = 200    # moves on a machine's page
MAX_ZEROS = 100    # pools of a hall for which metrics say zeros


def status_row(machine):
    return STATUSES[NUMBER_OF[machine["status"]]]


def kind_of(machine):
    return status_row(machine)[1]


# ---- texts


def stamp(moment):
    return time.strftime("%Y-%m-%dT%H:%M:%SZ", time.gmtime(moment))


def stamp_text(moment):
    return time.strftime("%Y-%m-%d %H:%M:%S UTC", time.gmtime(moment))


def until(moment, now):
    """How far away a moment is, as hallctl says it."""
    seconds = max(moment - now, 0)
    if seconds == 0:
        return "passed"
    if seconds < 60:
        return "in %d s" % seconds
    return "in %d min" % (seconds // 60)


def span(seconds):
    """How long something lasts."""
    seconds = max(seconds, 0)
    if seconds < 60:
        return "%d s" % seconds
    if seconds < 7200:
        return "%d min" % (seconds // 60)
    if seconds < 2 * DAY:
        return "%d h" % (seconds // 3600)
    return "%d days" % (seconds // DAY)


def counted(number, one, many):
    return "1 " + one if number == 1 else "%d %s" % (number, many)


def or_dash(text):
    return "-" if text is None else text


def percent(part, whole):
    return 0 if whole == 0 else min(100, max(0, part * 100 // whole))


def share(part, whole):
    number = percent(part, whole)
    return "under 1 %" if number == 0 and part > 0 else "%d %%" % number


def url_word(text):
    """A text as a word of a URL's query or path."""
    return urllib.parse.quote(text, safe="")


def url_text(text):
    """What a word of a query says: `+` is a space, `%XX` an octet, all else itself."""
    return clean(urllib.parse.unquote_to_bytes(text.replace("+", " ")).decode("utf-8", "replace"))


# What no page may have, or what would show other texts in another order: control characters, marks of direction and of nothing
# (a list of first and last ones)
UNSHOWN = [("\x00", "\x1f"), ("\x7f", "\x9f"), ("\u200b", "\u200f"), ("\u2028", "\u202e"), ("\u2060", "\u206f"), ("\ud800", "\udfff"),
           ("\ufeff", "\ufeff"), ("\ufff0", "\ufffb"), ("\ufffe", "\uffff")]


def clean(text):
    """A text with U+FFFD in place of each such character."""
    return "".join("\ufffd" if any(first <= c <= last for first, last in UNSHOWN) else c for c in text)


# ---- queries


FIELDS = ["hall", "q", "pool", "owner", "status", "image", "sort", "page"]
# The fields that choose machines
CHOOSING = ["q", "pool", "owner", "status", "image"]


def query_of(text):
    """The fields of a query: of a repeated one the first counts, unknown ones are ignored."""
    query = {field: "" for field in FIELDS}
    seen = set()
    for part in text.split("&"):
        name, _, value = part.partition("=")
        if name in query and name not in seen:
            seen.add(name)
            query[name] = url_text(value)
    return query


def link(query, changes, anchor):
    """The page with this query and these changes; a change of anything but the page leads to the first page."""
    words = []
    for field in FIELDS:
        value = changes[field] if field in changes else "" if field == "page" else query[field]
        if value != "":
            words.append(field + "=" + url_word(value))
    return "/" + ("?" + "&".join(words) if words else "") + anchor


NO_QUERY = {field: "" for field in FIELDS}


def machine_link(hall, machine):
    return "/machines/%s/%d" % (url_word(hall["name"]), machine["id"])


# ---- hallctl's words


def hallctl(state, hall, words):
    """A command's line. A hall is named where there is a file of halls."""
    return "hallctl --hall %s %s" % (hall["name"], words) if state["named"] else "hallctl " + words


def spans(numbers):
    """Numbers in rising order as hallctl reads them: `7 12-15`; with how many of them the first spans are."""
    texts, taken, i = [], 0, 0
    while i < len(numbers) and len(texts) < MAX_SPANS:
        j = i
        while j + 1 < len(numbers) and numbers[j + 1] == numbers[j] + 1:
            j += 1
        texts.append("%d" % numbers[i] if i == j else "%d-%d" % (numbers[i], numbers[j]))
        taken += j - i + 1
        i = j + 1
    return " ".join(texts), taken


def command_words(machine):
    """What does what is to be done: for each command what stands before the numbers and after them."""
    image = machine["image"] or "IMAGE"
    erase = "full" if machine["erase"] == "full" else "quick"
    return [(before, after.replace("IMAGE", image).replace("ERASE", erase)) for before, after in status_row(machine)[4]]


# What a status allows, in hallctl's order (hallctl_texts::allowed_text)
ALLOWS = [
    ("commission", ["New", "Ready", "Failed commissioning", "Failed testing", "Broken"]),
    ("deploy", ["Allocated", "Failed deployment"]),
    ("release", ["Allocated", "Deployed", "Failed deployment", "Failed releasing", "Failed disk erasing"]),
    ("test", ["Ready", "Failed testing"]),
    ("override", ["Failed testing"]),
    ("fix", ["Broken"]),
    ("allocate", ["Ready"]),
    ("rescue", ["Deployed", "Broken", "Failed to enter rescue mode"]),
    ("abort", ["Commissioning", "Testing", "Deploying", "Disk erasing"]),
    ("lock", ["Deployed"]),
    ("unlock", ["Deployed"]),
    ("exit-rescue", ["Rescue mode", "Failed to enter rescue mode", "Failed to exit rescue mode"]),
    ("break", ["Ready", "Allocated", "Failed testing", "Failed deployment", "Failed releasing", "Failed disk erasing"]),
]


def allowed_text(status):
    words = [word for word, froms in ALLOWS if status in froms]
    if not words:
        return "It is %s, which allows nothing until it ends." % status
    return "It is %s, which allows %s." % (status, ", ".join(words))


# ---- what a state says


def is_stale(state, hall):
    """Whether a hall is shown by a list that wasn't renewed in time."""
    return not hall["up"] or hall["listed"] is None or state["now"] - hall["listed"] > max(30, 3 * hall["every"])


def age_text(state, hall):
    if hall["listed"] is None:
        return "no list yet"
    return span(state["now"] - hall["listed"]) + " old"


def fault_text(state, hall):
    """What is said of a hall whose list is old."""
    cause = hall["fault"] if not hall["up"] and hall["fault"] != "" else "Its list wasn't renewed in time."
    if hall["listed"] is None:
        return cause + " Nothing is known of it yet."
    return "%s What is shown of it is %s old." % (cause, span(state["now"] - hall["listed"]))


def status_text(machine):
    return machine["status"] + ", locked" if machine["locked"] else machine["status"]


def addresses_text(machine):
    """A machine's addresses in a row: two at most, and how many more it has."""
    more = len(machine["interfaces"]) - 2
    return ", ".join(machine["interfaces"][:2]) + (", %d more" % more if more > 0 else "")


def is_passed(state, machine):
    return machine["deadline"] is not None and machine["deadline"] <= state["now"]


def order_kind(machine):
    return "off" if machine["status"] in OFF else "cycle"


def waiting_orders(state, hall):
    """The orders that machines wait for, each with number, machine, kind and for how long it was seen in lists, up to the last one."""
    seen = dict(hall["orders_seen"])
    last = state["now"] if hall["listed"] is None else hall["listed"]
    orders = [(machine["order"], machine["id"], order_kind(machine)) for machine in hall["machines"] if machine["order"] is not None]
    return [(number, machine, kind, last - seen.get(number, last)) for number, machine, kind in sorted(orders)]


def since(state, hall):
    """For each machine that was seen to move when it came to its status."""
    last = {}
    for at, machine, _, to in hall["moves"]:
        last[machine] = (at, to)
    return last


def since_text(state, last, machine):
    at, to = last.get(machine["id"], (None, None))
    if at is not None and to == machine["status"]:
        return span(state["now"] - at)
    return "over " + span(state["now"] - state["began"])
