# Refuses each single request for memory of play_desk over the forty arrivals of its cases, one by one and by one run of the desk, and of programs that play
# a single act. The argument says how many requests apart those of the forty arrivals are, one by one. The variables PLAY_DESK and PLAY_CALLS name the programs.
import os, re, sys
from concurrent.futures import ThreadPoolExecutor
from spoiled import Spoiler, end, end_without_compiler

TOOL = "refuse_memory"
APART = int(sys.argv[1])
CRATES = os.path.join(os.path.dirname(os.path.abspath(__file__)), "..", "crates")
# so many requests of a single act are refused at most
MOST = 120
# so many times as many requests of the forty arrivals are refused one by one as by one run
TIMES = 4
# how an act is answered for which there is no memory; Io is what couldn't be written for that
WANTING = re.compile(r"\b(Memory|OutOfMemory|AllocError|out of memory|[Uu]navailable|503)\b|Io$")
# what play_desk counts at the end of a way of playing files; it is printed after what came of them
COUNTED = re.compile(r"((?:memory|SQLite|tables|stops)(?:, [a-z ]+)?): \d+ cases?, ")
# the ways in which it plays a file of a hall once, by runs alone, and a file of tables
ONCE, RUNS, TABLES = ("memory", "SQLite"), ("memory, by runs", "SQLite, by runs"), ("tables",)
# what comes of an arrival in a run for which there was no memory
NO_RUN = "out of memory"
# what is asked of a hall of play_desk
ASKED = ("rows", "import", "hall", "machine-text", "order-text", "export", "machines", "orders", "machine", "log", "log_object", "serve")


def acts_of(crate, names):
    """The acts of a program's cases in order, but of those that are wrong on purpose, in the files of such names."""
    with open(f"{CRATES}/{crate}/args") as file:
        files = [name for name in file.read().split() if re.fullmatch(names, name) and not name.startswith("wrong")]
    acts = []
    for name in files:
        with open(f"{CRATES}/{crate}/data/{name}") as file:
            acts += [line for line in file.read().split("\n") if line and line != "=" and not line.startswith(("#", "== ", "= ", "  "))]
    return acts


def kind_of(act):
    return act.split(" ")[0]


class Bare:
    """A file of acts of which nothing is wanted: its program prints what comes of each."""

    def __init__(self, spoiler, crate, name, acts):
        self.spoiler, self.words = spoiler, [os.environ[crate.upper()], name]
        with open(f"{spoiler.folder.name}/{name}", "w") as file:
            file.write("\n".join(["== bare acts", *acts, ""]))

    def play(self, refuse=0):
        return self.spoiler.run(self.words, refuse=refuse, folder=self.spoiler.folder.name)


def came_in_turn(text, ways):
    """What came of a file that is played in these ways in turn, the lines that follow each act joined; at last, what no count follows."""
    parts, came = [], []
    for line in text.split("\n"):
        counted = COUNTED.match(line)
        if counted and counted[1] in ways:
            parts, came = parts + [came], []
        elif line.startswith("  came   "):
            came.append(line[9:])
        elif line.startswith("         "):
            came[-1] += "\n" + line[9:]
    return parts + [came]


def halves_of(text, ways, arrivals=40):
    """What came over each store, and what comes after: the answers to so many arrivals, and then the lines of the tables."""
    parts = (came_in_turn(text, ways) + [[], []])[:len(ways) + 1]
    return [came[:arrivals] + [line for lines in came[arrivals:] for line in lines.split("\n")] for came in parts]


class Log:
    """The forty arrivals of play_desk's cases, and the acts that begin their hall and print the tables after them."""

    def __init__(self):
        acts = acts_of("play_desk", r"failures\.cases")
        first = next(at for at, act in enumerate(acts) if kind_of(act) == "each")
        last = next(at for at in range(first, len(acts)) if kind_of(acts[at]) != "each")
        self.arrivals = [act.removeprefix("each ") for act in acts[first:last]]
        assert len(self.arrivals) == 40 and kind_of(acts[first - 1]) == "new" and kind_of(acts[last]) == "watch"
        self.begin, self.look = acts[first - 1], acts[last].replace("watch", "look", 1)

    def file(self, spoiler, name, left_out=None):
        """A file of them, but for those whose places are left out."""
        arrivals = [arrival for place, arrival in enumerate(self.arrivals) if place not in (left_out or ())]
        return Bare(spoiler, "play_desk", name, [self.begin, *arrivals, self.look])

    def came(self, spoiler, left_out):
        """What comes of the others, one by one: their answers and the lines of the tables."""
        name = "without_" + "_".join(map(str, left_out[:2])) + ".once.cases"
        return halves_of(self.file(spoiler, name, left_out).play().done.stdout, ONCE, 40 - len(left_out))[0]


class Arrivals:
    """The forty arrivals, played once or by one run of the desk."""

    def __init__(self, spoiler, log, name, ways, without, none):
        self.file, self.ways, self.without, self.none = log.file(spoiler, name), ways, without, none
        whole = self.file.play()
        self.said, self.requests = halves_of(whole.done.stdout, ways), whole.requests
        assert whole.done.returncode == 0 and len(self.said[0]) > 40, whole.done.stderr
        assert self.said[0] == self.said[1] and not self.said[2]

    def lacks_one(self, half):
        """Whether a half is as it is where one of its arrivals counts as not having come."""
        place = next(at for at, (one, other) in enumerate(zip(half, self.said[0])) if one != other)
        return place < 40 and is_refused(half[place]) and half[:place] + half[place + 1:] == self.without[place]

    def is_unread(self, half):
        """Whether a half has all answers, and its tables up to one that couldn't be read."""
        front = half[:-1]
        return len(front) >= 40 and half[-1] == "unavailable" and front == self.said[0][:len(front)]

    def lacks_run(self, half):
        """Whether there was no memory for a run of all arrivals, of which none came."""
        return self.ways == RUNS and half == [NO_RUN] * 40 + self.none

    def judge(self, refuse):
        done = self.file.play(refuse).done
        halves = halves_of(done.stdout, self.ways)
        if done.returncode != 0:
            # the program's own want of memory ends it with a fault, and all that it printed before stands
            is_told = done.returncode == 1 and done.stderr.startswith("play_desk: ")
            is_front = all(half == whole[:len(half)] for half, whole in zip(halves, self.said))
            return "ended" if is_told and is_front else "wrong"
        others = [half for half, whole in zip(halves, self.said) if half != whole]
        if not others:
            return "unseen"
        if len(others) > 1:
            return "wrong"
        half = others[0]
        if self.is_unread(half):
            return "unread"
        return "no run" if self.lacks_run(half) else "refused" if self.lacks_one(half) else "wrong"


def is_refused(answer):
    return answer in ("silence", "unavailable") or answer.startswith("503 ")


class Call:
    """A file with one act, after others, and the ways in which it is played: where none is named, each of the program's requests is the act's."""

    def __init__(self, spoiler, crate, kind, act, before=(), ways=()):
        self.crate, self.act, self.ways = crate, act, ways
        name = f"{crate}_{kind}" + (".tables.cases" if ways == TABLES else ".once.cases")
        self.file = Bare(spoiler, crate, name, [*before, act])
        # the same file but for the act, of which a comment of the same size is left
        self.bare = Bare(spoiler, crate, f"before_{name}", [*before, f"#{act[1:]}"])

    def asked(self, whole):
        """The numbers of the act's requests for memory, and of those that print what came of it."""
        if not self.ways:
            return list(range(1, whole.requests + 1))
        bare, asked = self.bare.play(), []
        for way in self.ways:
            before, after = requests_of(bare, way), requests_of(whole, way)
            asked += range(after.stop - (len(after) - len(before)), after.stop)
        return asked

    def refuse(self):
        """How many of its requests for memory were refused, each alone, and the first of them for which something else came of it, 0 for none."""
        whole = self.file.play()
        if whole.done.returncode != 0:
            return 0, -1
        asked = self.asked(whole)
        tried = asked[::max(1, -(-len(asked) // MOST))]
        for refuse in tried:
            if not self.is_wanting(whole.done.stdout, self.file.play(refuse).done):
                return len(tried), refuse
        return len(tried), 0

    def is_wanting(self, whole, done):
        """Whether a run is the whole one, or one whose act, or which itself, ended for want of memory."""
        if done.returncode != 0 and not (done.returncode == 1 and done.stderr.startswith(f"{self.crate}: ")):
            return False
        return is_wanting_first(done.stdout, whole)


def requests_of(run, way):
    """The numbers of a run's requests for memory up to the report of a file that was played in this way, since the report or count before it."""
    # the counts are a write each, and so is the report before one, or several without a request between them
    writes, is_report = [], False
    for line in run.done.stdout.splitlines():
        counted = COUNTED.match(line)
        if is_report and counted:
            writes.append(f"before {counted[1]}")
        if counted:
            writes.append(counted[1])
        is_report = not counted
    written = sorted(set(run.written))
    assert len(writes) == len(written), (writes, run.written)
    place = writes.index(f"before {way}")
    return range((written[place - 1] if place else 0) + 1, written[place] + 1)


def is_wanting_first(text, whole):
    """Whether the first line that isn't the whole text's says that memory is wanting, or there is none up to the text's end."""
    for line, other in zip(text.split("\n"), whole.split("\n")):
        if line != other:
            return not line or WANTING.search(line)
    return True


def calls(spoiler):
    """A call for each kind of act of the program that plays a call an act, and of what is asked of a hall and of a file's tables."""
    found = []
    acts = {kind_of(act): act for act in reversed(acts_of("play_calls", r"\w+\.cases"))}
    # the answer to `characters` lists what each of many calls took
    found += [Call(spoiler, "play_calls", kind, act) for kind, act in acts.items() if kind != "characters"]
    acts = acts_of("play_desk", r"\w+\.cases")
    hall = ["new", *[act for act in acts if kind_of(act) in ("command", "script", "report")][:12]]
    for kind in ASKED:
        longest = max((act for act in acts if kind_of(act) == kind), key=len)
        found.append(Call(spoiler, "play_desk", kind, longest, hall, ONCE))
    create = next(act for act in acts_of("play_desk", r".*\.tables\.cases") if kind_of(act) == "create")
    empty = ["new", "query SELECT 1"]
    made = [*empty, create]
    old = [*made, "sql DROP TABLE wipes", "sql UPDATE hall SET schema = 1"]
    for act, before in ((create, empty), ("open", made), ("migrate", old)):
        found.append(Call(spoiler, "play_desk", kind_of(act), act, before, TABLES))
    return found


def refuse_of_forty(pool, forty, apart, verdicts):
    """Refuses requests of the forty arrivals, so many apart: how many of how many, and what came of it, counted."""
    tried, counts = range(1, forty.requests + 1, apart), dict.fromkeys(verdicts, 0)
    for refuse, verdict in zip(tried, pool.map(forty.judge, tried)):
        counts[verdict] += 1
        if verdict == "wrong":
            print(f"BAD: {forty.ways[0]}: request {refuse} of {forty.requests} refused: neither nothing was seen nor was one arrival refused alone", file=sys.stderr)
    told = ", ".join(f"{count} {verdict}" for verdict, count in counts.items() if verdict != "wrong")
    return len(tried), counts["wrong"], f"{len(tried)} of {forty.requests}: {told}"


def main():
    end_without_compiler(TOOL)
    verdicts = ["unseen", "refused", "unread", "ended", "wrong"]
    with Spoiler() as spoiler, ThreadPoolExecutor(os.cpu_count()) as pool:
        log = Log()
        without = [log.came(spoiler, [place]) for place in range(40)]
        once = Arrivals(spoiler, log, "forty.once.cases", ONCE, without, [])
        run = Arrivals(spoiler, log, "forty.runs.cases", RUNS, without, log.came(spoiler, list(range(40))))
        assert run.said == once.said
        checks, failed, told_once = refuse_of_forty(pool, once, APART, verdicts)
        checks_in_run, failed_in_run, told_in_run = refuse_of_forty(pool, run, APART * TIMES, ["no run", *verdicts])
        checks, failed = checks + checks_in_run, failed + failed_in_run
        every, checks_in_calls = calls(spoiler), 0
        for call, (tried_in_call, wrong) in zip(every, pool.map(Call.refuse, every)):
            checks_in_calls += tried_in_call
            if wrong:
                failed += 1
                print(f"BAD: request {wrong} refused: {call.crate}: {call.act[:200]!r}", file=sys.stderr)
    end(TOOL, checks + checks_in_calls, failed,
        f"requests for memory of the forty arrivals, {told_once}; by one run, {told_in_run}; "
        f"and {checks_in_calls} requests of {len(every)} single calls, at most {MOST} of each")


main()
