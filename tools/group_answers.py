"""What a desk may answer, octet for octet, also where a number in the answer isn't known before it is read: for group_trial.py."""
import json, re, time

PHRASES = {200: "OK", 401: "Unauthorized", 404: "Not Found", 409: "Conflict", 410: "Gone", 412: "Precondition Failed", 423: "Locked"}
REFUSALS = {"UnknownToken": 401, "NoMachine": 404, "NoPool": 404, "NoImage": 404, "NoBoot": 404, "NoOrder": 404, "KeyReused": 409, "WrongStatus": 409,
            "Taken": 409, "InUse": 409, "Spent": 409, "Stale": 410, "Withdrawn": 410, "StaleVersion": 412, "Locked": 423}
DECODER = json.JSONDecoder()


class Wrong(Exception):
    """What came is no right answer, nor the beginning of one."""


class Hole:
    """A number in an answer that isn't known before."""

    pattern, read = re.compile(rb"(?:[1-9][0-9]*)?"), staticmethod(int)

    def __init__(self, name):
        self.name = name

    def takes(self, value):
        return isinstance(value, int)


class Deadline(Hole):
    """The moment at which a status fails that was entered since the command for it was sent first, by a clock of this host."""

    def __init__(self, limit):
        super().__init__("deadline")
        self.limit, self.first = limit, int(time.time())

    def takes(self, value):
        return isinstance(value, int) and self.first + self.limit <= value <= int(time.time()) + self.limit


class Token(Hole):
    """A boot's token."""

    pattern, read = re.compile(rb"[0-9a-f]{0,32}"), staticmethod(bytes.decode)

    def takes(self, value):
        return len(value) == 32


LENGTH = Hole("length")


def walked(parts, octets):
    """What the holes among the parts have in octets, and where the parts end in them: nowhere, if the octets end before."""
    values, at = {}, 0
    for part in parts:
        if isinstance(part, bytes):
            here = octets[at:at + len(part)]
            if not part.startswith(here):
                raise Wrong(f"{here[:300]!r} in place of {part[:300]!r}")
            at += len(part)
            continue
        found = part.pattern.match(octets, at)
        at = found.end()
        if at < len(octets):
            if not found[0] or not part.takes(part.read(found[0])):
                raise Wrong(f"{found[0]!r} as {part.name}")
            values[part.name] = part.read(found[0])
    return values, at if at <= len(octets) else None


def compact(value):
    return json.dumps(value, separators=(",", ":"))


def parts_of(members):
    """The octets of an object, of whose values some may be holes."""
    parts, text = [], "{"
    for name, value in members.items():
        text += f'{"" if text == "{" and not parts else ","}"{name}":'
        if isinstance(value, Hole):
            parts += [text.encode(), value]
            text = ""
        else:
            text += compact(value)
    return [*parts, (text + "}").encode()]


def head_of(status, kind, length):
    """The head of an answer, whose length may be a hole."""
    return [f"HTTP/1.1 {status} {PHRASES[status]}\r\nContent-Type: {kind}\r\nContent-Length: ".encode(), length, b"\r\nConnection: close\r\n\r\n"]


def length_of(octets):
    """How many octets a body has."""
    return len(octets) - octets.index(b"\r\n\r\n") - 4


class Right:
    """A right answer, whose body may have holes. `is_done`: it says that what it is asked with was done."""

    def __init__(self, status, *body, kind="application/json", is_done=False):
        is_known = all(isinstance(part, bytes) for part in body)
        self.parts = [*head_of(status, kind, str(sum(map(len, body))).encode() if is_known else LENGTH), *body]
        self.is_done = is_done

    def read(self, octets):
        """What the holes have, and whether the answer is whole, not only its beginning."""
        values, end = walked(self.parts, octets)
        if end is None:
            return {}, False
        if end < len(octets) or values.pop("length", length_of(octets)) != length_of(octets):
            raise Wrong(f"{len(octets)} octets, of which {end} are the answer")
        return values, True


class Same:
    """The octets of an answer that came before."""

    is_done = False

    def __init__(self, octets):
        self.octets = octets

    def read(self, octets):
        if not self.octets.startswith(octets):
            raise Wrong(f"{octets[:600]!r} in place of {self.octets[:600]!r}")
        return {}, len(octets) == len(self.octets)


def refused(name, **words):
    return Right(REFUSALS[name], f'{{"refusal":"{name}"}}'.encode(), **words)


def rows_of(text):
    """The whole rows at the beginning of a list, and where they end."""
    rows, at = [], 0
    while text.startswith("{", at):
        try:
            row, at = DECODER.raw_decode(text, at)
        except ValueError:
            break
        rows.append(row)
        if text[at:at + 1] != ",":
            break
        at += 1
    return rows, at


class Rows:
    """A list of the hall's machines or orders. `judge` says what is wrong with rows, of all of a list or of its beginning."""

    is_done = False

    def __init__(self, name, judge):
        head = head_of(200, "application/json", LENGTH)
        self.parts, self.judge = [*head[:-1], head[-1] + f'{{"{name}":['.encode()], judge

    def read(self, octets):
        values, end = walked(self.parts, octets)
        if end is None:
            return {}, False
        text = octets[end:].decode("ascii", "replace")
        rows, at = rows_of(text)
        is_whole = text[at:] == "]}"
        if compact(rows)[1:-1] != (text[:at] if is_whole else text[:at].removesuffix(",")):
            raise Wrong(f"a list that isn't spelled as the desk does: {text[:300]}")
        if is_whole and values["length"] != length_of(octets):
            raise Wrong(f"a list of {length_of(octets)} octets, and not of {values['length']}")
        if not is_whole and text[at:at + 2] not in ("", "]", "{", '{"'):
            raise Wrong(f"{text[at:at + 300]!r} in a list")
        if why := self.judge(rows, is_whole):
            raise Wrong(why)
        return {}, is_whole


def fits(row, shown):
    """Whether a machine is shown as one with this row may be: all of it, or a part; None where there is none."""
    if row is None or shown is None:
        return row is shown
    return all(row[name].takes(value) if isinstance(row[name], Hole) else row[name] == value for name, value in shown.items())
