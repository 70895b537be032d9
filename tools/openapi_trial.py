"""docs/openapi.yaml against the desk: openapi_trial.py HALLBOOT REPOSITORY. Run by openapi_trial.sh, which says what is looked at."""
import json, re, resource, signal, sqlite3, sys, uuid
from served_hall import ADMIN, Hall, address, digest

LAST = 10**15
URIS = {"kernel": "http://files.example/k", "initrd": "http://files.example/i"}


# ---- the document: the part of YAML that it uses
def value_of(text):
    return json.loads(text) if text[:1] in '{["' or text in ("true", "false") else text


def block(lines, place, indent):
    """The block at an indent, and the place of the line behind it."""
    if lines[place].lstrip().startswith("- "):
        found = []
        while place < len(lines) and lines[place].startswith(" " * indent + "- "):
            lines[place] = " " * (indent + 2) + lines[place][indent + 2:]
            item, place = block(lines, place, indent + 2)
            found.append(item)
        return found, place
    found = {}
    while place < len(lines) and re.match(rf" {{{indent}}}[^ -]", lines[place]):
        name, _, text = lines[place].strip().partition(":")
        text, place = text.strip(), place + 1
        if text == ">-":
            words = []
            while place < len(lines) and lines[place].startswith(" " * (indent + 1)):
                words, place = [*words, lines[place].strip()], place + 1
            found[name.strip('"')] = " ".join(words)
        elif text:
            found[name.strip('"')] = value_of(text)
        else:
            inner = len(lines[place]) - len(lines[place].lstrip())
            found[name.strip('"')], place = block(lines, place, inner)
    return found, place


def document(path):
    with open(path) as file:
        lines = [line.rstrip("\n") for line in file if line.strip()]
    found, place = block(lines, 0, 0)
    if place != len(lines):
        sys.exit(f"{path}: line {place + 1} isn't understood: {lines[place]}")
    return found


# ---- schemas (JSON Schema 2020-12, as far as they are used)
KINDS = {"object": dict, "array": list, "string": str, "boolean": bool, "null": type(None)}


def is_kind(value, kind):
    if kind == "integer":
        return isinstance(value, int) and not isinstance(value, bool)
    return isinstance(value, KINDS[kind])


class Schemas:
    def __init__(self, schemas):
        self.schemas = schemas

    def fits(self, schema, value):
        if "$ref" in schema:
            return self.fits(self.schemas[schema["$ref"].rpartition("/")[2]], value)
        kinds = schema.get("type", [])
        if kinds and not any(is_kind(value, kind) for kind in ([kinds] if isinstance(kinds, str) else kinds)):
            return False
        if "enum" in schema and not any(one == value and type(one) is type(value) for one in schema["enum"]):
            return False
        if "const" in schema and schema["const"] != value:
            return False
        if "oneOf" in schema and sum(self.fits(one, value) for one in schema["oneOf"]) != 1:
            return False
        if "anyOf" in schema and not any(self.fits(one, value) for one in schema["anyOf"]):
            return False
        if isinstance(value, str):
            if "pattern" in schema and not re.search(schema["pattern"], value):
                return False
            if schema.get("format") == "uuid" and str(uuid.UUID(value)) != value.lower():
                return False
            return schema.get("minLength", 0) <= len(value) <= schema.get("maxLength", 1 << 20)
        if isinstance(value, list):
            return schema.get("minItems", 0) <= len(value) <= schema.get("maxItems", 1 << 20) and all(self.fits(schema["items"], one) for one in value)
        if isinstance(value, dict):
            own = schema.get("properties", {})
            return (all(name in value for name in schema.get("required", [])) and (schema.get("additionalProperties", True) or set(value) <= set(own))
                    and all(self.fits(own[name], one) for name, one in value.items() if name in own))
        if is_kind(value, "integer"):
            return schema.get("minimum", value) <= value <= schema.get("maximum", value)
        return True


# ---- the desk's answers, held against the document
class Trial:
    def __init__(self, api):
        self.api, self.schemas = api, Schemas(api["components"]["schemas"])
        self.seen, self.faults, self.checks = set(), [], 0
        self.operations = {it["operationId"]: (method, path, it) for path, methods in api["paths"].items() for method, it in methods.items()}

    def wants(self, what, is_so):
        self.checks += 1
        if not is_so:
            self.faults.append(what)

    def ask(self, hall, name, bearer=None, body=None, wanted=200, head=None, **places):
        """Sends a request of this operation; its answer must be the one that is wanted, a status or a refusal, and be documented."""
        method, path, it = self.operations[name]
        target = path.format(**places)
        if body is not None and not isinstance(body, str):
            self.wants(f"{name}: the request isn't of its schema: {body}", wanted == "BadRequest" or self.schemas.fits(self.schema(it["requestBody"]), body))
            body = json.dumps(body)
        status, octets = hall.ask(target, bearer, body) if head is None else hall.raw(head.format(target=target, method=method.upper()))
        answer = octets.decode()
        told = it["responses"].get(str(status))
        if told is None:
            return self.wants(f"{name}: {status} isn't documented: {answer}", False)
        if "text/plain" in told["content"]:
            return self.wants(f"{name}: {answer[:80]}", wanted == 200 and self.schemas.fits(told["content"]["text/plain"]["schema"], answer))
        said = json.loads(answer)
        self.wants(f"{name}: the answer isn't of its schema: {answer}", self.schemas.fits(self.schema(told), said))
        if status != 200:
            refusal = said["refusal"]
            self.wants(f"{name}: {refusal} isn't documented for {status}", refusal in told["content"]["application/json"].get("examples", {}))
            self.seen.add((name, refusal))
            status = refusal
        self.wants(f"{name} {places} {body}: {status} and not {wanted}", status == wanted)
        return said

    @staticmethod
    def schema(part):
        return part["content"]["application/json"]["schema"]

    def command(self, hall, wanted=200, token=ADMIN, key=None, **members):
        return self.ask(hall, "command", token, {"key": key or str(uuid.uuid4()), **members}, wanted)


class RawHall(Hall):
    restores_signals = False    # SIGXFSZ stays ignored: a file that can't grow is an error, and doesn't end the program

    def raw(self, text):
        import socket
        from served_hall import whole
        octets = bytearray()
        with socket.create_connection(("127.0.0.1", self.http), 10) as s:
            s.sendall(text.encode())
            while more := s.recv(1 << 16):
                octets += more
        return whole(bytes(octets))


def script_of(hall, number):
    """The number and the token of a boot, in the script of a machine."""
    text = hall.ask(f"/ipxe/{address(number)}")[1].decode()
    return re.search(r"hall\.boot=(\d+) hall\.token=([0-9a-f]+)", text).groups()


def report(trial, hall, boot, stage, wanted=200):
    trial.ask(hall, "report", None, {"stage": stage}, wanted, number=boot[0], token=boot[1])


def answer(trial, hall, number, outcome, wanted=200):
    trial.ask(hall, "order", "pow", {"outcome": outcome}, wanted, number=number)


# ---- each part of the document
def heads(trial, hall):
    """What is refused by the head alone."""
    for name, places in (("script", {"mac": address(1)}), ("report", {"number": 1, "token": "00" * 16}), ("order", {"number": 1}), ("machine", {"id": 1}),
                         ("machines", {}), ("orders", {}), ("command", {})):
        method = trial.operations[name][0]
        other = "PUT {target} HTTP/1.1\r\nHost: desk\r\n\r\n"
        trial.ask(hall, name, head=other, wanted="WrongMethod", **places)
        if method == "post":
            trial.ask(hall, name, head="POST {target} HTTP/1.1\r\nHost: desk\r\n\r\n", wanted="NeedLength", **places)
            trial.ask(hall, name, head="POST {target} HTTP/1.1\r\nHost: desk\r\nContent-Length: 16385\r\n\r\n", wanted="TooLarge", **places)
            trial.ask(hall, name, "pow", "{}", "BadRequest", **places)
    trial.ask(hall, "script", wanted="BadRequest", mac="52:54")
    trial.ask(hall, "machine", ADMIN, wanted="BadRequest", id="01")
    status, octets = hall.ask("/nowhere")
    trial.wants("/nowhere: no NoRoute", status == 404 and trial.schemas.fits({"$ref": "#/components/schemas/Refusal"}, json.loads(octets)))
    trial.seen.add((None, json.loads(octets)["refusal"]))


def roles(trial, hall):
    for name, token in (("orders", "olga"), ("machines", "pow")):
        trial.ask(hall, name, "nobody", wanted="UnknownToken")
        trial.ask(hall, name, token, wanted="RoleNeeded")
        trial.ask(hall, name, ADMIN)
    for token, wanted in (("nobody", "UnknownToken"), ("pow", "RoleNeeded")):
        trial.ask(hall, "machine", token, wanted=wanted, id=1)
    for token, wanted in (("nobody", "UnknownToken"), ("olga", "RoleNeeded")):
        trial.ask(hall, "order", token, {"outcome": "done"}, wanted, number=1)
    trial.command(hall, "UnknownToken", "nobody", command="add_pool", pool="lab")
    trial.command(hall, "RoleNeeded", "olga", command="add_pool", pool="lab")


def examples(trial, hall):
    """Each example of a command, in an order in which all can be done; others between them lead there."""
    given = {name: it["value"] for name, it in trial.operations["command"][2]["requestBody"]["content"]["application/json"]["examples"].items()}
    left = set(given)

    def send(name, token=ADMIN):
        left.discard(name)
        return trial.ask(hall, "command", token, given[name])

    def move(name, stage="done", token=ADMIN):
        """A command by which machine 1 boots, and what its boot reports."""
        send(name, token)
        boot = script_of(hall, 1)
        report(trial, hall, boot, "started")
        if stage:
            report(trial, hall, boot, stage)

    with_images = [dict(URIS, command="add_image", image=name, arch="uefi64", args=[]) for name in ("live64", "spare")]
    for image in with_images:
        trial.command(hall, **image)
    trial.command(hall, command="set_live", image="live64")
    trial.command(hall, command="add_operator", operator="eve", role="user", digest=digest("eve"))
    for name in ("disable_operator", "add_pool", "grant", "add_image", "delete_image", "set_live", "add_machine", "add_interface", "remove_interface", "set_pool"):
        send(name)
    send("delete")
    move("commission")
    trial.command(hall, command="test", machine=1)
    report(trial, hall, script_of(hall, 1), "failed")
    send("override")
    move("test")
    send("allocate", "olga")
    move("deploy", token="olga")
    send("lock", "olga")
    send("unlock", "olga")
    move("rescue", None, "olga")
    send("exit_rescue", "olga")
    order = json.loads(hall.ask("/orders", "pow")[1])["orders"][-1]["number"]
    answer(trial, hall, order, "done")
    answer(trial, hall, order, "failed", "Spent")
    send("release", "olga")
    send("abort", "olga")
    trial.command(hall, token="olga", command="release", machine=1, erase=False)
    waiting = json.loads(hall.ask("/orders", "pow")[1])["orders"][-1]["number"]
    answer(trial, hall, waiting, "done")
    send("break")
    send("fix")
    trial.command(hall, token=ADMIN, command="add_operator", operator="olaf", role="user", digest=digest("olaf"))
    left.discard("add_operator")
    trial.ask(hall, "command", ADMIN, given["add_operator"] | {"operator": "zoe"})
    trial.wants(f"examples of commands that weren't sent: {left}", not left)
    key = given["add_pool"]["key"]
    trial.command(hall, "KeyReused", key=key, command="add_pool", pool="other")
    for name in ("report", "order"):
        body = trial.operations[name][2]["requestBody"]["content"]["application/json"]
        trial.wants(f"{name}: its example isn't of its schema", trial.schemas.fits(body["schema"], body["example"]))


def refusals(trial, hall):
    """Why commands, reports and answers are refused, over the hall that `examples` leaves: machine 1 is Ready, in pool lab."""
    no, take = trial.command, dict(command="add_machine", arch="uefi64", pool="lab")
    no(hall, "NoMachine", command="test", machine=99)
    no(hall, "NoInterface", command="remove_interface", machine=1, mac=address(9))
    no(hall, "NoPool", command="set_pool", machine=1, pool="none")
    no(hall, "NoOperator", command="disable_operator", operator="none")
    no(hall, "NoImage", command="set_live", image="none")
    no(hall, "Taken", command="add_pool", pool="lab")
    no(hall, "InUse", command="delete_image", image="jammy")
    no(hall, "SelfDisable", command="disable_operator", operator="ada")
    no(hall, "LastInterface", command="remove_interface", machine=1, mac=address(1))
    no(hall, "StaleVersion", command="test", machine=1, version=1)
    no(hall, "WrongStatus", command="override", machine=1)
    no(hall, "NotMember", "olaf", command="allocate", machine=1)
    trial.command(hall, **take, mac=address(3))
    trial.command(hall, command="add_machine", arch="bios", pool="lab", mac=address(4))
    bios = max(machine["id"] for machine in json.loads(hall.ask("/machines", ADMIN)[1])["machines"])
    no(hall, "NoLiveImage", command="commission", machine=bios, tests=False)
    trial.command(hall, **dict(URIS, command="add_image", image="old", arch="bios", args=[]))
    trial.command(hall, token="olga", command="allocate", machine=1)
    no(hall, "NotOwner", "olaf", command="release", machine=1, erase=False)
    no(hall, "WrongArch", "olga", command="deploy", machine=1, image="old")
    trial.command(hall, token="olga", command="deploy", machine=1, image="jammy")
    boot = script_of(hall, 1)
    report(trial, hall, boot, "started")
    order = json.loads(hall.ask("/orders", "pow")[1])["orders"][-1]["number"]
    report(trial, hall, boot, "done")
    answer(trial, hall, order, "done", "Withdrawn")
    report(trial, hall, boot, "failed", "Spent")
    trial.command(hall, token="olga", command="lock", machine=1)
    no(hall, "Locked", "olga", command="release", machine=1, erase=False)
    trial.command(hall, token="olga", command="unlock", machine=1)
    trial.command(hall, token="olga", command="rescue", machine=1)
    rescue = script_of(hall, 1)
    report(trial, hall, rescue, "started")
    report(trial, hall, rescue, "done", "WrongStage")
    trial.command(hall, token="olga", command="exit_rescue", machine=1)
    report(trial, hall, rescue, "failed", "Stale")
    trial.ask(hall, "report", None, {"stage": "started"}, "NoBoot", number=999, token="00" * 16)
    answer(trial, hall, 999, "done", "NoOrder")
    trial.ask(hall, "script", wanted="NoMachine", mac=address(77))
    trial.ask(hall, "machine", ADMIN, wanted="NoMachine", id=99)
    trial.ask(hall, "script", mac=address(3))
    trial.ask(hall, "machine", ADMIN, id=1)
    trial.ask(hall, "machines", ADMIN)
    trial.ask(hall, "orders", "pow")


def limits(trial, hallboot):
    """A hall that is full, and one whose numbers are all issued."""
    with RawHall(hallboot, "full") as hall:
        hall.add(10_000)
        hall.serve()
        trial.command(hall, "Full", command="add_machine", arch="uefi64", pool="default", mac="52:54:ff:00:00:01")
    with RawHall(hallboot, "last") as hall:
        hall.add(2)
        hall.serve()
        trial.command(hall, **dict(URIS, command="add_image", image="live64", arch="uefi64", args=[]))
        trial.command(hall, command="set_live", image="live64")
        trial.command(hall, command="commission", machine=1, tests=True)
        trial.command(hall, command="commission", machine=2, tests=True)
        boot = script_of(hall, 1)
        report(trial, hall, boot, "started")
        hall.stop()
        with sqlite3.connect(hall.file) as tables:
            tables.execute("UPDATE hall SET machine = ?, boot = ?, orders = ?", (LAST, LAST, LAST))
        tables.close()
        hall.serve()
        trial.command(hall, "Exhausted", command="add_machine", arch="uefi64", pool="default", mac=address(9))
        trial.ask(hall, "script", wanted="Exhausted", mac=address(2))
        report(trial, hall, boot, "done", "Exhausted")


def unavailable(trial, hallboot):
    """Files that can't grow, as on a disk that is full: 503, whatever would change the hall."""
    with RawHall(hallboot, "disk") as hall:
        hall.serve()
        resource.prlimit(hall.running.pid, resource.RLIMIT_FSIZE, (1, resource.RLIM_INFINITY))
        trial.command(hall, "Unavailable", command="add_pool", pool="lab")


def main(hallboot, repository):
    api = document(f"{repository}/docs/openapi.yaml")
    trial = Trial(api)
    with open(f"{repository}/crates/hall_types/src/refusal.rt") as file:
        refusals_of_code = set(re.findall(r'Refusal::\w+ => "(\w+)"', file.read()))
    trial.wants("the refusals aren't those of the code", set(api["components"]["schemas"]["Refusal"]["properties"]["refusal"]["enum"]) == refusals_of_code)
    commands = {one["properties"]["command"]["const"] for one in api["components"]["schemas"]["Command"]["oneOf"]}
    with open(f"{repository}/crates/hall_types/src/act.rt") as acts, open(f"{repository}/crates/hall_events/src/command.rt") as kinds:
        words = set(re.findall(r'=> "(\w+)"', acts.read() + kinds.read()))
    trial.wants(f"the commands aren't those of the code: {commands ^ words}", commands == words)
    with RawHall(hallboot, "openapi") as hall:
        hall.serve()
        for operator, role in (("olga", "user"), ("pow", "power")):
            trial.command(hall, command="add_operator", operator=operator, role=role, digest=digest(operator))
        for number, arch in ((1, "uefi64"), (2, "uefi64")):
            trial.command(hall, command="add_machine", mac=address(number), arch=arch, pool="default")
        heads(trial, hall)
        roles(trial, hall)
        examples(trial, hall)
        refusals(trial, hall)
    limits(trial, hallboot)
    unavailable(trial, hallboot)
    told = {(name, refusal) for name, (_, _, it) in trial.operations.items() for status, part in it["responses"].items() if status != "200"
            for refusal in part["content"]["application/json"]["examples"]}
    # want of disk or of memory is provoked once: each route answers it alike
    never = {(name, refusal) for name, refusal in told - trial.seen if refusal != "Unavailable"}
    trial.wants(f"documented, and never answered: {sorted(never)}", not never)
    for fault in trial.faults:
        print(f"BAD: {fault}", file=sys.stderr)
    print(f"openapi_trial: {trial.checks} checks, {len(trial.faults)} failed")
    return bool(trial.faults)


if __name__ == "__main__":
    signal.signal(signal.SIGXFSZ, signal.SIG_IGN)    # children inherit it
    sys.exit(main(*sys.argv[1:]))
