#!/usr/bin/env python3
"""Prints the log of a benchmark, for `play_desk bench`: a new hall with so many machines, and what is measured.

usage: bench_log.py desk offer|script|repeat|list|allocate|report MACHINES ROUNDS
       bench_log.py store machine|address|unknown|uuid|interfaces|token|change|delete|list|second|quiet MACHINES ROUNDS

`offer` is a DISCOVER, `script` a script request of a machine that is Deployed, `repeat` a command with a key that was used, `list` a
request for all machines, `allocate` an allocation, its release and the power program's answer, `report` a commissioning, its script
request and the report that it failed. Of the store, `token` finds an operator, `change` reads a machine and puts it over its version
with a receipt, `delete` puts a machine with its interface and deletes it in two changes, `second` looks for an expired machine at each
next second, `quiet` at the same one. Each round is another machine's, in turn. What may be repeated has a line for each machine, or one
line, and is played more than once; all else has ROUNDS rounds."""
import sys

TOKEN = "07" * 16
DIGESTS = {
    "abc": "ba7816bf8f01cfea414140de5dae2223b00361a396177a9cb410ff61f20015ad",
    "hello": "2cf24dba5fb0a30e26e83b2ac5b9e29e1b161e5c1fa7425e73043362938b9824",
    "test": "9f86d081884c7d659a2feaa0c55ad015a3bf4f1b2b0b822cd15d6c15b0f00a08",
}
# The options of a DISCOVER of a UEFI client over x86-64 (RFC 2132, RFC 4578, PXE 2.1), up to its machine identifier.
OPTIONS = "3501013c20" + b"PXEClient:Arch:00007:UNDI:003016".hex() + "5d0200075e03010310611100"


def address(number, second=0x54):
    return ":".join(f"{octet:02x}" for octet in bytes([0x52, second]) + number.to_bytes(4, "big"))


def uuid(number):
    return number.to_bytes(4, "big").hex() + "40" * 12


def command(token, key, members):
    return f'command 1000 {token} {{"key":"00000000-0000-4000-8000-{key:012}",{members}}}'


def hall(machines, status):
    """The operators olga and pow, the pool lab with olga, a live image, and the machines."""
    yield f"ada {DIGESTS['abc']}"
    files = "http://files.example/live/"
    for key, members in enumerate((
        f'"command":"add_operator","operator":"olga","role":"user","digest":"{DIGESTS["hello"]}"',
        f'"command":"add_operator","operator":"pow","role":"power","digest":"{DIGESTS["test"]}"',
        '"command":"add_pool","pool":"lab"',
        '"command":"grant","pool":"lab","operator":"olga"',
        f'"command":"add_image","image":"live64","arch":"uefi64","kernel":"{files}vmlinuz","initrd":"{files}initrd","args":[]',
        '"command":"set_live","image":"live64"',
    )):
        yield command("abc", 999_999_999_000 + key, members)
    holder = " olga live64" if status == "Deployed" else ""
    for first in range(1, machines + 1, 100):
        ids = range(first, min(first + 100, machines + 1))
        yield "apply " + "; ".join(
            f"machine {id} - 1 lab {status} - {uuid(id)}{holder}; interface {address(id)} {id}" for id in ids
        )
    yield f"apply numbers {machines} 0 0"
    if status == "Deployed":
        yield command("hello", 0, '"command":"lock","machine":1')


def discover(id):
    mac = address(id).replace(":", "")
    frame = "010106001122334400008000" + "00" * 16 + mac + "00" * 202 + "63825363" + OPTIONS + uuid(id) + "ff"
    return f"frame 1000 discover octets {frame}"


def desk_round(what, id, count):
    """The lines of a round, the first of which is number 0."""
    if what == "offer":
        return [discover(id)]
    if what == "script":
        return [f"script 1000 {address(id)} {TOKEN}"]
    if what == "repeat":
        return [command("hello", 0, '"command":"lock","machine":1')]
    if what == "list":
        return ["machines 1000 abc"]
    if what == "allocate":
        return [
            command("hello", 2 * count, f'"command":"allocate","machine":{id}'),
            command("hello", 2 * count + 1, f'"command":"release","machine":{id},"erase":"none"'),
            f"order 1000 test {count + 1} done",
        ]
    return [
        command("abc", count, f'"command":"commission","machine":{id},"tests":false'),
        f"script 1000 {address(id)} {TOKEN}",
        f"report 1000 {count + 1} failed {TOKEN}",
    ]


def store_round(what, id, count, machines):
    number = count // machines + 1
    if what == "change":
        put = f"machine {id} {number} {number + 1} lab Ready - {uuid(id)}"
        receipt = f"receipt ada {id:016x}{number + 1:016x}"
        return [f"call machine {id}", f"call apply {put}; {receipt}"]
    if what == "delete":
        new = machines + 1
        put = f"machine {new} - 1 lab Ready - {uuid(new)}; interface {address(new)} {new}"
        return [f"call apply {put}", f"call apply machine_gone {new}"]
    return ["call " + {
        "machine": f"machine {id}",
        "address": f"address {address(id)}",
        "unknown": f"unknown {address(id, 0x55)}",
        "uuid": f"uuid {uuid(id)}",
        "interfaces": f"interfaces {id}",
        "token": f"digest {DIGESTS['abc']}",
        "list": "list",
        "second": f"expired {count + 1}",
        "quiet": "expired 1",
    }[what]]


def main(over, what, machines, rounds):
    status = "Ready" if over == "store" or what == "allocate" else "New" if what == "report" else "Deployed"
    if what in ("repeat", "list", "token", "quiet"):
        rounds = 1
    elif what not in ("allocate", "report", "change", "delete", "second"):
        rounds = machines
    print("\n".join(hall(machines, status)))
    print("== rounds")
    for count in range(rounds):
        id = count % machines + 1
        lines = desk_round(what, id, count) if over == "desk" else store_round(what, id, count, machines)
        print("\n".join(lines))


if len(sys.argv) != 5:
    sys.exit(__doc__)
main(sys.argv[1], sys.argv[2], int(sys.argv[3]), int(sys.argv[4]))
