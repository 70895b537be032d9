#!/usr/bin/env python3
"""Reads a DHCP message in hexadecimal and says in words what it is (RFC 2131 section 2, RFC 2132, RFC 4578, PXE 2.1).
Usage: frame_words.py TITLE < HEXADECIMAL"""
import sys
import textwrap

NAMES = {
    43: "vendor's own", 52: "overload", 53: "message type", 54: "server identifier", 55: "parameters asked for", 60: "class of client",
    77: "user class", 93: "architecture", 94: "network interface", 97: "machine's UUID",
}
TYPES = {1: "DISCOVER", 2: "OFFER", 3: "REQUEST", 5: "ACK"}
ARCHITECTURES = {0: "BIOS", 6: "UEFI, 32 bits", 7: "UEFI, 64 bits", 9: "UEFI, 64 bits", 11: "UEFI, ARM of 64 bits"}


def ip(octets):
    return ".".join(map(str, octets))


def words_of(code, value):
    if code == 53:
        return TYPES.get(value[0], str(value[0]))
    if code == 54:
        return ip(value)
    if code == 60:
        return value.decode("ascii", "replace")
    if code == 93:
        number = int.from_bytes(value[:2], "big")
        return f"{number}: {ARCHITECTURES.get(number, 'unknown')}"
    if code == 97:
        text = value[1:].hex()
        return "-".join((text[:8], text[8:12], text[12:16], text[16:20], text[20:])) + ", in wire order"
    if code == 43 and value[:3] == b"\6\1\10":
        return "6 is 8: boot the file that is named, ask no other server"
    return value.hex(" ")


def main(title):
    message = bytes.fromhex(sys.stdin.read().strip())
    print(f"{title}, {len(message)} octets:")
    mac = message[28:34].hex(":")
    rows = [("transaction", message[4:8].hex()), ("card", mac)]
    if any(message[20:24]):
        rows.append(("next server (TFTP)", ip(message[20:24])))
    file = message[108:236].rstrip(b"\0")
    if file:
        rows.append(("boot file", file.decode("ascii", "replace")))
    at = 240
    while at < len(message) and message[at] != 255:
        if message[at] == 0:
            at += 1
            continue
        code, size = message[at], message[at + 1]
        rows.append((f"option {code}, {NAMES.get(code, '')}", words_of(code, message[at + 2:at + 2 + size])))
        at += 2 + size
    for name, words in rows:
        print(f"    {name:32} {words}")
    text = message.hex().rstrip("0")
    text += "0" * (len(text) % 2)
    zeros = len(message) - len(text) // 2
    print(textwrap.indent("\n".join(textwrap.wrap(text, 96)), "    ") + (f"    and {zeros} zeros" if zeros else ""))


if __name__ == "__main__":
    main(sys.argv[1])
