"""Desks that are none, or like one: for view_peer.py. Each notes when it was asked, and by which token."""
import json
import re
import socket
import threading
import time

from view_served import LOOPBACK

TAG = "<script>alert(7)</script>"


def machine(number, pool="default", status="New"):
    return {"arch": "uefi64", "boot": None, "deadline": None, "erase": None, "id": number, "image": None,
            "interfaces": [f"52:54:{number >> 24 & 255:02x}:{number >> 16 & 255:02x}:{number >> 8 & 255:02x}:{number & 255:02x}"],
            "locked": False, "order": None, "owner": None, "pool": pool, "status": status, "uuid": None, "version": 1}


def listed(machines):
    """A list's octets, as a desk writes them."""
    return json.dumps({"machines": machines}, separators=(",", ":"), sort_keys=True).encode()


def response(body, status="200 OK", *fields):
    head = [f"HTTP/1.1 {status}", "Content-Type: application/json", f"Content-Length: {len(body)}", "Connection: close", *fields]
    return "\r\n".join(head).encode() + b"\r\n\r\n" + body


GOOD = response(listed([machine(number, status="Ready") for number in range(1, 21)]))


def tags(client):
    client.sendall(response(listed([machine(1, pool=TAG), machine(2, status=TAG)]), f"200 {TAG}", f"Server: {TAG}"))


def tags_in_refusal(client):
    client.sendall(response(json.dumps({"refusal": TAG, "error": TAG}).encode(), f"403 {TAG}"))


def cut(client):
    client.sendall(GOOD[:-40])


def cut_in_head(client):
    client.sendall(GOOD[:30])


def endless(client):
    client.sendall(b"HTTP/1.1 200 OK\r\nContent-Type: application/json\r\nContent-Length: 99999999999\r\n\r\n{\"machines\":[")
    piece = (json.dumps(machine(1), separators=(",", ":"), sort_keys=True) + ",").encode() * 300
    while True:
        client.sendall(piece)


def endless_head(client):
    client.sendall(b"HTTP/1.1 200 OK\r\n")
    while True:
        client.sendall(b"X-More: " + b"a" * 1000 + b"\r\n")


def drip(client):
    for octet in GOOD:
        client.sendall(bytes([octet]))
        time.sleep(1)


def mute(_client):
    time.sleep(30)


def other_json(client):
    client.sendall(response(b'{"machines":{"error":"not found"}}'))


def deep_json(client):
    client.sendall(response(b'{"machines":' + b"[" * 200_000 + b"]" * 200_000 + b"}"))


def garbage(client):
    client.sendall(b"SSH-2.0-OpenSSH_9.2\r\n" + bytes(range(256)) * 40)


def unsorted_members(client):
    client.sendall(response(json.dumps({"machines": [machine(1)]}).encode()))


def refusal(client):
    client.sendall(response(b'{"refusal":"UnknownToken"}', "401 Unauthorized"))


def error(client):
    client.sendall(response(b"<html>502</html>", "502 Bad Gateway"))


def more_than_long(client):
    client.sendall(GOOD.replace(b"Content-Length: ", b"Content-Length: -"))


HOSTILE = {one.__name__.replace("_", "-"): one for one in
           [tags, tags_in_refusal, cut, cut_in_head, endless, endless_head, drip, mute, other_json, deep_json, garbage, unsorted_members, refusal,
            error, more_than_long]}


class Desk:
    """A server at a port of its own. The first `begins` requests it answers like a desk, the others as `way` does; `octets` are the good answer."""

    def __init__(self, way=None, begins=1, octets=GOOD):
        self.way, self.begins, self.octets = way, begins, octets
        self.tokens, self.moments = set(), []
        self.listener = socket.create_server((LOOPBACK, 0), backlog=512)
        self.url = f"http://{LOOPBACK}:{self.listener.getsockname()[1]}"
        threading.Thread(target=self.serve, daemon=True).start()

    def serve(self):
        while True:
            try:
                client, _ = self.listener.accept()
            except OSError:
                return
            threading.Thread(target=self.answer, args=(client,), daemon=True).start()

    def answer(self, client):
        with client:
            try:
                head = self.head(client)
                if head:
                    is_first = len(self.moments) < self.begins
                    self.moments.append(time.monotonic())
                    self.tokens.update(re.findall(rb"(?i)authorization: *([^\r]*)", head))
                    if self.way is None or is_first:
                        client.sendall(self.octets)
                    else:
                        self.way(client)
            except OSError:
                pass

    @staticmethod
    def head(client):
        octets = b""
        while b"\r\n\r\n" not in octets and (piece := client.recv(4096)):
            octets += piece
        return octets

    def redirect(self, other):
        """Sends each client on to another desk."""
        self.way = lambda client: client.sendall(response(b"", "302 Found", f"Location: {other.url}/machines"))

    def close(self):
        """Nobody listens there any more."""
        self.listener.shutdown(socket.SHUT_RDWR)
        self.listener.close()
