#!/usr/bin/env python3
"""Answers like no desk, or like a desk at the end of a bad way, on a port for each way. Usage: strange_desk.py     Prints a line `WAY PORT` for each way,
and `asked WAY` for each request: error and refusal: every request has status 200 and an object that no desk answers; gateway: the first two tries of a
command have 502 and 504, then it is done; mute: nothing is answered, for ten minutes; slow: the list of machines, 740 kB at 40 kB a second; refused: nobody
listens; many: any machine is listed and deleted."""
import itertools, json, re, socket, threading, time


def machine(number):
    return {"arch": "uefi64", "boot": None, "deadline": None, "erase": None, "id": number, "image": None,
            "interfaces": ["52:54:00:%02x:%02x:%02x" % (number >> 16, number >> 8 & 255, number & 255)], "locked": False, "order": None, "owner": None,
            "pool": "default", "status": "New", "uuid": None, "version": 1}


def text(value):
    return json.dumps(value, separators=(",", ":"), sort_keys=True)


LIST = text({"machines": [machine(number) for number in range(1, 3465)]})
tries = itertools.count()


def response(status, body):
    return f"HTTP/1.1 {status} Whatever\r\nContent-Type: application/json\r\nContent-Length: {len(body)}\r\nConnection: close\r\n\r\n{body}".encode()


def many(request):
    number = int(re.search(rb'(?:/machines/|"machine":)(\d+)', request).group(1))
    return response(200, text(machine(number)) if request.startswith(b"GET") else text({"id": number}))


def gateway(request):
    return [response(502, "<html></html>"), response(504, "<html></html>"), response(200, "{}")][min(next(tries), 2)]


ANSWERS = {"error": lambda request: response(200, '{"error":"not found"}'), "refusal": lambda request: response(200, '{"refusal":"RoleNeeded"}'),
           "gateway": gateway, "many": many}


def read_request(client):
    octets = b""
    while b"\r\n\r\n" not in octets:
        piece = client.recv(4096)
        if not piece:
            return octets
        octets += piece
    head, body = octets.split(b"\r\n\r\n", 1)
    size = re.search(rb"content-length: *(\d+)", head.lower())
    while size and len(body) < int(size.group(1)):
        piece = client.recv(4096)
        if not piece:
            break
        body += piece
    return head + b"\r\n\r\n" + body


def answered(client, way):
    with client:
        request = read_request(client)
        print(f"asked {way}\n", end="", flush=True)
        if way == "mute":
            time.sleep(600)
        elif way == "slow":
            octets = response(200, LIST)
            for at in range(0, len(octets), 8000):
                client.sendall(octets[at : at + 8000])
                time.sleep(0.2)
        else:
            client.sendall(ANSWERS[way](request))


def serve(way, listener):
    while True:
        client, _ = listener.accept()
        threading.Thread(target=lambda client=client: quietly(client, way), daemon=True).start()


def quietly(client, way):
    try:
        answered(client, way)
    except OSError:
        pass


for way in [*ANSWERS, "mute", "slow"]:
    listener = socket.create_server(("127.0.0.1", 0), backlog=512)
    print(way, listener.getsockname()[1], flush=True)
    threading.Thread(target=serve, args=(way, listener), daemon=True).start()
free = socket.socket()
free.bind(("127.0.0.1", 0))
print("refused", free.getsockname()[1], flush=True)
print("list", len(LIST), flush=True)
while True:
    time.sleep(60)
