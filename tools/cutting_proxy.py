#!/usr/bin/env python3
"""Passes connections on to the desk, and spoils half of them: it refuses them, closes them after the desk has answered, or cuts the
answer. Usage: cutting_proxy.py DESK-PORT SEED      Prints its own port, and at SIGTERM how many connections it spoiled in each way."""
import collections, random, signal, socket, sys, threading

desk, chance = int(sys.argv[1]), random.Random(int(sys.argv[2]))
count, lock = collections.Counter(), threading.Lock()


def read_request(client):
    """The octets of a request: its head, and as many after it as Content-Length says."""
    octets = b""
    while b"\r\n\r\n" not in octets:
        piece = client.recv(4096)
        if not piece:
            return octets
        octets += piece
    head, body = octets.split(b"\r\n\r\n", 1)
    fields = dict(line.lower().split(b":", 1) for line in head.split(b"\r\n")[1:])
    left = int(fields.get(b"content-length", b"0")) - len(body)
    while left > 0:
        piece = client.recv(left)
        if not piece:
            break
        octets, left = octets + piece, left - len(piece)
    return octets


def answer_to(request):
    with socket.create_connection(("127.0.0.1", desk), timeout=120) as server:
        server.sendall(request)
        octets = b""
        while piece := server.recv(65536):
            octets += piece
        return octets


def passed(client, way, cut):
    with client:
        if way == "refused":
            return
        request = read_request(client)
        if way == "half":                       # the desk gets a part of the request alone
            request = request[: int(len(request) * cut)]
        answer = answer_to(request)
        if way == "whole":
            client.sendall(answer)
        elif way == "cut":
            client.sendall(answer[: int(len(answer) * cut)])


def spoiling(client):
    with lock:
        way = chance.choice(["whole", "whole", "whole", "whole", "refused", "lost", "cut", "half"])
        cut = chance.random()
        count[way] += 1
    try:
        passed(client, way, cut)
    except OSError:
        pass


def ended(*_):
    print(" ".join(f"{way} {count[way]}" for way in sorted(count)), flush=True)
    sys.exit(0)


listener = socket.create_server(("127.0.0.1", 0))
print(listener.getsockname()[1], flush=True)
signal.signal(signal.SIGTERM, ended)
while True:
    client, _ = listener.accept()
    threading.Thread(target=spoiling, args=(client,), daemon=True).start()
