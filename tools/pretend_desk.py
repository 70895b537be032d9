"""A stand-in of the desk for power_cases.py: it has the orders that a case puts into it, and answers by `docs/REFERENCE.md`, or as a case wants."""
import json
import re
import threading
import time
from http.server import BaseHTTPRequestHandler, ThreadingHTTPServer

POWER, READER = "powers-secret-1", "readers-secret-1"


class Desk(ThreadingHTTPServer):
    """`waiting`: a machine and a kind for each number. `on_list` is called before a list is made; `on_answer` before an outcome counts, and may say
    "lost": it counts and isn't answered, "cut": neither, or a status of a refusal."""
    daemon_threads, request_queue_size = True, 256

    def __init__(self, notice):
        super().__init__(("127.0.0.1", 0), Answering)
        self.waiting, self.interfaces, self.answered, self.notice = {}, {}, [], notice
        self.on_list = self.on_answer = lambda *_: None
        self.url = f"http://127.0.0.1:{self.server_address[1]}"
        threading.Thread(target=self.serve_forever, kwargs={"poll_interval": 0.05}, daemon=True).start()

    def handle_error(self, request, client_address):
        pass


class Answering(BaseHTTPRequestHandler):
    def answer(self, status, body):
        text = body if isinstance(body, bytes) else json.dumps(body).encode()
        self.send_response(status)
        self.send_header("Content-Length", str(len(text)))
        self.end_headers()
        self.wfile.write(text)

    def is_of(self, token):
        if self.headers.get("Authorization") == "Bearer " + token:
            return True
        self.answer(401, {"refusal": "UnknownToken"})
        return False

    def do_GET(self):
        desk = self.server
        if machine := re.fullmatch(r"/machines/(\d+)", self.path):
            if self.is_of(READER):
                self.answer(200, {"id": int(machine[1]), "interfaces": desk.interfaces.get(int(machine[1]), [])})
        elif self.path == "/machines":
            if self.is_of(READER):
                self.answer(200, {"machines": [{"id": number, "interfaces": found} for number, found in desk.interfaces.items()]})
        elif self.is_of(POWER):
            desk.notice("asked", time.monotonic())
            instead = desk.on_list()
            orders = [{"kind": kind, "machine": machine, "number": number} for number, (machine, kind) in sorted(desk.waiting.items())]
            self.answer(*(instead or (200, {"orders": orders})))

    def do_POST(self):
        desk, outcome = self.server, json.loads(self.rfile.read(int(self.headers["Content-Length"])))["outcome"]
        number = int(self.path.removeprefix("/orders/"))
        if not self.is_of(POWER):
            return
        instead = desk.on_answer(number, outcome)
        if instead == "cut":
            self.close_connection = True
            return
        if isinstance(instead, int):
            self.answer(instead, {"refusal": "Unavailable"})
            return
        order = desk.waiting.pop(number, None)
        desk.notice("answered", (number, outcome, order))
        if order:
            desk.answered.append((number, outcome, order))
        if instead == "lost":
            self.close_connection = True
        else:
            self.answer(*((200, {"result": "counted"}) if order else (404, {"refusal": "NoOrder"})))

    def log_message(self, *_):
        pass
