"""Stand-ins of power controllers, for power_trial.py. A controller is a file of a folder, with the moment from which its machine is off.

pretend_controllers.py ipmitool FOLDER WORD..    what `ipmitool` does, as an executable `ipmitool` calls it
Redfish(FOLDER, CERTIFICATE, KEY, USER)          a server of DSP0266 over https, with a system for each controller"""
import base64
import json
import os
import re
import ssl
import sys
import threading
import time
from http.server import BaseHTTPRequestHandler, ThreadingHTTPServer

UNTIL_OFF = 3.0    # seconds that a machine takes to be off
ON, NEVER = "1e18", "never"    # of a machine that is on, and of one that can't be switched off


class Refused(Exception):
    """What is asked isn't possible in the machine's state."""


class Controller:
    def __init__(self, folder, name):
        self.file = os.path.join(folder, name)

    def set(self, off_at):
        with open(self.file + ".new", "w") as new:
            new.write(off_at)
        os.rename(self.file + ".new", self.file)

    def is_off(self):
        with open(self.file) as file:
            off_at = file.read().strip()
        return off_at != NEVER and time.time() >= float(off_at)

    def told(self):
        """What it was told, with the moments."""
        try:
            with open(self.file + ".told") as lines:
                return [(float(moment), word) for moment, word in map(str.split, lines)]
        except FileNotFoundError:
            return []

    def tell(self, word):
        """`bootdev`, `off` or `on`. Many controllers refuse `off` of what is off, and `on` of what is on."""
        with open(self.file + ".told", "a") as told:
            print(time.time(), word, file=told)
        if word == "off":
            if self.is_off():
                raise Refused
            with open(self.file) as file:
                is_on = file.read().strip() == ON
            if is_on:
                self.set(str(time.time() + UNTIL_OFF))
        elif word == "on":
            if not self.is_off():
                raise Refused
            self.set(ON)

    def says(self, *lines):
        """What ipmitool says on standard error from now on, a line a call, in place of doing something."""
        with open(self.file + ".says", "w") as file:
            file.writelines(line + "\n" for line in lines)

    def next_said(self):
        try:
            with open(self.file + ".says") as file:
                lines = file.read().splitlines()
        except FileNotFoundError:
            return None
        if lines:
            self.says(*lines[1:])
        return lines[0] if lines else None


def ipmitool(folder, *words):
    controller = Controller(folder, words[words.index("-H") + 1])
    is_once = "-R 1 " in " ".join(words)
    words = " ".join(words[words.index("chassis") + 1:])
    acts = {"bootdev pxe options=efiboot": ("bootdev", "Set Boot Device to pxe"),
            "power off": ("off", "Chassis Power Control: Down/Off"), "power on": ("on", "Chassis Power Control: Up/On")}
    if said := controller.next_said():
        sys.exit(said)
    if words == "power status":
        print("Chassis Power is", "off" if controller.is_off() else "on")
    elif words in acts and is_once:
        try:
            controller.tell(acts[words][0])
        except Refused:
            sys.exit(f"Set {words} failed: Command not supported in present state")
        print(acts[words][1])
    else:
        sys.exit(f"Invalid command, or one that would be sent again: {words}")


class Redfish(ThreadingHTTPServer):
    """`notice` is called with what happens, in its order: connected, get, told. `on_get`, `on_told` and `on_connect` may wait, change things, or give a
    status and octets that are answered in place of what is so; "lost" is told and not answered. `users` are those of single systems."""
    daemon_threads, request_queue_size = True, 256

    def __init__(self, folder, certificate, key, user, notice=lambda *_: None):
        super().__init__(("127.0.0.1", 0), Answering)
        self.folder, self.user, self.users, self.strangers, self.notice = folder, user, {}, [], notice
        self.on_get = self.on_told = self.on_connect = lambda *_: None
        self.place = f"127.0.0.1:{self.server_address[1]}"
        context = ssl.SSLContext(ssl.PROTOCOL_TLS_SERVER)
        context.load_cert_chain(certificate, key)
        self.context = context
        threading.Thread(target=self.serve_forever, kwargs={"poll_interval": 0.05}, daemon=True).start()

    def finish_request(self, request, client_address):
        """In the thread of the connection."""
        self.on_connect()
        self.notice("connected", client_address)
        request.settimeout(30)
        with self.context.wrap_socket(request, server_side=True) as request:
            super().finish_request(request, client_address)

    def handle_error(self, request, client_address):
        pass


class Answering(BaseHTTPRequestHandler):
    def answer(self, status, body=None):
        text = body if isinstance(body, bytes) else json.dumps(body).encode() if body is not None else b""
        self.send_response(status)
        self.send_header("Content-Length", str(len(text)))
        if status == 200:
            self.send_header("ETag", '"its-tag"')
        self.end_headers()
        self.wfile.write(text)

    def system(self):
        """The controller that the path names, once the user is known."""
        came = self.headers.get("Authorization", "")
        found = re.match("/redfish/v1/Systems/([A-Za-z0-9]+)", self.path)
        user = self.server.users.get(found and found[1], self.server.user)
        if came != "Basic " + base64.b64encode(user.encode()).decode():
            self.server.strangers.append(came)
            self.answer(401)
            return None
        if not found or not os.path.exists(os.path.join(self.server.folder, found[1])):
            self.answer(404)
            return None
        return Controller(self.server.folder, found[1])

    def do_GET(self):
        name = self.path.rpartition("/")[2]
        self.server.notice("get", name)
        instead = self.server.on_get(name)
        if instead:
            self.answer(*instead)
            return
        controller = self.system()
        if controller:
            self.answer(200, {"PowerState": "Off" if controller.is_off() else "On",
                              "Actions": {"#ComputerSystem.Reset": {"target": f"{self.path}/Actions/ComputerSystem.Reset"}}})

    def tells(self, controller, word):
        name = os.path.basename(controller.file)
        self.server.notice("told", (name, word))
        instead = self.server.on_told(name, word)
        if instead and instead != "lost":
            self.answer(*instead)
            return
        try:
            controller.tell(word)
            if instead == "lost":
                self.close_connection = True
            else:
                self.answer(204)
        except Refused:
            self.answer(409, {"error": {"message": "not in this state"}})

    def do_PATCH(self):
        controller, body = self.system(), json.loads(self.rfile.read(int(self.headers["Content-Length"])))
        if controller and self.headers.get("If-Match") != '"its-tag"':
            self.answer(412)
        elif controller and body == {"Boot": {"BootSourceOverrideTarget": "Pxe", "BootSourceOverrideEnabled": "Once"}}:
            self.tells(controller, "bootdev")
        elif controller:
            self.answer(400)

    def do_POST(self):
        controller, body = self.system(), json.loads(self.rfile.read(int(self.headers["Content-Length"])))
        word = {"ForceOff": "off", "On": "on"}.get(body.get("ResetType"))
        if controller and (word is None or not self.path.endswith("/Actions/ComputerSystem.Reset")):
            self.answer(400)
        elif controller:
            self.tells(controller, word)

    def log_message(self, *_):
        pass


if __name__ == "__main__":
    if sys.argv[1] != "ipmitool":
        sys.exit(__doc__)
    ipmitool(*sys.argv[2:])
