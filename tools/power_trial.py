"""power/hall_power.py against a hall, and against stand-ins of the desk and of controllers: power_trial.py HALLBOOT HALL_POWER. Run by
power_trial.sh, which says what is looked at. The hall, and the cases of power_cases.py, are looked at side by side."""
import hashlib, json, os, re, socket, ssl, subprocess, sys, threading, time
import power_cases
from power_case import certificate, ipmitool
from pretend_controllers import NEVER, ON, UNTIL_OFF, Controller, Redfish
from pretend_desk import POWER, READER
from served_hall import Hall, address, digest

# Each machine of the trial, once for each driver: what its controller has at first, what it is ordered (commission is a `cycle`, release an
# `off`), what its controller is told in the end, what is answered, and how it is then.
EACH = [
    ("0", "commission", ["bootdev", "on"], "done", "on"),
    (ON, "commission", ["bootdev", "off", "on"], "done", "on"),
    (ON, "release", ["off"], "done", "off"),
    ("0", "release", [], "done", "off"),
    (NEVER, "commission", ["bootdev", "off"], "failed", "on"),
    (ON, "aborted in the midst", ["bootdev", "off"], None, "off"),
    (ON, "aborted before, which orders an off", ["off"], "done", "off"),
]
CASES = [(number, driver, *case) for number, (driver, case) in enumerate(((driver, case) for driver in ("ipmi", "redfish") for case in EACH), 1)]
CASES += [(15, "redfish", ON, "commission, by another certificate than its fingerprint's", [], "failed", "on"),
          (16, None, "0", "commission, without a controller", [], "failed", "off")]
BY_ADDRESS = 9      # the machine that the table names by its address, in capitals with hyphens


def controller(number):
    return Controller("controllers", f"bmc{number}")


# ---- The trial
class Proxy(threading.Thread):
    """Listens, and keeps what comes."""

    def __init__(self):
        super().__init__(daemon=True)
        self.listener, self.came = socket.create_server(("127.0.0.1", 0)), []
        self.url = f"http://127.0.0.1:{self.listener.getsockname()[1]}"

    def run(self):
        while True:
            with self.listener.accept()[0] as s:
                s.settimeout(1)
                try:
                    self.came.append(s.recv(65536))
                    s.sendall(b"HTTP/1.1 502 Bad Gateway\r\nContent-Length: 0\r\n\r\n")
                except OSError:
                    pass


def made(hall):
    """The hall's machines as the cases want them, and their orders."""
    hall.command(command="add_operator", operator="pow", role="power", digest=digest(POWER))
    hall.command(command="add_operator", operator="reader", role="user", digest=digest(READER))
    hall.command(command="add_image", image="live64", arch="uefi64", kernel="http://files.example/k", initrd="http://files.example/i", args=[])
    hall.command(command="set_live", image="live64")
    hall.command(command="grant", pool="default", operator="ada")
    for number, _, _, what, *_ in CASES:
        hall.command(command="add_machine", mac=address(number), arch="uefi64", pool="default")
        hall.command(command="commission", machine=number, tests=False)
        if what == "release":
            script = hall.ask(f"/ipxe/{address(number)}")[1].decode()
            boot, token = re.search(r"hall\.boot=(\d+) hall\.token=(\w+)", script).groups()
            for stage in ["started", "done"]:
                hall.ask(f"/report/{boot}/{token}", body=json.dumps({"stage": stage}))
            hall.command(command="allocate", machine=number)
            hall.command(command="release", machine=number, erase="none")
        elif what.startswith("aborted before"):
            hall.command(command="abort", machine=number)


def orders(hall):
    """The orders that wait, by their machines."""
    return {order["machine"]: order["number"] for order in json.loads(hall.ask("/orders", POWER)[1])["orders"]}


def answered(hall, number):
    """The outcome that the desk took for an order, and when; None if none was sent."""
    with open(hall.log) as log:
        found = [re.match(rf"(\d+) .* POST /orders/{number} (done|failed) .*: 200", line) for line in log]
    return next(((one[2], int(one[1])) for one in found if one), (None, None))


def write(path, text):
    with open(path, "w") as file:
        file.write(text)


class Trial:
    def __init__(self, hall, power, proxy):
        self.hall, self.power, self.results = hall, power, []
        proxies = {name: proxy.url for name in ["http_proxy", "https_proxy", "all_proxy", "HTTP_PROXY", "ALL_PROXY"]}
        self.surroundings = {"PATH": f"{os.getcwd()}:{os.environ['PATH']}", "PYTHONDONTWRITEBYTECODE": "1", **proxies}
        self.redfish = Redfish("controllers", "bmc.pem", "bmc.key", "desk:redfish's secret")
        self.told()

    def told(self):
        """Its settings, its secrets and its table."""
        write("token", POWER + "\n")
        write("reader", READER + "\n")
        write("ipmi.password", "ipmi's secret\n")
        write("redfish.password", "redfish's secret\n")
        self.settings(f"http://127.0.0.1:{self.hall.http}/")
        with open("bmc.pem") as file:
            fingerprint = hashlib.sha256(ssl.PEM_cert_to_DER_cert(file.read())).hexdigest().upper()
        lines = ["# the machines of the trial", ""]
        for number, driver, *_ in CASES:
            machine = address(number).upper().replace(":", "-") if number == BY_ADDRESS else number
            if driver == "ipmi":
                lines.append(f"{machine} ipmi bmc{number}")
            elif driver == "redfish":
                print_of = "00" * 32 if number == 15 else fingerprint
                lines.append(f"{machine}  redfish  127.0.0.1:{self.redfish.server_address[1]}  system=bmc{number} fingerprint={print_of}   # by Redfish")
        write("table", "\n".join(lines) + "\n")

    def settings(self, desk):
        write("hall-power.toml", f'desk = "{desk}"\ntoken = "token"\nreader = "reader"\ntable = "table"\n'
              '[controllers.ipmi]\ndriver = "ipmitool"\nuser = "desk"\npassword = "ipmi.password"\n'
              '[controllers.redfish]\ndriver = "redfish"\nuser = "desk"\npassword = "redfish.password"\n')

    def begun(self, *words):
        with open("power.err", "a") as log:
            return subprocess.Popen([sys.executable, self.power, "--config", "hall-power.toml", *words], stderr=log, env=self.surroundings)

    def said(self):
        with open("power.err", errors="replace") as log:
            return log.read()

    def ended(self, *words):
        """Its status and what it says, where it ends by itself."""
        it = subprocess.run([sys.executable, self.power, "--config", "hall-power.toml", *words], stderr=subprocess.PIPE, text=True,
                            env=self.surroundings, timeout=120)
        return it.returncode, it.stderr

    def wants(self, what, is_so, seen=""):
        self.results.append((what, bool(is_so), seen))

    def refusals(self):
        """What it doesn't begin with."""
        os.chmod("token", 0o604)
        status, said = self.ended("--once")
        self.wants("a token that others may read ends it", status == 2 and "others may read it" in said, said)
        os.chmod("token", 0o600)
        self.settings(f"http://127.0.0.1:{self.hall.http}/desk")
        status, said = self.ended("--once")
        self.wants("a path behind the desk's name ends it", status == 2 and "http://HOST" in said, said)
        self.settings(f"http://127.0.0.1:{self.hall.http}/")
        with open("table") as file:
            table = file.read()
        write("table", table + "1 ipmi other\n")
        status, said = self.ended("--once")
        self.wants("a machine that stands twice in the table ends it", status == 2 and "twice" in said, said)
        write("table", table)

    def looks(self, waiting):
        """What changes nothing."""
        status, said = self.ended("--check")
        self.wants("--check says which controllers are on and off, and which isn't its own", status == 1 and "machine 1, bmc1: off" in said
                   and "machine 2, bmc2: on" in said and said.count("another certificate") == 1, said)
        status, said = self.ended("--dry-run")
        self.wants("--dry-run says what each order would do", status == 0 and said.count("next boot by network, off, on") == 6
                   and "would fail: the table has no such machine" in said, said)
        self.wants("and does nothing", orders(self.hall) == waiting and not any(controller(number).told() for number, *_ in CASES))

    def carried_out(self, waiting, running):
        """What becomes of the orders."""
        end = time.monotonic() + 150
        to_abort = [number for number, _, _, what, *_ in CASES if what == "aborted in the midst"]
        while time.monotonic() < end and to_abort:
            for number in [number for number in to_abort if "off" in [what for _, what in controller(number).told()]]:
                self.hall.command(command="abort", machine=number)
                to_abort.remove(number)
            time.sleep(0.03)
        while time.monotonic() < end and orders(self.hall) and running.poll() is None:
            time.sleep(0.3)
        time.sleep(UNTIL_OFF + 1)    # for what shouldn't come any more
        self.wants("no machine has an order still", not orders(self.hall), orders(self.hall))
        for number, driver, _, what, acts, outcome, state in CASES:
            came, (taken, moment) = controller(number).told(), answered(self.hall, waiting[number])
            seen = [one for _, one in came], taken, "off" if controller(number).is_off() else "on"
            if outcome == "failed" and acts and seen[0] == acts * (len(came) // len(acts)):
                seen = seen[0][-len(acts):] if len(came) > len(acts) else "one try", *seen[1:]    # each try is alike, and there is more than one
            what = f"machine {number}, {driver or 'in no table'}, {what}: {', '.join(acts) or 'no act'}; {outcome or 'no outcome'}; {state}"
            self.wants(what, seen == (acts, outcome, state), seen)
            if acts[-1:] == ["off"] and taken == "done":
                self.wants(f"machine {number}: done isn't answered before the controller says that it is off", moment + 1 >= came[-1][0] + UNTIL_OFF)

    def run(self):
        waiting = orders(self.hall)
        self.refusals()
        self.looks(waiting)
        running = self.begun("--every", "0.5", "--try-for", "10", "--off-within", "10")
        try:
            self.carried_out(waiting, running)
        finally:
            running.kill()
            running.wait()
        status, said = self.ended("--once")
        self.wants("--once ends where no order waits", status == 0, said)
        self.wants("no password goes to a controller that isn't its own", self.redfish.strangers == [], self.redfish.strangers)
        self.wants("no secret is in the log", not any(secret in self.said() for secret in (POWER, READER, "'s secret")))


def play_hall(hallboot, power, results):
    proxy = Proxy()
    proxy.start()
    os.makedirs("controllers")
    ipmitool(os.getcwd())
    for number, _, off_at, *_ in CASES:
        controller(number).set(off_at)
    with Hall(hallboot, "power") as hall:
        hall.serve()
        made(hall)
        trial = Trial(hall, power, proxy)
        try:
            trial.run()
        except Exception as fault:
            trial.wants("the hall's part itself", False, repr(fault))
        trial.wants("a proxy of the environment gets nothing", not proxy.came, proxy.came[:1])
        results += [("hall: " + what, is_so, seen if is_so else f"{seen}\n{trial.said()[-3000:]}") for what, is_so, seen in trial.results]


def main(hallboot, power):
    certificate()
    results, cases = [], power_cases.Trial(power)
    others = threading.Thread(target=lambda: results.extend(cases.run()), daemon=True)
    others.start()
    try:
        play_hall(hallboot, os.path.abspath(power), results)
        others.join()
    finally:
        cases.stop()
    failed = [(what, seen) for what, is_so, seen in results if not is_so]
    for what, seen in failed:
        print("BAD:", what, seen, file=sys.stderr)
    print(f"power_trial: {len(results)} checks, {len(failed)} failed (a hall with both drivers, {len(power_cases.CASES)} cases of faults)")
    sys.exit(1 if failed else 0)


if __name__ == "__main__":
    main(*sys.argv[1:])
