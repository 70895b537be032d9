"""hallview's metrics in a real Prometheus, with the alarms and the dashboard of monitoring/: for view_peer.py."""
import http.server
import json
import os
import re
import shutil
import socket
import subprocess
import threading
import time
import urllib.parse
import urllib.request

import view_metrics
from view_same import same_page
from view_served import LOOPBACK

MONITORING = os.path.join(os.path.dirname(os.path.abspath(__file__)), "..", "monitoring")
STEADY = ("hall_machines", "hall_moves_total", "hall_orders_waiting", "hall_desk_up")    # families that don't change while nothing moves
AT_FIRST = {"HallMachinesFailed", "HallOrdersWait"}                                      # alarms of the hall as it is


def free_port():
    with socket.socket() as s:
        s.bind((LOOPBACK, 0))
        return s.getsockname()[1]


def text_of(name):
    with open(f"{MONITORING}/{name}", encoding="utf-8") as file:
        return file.read()


def samples_of(text):
    """Name, labels and value of each sample of metrics, in either format. No label here has anything to be escaped."""
    found = []
    for line in text.splitlines():
        if not line.startswith("#"):
            name, labels, value = re.fullmatch(r"(\w+)\{(.*)\} (\S+)", line).groups()
            found.append((name, sorted(re.findall(r'(\w+)="([^"\\]*)"', labels)), float(value)))
    return sorted(found)


class PlainMetrics(http.server.BaseHTTPRequestHandler):
    """Asks for the metrics in the text format only: Prometheus itself asks for OpenMetrics where it may."""

    view = None

    def do_GET(self):
        answer = self.view.ask("/metrics", Accept="text/plain;version=0.0.4")
        self.send_response(answer.status)
        self.send_header("Content-Type", answer.fields["content-type"])
        self.send_header("Content-Length", str(len(answer.body)))
        self.end_headers()
        self.wfile.write(answer.body)

    def log_message(self, *_):
        pass


def plain_port(view):
    """The port at which the metrics are to be had in the text format."""
    server = http.server.ThreadingHTTPServer((LOOPBACK, 0), type("Metrics", (PlainMetrics,), {"view": view}))
    threading.Thread(target=server.serve_forever, daemon=True).start()
    return server.server_address[1]


class Prometheus:
    """Prometheus by the files of monitoring/, which looks every second and waits for no alarm longer than two. `with` ends it."""

    def __init__(self, name, port):
        self.port, self.folder = free_port(), f"prometheus-{name}"
        os.makedirs(self.folder)
        config = text_of("prometheus.yml").replace("127.0.0.1:8067", f"{LOOPBACK}:{port}")
        self.write("prometheus.yml", re.sub(r"(interval|timeout): \d+s", r"\1: 1s", config))
        self.write("hall.rules.yml", re.sub(r"for: \d+m", "for: 2s", text_of("hall.rules.yml")))

    def write(self, name, text):
        with open(f"{self.folder}/{name}", "w", encoding="utf-8") as file:
            file.write(text)

    def __enter__(self):
        with open(f"{self.folder}/log", "w", encoding="utf-8") as log:
            self.running = subprocess.Popen(["prometheus", "--config.file=prometheus.yml", "--storage.tsdb.path=data",
                                             f"--web.listen-address={LOOPBACK}:{self.port}"], cwd=self.folder, stdout=log, stderr=log)
        return self

    def __exit__(self, *_):
        self.running.kill()
        self.running.wait()

    def ask(self, path, **words):
        url = f"http://{LOOPBACK}:{self.port}/api/v1/{path}?{urllib.parse.urlencode(words)}"
        with urllib.request.urlopen(url, timeout=10) as answer:
            return json.load(answer)["data"]

    def firing(self):
        return {alert["labels"]["alertname"] for alert in self.ask("alerts")["alerts"] if alert["state"] == "firing"}

    def wait_for(self, wanted, seconds=60):
        """Waits until these alarms fire, and returns those that do."""
        end, found = time.monotonic() + seconds, set()
        while time.monotonic() < end and not wanted <= found:
            time.sleep(0.5)
            try:
                found = self.firing()
            except OSError:
                pass
        return found

    def samples(self):
        found = []
        for row in self.ask("query", query='{__name__=~"hall_.*"}')["result"]:
            labels = {name: text for name, text in row["metric"].items() if name not in ("__name__", "instance", "job")}
            found.append((row["metric"]["__name__"], sorted(labels.items()), float(row["value"][1])))
        return sorted(found)


def promtool(checks, *words, text=None):
    it = subprocess.run(["promtool", *words], input=text, capture_output=True, text=True, cwd=MONITORING, timeout=120)
    checks.wants(f"promtool {' '.join(words)}", it.returncode == 0, it.stdout + it.stderr)


def same_samples(checks, form, got, meant):
    """All samples arrive, those that don't change with the very values."""
    names = [[(name, labels) for name, labels, _ in each] for each in (got, meant)]
    checks.wants(f"{form}: all samples arrive", names[0] == names[1], (len(got), len(meant)))
    steady = [[one for one in each if one[0] in STEADY] for each in (got, meant)]
    checks.wants(f"{form}: each has its value", steady[0] == steady[1], [pair for pair in zip(*steady) if pair[0] != pair[1]][:3])


def dashboard(checks, prometheus, form):
    """Each expression of the dashboard shows something."""
    for panel in json.loads(text_of("grafana.json"))["panels"]:
        for target in panel["targets"]:
            expression = re.sub(r"\$(hall|pool)\b", ".*", target["expr"]).replace("$__rate_interval", "1m")
            try:
                rows = prometheus.ask("query", query=expression)["result"]
            except OSError as fault:
                rows = None
                checks.say(f"   {panel['title']}: {fault}")
            checks.wants(f"{form}: the dashboard's {panel['title']}", rows or (rows == [] and panel["title"] == "Moves an hour"), expression)


def scraped(checks, view, form, port):
    accept = {"openmetrics": "application/openmetrics-text", "text": "text/plain"}[form]
    kind = {"openmetrics": view_metrics.OPEN_TYPE, "text": view_metrics.METRICS_TYPE}[form]
    with Prometheus(form, port) as prometheus:
        found = prometheus.wait_for(AT_FIRST)
        checks.wants(f"{form}: alarms of machines and orders fire", AT_FIRST <= found and "HallDeskDown" not in found, found)
        target = prometheus.ask("targets")["activeTargets"][0]
        checks.wants(f"{form}: the target is up", target["health"] == "up", target["lastError"])
        answer = view.ask("/metrics", Accept=accept)
        checks.wants(f"{form}: the content's type", answer.fields["content-type"] == kind, answer.fields)
        same_samples(checks, form, prometheus.samples(), samples_of(answer.text()))
        dashboard(checks, prometheus, form)


def desk_stops(checks, hall, view):
    """An alarm fires when the desk is stopped, and ends when it serves again."""
    with Prometheus("stopped", view.port) as prometheus:
        prometheus.wait_for(AT_FIRST)
        hall.stop()
        began = time.monotonic()
        found = prometheus.wait_for({"HallDeskDown"})
        checks.wants("an alarm fires when the desk is stopped", "HallDeskDown" in found, found)
        checks.say(f"   the alarm of a stopped desk fires after {time.monotonic() - began:.0f} s, where rules wait for two")
        page = view.ask("/").text()
        checks.wants("the page says that the desk is down", "<td><strong>down</strong></td>" in page and "The desk takes no connection." in page)
        same_page(checks, view, "")
        hall.serve()
        checks.wants("the desk is up again", view.wait_for(lambda state: state["halls"][0]["up"], 60))
        end = time.monotonic() + 30
        while "HallDeskDown" in prometheus.firing() and time.monotonic() < end:
            time.sleep(0.5)
        checks.wants("the alarm ends", "HallDeskDown" not in prometheus.firing())


def trial(checks, hall, view):
    if not shutil.which("prometheus") or not shutil.which("promtool"):
        checks.skip("Prometheus (Debian's package prometheus)")
        return
    promtool(checks, "check", "metrics", text=view.ask("/metrics").text())
    promtool(checks, "check", "config", "prometheus.yml")
    promtool(checks, "check", "rules", "hall.rules.yml")
    promtool(checks, "test", "rules", "hall.tests.yml")
    for form, port in [("openmetrics", view.port), ("text", plain_port(view))]:
        scraped(checks, view, form, port)
    desk_stops(checks, hall, view)
