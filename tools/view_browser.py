"""hallview's pages in a real browser, and in w3m: for view_peer.py."""
import os
import re
import shutil
import subprocess

from chrome import Chrome
from view_hall import NAME

SIZES = [("wide", 1280, 900, False, "light"), ("narrow", 390, 844, True, "light"), ("dark", 1280, 900, False, "dark"),
         ("narrow-dark", 390, 844, True, "dark")]
RENEWAL = 2       # seconds from one renewal of a page to the next
SLACK = 1         # seconds that a busy host may add
GONE = "219"      # a machine whose row is above what is seen of the table

# What a reader by ear, by keyboard or with weak sight needs: the faults, and the least contrast (WCAG 2.2, 1.4.3)
NEEDS = r"""(() => {
  const faults = [], all = query => [...document.querySelectorAll(query)], begin = one => one.outerHTML.slice(0, 80);
  for (const one of all("input:not([type=hidden]), select")) if (!one.labels.length || !one.labels[0].textContent.trim()) faults.push("no label: " + begin(one));
  for (const one of all("a, button, summary")) if (!one.textContent.trim()) faults.push("no text: " + begin(one));
  for (const one of all("th")) if (!/^(col|row)$/.test(one.getAttribute("scope"))) faults.push("no scope: " + begin(one));
  for (const one of all("[tabindex]")) if (!one.getAttribute("aria-label") || !one.getAttribute("role")) faults.push("no name: " + begin(one));
  for (const one of all("svg")) if (one.getAttribute("aria-hidden") !== "true" && !one.getAttribute("aria-label")) faults.push("no name: " + begin(one));
  for (const table of all("table")) for (const row of table.rows)
    if (row.cells.length !== table.rows[0].cells.length) faults.push("a row of another length: " + begin(row));
  if (all("h1").length !== 1 || !document.title || document.documentElement.lang !== "en") faults.push("no one heading, title or language");
  const ids = all("[id]").map(one => one.id);
  if (new Set(ids).size !== ids.length) faults.push("an id twice");
  let last = 0;
  for (const one of all("h1, h2, h3")) { const level = Number(one.nodeName[1]); if (level > last + 1) faults.push("a heading that skips: " + one.textContent); last = level; }
  const part = value => (value /= 255) <= .03928 ? value / 12.92 : ((value + .055) / 1.055) ** 2.4;
  const light = ([r, g, b]) => .2126 * part(r) + .7152 * part(g) + .0722 * part(b);
  const numbers = text => text.match(/[0-9.]+/g).map(Number);
  const back = one => { while (one && numbers(getComputedStyle(one).backgroundColor)[3] === 0) one = one.parentElement; return getComputedStyle(one ?? document.documentElement).backgroundColor; };
  let least = 99;
  const contrast = (one, color, wanted) => {
    const [a, b] = [light(numbers(color)), light(numbers(back(one)))], value = (Math.max(a, b) + .05) / (Math.min(a, b) + .05);
    least = Math.min(least, value);
    if (value < wanted) faults.push("contrast " + value + ": " + begin(one));
  };
  const texts = document.createTreeWalker(document.body, NodeFilter.SHOW_TEXT);
  while (texts.nextNode()) {
    const one = texts.currentNode.parentElement;
    if (texts.currentNode.data.trim() && !["SCRIPT", "OPTION"].includes(one.nodeName) && one.getClientRects().length) contrast(one, getComputedStyle(one).color, 4.5);
  }
  const text = least;
  for (const one of all("rect, path:not(.tick)")) if (one.getClientRects().length) contrast(one, getComputedStyle(one).fill, 3);
  for (const one of all("a, button, input, select, summary")) {
    const r = one.getBoundingClientRect();
    if (r.height && r.height < 18) faults.push("small: " + begin(one) + r.height);
  }
  return [faults, text];
})()"""
ROWS = "[...document.querySelectorAll('#machines tbody tr')].map(row => Number(row.querySelector('a').textContent))"
# Keeps what the page's script fetches
KEEP_SENT = """(() => {
  const fetched = window.fetch;
  window.fetch = async (...words) => {
    const answer = await fetched(...words);
    window.sent = await answer.clone().text();
    return answer;
  };
})()"""
# Whether the page is what was fetched last, but for what is open; `null` while it isn't yet renewed by that
IS_SENT = """(() => {
  const page = new DOMParser().parseFromString(window.sent ?? "<main><time></time></main>", "text/html");
  const mine = document.querySelector("main").cloneNode(true), sent = page.querySelector("main");
  if (mine.querySelector("time").textContent !== sent.querySelector("time").textContent) return null;
  for (const root of [mine, sent]) root.querySelectorAll("details").forEach(one => one.removeAttribute("open"));
  return mine.innerHTML === sent.innerHTML;
})()"""


class Browsing:
    """A browser at hallview's pages."""

    def __init__(self, checks, hall, view, chrome):
        self.checks, self.hall, self.view, self.chrome, self.js = checks, hall, view, chrome, chrome.js
        self.keep = os.environ.get("KEEP") or os.getcwd()

    def go(self, target):
        """Opens a page with a clean slate of what was said and asked."""
        self.chrome.events.clear()
        self.chrome.go(self.view.base + target)

    def quiet(self, what):
        """Nothing was said in the console, but that a machine isn't listed, and nothing asked for elsewhere."""
        said = [line for line in self.chrome.said() if not ("status of 404" in line and line.endswith("/999999"))]
        self.checks.wants(f"nothing in the console: {what}", said == [], said)
        strange = [url for url in self.chrome.asked() if not url.startswith(self.view.base + "/")]
        self.checks.wants(f"nothing from elsewhere: {what}", strange == [], strange)

    def looks(self):
        """Each kind of page, in each size and color."""
        checks, chrome = self.checks, self.chrome
        failed = next(machine["id"] for machine in self.hall.machines() if machine["status"] == "Failed deployment")
        targets = {"page": "/", "machine": f"/machines/{NAME}/{failed}", "chosen": "/?status=Ready&sort=-id#machines", "nothing": "/?q=nothing-has-this",
                   "unlisted": f"/machines/{NAME}/999999"}
        for kind, width, height, is_mobile, scheme in SIZES:
            chrome.size(width, height, is_mobile)
            chrome.scheme(scheme)
            least = []
            for name, target in targets.items():
                what = f"{name}, {kind}"
                self.go(target)
                chrome.wait(0.2)
                if name != "nothing":
                    chrome.shot(f"{self.keep}/{name}-{kind}.png")
                if name == "page":
                    chrome.shot(f"{self.keep}/day-{kind}.png", "document.querySelector('#day')")
                    chrome.shot(f"{self.keep}/machines-{kind}.png", "document.querySelector('#machines')")
                self.quiet(what)
                wider = self.js("document.documentElement.scrollWidth - innerWidth")
                checks.wants(f"no wider than the window: {what}", wider <= 0, wider)
                faults, contrast = self.js(NEEDS)
                checks.wants(f"what a reader needs: {what}", faults == [], faults[:4])
                least.append(contrast)
            checks.say(f"   {kind}: the least contrast of a text is {min(least):.1f}")
        chrome.scheme("light")
        chrome.size(1280, 800)

    def filter(self):
        """The form chooses machines, with the script and without."""
        checks, chrome = self.checks, self.chrome
        for is_off in [True, False]:
            what = "without the script" if is_off else "with the script"
            chrome.call("Emulation.setScriptExecutionDisabled", value=is_off)
            self.go("/?sort=-id&pool=gpu")
            chrome.call("Emulation.setScriptExecutionDisabled", value=False)
            self.js("document.querySelector('select[name=pool]').value = 'lab'; document.querySelector('select[name=status]').value = 'Deployed'; 0")
            chrome.call("Emulation.setScriptExecutionDisabled", value=is_off)
            chrome.click("document.querySelector('button')")
            chrome.wait_for("location.search.includes('Deployed') && document.readyState === 'complete'", 10)
            wanted = [machine["id"] for machine in reversed(self.hall.machines()) if (machine["status"], machine["pool"]) == ("Deployed", "lab")]
            shown = self.js(ROWS)
            checks.wants(f"the form chooses, {what}", wanted and shown == wanted, (len(shown), len(wanted)))
            checks.wants(f"the form keeps the order, {what}", "sort=-id" in self.js("location.search"), self.js("location.href"))
            checks.wants(f"the form leads to the machines, {what}", self.js("location.hash") == "#machines" and self.js("scrollY") > 0)
            self.quiet(what)
        chrome.call("Emulation.setScriptExecutionDisabled", value=False)

    def hands_on(self):
        """Puts focus, selection, scrolling, choice and text where a reader may have them, and returns what they are."""
        self.js("""(() => {
          const links = document.querySelectorAll('#machines tbody tr a');
          window.one = links[20];
          const cell = document.querySelectorAll('#machines tbody tr')[23].cells[6].firstChild;
          getSelection().setBaseAndExtent(cell, 3, cell, 11);
          window.one.focus({preventScroll: true});
          document.querySelector('select[name=owner]').value = 'ada';
          document.querySelectorAll('details').forEach((one, i) => { if (i % 2) one.open = !one.open; });
          window.one.scrollIntoView({block: 'center'});
          document.querySelector('#machines div[role]').scrollLeft = 7;
        })()""")
        return self.at_hand()

    def at_hand(self):
        """What a reader has under the hands."""
        return {name: self.js(expression) for name, expression in {
            "focus": "document.activeElement === window.one && document.activeElement.getAttribute('href')",
            "selection": "getSelection().toString()",
            "choice": "document.querySelector('select[name=owner]').value",
            "filter": "location.search + document.querySelector('select[name=pool]').value",
            "details": "[...document.querySelectorAll('details')].map(one => one.id + one.open).slice(0, 4).join()",
            "scrolling of the table": "document.querySelector('#machines div[role]').scrollLeft",
        }.items()}

    def place(self):
        return self.js("window.one.getBoundingClientRect().top")

    def is_sent(self, what):
        """Whether the page has come to be what the server sends."""
        for _ in range(60):
            same = self.js(IS_SENT)
            if same is not None:
                break
            self.chrome.wait(0.1)
        self.checks.wants(f"the page is what the server sends, {what}", same, same)

    def change(self, what, done, expression):
        """A change at the desk is shown soon: hallview says how often it asks for the list, which is less often where that takes long."""
        done()
        every = self.view.hall(NAME)["every"]
        took = self.chrome.wait_for(expression, 30)
        every = max(every, self.view.hall(NAME)["every"])
        if self.checks.wants(f"{what} is shown soon", took is not None and took < every + RENEWAL + SLACK, f"{took} s, every {every} s"):
            self.checks.say(f"   {what} is shown after {took:.1f} s, where the desk is asked every {every} s")

    def renewal(self):
        """What a reader has under the hands stays, and what is shown is new."""
        checks = self.checks
        self.go("/?pool=lab&sort=-addresses#machines")
        lab = sorted(machine["id"] for machine in self.hall.machines() if machine["pool"] == "lab")
        checks.wants("each machine of the pool stands once", sorted(self.js(ROWS)) == lab)
        self.js(KEEP_SENT)
        before, place = self.hands_on(), self.place()
        checks.wants("focus and selection are set", before["focus"] and before["selection"], before)
        status = "[...document.querySelectorAll('#machines tbody tr')].find(row => row.querySelector('a').textContent === '{}')?.cells[1].textContent"
        pool = "[...document.querySelector('select[name=pool]').options].some(one => one.value === 'attic')"
        self.change("a machine that is broken", lambda: self.hall.ctl("break", "211"), status.format(211) + " === 'Broken'")
        self.stays(before, place, "after a change")
        self.change("a machine that is gone", lambda: self.hall.ctl("delete", GONE, "--yes"), status.format(GONE) + " === undefined")
        self.change("machines that go on", lambda: self.hall.ctl("test", "212-218"), status.format(215) + " === 'Testing'")
        self.change("a new pool's machine", self.new_pool, pool)
        self.stays(before, place, "after many changes")
        self.is_sent("after many changes")
        trouble = self.js("document.querySelector('#trouble h2').textContent").removeprefix("In trouble: ")
        checks.wants("the title has how many are in trouble", self.js("document.title").startswith(f"{trouble} in trouble, "), self.js("document.title"))
        self.quiet("while it is renewed")

    def new_pool(self):
        self.hall.ctl("add-pool", "attic")
        self.hall.ctl("set-pool", "1", "--pool", "attic")

    def stays(self, before, place, when):
        after = self.at_hand()
        for name, value in before.items():
            self.checks.wants(f"the {name} stays {when}", after[name] == value, (value, after[name]))
        moved = abs(self.place() - place)
        self.checks.wants(f"what is read stays where it is {when}", moved < 2, moved)

    def typing(self):
        """A text that is half typed stays, and so does the caret."""
        self.js("document.querySelector('input[name=q]').focus()")
        self.chrome.call("Input.insertText", text="52-54-00")
        self.js("document.querySelector('input[name=q]').setSelectionRange(3, 5)")
        moment = self.js("document.querySelector('time').textContent")
        self.chrome.wait_for(f"document.querySelector('time').textContent !== '{moment}'", 10)
        field = self.js("(one => [one.name, one.value, one.selectionStart, one.selectionEnd].join())(document.activeElement)")
        self.checks.wants("a half-typed text and the caret stay", field == "q,52-54-00,3,5", field)

    def hidden(self):
        """A page that nobody sees asks for nothing, and at once when it is seen again."""
        self.js("Object.defineProperty(document, 'hidden', {get: () => window.away, configurable: true}); window.away = true; 0")
        self.chrome.wait(1)
        self.chrome.events.clear()
        self.chrome.wait(2 * RENEWAL + 1)
        self.checks.wants("nothing is asked while hidden", self.chrome.asked() == [], self.chrome.asked())
        self.js("window.away = false; document.dispatchEvent(new Event('visibilitychange')); 0")
        self.chrome.wait(1)
        self.checks.wants("it asks at once when shown", self.chrome.asked())

    def gone(self):
        """hallview ends, and comes back."""
        alarm = "document.querySelector('body > p')"
        self.view.__exit__()
        took = self.chrome.wait_for(f"{alarm}?.textContent.includes(\"can't be renewed\")", 10)
        self.checks.wants("it says that it can't be renewed", took is not None and took < RENEWAL + SLACK, took)
        self.checks.wants("as an alert", self.js(f"{alarm}.querySelector('[role=alert]').textContent") == "This page can't be renewed. ")
        self.chrome.wait(3)
        self.chrome.shot(f"{self.keep}/gone.png", alarm)
        self.view.__enter__()
        self.checks.wants("the alert goes", self.chrome.wait_for(f"!{alarm}", 10) is not None)
        self.chrome.events.clear()

    def keyboard(self):
        """Links and boxes are reached by keyboard, a wide table is scrolled by it, and a click takes a whole command."""
        checks, chrome = self.checks, self.chrome
        chrome.size(390, 700, True)
        self.go("/")
        seen = []
        for _ in range(12):
            chrome.key("Tab")
            seen.append(self.js("(document.activeElement.getAttribute('aria-label') || document.activeElement.textContent).slice(0, 30)"))
        checks.wants("the keyboard reaches links and boxes", seen[0].startswith("In trouble") and "Halls" in seen, seen)
        self.js("document.querySelector('div[role][aria-label=Machines]').focus()")
        chrome.key("ArrowRight")
        checks.wants("a box scrolls by keyboard", chrome.wait_for("document.activeElement.scrollLeft > 0", 5) is not None)
        chrome.size(1280, 800)
        chrome.click("document.querySelector('td code')")
        command = self.js("document.querySelector('td code').textContent")
        checks.wants("a click takes a command", self.js("getSelection().toString()") == command, self.js("getSelection().toString()"))


def by_w3m(checks, view, hall):
    """w3m shows the same rows."""
    if not shutil.which("w3m"):
        checks.skip("w3m (Debian's package w3m)")
        return
    text = subprocess.run(["w3m", "-dump", "-cols", "220", f"{view.base}/?pool=lab"], check=True, capture_output=True, text=True, timeout=60).stdout
    lines = {" ".join(line.split()) for line in text.splitlines()}
    page = view.ask("/?pool=lab").text()
    table = page[page.index('<section id="machines">'):page.index('<section id="day">')]
    rows = re.findall(r"<tr>(<th scope=\"row\">.*?)\n</tr>", table, re.DOTALL)
    wanted = [re.sub("<[^>]*>", " ", row) for row in rows]
    missing = [row for row in wanted if " ".join(row.split()) not in lines]
    checks.wants("w3m shows the same rows", len(wanted) == sum(machine["pool"] == "lab" for machine in hall.machines()) and not missing, missing[:3])


def in_browser(checks, hall, view, chrome):
    browsing = Browsing(checks, hall, view, chrome)
    browsing.looks()
    browsing.filter()
    browsing.renewal()
    browsing.typing()
    browsing.hidden()
    browsing.gone()
    browsing.keyboard()


def trial(checks, hall, view):
    by_w3m(checks, view, hall)
    if not shutil.which("chromium"):
        checks.skip("a browser (Debian's package chromium)")
        return
    chrome = Chrome()
    try:
        in_browser(checks, hall, view, chrome)
    finally:
        chrome.close()
