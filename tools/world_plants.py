"""Planted mistakes, for world.py: each is a wrong part of a pretended world, as edits of a program's text or as something that happens. An edit is
made of what must stand there and what it becomes; of a list of edits for one program the first that fits is taken."""
import os, shutil

OLD_REPORT = """report() {
    tried=
    while :; do
        case $(curl --silent --max-time 10 --write-out ' %{http_code}' --data "{\\"stage\\":\\"$1\\"}" "$hall_desk/report/$hall_boot/$hall_token") in
            *counted*' 200') return 0 ;;
            *' 200') [ -n "$tried" ] || [ "$1" != started ]; return ;;
            *' 4'??) return 1 ;;
        esac
        tried=yes
        sleep 5
    done
}
[ -n "$hall_desk" ] && [ -n "$hall_token" ] && report started || { poweroff -f; exit 1; }
[ "$hall_purpose" = rescue ] && exit 0
if "/usr/local/bin/hall-$hall_purpose"; then report done; else report failed; fi
[ "$hall_purpose" != deploy ] || reboot -f
poweroff -f
"""
RUN = '"/usr/local/bin/hall-$hall_purpose"'
LIVE = {
    "live-old": [("tries=60", OLD_REPORT + "exit\ntries=60")],
    "live-repeat-is-leave": [('    "$counted") ;;\n', '    "$counted" | "$repeat") ;;\n')],
    "live-any-200-is-leave": [('    "$counted") ;;\n', "    *' 200') ;;\n")],
    "live-restarts-refused": [("410') off ", "410') anew ")],
    "live-begins-before-started": [("tries=60", f'[ "$hall_purpose" = rescue ] || {RUN} & work=$!\ntries=60'), (f"if {RUN};", "if wait $work;")],
    "live-always-done": [("else verdict=failed", "else verdict='done'")],
    "live-reports-done-first": [(f"if {RUN};", f"conclude 'done'\nif {RUN};")],
}
POWER = {
    "power-table-at-start": [("            if self.settings is None or any(", "            if self.settings is None or False and any(")],
    "power-answers-first": [("            self.carry_out()\n            self.answer()\n",
                             "            self.begin(self.aim_of(self.files.current()))\n            self.outcome = 'done'\n            self.answer()\n"
                             "            self.outcome, self.fresh = None, lambda: None\n            self.carry_out()\n")],
    "power-does-not-ask-again": [("            self.fresh()\n            go()\n", "            go()\n")],
    "power-done-without-looking": [('        self.act(controller, "off")\n', '        self.act(controller, "off")\n        return\n')],
}
OLD_POWER = {
    "power-table-at-start": [],
    "power-answers-first": [("        try:\n            self.act()\n",
                             "        try:\n            self.desk.ask(f\"/orders/{self.order['number']}\", {\"outcome\": outcome})\n"
                             "            self.now = lambda act, *words: act(*words)\n            self.act()\n")],
    "power-does-not-ask-again": [('        if self.order["number"] not in self.desk.waiting():\n            raise Withdrawn\n', "")],
    "power-done-without-looking": [('        self.now(controller.switch, "off")\n', '        self.now(controller.switch, "off")\n        return\n')],
}
# Times to wait, which are shorter in a world
SHORTER = [("PAUSES = 2, 30", "PAUSES = 0.3, 2"), ("time.sleep(min(2, ", "time.sleep(min(0.4, "), ("UNTIL_OFF = 30 ", "UNTIL_OFF = 5 "),
           ("time.sleep(2)", "time.sleep(0.4)"), ("time.sleep(5)", "time.sleep(0.7)")]
# What the operator leaves out of docs/TROUBLE.md, "Restore a backup": the power program goes on, and reaches the hall while it is mended; old orders aren't
# answered; servers that run aren't adopted; nobody looks at machines that were in the midst of work
GUIDE = {"guide-power-goes-on": "stop", "guide-orders-are-left": "orders", "guide-no-adoption": "adopt", "guide-nobody-looks": "looks"}
SAMPLE = "live-begins-before-started"     # which a sample plays: it is found at each work
PLANTS = [*LIVE, *POWER, *GUIDE, "desk-from-an-old-copy"]


def edited(text, edits, name):
    for old, new in edits:
        if old not in text:
            raise SystemExit(f"world: the mistake {name} doesn't fit any more: there is no {old!r}")
        text = text.replace(old, new, 1)
    return text


def texts(name, live, power):
    """The texts of the two programs, with a mistake or without, and what the power program can do."""
    is_new = "--off-within" in power
    for old, new in SHORTER:
        power = power.replace(old, new)
    power = edited(power, (POWER if is_new else OLD_POWER).get(name, []), name)
    return {"live": edited(live, LIVE.get(name, []), name), "power": power, "rereads": is_new or name == "power-table-at-start",
            "power_words": ["--try-for", "6", "--off-within", "4"] if is_new else []}


def plant(name, world):
    """What happens in a world, beside mistakes of programs."""
    if name in GUIDE:
        world.skips.add(GUIDE[name])
    if name == "desk-from-an-old-copy":
        world.desk.serve = old_copies(world, world.desk.serve)
        world.copies.all = list


def old_copies(world, serve):
    """A desk that is started with a copy of its hall from when a machine was to be written, once a machine is Deployed, and served at once."""
    copy = f"{world.folder}/copy"

    async def served():
        statuses = {row["status"] for row in world.watch.status.values()}
        if os.path.isdir(copy) and "Deployed" in statuses:
            for end in ("", "-wal", "-shm"):
                if os.path.exists(world.desk.file + end):
                    os.unlink(world.desk.file + end)
            shutil.copytree(copy, world.folder, dirs_exist_ok=True)
            shutil.rmtree(copy)
            world.note("an old copy of the hall is served")
        elif statuses & {"Disk erasing", "Deploying", "Commissioning"} and not os.path.isdir(copy):
            os.mkdir(copy)
            for end in ("", "-wal"):
                if os.path.exists(world.desk.file + end):
                    shutil.copy(world.desk.file + end, copy)
        await serve()
    return served
