"""The machines of a pretended world, for world.py: their power, their disks, what they do at a start, and their power controllers. A machine that
is given work runs a copy of live/hall-live, in which only paths of the system and times to wait are replaced; the programs that it calls are stand-ins
(tell_world.c), which ask the world what comes of them."""
import asyncio, os, re, shutil, signal, subprocess
from pretend_machine import HELD, OWN_DISK, WORK
from world_watch import key_of

PATHS = {"/proc/cmdline": "cmdline", "/etc/hall-live-image": "image", "/run": "run", "/usr/local/bin": "programs"}
TIMEOUT = shutil.which("timeout")
LIMIT = 1     # seconds that the copy of hall-live waits for an answer, in place of 5


def copied(script, folder):
    """The script with the system's paths replaced by those of a folder. Another path of the system ends the world: it might be this host's."""
    known = "|".join(sorted(map(re.escape, PATHS), key=len, reverse=True))
    code = "".join(line for line in script.splitlines(True) if not line.startswith("#"))
    text = re.sub(rf"(?<![\w./])(?:{known})(?![\w.-])", lambda found: f"{folder}/{PATHS[found[0]]}", code)
    others = [one for one in re.findall(r"(?<![\w./])(?:/[a-z][\w.-]*)+", text) if not one.startswith(folder) and one != "/dev/null"]
    if others:
        raise SystemExit(f"world: hall-live has paths that aren't replaced: {' '.join(others)}")
    return "#!/bin/sh\n" + re.sub("--max-time [0-9]+", f"--max-time {LIMIT}", text)


class Disk:
    """What a disk has: nothing, `erased`, `image NAME`, or a part of something."""

    def __init__(self):
        self.content = "nothing"


class Machine:
    def __init__(self, world, number, script):
        self.world, self.number = world, number
        self.mac = f"52:54:00:00:00:{number:02x}"
        self.disk, self.choice = Disk(), world.stream(f"machine {number}")
        self.is_on, self.life, self.since, self.runs, self.boot, self.key = False, 0, 0.0, "nothing", None, None
        self.task = self.agent = None
        self.folder = f"{world.folder}/m{number}"
        for name in ("bin", "programs"):
            os.makedirs(f"{self.folder}/{name}")
        for name in ("poweroff", "reboot", "sync", "sleep"):
            os.symlink(world.teller, f"{self.folder}/bin/{name}")
        for name in ("cat", "curl", "mkdir", "stat"):   # and nothing else of this host, whose poweroff it would be
            os.symlink(shutil.which(name), f"{self.folder}/bin/{name}")
        for name in ("commission", "test", "deploy", "erase"):
            os.symlink(world.teller, f"{self.folder}/programs/hall-{name}")
        open(f"{self.folder}/image", "w").close()
        with open(f"{self.folder}/hall-live", "w") as file:
            file.write(copied(script, self.folder))

    def note(self, text):
        self.world.note(f"machine {self.number} {text}")

    # ---- power
    def switch_on(self, why):
        if not self.is_on:
            self.note(f"is switched on, {why}")
            self.begin()

    def switch_off(self, why):
        if self.is_on:
            self.note(f"is switched off, {why}, from {self.runs}")
            self.end()

    def restart(self, why):
        if self.is_on:
            self.note(f"restarts, {why}, from {self.runs}")
            self.end()
            self.begin()

    def begin(self):
        self.is_on, self.life, self.since, self.runs, self.boot, self.key = True, self.life + 1, self.world.now(), "firmware", None, None
        self.task = asyncio.get_running_loop().create_task(self.live())

    def end(self):
        self.is_on, self.life, self.runs, self.boot, self.key = False, self.life + 1, "nothing", None, None
        if self.task and self.task is not asyncio.current_task():
            self.task.cancel()
        if self.agent and self.agent.poll() is None:
            os.killpg(self.agent.pid, signal.SIGKILL)
            self.agent.wait()
        self.agent = None

    def soon(self, act, *words):
        """Does something to this life of the machine after a moment."""
        life = self.life

        def done():
            if self.life == life:
                act(*words)
        asyncio.get_running_loop().call_later(self.choice.uniform(0, 0.3), done)

    # ---- a start
    async def live(self):
        try:
            await asyncio.sleep(self.choice.uniform(0.05, 0.4))
            while (script := await self.script()) is None:
                await asyncio.sleep(self.choice.uniform(0.2, 0.6))
            self.obey(script)
        except asyncio.CancelledError:
            pass

    async def script(self):
        try:
            status, body = await self.world.ask(self.world.networks["machines"].port, "GET", f"/ipxe/{self.mac}", patience=1.5)
        except (OSError, ValueError, asyncio.TimeoutError):
            return None
        return body.decode() if status == 200 and body.startswith(b"#!ipxe\n") else None

    def obey(self, script):
        if script in OWN_DISK:
            self.runs = self.disk.content if self.disk.content.startswith("image ") else "no system"
            self.note(f"starts its own disk: {self.runs}")
        elif script == HELD:
            self.runs = "held"
            self.switch_off("held")
        elif found := WORK.fullmatch(script):
            self.work(found[1], found[2])
        else:
            self.world.watch.find(0, f"machine {self.number} has a script of no known form: {script!r}")

    def work(self, kernel, line):
        words = dict(word[5:].split("=", 1) for word in line.split() if word.startswith("hall."))
        self.runs, self.boot, self.key = f"{words['purpose']} of boot {words['boot']}", words["boot"], key_of(words["boot"], words["token"])
        self.image = self.world.image_of(kernel)
        shutil.rmtree(f"{self.folder}/run", ignore_errors=True)
        with open(f"{self.folder}/cmdline", "w") as file:
            file.write(line.strip() + "\n")
        self.note(f"runs {self.runs}")
        surroundings = {"PATH": f"{self.folder}/bin", "HOME": self.folder, "WORLD_SOCKET": self.world.socket,
                        "WORLD_LIFE": f"{self.number}.{self.life}"}
        with open(f"{self.folder}/said", "a") as said:
            self.agent = subprocess.Popen([TIMEOUT, "-s", "KILL", "120", "/bin/sh", f"{self.folder}/hall-live"], cwd=self.folder, env=surroundings,
                                          stdout=said, stderr=said, stdin=subprocess.DEVNULL, process_group=0)

    # ---- what the programs of the live image do
    async def called(self, name, words):
        """What comes of a stand-in of this life: its status and what it prints."""
        if name == "sleep":
            await asyncio.sleep(self.choice.uniform(0.2, 1))
        elif name == "poweroff":
            self.note("is told by its image to power off")
            if self.choice.random() < 0.05:
                return 1, "poweroff: failed\n"
            self.soon(self.switch_off, "by its image")
        elif name == "reboot":
            self.world.watch.restarts(self, self.key)
            self.soon(self.restart, "by its image")
        elif name.startswith("hall-"):
            return await self.write(name[5:]), ""
        return 0, ""

    async def write(self, purpose):
        """The work, which takes a while and may fail; a machine that is switched off meanwhile is left with a part of it."""
        life, what = self.life, f"{purpose} of boot {self.boot}"
        self.note(f"begins {what}")
        self.world.watch.begins(self, self.key, purpose)
        if purpose in ("erase", "deploy"):
            self.disk.content = f"a part of {what}"
        is_good = self.choice.random() < 0.9
        left, is_long = self.choice.randrange(1, 6), self.choice.random() < 0.8
        while left > 0:
            left -= self.world.is_restored or not is_long     # some take longer than the restoring of a hall
            await asyncio.sleep(self.choice.uniform(0.05, 0.3))
            if self.life != life:
                return 1
            self.world.watch.touches(self, what)
        if is_good and purpose in ("erase", "deploy"):
            self.disk.content = "erased" if purpose == "erase" else f"image {self.image}"
        self.note(f"ends {what}, {'good' if is_good else 'failed'}")
        return 0 if is_good else 3


class Controllers:
    """The power controllers, by their addresses: slow, failing, late. Two may be wired to each other's machines."""

    def __init__(self, world):
        self.world, self.choice = world, world.stream("controllers")
        self.wired = {f"bmc{number}": machine for number, machine in world.machines.items()}
        self.unplugged, self.is_rough, self.until = set(), False, {}

    def stall(self, machine, seconds):
        """The machine's controller answers nothing for a while."""
        name = next(name for name, wired in self.wired.items() if wired is machine)
        self.until[name] = self.world.now() + seconds

    async def called(self, words, since):
        """What `ipmitool`, called at a moment, answers: its status, and what it prints."""
        name, what = words[words.index("-H") + 1], " ".join(words[words.index("chassis") + 1:])
        machine = self.wired.get(name)
        if machine is None or name in self.unplugged:
            await asyncio.sleep(0.3)
            return 1, "Error: Unable to establish IPMI v2 / RMCP+ session\n"
        self.world.note(f"controller {name} of machine {machine.number} is told: {what}")
        if what.startswith("power o"):
            self.world.watch.told(name, machine, what[6:], since)
        await asyncio.sleep(self.until.get(name, 0) - self.world.now())
        mood = self.choice.random() if self.is_rough else 0.5 + self.choice.random() / 2
        if mood < 0.08:
            return 1, "Error: Unable to establish IPMI v2 / RMCP+ session\n"
        is_off = not machine.is_on
        if mood < 0.25:
            await asyncio.sleep(self.choice.uniform(0.3, 3))
        answer = self.carried_out(name, machine, what, is_off, late=0.25 <= mood < 0.4)
        if mood < 0.08 + 0.06 and what != "power status":
            return 1, "Error: no response\n"      # though it was carried out
        return answer

    def carried_out(self, name, machine, what, is_off, late):
        if what == "power status":
            if is_off:
                self.world.watch.told_off[machine.number] = self.world.now()
            return 0, f"Chassis Power is {'off' if is_off else 'on'}\n"
        if what in ("power off", "power on"):
            word = what[6:]
            if (word == "off") == (not machine.is_on):
                return 1, f"Set {what} failed: Command not supported in present state\n"
            act = machine.switch_off if word == "off" else machine.switch_on
            takes = self.choice.uniform(0.5, 2.5) if late else self.choice.uniform(0.05, 0.8) if word == "off" else 0
            asyncio.get_running_loop().call_later(takes, act, f"{'late ' if late else ''}by {name}")
            return 0, "Chassis Power Control\n"
        return (0, "Set Boot Device to pxe\n") if what.startswith("bootdev pxe") else (1, f"Invalid command: {what}\n")
