#!/usr/bin/env python3
"""Whole halls in pretended worlds: hallboot serve, killed and started again over a slow disk and a clock that leaps; its hall lost, and restored from an
old copy by docs/TROUBLE.md with lists/hall_moved.py; machines that run live/hall-live; power/hall_power.py over controllers that are slow, fail and are
late; operators who say anything at any moment; and networks between them that lose, delay, repeat and cut. All choices come from a seed; what comes of
them depends on the host's pace too. world_watch.py says what may not happen, whatever is lost. It wants python3 (3.11), curl and cc.

Usage: tools/world.py [--worlds N] [--seed S] [--jobs J] [--plant NAME | --plants | --sample]
HALLBOOT=PROGRAM names a program that is built already, and so does HALLCTL=PROGRAM: without it the guide's lines are sent by HTTP."""
import argparse, asyncio, collections, json, os, shutil, signal, subprocess, sys, tempfile, time
from concurrent.futures import ThreadPoolExecutor, as_completed
import world_plants
from world_run import SECONDS, World

HERE = os.path.dirname(os.path.abspath(__file__))


def compiled(folder):
    """The libraries of the desk and the stand-in of programs."""
    made = {"slow": ("slow_disk.c", ["-shared", "-fPIC"]), "clock": ("offset_clock.c", ["-shared", "-fPIC"]), "teller": ("tell_world.c", [])}
    for name, (source, words) in made.items():
        subprocess.run(["cc", "-O1", *words, "-o", f"{folder}/{name}", f"{HERE}/{source}"], check=True)
    return {name: f"{folder}/{name}" for name in made}


def one(given):
    """Plays one world, in a process of its own, and prints what was found and its history as an object."""
    signal.signal(signal.SIGINT, signal.default_int_handler)    # a desk is ended by Ctrl-C, also where this runs in the background
    programs = {name: f"{given.made}/{name}" for name in ("slow", "clock", "teller")} | {"hallboot": given.hallboot, "hallctl": os.environ.get("HALLCTL")}
    programs |= world_plants.texts(given.plant, open(given.live).read(), open(given.power).read())
    world = World(given.one, given.folder, given, programs)
    world_plants.plant(given.plant, world)
    asyncio.run(world.lived())
    print(json.dumps({"findings": world.watch.findings, "races": world.watch.races, "counts": world.watch.counts, "history": world.history,
                      "latest": world.latest}))


class Worlds:
    """Plays worlds side by side, and sums them up."""

    def __init__(self, given, folder):
        self.given, self.folder, self.running, self.is_over = given, folder, set(), False
        self.races, self.counts, self.latest = collections.Counter(), collections.Counter(), 0.0

    def play(self, seed, plant):
        if self.is_over:
            raise SystemExit("world: ended by SIGTERM")
        folder = tempfile.mkdtemp(dir=self.folder)
        words = [sys.executable, "-B", __file__, "--one", seed, "--folder", folder, "--made", self.folder, "--hallboot", self.given.hallboot,
                 "--seconds", str(self.given.seconds), "--live", self.given.live, "--power", self.given.power, *(["--plant", plant] if plant else [])]
        with subprocess.Popen(words, stdout=subprocess.PIPE, stderr=subprocess.PIPE, text=True) as running:
            self.running.add(running)
            try:
                text, faults = running.communicate(timeout=self.given.seconds + 300)
            except subprocess.TimeoutExpired:
                running.terminate()
                text, faults = "", "it took too long"
            self.running.discard(running)
        if not self.given.keep:
            shutil.rmtree(folder, ignore_errors=True)
        broken = {"findings": [f"the world itself broke: {faults[-2000:]}"], "races": {}, "counts": {"broken": 1}, "history": [], "latest": 0.0}
        return seed, plant, json.loads(text) if text else broken

    def ended(self, *_):
        """Ends all worlds where it is ended itself, and begins none."""
        self.is_over = True
        for running in list(self.running):
            running.terminate()
        sys.exit(1)

    def several(self, chosen, until_found=False):
        """Plays worlds, each of a seed and with a planted mistake or none: how many were played, and those in which there was a finding, in their order."""
        played, bad = 0, []
        with ThreadPoolExecutor(self.given.jobs) as workers:
            works = [workers.submit(self.play, seed, plant) for seed, plant in chosen]
            for work in as_completed(works):
                if work.cancelled():
                    continue
                seed, plant, found = work.result()
                played += 1
                self.races.update(found["races"])
                self.counts.update(found["counts"])
                self.latest = max(self.latest, found["latest"])
                if found["findings"] and (found["history"] or not until_found):
                    bad.append((seed, plant, found))
                    for other in works if until_found else ():
                        other.cancel()
        return played, sorted(bad, key=lambda one: chosen.index(one[:2]))


def show(bad):
    for seed, _, found in bad:
        for text in found["findings"]:
            print(f"BAD: world {seed}: {text}")
        for line in found["history"]:
            print(f"    {line}")


def said(counts):
    return ", ".join(f"{name} {count}" for name, count in sorted(counts.items())) or "none"


def several(worlds, given):
    played, bad = worlds.several([(f"{given.seed}.{number}", given.plant) for number in range(given.worlds)])
    show(bad)
    print(f"in all: {said(worlds.counts)}; this host was {worlds.latest:.1f} seconds late at most")
    print(f"world: {played} checks, {len(bad)} failed (worlds of seed {given.seed}; what nobody can prevent: {said(worlds.races)})")
    return 1 if bad else 0


def sample(worlds, given):
    """Six worlds, and one with a mistake that has to be found: a sample that sees nothing fails."""
    played, bad = worlds.several([("sample.planted", world_plants.SAMPLE), *((f"sample.{number}", None) for number in range(6))])
    seen = [one for one in bad if one[1]]
    wrong = [one for one in bad if not one[1]]
    show(wrong)
    if not seen:
        print(f"BAD: the planted mistake {world_plants.SAMPLE} isn't found")
    print(f"world: {played} checks, {len(wrong) + (not seen)} failed (six worlds, and one of {len(world_plants.PLANTS)} planted mistakes; "
          f"{worlds.counts['works']} works, {worlds.counts['restores']} restored halls)")
    return 1 if wrong or not seen else 0


def plants(worlds, given):
    missed = 0
    for name in sorted(world_plants.PLANTS):
        began = time.monotonic()
        played, bad = worlds.several([(f"{given.seed}.{number}", name) for number in range(given.worlds)], until_found=True)
        missed += not bad
        what = f"not found in {played} worlds, {worlds.counts.pop('broken', 0)} of which broke"
        if bad:
            what = f"found in world {bad[0][0]}, {len(bad)} of {played} that were played, {time.monotonic() - began:.0f} s: {bad[0][2]['findings'][0]}"
            if given.keep:
                with open(f"{worlds.folder}/{name}.history", "w") as file:
                    file.write("\n".join(bad[0][2]["findings"] + bad[0][2]["history"]) + "\n")
        print(f"{name}: {what}", flush=True)
    print(f"world: {len(world_plants.PLANTS)} checks, {missed} failed (planted mistakes)")
    return 1 if missed else 0


def read_words():
    parser = argparse.ArgumentParser(description=__doc__.split("\n\n")[0], formatter_class=argparse.RawDescriptionHelpFormatter)
    parser.add_argument("--worlds", type=int, metavar="N", help="how many worlds (20; with --plants at most so many for each, 100)")
    parser.add_argument("--seed", default="1", metavar="S", help="what their choices come from (1)")
    parser.add_argument("--jobs", type=int, default=4, metavar="J", help="how many side by side (4)")
    parser.add_argument("--seconds", type=float, default=SECONDS, metavar="SECONDS", help="how long a world lasts (%(default)s)")
    parser.add_argument("--plant", choices=sorted(world_plants.PLANTS), help="plays with a planted mistake")
    parser.add_argument("--plants", action="store_true", help="plays all planted mistakes, each until it is found")
    parser.add_argument("--sample", action="store_true", help="six worlds of a fixed seed, and one with a planted mistake, for tools/after_gate.sh")
    parser.add_argument("--keep", action="store_true", help="keeps the worlds' folders")
    parser.add_argument("--live", default=os.path.join(HERE, "../live/hall-live"), help="the live image's script")
    parser.add_argument("--power", default=os.path.join(HERE, "../power/hall_power.py"), help="the power program")
    for name in ("one", "folder", "made", "hallboot"):
        parser.add_argument(f"--{name}", help=argparse.SUPPRESS)
    given = parser.parse_args()
    if given.sample:
        given.jobs = 4
    given.worlds = given.worlds or (100 if given.plants else 20)
    if min(given.worlds, given.jobs) < 1 or given.seconds <= 0:
        parser.error("--worlds, --jobs and --seconds are 1 at least")
    given.hallboot = given.hallboot or os.environ.get("HALLBOOT") or built("hallboot")
    return given


def built(name):
    """A program that is proved and built, unless it is already."""
    return subprocess.run([sys.executable, f"{HERE}/build_program.py", name], stdout=subprocess.PIPE, text=True, check=True).stdout.strip()


def main():
    given = read_words()
    if given.one:
        return one(given)
    folder = tempfile.mkdtemp(prefix="world.", dir="/dev/shm")
    worlds = Worlds(given, folder)
    signal.signal(signal.SIGTERM, worlds.ended)
    try:
        compiled(folder)
        return (plants if given.plants else sample if given.sample else several)(worlds, given)
    finally:
        if not given.keep:
            shutil.rmtree(folder, ignore_errors=True)


if __name__ == "__main__":
    sys.exit(main())
