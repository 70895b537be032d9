#!/usr/bin/env python3
"""Starts of the desk under load: a service is killed by SIGKILL at some moment of its work, and started again over the same file, so
many times, while other processes take all processors and sync the disk. Prints how long it took until it said that it is ready, as a
distribution. A service that isn't ready within five seconds is a failure: what it waits for, its stacks and its files are kept in a folder,
whose path is printed. By hand; some twenty minutes for 5,000 starts.

Usage: start_trial.py HALLBOOT [STARTS [FOLDER]]    FOLDER is where halls and what is kept are made: on the disk that counts"""
import multiprocessing, os, pathlib, random, select, shutil, socket, subprocess, sys, tempfile, time, uuid
from served_hall import ADMIN, Hall

PATIENCE = 5.0     # seconds, until a service should be ready
GIVE_UP = 60.0     # until it is killed


def burn():
    """Takes a processor."""
    while True:
        sum(range(100_000))


def sync(folder):
    """Writes a file and has it on the disk, again and again."""
    with open(os.path.join(folder, f"sync{os.getpid()}"), "wb", buffering=0) as file:
        while True:
            file.seek(0)
            file.write(os.urandom(65_536))
            os.fsync(file.fileno())


def command(number):
    """A command that changes the hall."""
    body = f'{{"key":"{uuid.uuid4()}","command":"add_pool","pool":"p{number}"}}'
    return f"POST /commands HTTP/1.1\r\nAuthorization: Bearer {ADMIN}\r\nContent-Length: {len(body)}\r\n\r\n{body}".encode()


def send(port, octets):
    """Sends a request, and takes what comes until the connection ends, or nothing where the desk is gone by then."""
    try:
        with socket.create_connection(("127.0.0.1", port), timeout=2) as client:
            client.sendall(octets)
            while client.recv(4096):
                pass
    except OSError:
        pass


def keep(pid, hall, folder):
    """Keeps what a service is at, its stacks, and its files."""
    kept = pathlib.Path(tempfile.mkdtemp(prefix="not_ready_", dir=folder))
    for name in ("status", "wchan", "syscall", "stack", "io", "limits"):
        try:
            (kept / name).write_text(pathlib.Path(f"/proc/{pid}/{name}").read_text())
        except OSError as error:
            (kept / name).write_text(f"{error}\n")
    (kept / "descriptors").write_text("\n".join(sorted(os.readlink(path) for path in pathlib.Path(f"/proc/{pid}/fd").iterdir())))
    gdb = shutil.which("gdb")
    if gdb:
        told = subprocess.run([gdb, "-p", str(pid), "-batch", "-ex", "thread apply all bt"], capture_output=True, text=True, timeout=60, check=False)
        (kept / "backtrace").write_text(told.stdout + told.stderr)
    for path in pathlib.Path(".").glob(f"{hall.file}*"):
        shutil.copy2(path, kept / path.name)
    return kept


def started(hall, folder):
    """Starts the service: how many seconds it took until it was ready, and where it is kept what it was at if that took too long."""
    begin, kept = time.monotonic(), None
    hall.start()
    while not select.select([hall.running.stdout], [], [], 0.05)[0]:
        passed = time.monotonic() - begin
        if passed > PATIENCE and kept is None:
            kept = keep(hall.running.pid, hall, folder)
        if passed > GIVE_UP:
            break
    line = hall.running.stdout.readline() if time.monotonic() - begin <= GIVE_UP else ""
    if line != "hall desk ready\n" and kept is None:
        kept = keep(hall.running.pid, hall, folder)
    return time.monotonic() - begin, kept


def trial(hall, starts, folder):
    """So many starts: the seconds that each took, and the failures."""
    took, failures, chance = [], [], random.Random(starts)
    for number in range(starts):
        seconds, kept = started(hall, folder)
        took.append(seconds)
        if kept:
            failures.append(f"start {number + 1}: {seconds:.1f} s until it was ready; what it was at is in {kept}")
            print(failures[-1], flush=True)
        for count in range(chance.randrange(4)):
            send(hall.http, command(4 * number + count))
        time.sleep(chance.random() * 0.02)
        hall.running.kill()
        hall.running.wait()
        hall.running.stdout.close()
    return took, failures


def main():
    """The trial, beside what takes processors and the disk."""
    program, starts = os.path.abspath(sys.argv[1]), int(sys.argv[2]) if len(sys.argv) > 2 else 5000
    folder = os.path.abspath(sys.argv[3] if len(sys.argv) > 3 else tempfile.gettempdir())
    work = tempfile.mkdtemp(dir=folder)
    os.chdir(work)
    load = [multiprocessing.Process(target=burn, daemon=True) for _ in range(2 * (os.cpu_count() or 1))]
    load += [multiprocessing.Process(target=sync, args=(work,), daemon=True) for _ in range(2)]
    for process in load:
        process.start()
    try:
        with Hall(program, "hall") as hall:
            took, failures = trial(hall, starts, folder)
    finally:
        for process in load:
            process.kill()
        shutil.rmtree(work, ignore_errors=True)
    took.sort()
    at = lambda share: 1000 * took[min(len(took) - 1, int(share * len(took)))]
    print(f"ready after milliseconds: half {at(0.5):.0f}, 99 of 100 {at(0.99):.0f}, 999 of 1,000 {at(0.999):.0f}, the most {1000 * took[-1]:.0f}")
    print(f"start_trial: {starts} checks, {len(failures)} failed")
    return bool(failures)


if __name__ == "__main__":
    sys.exit(main())
