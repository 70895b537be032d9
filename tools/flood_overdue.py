"""Machines whose deadlines have passed, or pass together, for flood.py."""
import sqlite3, time
from served_hall import Hall, address

MACHINES, BOUND = 300, 5.0    # the seconds in which all of them fail
now = time.monotonic


def commissioning(hall):
    """Machines in Commissioning, in a hall that is served no more."""
    hall.add(MACHINES)
    hall.serve()
    hall.command(command="add_image", image="live64", arch="uefi64", kernel="http://files.example/k", initrd="http://files.example/i", args=[])
    hall.command(command="set_live", image="live64")
    for number in range(1, MACHINES + 1):
        hall.command(command="commission", machine=number, tests=False)
    hall.stop()


def set_deadlines(hall, moment):
    with sqlite3.connect(hall.file) as tables:
        count = tables.execute("UPDATE machines SET deadline = ? WHERE deadline IS NOT NULL", (moment,)).rowcount
    tables.close()
    if count != MACHINES:
        raise SystemExit(f"flood: {count} machines had a deadline, not {MACHINES}")


def failed(hall):
    """How many machines have failed, as the log says, so that the desk isn't asked."""
    with open(hall.log) as lines:
        return sum("Commissioning to Failed commissioning" in line for line in lines)


def has_no_work(hall, number):
    """Whether a machine's script, asked for as soon as the desk's socket is there, is none of work."""
    end = now() + 60
    while True:
        try:
            return b"hall.purpose" not in hall.ask(f"/ipxe/{address(number)}")[1]
        except ConnectionRefusedError:
            if now() > end:
                raise
            time.sleep(0.001)


def overdue(program, table):
    table.header("deadlines", "machines", "failed", "within", "no work for")
    for case in ["passed", "pass together"]:
        with Hall(program, case.replace(" ", "-")) as hall:
            commissioning(hall)
            moment = int(time.time()) + (-100 if case == "passed" else 3)
            set_deadlines(hall, moment)
            open(hall.log, "w").close()
            asked = [MACHINES, MACHINES // 2, 1]
            first = now()
            hall.start()
            if case == "passed":
                without = [has_no_work(hall, number) for number in asked]
            else:    # at rest until they are due
                time.sleep(max(0.0, moment - time.time()))
                first = now()
            while now() < first + 3 * BOUND and failed(hall) < MACHINES:
                time.sleep(0.02)
            took, count = now() - first, failed(hall)
            if case != "passed":
                without = [has_no_work(hall, number) for number in asked]
            is_all = hall.statuses().count("Failed commissioning") == MACHINES
            table.row(is_all and took <= BOUND and all(without), case, MACHINES, count, f"{took:.1f} s", f"{sum(without)} of {len(without)}")
