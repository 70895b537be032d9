"""hallview over a real desk and desks that are none. Run by view_peer.sh, which says what is looked at."""
import os
import signal
import sys

import view_alarms
import view_browser
import view_clients
import view_figures
import view_guide
import view_hostile
import view_same
from view_hall import filled
from view_served import Checks, View, is_up

EVERY = 2    # seconds
# What is tried over the real desk, and what has desks of its own
OVER_HALL = {"pages": view_same.pages, "clients": view_clients.trial, "browser": view_browser.trial, "alarms": view_alarms.trial}
ALONE = {"halls": view_same.halls, "guide": view_guide.trial, "hostile": view_hostile.trial, "figures": view_figures.trial}


def over_hall(checks, chosen):
    """The parts that are chosen of those over the real desk."""
    with filled(os.environ["HALLBOOT"], os.environ["HALLCTL"]) as hall:
        with View(os.environ["HALLVIEW"], "--desk", hall.url, "--token-file", "view.token", "--every", str(EVERY)) as view:
            checks.wants("the desk's list comes", view.wait_for(is_up))
            for name in chosen:
                checks.say(f"-- {name}")
                OVER_HALL[name](checks, hall, view)
            view_same.same_page(checks, view, "")
            hall.check_silence(checks, view)


def main(words):
    unknown = set(words) - {*OVER_HALL, *ALONE}
    if unknown:
        sys.exit(f"view_peer: no part is named {', '.join(sorted(unknown))}")
    signal.signal(signal.SIGTERM, lambda *_: sys.exit("view_peer: ended by SIGTERM"))
    checks, chosen = Checks(), words or [*OVER_HALL, *ALONE]
    served = [name for name in OVER_HALL if name in chosen]
    if served:
        over_hall(checks, served)
    for name in ALONE:
        if name in chosen:
            checks.say(f"-- {name}")
            ALONE[name](checks, os.environ["HALLVIEW"])
    print(f"view_peer: {checks.count} checks, {checks.failed} failed" + (f" ({' '.join(words)} only)" if words else ""))
    return checks.failed > 0


if __name__ == "__main__":
    sys.exit(main(sys.argv[1:]))
