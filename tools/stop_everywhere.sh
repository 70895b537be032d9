#!/usr/bin/env bash
# play_desk's cases over disks that stop: a hall is made, and all that comes to it while a machine is commissioned and tested, deployed, released, erased
# and switched off; a migration; and changes of many rows. The stored run stops the log and the file at each third to 29th of their calls, this at every
# one. What comes of each act is what stands under it in the stored run: each stop left the hall before an act or after it, and the act was answered
# again. Then the same acts while memory ends, as there. Usage: tools/stop_everywhere.sh     PLAY_DESK=PROGRAM names a program that is built already.
set -euo pipefail
here=$(cd "$(dirname "$0")" && pwd)
. "$here/program.sh"
. "$here/checks.sh"
program play_desk
work=$(mktemp -d)
trap 'rm -rf "$work"' EXIT
# `stop CALLS ..` has the calls that there are more at each stop
sed -E 's/^stop [0-9]+ /stop 1 /' "$here/../crates/play_desk/data/running.stops.cases" > "$work/everywhere.stops.cases"
(cd "$work" && "$PLAY_DESK" everywhere.stops.cases) > "$work/said" || bad "play_desk ended with status $?"
grep -q '^stops: .*, 0 differences$' "$work/said" || { cat "$work/said" >&2; bad "cases over disks that stop at every call aren't as stored"; }
good "$(grep -c ': right$' "$work/everywhere.stops.cases")"
all_good
