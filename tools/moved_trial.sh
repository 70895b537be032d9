#!/usr/bin/env bash
# lists/hall_moved.py over a hall that a desk served, that was copied, served on and restored: which machines moved since the copy, the owners that
# changed, the orders that wait, and the commands that mend the hall, which are typed then while the restored hall is served. It takes some
# fifteen seconds.
# Usage: tools/moved_trial.sh     HALLBOOT=PROGRAM and HALLCTL=PROGRAM name programs that are built already; without HALLCTL the lines are sent by HTTP.
set -euo pipefail
here=$(cd "$(dirname "$0")" && pwd)
command -v python3 > /dev/null || { echo "moved_trial: python3 is missing (Debian's package python3)" >&2; exit 1; }
. "$here/program.sh"
program hallboot
umask 077
work=$(mktemp -d)
trap 'rm -rf "$work"' EXIT
cd "$work"
timeout --foreground --kill-after=10 1700 python3 -B "$here/moved_trial.py" "$HALLBOOT" "$here/../lists/hall_moved.py" "${HALLCTL:-}"
