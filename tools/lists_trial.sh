#!/usr/bin/env bash
# lists/hall_lists.py over a copy of a hall: each list, receipts of one machine as JSON, and that it refuses a hall that is served and files that
# are none, and leaves the copy as it was. It takes some seconds.
# Usage: tools/lists_trial.sh     HALLBOOT=PROGRAM names a program that is built already.
set -euo pipefail
here=$(cd "$(dirname "$0")" && pwd)
command -v python3 > /dev/null || { echo "lists_trial: python3 is missing (Debian's package python3)" >&2; exit 1; }
. "$here/program.sh"
program hallboot
umask 077
work=$(mktemp -d)
trap 'rm -rf "$work"' EXIT
cd "$work"
timeout --foreground --kill-after=10 1700 python3 -B "$here/lists_trial.py" "$HALLBOOT" "$here/../lists/hall_lists.py"
