#!/usr/bin/env bash
# hallboot serve in a bad night. Floods of connections that never ask for anything whole, beside honest clients: at least 99 of 100 of these
# are answered. Machines whose deadline passed while nothing served: none is given work, and all of them fail within seconds. Clients that ask
# for the list of 10,000 machines and don't read it: at most 64 MB more memory, and others are answered within a second.
# All clients are of 127.0.0.0/8. It takes three minutes, prints a table for each of the three, and ends with status 1 where a row isn't so.
# Usage: tools/flood.sh [floods|overdue|lists]..     HALLBOOT=PROGRAM names a program that is built already.
set -euo pipefail
here=$(cd "$(dirname "$0")" && pwd)
command -v python3 > /dev/null || { echo "flood: python3 is missing (Debian's package python3)" >&2; exit 1; }
for word; do case $word in floods | overdue | lists) ;; *) echo "flood: floods, overdue or lists, not $word" >&2; exit 2 ;; esac; done
. "$here/program.sh"
program hallboot
umask 077
ulimit -n "$(ulimit -Hn)"    # a flood has some thousands of connections open
work=$(mktemp -d)
trap 'rm -rf "$work"' EXIT
cd "$work"
timeout --foreground --kill-after=10 900 python3 -B "$here/flood.py" "$HALLBOOT" "${@:-all}"
