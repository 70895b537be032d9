#!/usr/bin/env bash
# hallview over a real desk, in a real browser, with Prometheus and against desks that are none. Its pages and metrics are those that view_page.py
# writes of the same state, octet by octet; what a browser shows stays under the reader's hands while it is renewed; clients that are slow, idle or
# from elsewhere keep nobody from a page; a hostile desk is shown as down, and the others go on; a token is sent to its own desk alone; alarms fire.
# The parts are pages, clients, browser, alarms, halls, guide (docs/VIEW.md word by word), hostile and figures: all, unless some are named. It
# takes some six minutes.
# Usage: tools/view_peer.sh [PART..]     HALLBOOT, HALLCTL and HALLVIEW name programs that are built already; KEEP=FOLDER keeps the pictures.
# It wants python3, and tries what there is of Debian's packages chromium, w3m and prometheus.
set -euo pipefail
here=$(cd "$(dirname "$0")" && pwd)
. "$here/program.sh"
program hallboot
program hallctl
program hallview
umask 077
work=$(mktemp -d)
trap 'rm -rf "$work"' EXIT
if [ -n "${KEEP:-}" ]; then
    mkdir -p "$KEEP"
    KEEP=$(cd "$KEEP" && pwd)
    export KEEP
fi
cd "$work"
timeout --foreground --kill-after=10 1700 python3 -B "$here/view_peer.py" "$@"
