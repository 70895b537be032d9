#!/usr/bin/env bash
# docs/TROUBLE.md (Restore a backup) and docs/TAKEOVER.md, followed word by word with the built programs: a hall is backed up, used on, restored, mended by
# what hall-moved prints, adopted and served; a hall of running servers is taken over, also by an adoption that is killed several times. Then each machine
# that ran is Deployed for its owner, its script starts its own disk, and no order waits. Beside it: the backup's moment, copies of `serve --backup`, which
# are kept or refused, what takes a copy, `serve --loopback`, and what adopt refuses. It takes half a minute.
# Usage: tools/mending_trial.sh [restore|takeover|copies]..     HALLBOOT=PROGRAM and HALLCTL=PROGRAM name programs that are built already.
set -euo pipefail
here=$(cd "$(dirname "$0")" && pwd)
command -v python3 > /dev/null || { echo "mending_trial: python3 is missing (Debian's package python3)" >&2; exit 1; }
for word; do case $word in restore | takeover | copies) ;; *) echo "mending_trial: restore, takeover or copies, not $word" >&2; exit 2 ;; esac; done
. "$here/program.sh"
program hallboot
program hallctl
umask 077
work=$(mktemp -d)
trap 'rm -rf "$work"' EXIT
cd "$work"
export FOLLOWED=$work/followed
timeout --foreground --kill-after=10 1700 python3 -B "$here/mending_trial.py" "$HALLBOOT" "$HALLCTL" "$@"
