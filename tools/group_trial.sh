#!/usr/bin/env bash
# Groups of hallboot serve, up to 64 requests that are answered by one commit, under kills. 64 clients at once send commands, scripts, reports, answers to
# orders, and reads of machines and lists, over a disk that syncs some milliseconds slower, so that most changes share a commit; ROUNDS times the desk is
# killed (SIGKILL) while it answers groups, and started again. What is looked at, by each answer octet for octet, and after each kill by `hallboot export`,
# `hallboot request` and GET /machines: what was answered is kept; no answer comes before a sync has ended that was begun since it was asked, and none is
# sent while something that was written isn't synced; a request without an answer is sent again until it has one, and is done once; what is sent again after
# its answer has the same answer; what was cut by a kill is the beginning of the right answer; each client is answered what it asked, also where the same
# octets come twice at one moment, a key comes with another command, something is refused in the midst, or what one reads depends on what another one
# changes. Each number of a machine, a boot or an order is given once, and none is left out. It fails where fewer than a third of the changes shared a commit.
# Usage: tools/group_trial.sh [ROUNDS [SEED]]     60 by default, which take up to ten minutes; the seed is drawn by default, and printed.
#        HALLBOOT=PROGRAM names a program that is built already. It wants python3 and a C compiler.
set -euo pipefail
here=$(cd "$(dirname "$0")" && pwd)
need() { type -P "$1" > /dev/null || { echo "group_trial: $1 is missing (Debian's package $2)" >&2; exit 1; }; }
need python3 python3; need cc gcc
rounds=${1:-60} seed=${2:-$RANDOM}
for word in "$rounds" "1$seed"; do
    [[ $word =~ ^[1-9][0-9]{0,9}$ ]] || { echo 'group_trial: ROUNDS and SEED are numbers' >&2; exit 2; }
done
. "$here/program.sh"
program hallboot
exec timeout --foreground --kill-after=10 "$((rounds * 9 + 60))" python3 -B "$here/group_trial.py" "$HALLBOOT" "$rounds" "$seed"
