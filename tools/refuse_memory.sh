#!/usr/bin/env bash
# Each single request for memory of programs is refused in turn.
# First of play_desk, for the forty arrivals of its log over both stores, one by one and by one run of the desk: either nothing is seen, or one arrival is
# answered as one that counts as not having come, and all other answers and the tables are those without it; or there was no run, and none came; or
# the tables can't be read at the end, or the program that plays them ends. A store that a fault shuts is opened again before the next arrival.
# Then of play_calls and play_desk, for a line of each of their kinds, which are calls of frames, clients, events, scripts, images,
# words, texts, records, reports, imports, and of the making of a hall: it is answered as ever or by want of memory, or the program ends for that.
# Usage: tools/refuse_memory.sh [APART]     every APART-th request of the forty arrivals one by one, and every fourth as many by one run (1 by default:
# four minutes on four processors).
# PLAY_DESK=PROGRAM and so on name programs that are built already. Wants python3 and a C compiler.
set -euo pipefail
here=$(cd "$(dirname "$0")" && pwd)
. "$here/program.sh"
for name in play_desk play_calls; do program "$name"; done
exec python3 "$here/refuse_memory.py" "${1:-1}"
