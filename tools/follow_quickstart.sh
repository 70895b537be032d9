#!/usr/bin/env bash
# docs/QUICKSTART.md, followed word by word on this computer: its blocks are run in their order, each in the terminal that it is for, and what it
# says that is printed is looked for. Only the build is left out, and the question before an erasing is answered by --yes.
# Usage: tools/follow_quickstart.sh     HALLBOOT=PROGRAM and HALLCTL=PROGRAM name programs that are built already.
set -euo pipefail
here=$(cd "$(dirname "$0")" && pwd)
. "$here/program.sh"
program hallboot
program hallctl
guide=$here/../docs/QUICKSTART.md
work=$(mktemp -d)
started=()
ended() {
    for process in "${started[@]}"; do kill "$process" 2> /dev/null || true; done
    rm -rf "$work"
}
trap ended EXIT
bad() { echo "BAD: $*" >&2; tail -n 5 "$work"/*.said >&2 || true; exit 1; }
block() { python3 "$here/guide_blocks.py" block "$guide" "$1"; }
span() { python3 "$here/guide_blocks.py" span "$guide" "$1"; }
mkdir "$work/bin"
ln -s "$HALLBOOT" "$work/bin/hallboot"
ln -s "$HALLCTL" "$work/bin/hallctl"
export PATH=$work/bin:$PATH HOME=$work PRETEND=$here/pretend_machine.py
block 'mkdir -p bin' > /dev/null
# The first terminal keeps what was exported; does LINES and waits for their end.
mkfifo "$work/typed"
bash < "$work/typed" > "$work/first.said" 2>&1 & started+=($!)
exec 3> "$work/typed"
number=0
does() {
    number=$((number + 1))
    printf '%s\necho "done %d: $?"\n' "$1" $number >&3
    for ((i = 0; i < 1200; i++)); do
        if grep -q "^done $number: " "$work/first.said"; then break; fi
        sleep 0.1
    done
    grep -q "^done $number: 0$" "$work/first.said" || bad "$1"
}
says() { grep -q "$1" "$work/$2.said" || bad "'$1' is printed"; }
# other NAME LINES: another terminal, in the folder of the first one.
other() {
    (cd "$work/first-hall" && exec bash -c "$2") > "$work/$1.said" 2>&1 & started+=($!)
}

does "$(block 'mkdir -p ~/first-hall')"
says "^$(span 'hall created')\$" first
other desk "$(block 'hallboot serve --db hall.db')"
for ((i = 0; i < 600; i++)); do if grep -q "$(span 'hall desk ready')" "$work/desk.said"; then break; fi; sleep 0.1; done
says "^$(span 'hall desk ready')\$" desk
does "$(block 'export HALL_DESK')"
does "$(block 'hallctl add-machine')"
says "^$(span 'machine 1: New, version 1, 52')\$" first
other machine "$(block 'python3 "$PRETEND" --discover')"
does "$(block 'hallctl commission 1')"
says "^$(span 'machine 1: Ready, version 5')\$" first
does "$(block 'hallctl allocate 1')"
says '^machine 1: Deployed' first
for ((i = 0; i < 100; i++)); do if grep -q 'starts its own disk' "$work/machine.said"; then break; fi; sleep 0.1; done
says 'starts its own disk' machine
does "$(block 'hallctl release 1 --erase quick' | sed 's/^hallctl release .*/& --yes/')"
says '^machine 1: Ready, version' first
does "$(block "grep 'machine 1:' desk.log")"
says 'Releasing to Ready' first
! grep WRONG "$work/machine.said" || bad 'the machine is told only what it may be told'
echo "good: docs/QUICKSTART.md as it stands"
