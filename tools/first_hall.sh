#!/usr/bin/env bash
# One machine's whole life on loopback, before your eyes: a hall is made and served, a pretended machine enlists itself, and hallctl has it
# commissioned, allocated, deployed and on its own disk, then released with its disks erased. Lines that begin with $ are what you would type;
# docs/QUICKSTART.md is the same by hand. It proves and builds both programs first, if they aren't built yet.
# Usage: tools/first_hall.sh     HALLBOOT=PROGRAM and HALLCTL=PROGRAM name programs that are built already.
set -euo pipefail
here=$(cd "$(dirname "$0")" && pwd)
. "$here/program.sh"
program hallboot
program hallctl
umask 077
work=$(mktemp -d)
started=()
ended() {
    for process in "${started[@]}"; do kill "$process" 2> /dev/null || true; done
    rm -rf "$work"
}
trap ended EXIT
mkdir "$work/bin"
ln -s "$HALLBOOT" "$work/bin/hallboot"
ln -s "$HALLCTL" "$work/bin/hallctl"
PATH=$work/bin:$PATH
cd "$work"
# typed WORDS..: shows a line as it would be typed, and does it.
typed() {
    echo "\$ $*"
    bash -c "$*"
}

# ---- a hall that is served at three ports that were free just before
head -c 24 /dev/urandom | base64 | tr '+/' '-_' > ada.token
typed 'hallboot init --db hall.db --admin ada --digest $(head -n 1 ada.token | tr -d "\n" | sha256sum | cut -c1-64)'
serve() {
    read -r discover boot http < <(python3 -c '
import socket
kept = [socket.socket(socket.AF_INET, kind) for kind in (socket.SOCK_DGRAM, socket.SOCK_DGRAM, socket.SOCK_STREAM)]
for s in kept: s.bind(("127.0.0.1", 0))
print(*(s.getsockname()[1] for s in kept))')
    : > ready
    hallboot serve --db hall.db --discover "127.0.0.1:$discover" --boot "127.0.0.1:$boot" --http "127.0.0.1:$http" \
        --turns 1000000000000 --server 127.0.0.1 --next 127.0.0.1 --host "127.0.0.1:$http" --log desk.log > ready &
    started+=($!)
    until grep -q 'hall desk ready' ready; do
        kill -0 "${started[-1]}" 2> /dev/null || return 1
        sleep 0.1
    done
}
serve || serve || serve
export HALL_DESK=http://127.0.0.1:$http HALL_TOKEN_FILE=ada.token
echo "(hallboot serves hall.db on loopback: DISCOVERs at port $discover, HTTP at port $http)"

# ---- who and what there is
typed 'hallctl add-operator pow --role power --new-token pow.token'
typed 'hallctl add-pool lab'
typed 'hallctl add-image live64 --arch uefi64 --kernel http://files.example/live/vmlinuz --initrd http://files.example/live/initrd --arg quiet'
typed 'hallctl set-live live64'
typed 'hallctl add-image jammy --arch uefi64 --kernel http://files.example/jammy/vmlinuz --initrd http://files.example/jammy/initrd'
typed 'hallctl add-machine --mac 52:54:00:12:34:56 --arch uefi64 --pool lab'

# ---- a machine, and what switches it
echo "(a pretended machine waits to be switched on; each line of its own begins with its address)"
python3 "$here/pretend_machine.py" --discover "127.0.0.1:$discover" --http "127.0.0.1:$http" --power-token-file pow.token --ids 1 &
started+=($!)
typed 'hallctl commission 1 --tests'
typed 'hallctl wait 1 --for Ready --timeout 2m'
typed 'hallctl allocate 1'
typed 'hallctl deploy 1 --image jammy'
typed 'hallctl wait 1 --for Deployed --timeout 2m'
sleep 4    # the machine restarts
typed 'hallctl machines'
typed 'hallctl release 1 --erase quick --yes'
typed 'hallctl wait 1 --for Ready --timeout 2m'
typed 'grep "machine 1:" desk.log'
