#!/usr/bin/env bash
# hallctl against hallboot serve: a machine's whole life, once over a straight way to the desk and once over a way on which half of the
# connections are refused, lost or cut. Both halls must be alike afterwards: each command was done once. Before that, hallctl against servers that
# are no desk, that say nothing, that are slow, and against a port where nobody listens.
# Usage: tools/hallctl_peer.sh [SEED]     It wants python3 and curl. HALLBOOT=PROGRAM and HALLCTL=PROGRAM name programs that are built already.
set -euo pipefail
here=$(cd "$(dirname "$0")" && pwd)
seed=${1:-1}
. "$here/program.sh"
. "$here/checks.sh"
program hallboot
program hallctl
umask 077
work=$(mktemp -d)
started=()
ended() {
    for process in "${started[@]}"; do
        kill -KILL "$process" 2> /dev/null || true
        wait "$process" 2> /dev/null || true
    done
    rm -rf "$work"
}
trap ended EXIT
cd "$work"
# what is printed last helps to see why a check failed
wrong() { tail -q -c 300 said errors >&2 2> /dev/null || true; bad "$@"; }
# comes WORDS COMMAND..: waits until the command, quietly, ends with status 0, for a minute at most.
comes() {
    local words=$1 end=$((SECONDS + 60))
    shift
    until "$@" > /dev/null 2>&1; do
        [ $SECONDS -lt $end ] || wrong "$words"
        sleep 0.1
    done
}
echo operators-secret-1 > ada
echo powers-secret-1 > pow
digest_of() { printf %s "$(cat "$1")" | sha256sum | cut -c1-64; }

# Serves a new hall of this name, and sets `http` to its port.
serve() {
    read -r discover boot http < <(python3 -c '
import socket
kept = [socket.socket(socket.AF_INET, kind) for kind in (socket.SOCK_DGRAM, socket.SOCK_DGRAM, socket.SOCK_STREAM)]
for s in kept: s.bind(("127.0.0.1", 0))
print(*(s.getsockname()[1] for s in kept))')
    "$HALLBOOT" init --db "$1.db" --admin ada --digest "$(digest_of ada)" > /dev/null
    : > ready
    "$HALLBOOT" serve --db "$1.db" --discover "127.0.0.1:$discover" --boot "127.0.0.1:$boot" --http "127.0.0.1:$http" \
        --turns 1000000000000 --server 127.0.0.1 --next 127.0.0.1 --host desk.hall.example --log "$1.log" --log-connections no > ready & started+=($!)
    comes 'hallboot serves' grep -q 'hall desk ready' ready
}

# One command line of ada's, which must be done.
ada() { "$HALLCTL" --desk "$desk" --token-file ada --timeout 120 "$@" >> said 2>> errors || wrong "hallctl $*: status $?"; good; }
# The machine does what its script says: this purpose, reported to the desk itself.
machine() {
    script=$(curl --silent --max-time 5 "http://127.0.0.1:$http/ipxe/52:54:00:12:34:56")
    grep -q "hall.purpose=$1 " <<< "$script" || wrong "the script is for $1: $script"
    number=$(sed -n 's/.*hall\.boot=\([0-9]*\).*/\1/p' <<< "$script")
    token=$(sed -n 's/.*hall\.token=\([0-9a-f]*\).*/\1/p' <<< "$script")
    for stage in started done; do
        curl --silent --max-time 5 --data "{\"stage\":\"$stage\"}" "http://127.0.0.1:$http/report/$number/$token" > /dev/null
    done
}
# The power program answers each order that waits.
power() {
    curl --silent --max-time 5 -H "Authorization: Bearer $(cat pow)" "http://127.0.0.1:$http/orders" |
        python3 -c 'import json, sys
for order in json.load(sys.stdin)["orders"]: print(order["number"])' |
        while read -r order; do
            curl --silent --max-time 5 -H "Authorization: Bearer $(cat pow)" --data '{"outcome":"done"}' "http://127.0.0.1:$http/orders/$order" > /dev/null
        done
}

# A machine's life over the way that `desk` names.
life() {
    : > said; : > errors
    ada add-operator pow --role power --digest "$(digest_of pow)"
    ada add-pool lab
    ada grant lab pow
    ada add-image live64 --arch uefi64 --kernel http://files.example/k --initrd http://files.example/i --arg initrd=i
    ada add-image jammy --arch uefi64 --kernel http://files.example/jk --initrd http://files.example/ji --arg initrd=ji
    ada set-live live64
    ada add-machine --mac 52:54:00:12:34:56 --arch uefi64 --pool lab --uuid 33221100-5544-7766-8899-aabbccddeeff
    ada add-interface 1 --mac 52:54:00:12:34:57
    ada commission 1
    machine commission
    ada wait 1 --for Ready
    ada test 1; machine test; ada wait 1 --for Ready
    ada set-pool 1 --pool default; ada set-pool 1 --pool lab
    ada allocate 1
    ada deploy 1 --image jammy
    machine deploy
    ada wait 1 --for Deployed
    ada lock 1; ada unlock 1
    ada rescue 1 --yes; machine rescue; ada exit-rescue 1 --yes; power; ada wait 1 --for Deployed
    ada release 1 --erase quick --yes
    machine erase; power
    ada wait 1 --for Ready
    ada break 1; ada fix 1
    ada remove-interface 1 --mac 52:54:00:12:34:57
    ada machines --json
}

# A line that must end with this status, and say this, against the server of this way.
ends() {
    way=$1 status=$2 says=$3 got=0; shift 3
    timeout 800 "$HALLCTL" --desk "http://127.0.0.1:$(port_of "$way")" --token-file ada "$@" > said 2> errors || got=$?
    [ $got = $status ] || wrong "$way: hallctl $*: status $got and not $status"
    grep -qF -- "$says" said errors || wrong "$way: hallctl $*: doesn't say: $says"
    good
}
# How often the server of this way was asked is this much; the line before said it.
asked() {
    local often; often=$(grep -c "^asked $1\$" ways) || true
    [ "$often" = "$2" ] || wrong "$1: asked $often times and not $2"
    good
}
port_of() { sed -n "s/^$1 //p" ways; }
python3 "$here/strange_desk.py" > ways & started+=($!)
comes 'servers that are no desk' grep -q '^list' ways
ends error 3 "this isn't the desk: http://127.0.0.1:$(port_of error)/commands answered 200, but not as the desk does" add-pool q
asked error 1
ends error 3 "this isn't the desk: http://127.0.0.1:$(port_of error)/machines answered 200" machines --json
asked error 2
[ -s said ] && wrong 'what is no answer of the desk is printed'
ends refusal 3 "it isn't known whether this was done" disable-operator eve
ends refusal 3 'the token waits in eve.token.new' add-operator eve --role user --new-token eve.token
[ ! -e eve.token ] && [ -s eve.token.new ] || wrong 'the token of an operator that was not added'
ends gateway 0 'operator eve added' add-operator eve --role user --new-token eve.token
asked gateway 3
[ -s eve.token ] && [ ! -e eve.token.new ] || wrong 'the token of an operator that was added'
ends gateway 2 'eve.token: there is a file already' add-operator eve --role user --new-token eve.token
# one that waits for long began before these, and still waits when they have ended: the time of each is its own
"$HALLCTL" --desk "http://127.0.0.1:$(port_of mute)" --token-file ada --timeout 500 machines > long 2>&1 & long=$!
started+=($long)
comes 'the first question of the one that waits' grep -q '^asked mute' ways
ends mute 3 'no answer' --timeout 1 commission 1
ends mute 3 'no answer' --timeout 1 machines
printf 'key,mac,arch,uuid,pool\n00000000-0000-4000-8000-0000000000aa,52:54:00:00:00:77,uefi64,,default\n' > rows
ends mute 3 'of 1 rows 0 are done, 0 refused and 1 left' --timeout 1 import - < rows
ends mute 3 'no answer, after 1 seconds' wait 1 --for Ready --timeout 1
ends mute 3 'no answer, after 1 seconds' --timeout 1 wait 1 --for Ready
ends refused 3 'pool lab: not done (connection refused): say it again with --key' --timeout 4 add-pool lab
kill -0 $long 2> /dev/null || wrong "the one that waits for long has ended: $(head -c 300 long)"
good
kill $long; wait $long || true
ends slow 0 '{"machines":[' --timeout 10 machines --json
[ "$(($(wc -c < said) - 1))" = "$(port_of list)" ] || wrong 'a slow list is whole'
ends many 0 'machine 2000: deleted' delete --yes --keys night.keys $(seq 2000)
[ "$(wc -l < night.keys)" = 4000 ] && [ "$(stat -c %a night.keys)" = 600 ] || wrong 'the file of keys'
grep -q '^machine 2000: delete, key [0-9a-f-]*, version 1: done$' night.keys || wrong 'the last key'

serve straight
desk=http://127.0.0.1:$http
life
tail -n 1 said > straight.json

serve cut
python3 "$here/cutting_proxy.py" "$http" "$seed" > proxy & proxy=$!
started+=($proxy)
comes 'the proxy that cuts connections' test -s proxy
desk=http://127.0.0.1:$(head -n 1 proxy)
life
tail -n 1 said > cut.json
kill -TERM $proxy; wait $proxy || true
python3 - straight.json cut.json <<'PYTHON' || wrong 'the halls are alike'
import json, sys
one, other = (json.load(open(name)) for name in sys.argv[1:])
assert one == other, (one, other)
assert len(one["machines"]) == 1 and one["machines"][0]["status"] == "Ready", one
PYTHON
good
# the log has what was asked, and no line of connections
grep -q ' POST /commands .*: 200 ' straight.log || wrong "the log: $(head -n 3 straight.log)"
good
! grep -qE ' (accepted instead of|closed (answered|late|failed|crowded))' straight.log || wrong "a line of a connection: $(grep -E ' (accepted|closed) ' straight.log | head -n 3)"
good
all_good "a machine's whole life over whole connections, and over others: $(tail -n 1 proxy)"
