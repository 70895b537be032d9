#!/usr/bin/env bash
# hallboot serve against programs of others: curl sends commands and asks for scripts, python3 sends datagrams, holds silent
# connections and reads the export and the tables, and hallctl drives a machine's whole life, also over connections that are cut. Where
# the user is root and the programs are there, dhcrelay passes an OFFER on to a client in another network namespace, and tshark decodes the
# replies.
# Usage: tools/real_peers.sh     HALLBOOT=PROGRAM and HALLCTL=PROGRAM name programs that are built already.
set -euo pipefail
here=$(cd "$(dirname "$0")" && pwd)
has() { type -P "$1" > /dev/null; }
need() { has "$1" || { echo "real_peers: $1 is missing (Debian's package $2)" >&2; exit 1; }; }
need curl curl; need python3 python3
. "$here/program.sh"
program hallboot

umask 077    # the hall's file is for its owner alone: the desk would say otherwise
ulimit -n 4096    # for 1,024 connections
work=$(mktemp -d)
started=()
ended() {
    for process in "${started[@]}"; do kill -KILL "$process" 2> /dev/null || true; done
    rm -rf "$work"
}
trap ended EXIT
cd "$work"
good() { echo "good: $*"; }
bad() { echo "BAD: $*" >&2; [ ! -s err ] || cat err >&2; exit 1; }

token=operators-secret-1
digest=$(printf %s $token | python3 -c 'import hashlib, sys; print(hashlib.sha256(sys.stdin.buffer.read()).hexdigest())')
key=00000000-0000-4000-8000-0000000000
read -r discover boot http < <(python3 -c '
import socket
kept = [socket.socket(socket.AF_INET, kind) for kind in (socket.SOCK_DGRAM, socket.SOCK_DGRAM, socket.SOCK_STREAM)]
for s in kept: s.bind(("127.0.0.1", 0))
print(*(s.getsockname()[1] for s in kept))')
desk=http://127.0.0.1:$http

# Serves with this log and this standard error, by a command that runs the program. log_time is how the log writes moments, log_format its lines.
log_time=seconds log_format=text more=()
serve() {
    local log=$1 errors=$2
    shift 2
    : > ready
    "$@" "$HALLBOOT" serve --db hall.db --discover 127.0.0.1:$discover --boot 127.0.0.1:$boot --http 127.0.0.1:$http \
        --turns 1000000000000 --server 10.8.0.1 --next 10.8.0.2 --host 127.0.0.1:$http --log "$log" --log-time $log_time --log-format $log_format "${more[@]}" > ready 2> "$errors" & server=$!
    started+=($server)
    for ((i = 0; i < 600; i++)); do
        if grep -q 'hall desk ready' ready; then return; fi
        sleep 0.1
    done
    bad 'the desk is ready within a minute'
}
asked() { curl --silent --show-error --max-time 5 --write-out ' %{http_code}' "$@"; }
post() { asked -H "Authorization: Bearer $token" --data "{\"key\":\"$key$1\",$2}" "$desk/commands"; }
is() { [ "$2" = "$3" ] || bad "$1: $2"; }
peer() { python3 "$here/peers.py" "$1" 127.0.0.1 $discover $boot $http "${@:2}"; }
stopped() {
    kill -TERM $server
    wait $server 2> ended.log || true
}

"$HALLBOOT" init --db hall.db --admin ada --digest "$digest" > init.log
serve desk.log err

for attempt in first second; do
    is "curl, the $attempt time" "$(post 01 '"command":"add_pool","pool":"lab"')" '{} 200'
done
good 'curl: a command is answered 200 {}, and so is its repeat'

peer frames || bad 'datagrams'
good 'python3: an OFFER, an ACK, the URL for iPXE; silence for what is not the desk'"'"'s'

is 'the script of a new machine' "$(asked "$desk/ipxe/52:54:00:12:34:56")" \
    $'#!ipxe\necho This machine is held by the hall desk\npoweroff\n 200'
is add_image "$(post 02 '"command":"add_image","image":"live","arch":"uefi64","kernel":"http://files.example/k","initrd":"http://files.example/i","args":["initrd=i"]')" '{} 200'
is set_live "$(post 03 '"command":"set_live","image":"live"')" '{} 200'
is commission "$(post 04 '"command":"commission","machine":1,"tests":false')" '{"id":1,"status":"Commissioning","version":2} 200'
script=$(asked "$desk/ipxe/52%3A54%3A00%3A12%3A34%3A56")
boot_token=$(sed -n 's/.*hall\.token=\([0-9a-f]*\).*/\1/p' <<< "$script")
is 'the token has 32 digits' ${#boot_token} 32
is 'the script of a commissioned machine' "$script" $'#!ipxe\nkernel http://files.example/k initrd=i hall.purpose=commission hall.boot=1 hall.token='"$boot_token hall.desk=$desk"$'\ninitrd http://files.example/i\nboot\n 200'
is 'the report' "$(asked --data '{"stage":"started"}' "$desk/report/1/$boot_token")" '{"result":"counted"} 200'
is 'another token' "$(asked --data '{"stage":"done"}' "$desk/report/1/${boot_token//[0-9]/a}")" '{"refusal":"NoBoot"} 404'
is 'the last report' "$(asked --data '{"stage":"done"}' "$desk/report/1/$boot_token")" '{"result":"counted"} 200'
case $(asked -H "Authorization: Bearer $token" "$desk/machines/1") in
    *'"status":"Ready"'*) good 'curl: a machine gets its scripts, reports, and is Ready' ;;
    *) bad 'the machine is Ready' ;;
esac

peer silent || bad 'silent connections'
good 'python3: with 20 silent connections everybody else is answered at once, and the silent ones are closed after two seconds'
peer many || bad 'the 1,025th connection'
good 'python3: the 1,025th connection is answered, and the first of the 1,024 silent ones is closed for it'
peer slow || bad 'slow connections'
good 'python3: a request octet by octet, and a client that takes its answer slowly, are answered'

# What was answered before SIGTERM is in the file.
: > answered
peer commands $token > answered & sender=$!
started+=($sender)
for ((i = 0; i < 300; i++)); do
    if [ "$(wc -l < answered)" -ge 20 ]; then break; fi
    sleep 0.1
done
kill -TERM $server
wait $server 2> ended.log && bad 'SIGTERM ends the desk'
wait $sender || bad 'commands until SIGTERM'
is 'messages of the desk' "$(cat err)" ''
"$HALLBOOT" report --db hall.db > report.txt || bad 'the report after SIGTERM'
"$HALLBOOT" export --db hall.db > machines.csv || bad 'the export after SIGTERM'
python3 "$here/peers.py" compare answered machines.csv report.txt || bad 'an answered command is lost'
good "SIGTERM: each of $(wc -l < answered) commands that were answered is in the file"

python3 - "$token" "$digest" "$key" "$boot_token" << 'PYTHON' || bad 'the log'
import re, sys
source, moment = r"127\.0\.0\.1:\d+", r"[1-9]\d*"
came = r"(discover|boot) [^:]*(:[0-9a-f]{2}){5} [a-z0-9]+( by iPXE)?|(discover|boot) (malformed|not served), [^:]*"
came += r"|(GET|POST) /[a-z]+\S*( \S+){0,3}( of machine \d+)?( by \S+)?|refused at once, [A-Za-z]+, (GET|POST|another method|no method) (/[a-z]+|another path|no path)( [a-z_]+)?(, no command|, another member|, (no|bad) member [a-z]+)?"
causes = "at the wrong port|its identifier is too long to echo|its UUID is another machine's|the hall is full|the numbers are exhausted"
said = rf"silence(, ({causes}|unavailable))?|unavailable|[^\s;]+|\d\d\d (\{{.*\}}|\d+ octets)"
status = "[A-Z][a-z]+( [a-z]+)*"
moved = rf"; machine \d+: (new, {status}|{status} to {status}|{status}, gone)"
line = re.compile(rf"{moment} ({source} ({came}): ({said})({moved})?(, unsent)?"
                  rf"|{source} accepted instead of (-|{source})|{source} closed (answered|late|failed|crowded)|- failed( \d+ times)?)")
text = open("desk.log").read()
lines = text.split("\n")
assert lines.pop() == "", "the last line ends"
for l in lines:
    assert line.fullmatch(l), l
for secret in sys.argv[1:]:
    assert secret not in text, secret
kinds = [l.split()[2] for l in lines]
assert kinds.count("boot") == 2, kinds.count("boot")
assert any(re.search(r" discover DISCOVER 52:54:00:12:34:56 uefi64: ipxe-x86_64.efi; machine 1: new, New$", l) for l in lines)
assert any(re.search(r" POST /commands commission of machine 1 by ada: 200 \{.id.:1,.status.:.Commissioning.,.version.:2\}; machine 1: New to Commissioning$", l) for l in lines)
assert any(re.search(r" closed late$", l) for l in lines) and any(re.search(r" accepted instead of 127", l) for l in lines)
PYTHON
good 'the log: each line has its form, and no token, key or digest is in it'

serve desk.log err
is 'the same command after a new start' "$(post 01 '"command":"add_pool","pool":"lab"')" '{} 200'
run=0
"$HALLBOOT" report --db hall.db > report.txt 2> second || run=$?
[ $run = 1 ] && [ "$(cat second)" = 'hallboot: Unavailable' ] || bad 'a second program on the file is refused'
stopped
good 'a new start goes on with the same file, which no second program may open'

# A pipe that nobody reads, though it is open.
mkfifo stalled
exec 9<> stalled
unread() { timeout 1 cat <&9 || true; }
serve - stalled
peer scripts 1000 || bad 'scripts while nobody reads the log'
unread > stalled.log
[ "$(grep -c 'GET /ipxe/' stalled.log)" -lt 1000 ] || bad 'the pipe takes no more'
peer scripts 1 || bad 'a script once the log is read'
unread > read.log
grep -qE '^[0-9]+ - lost [0-9]+$' read.log || bad "the number of lost lines: $(cat read.log)"
stopped
exec 9>&-
good 'a log that nobody reads delays no answer, and says later how many lines it lost'

if has strace; then
    serve desk.log err strace -D -qq -o calls -e trace=fdatasync -e inject=fdatasync:error=EIO:when=20    # opening takes some twelve
    refused=0
    for number in {21..50}; do
        for ((i = 0; i < 100; i++)); do
            answered=$(post $number "\"command\":\"add_pool\",\"pool\":\"pool$number\"")
            if [ "$answered" = '{} 200' ]; then break; fi
            is 'a command while the store is shut' "$answered" '{"refusal":"Unavailable"} 503'
            refused=$((refused + 1))
            sleep 0.02
        done
        is 'the command again' "$answered" '{} 200'
    done
    [ $refused -gt 0 ] || bad 'a failing fdatasync'
    is 'messages of the desk' "$(cat err)" 'hallboot: a fault has shut hall.db, which is opened again'
    stopped
    good "strace: after a failing fdatasync the same program opens the file again, and answers what it refused $refused times"
else
    echo 'not tried: strace is missing'
fi

# A copy each second; then one that can't be written. more has further words of serve.
more=(--backup kept.db --backup-every 1)
serve desk.log err
for ((i = 0; i < 100; i++)); do
    if [ -e kept.db ]; then break; fi
    sleep 0.1
done
stopped
"$HALLBOOT" export --db hall.db > machines.csv || bad 'the export'
"$HALLBOOT" export --db kept.db > kept.csv || bad 'the export of the copy'
cmp machines.csv kept.csv || bad 'the copy has the same machines'
[ "$(stat -c %a kept.db)" = 600 ] || bad 'the copy is for its owner alone'
grep -qE '^[0-9]+ - backup of [0-9]+ octets in [0-9]+ ms$' desk.log || bad 'the line of a copy'
more=(--backup nowhere/kept.db --backup-every 1)
serve desk.log err
for ((i = 0; i < 100; i++)); do
    if grep -q ' - backup failed$' desk.log; then break; fi
    sleep 0.1
done
grep -q ' - backup failed$' desk.log || bad 'the line of a copy that failed'
is 'a command after it' "$(post 60 '"command":"add_pool","pool":"zone"')" '{} 200'
stopped
more=()
good 'a copy that is made while the desk serves has all of its machines, and one that fails changes nothing'

log_time=utc
serve utc.log err
mv hall.db moved.db
peer scripts 10 2> gone.log || true
run=0
wait $server || run=$?
is 'the status of a desk whose file was moved' $run 1
is 'messages of the desk' "$(cat err)" $'hallboot: hall.db isn\'t the hall\'s file any more\nhallboot: Unavailable'
mv moved.db hall.db
"$HALLBOOT" report --db hall.db > report.txt || bad 'the report of the file that was moved'
good 'a desk whose file is moved ends'
python3 -c 'import datetime, sys
for line in open("utc.log"):
    moment = datetime.datetime.strptime(line.split()[0], "%Y-%m-%dT%H:%M:%SZ")
    assert abs(datetime.datetime.utcnow() - moment) < datetime.timedelta(minutes=1), line' || bad 'the log in UTC'
[ -s utc.log ] || bad 'a log in UTC'
good 'python3: a log in UTC has the time'

log_format=json
serve objects.log err
peer scripts 10 2> objects.err || bad 'scripts beside a log of objects'
is 'a pool that is there' "$(post 70 '"command":"add_pool","pool":"default"')" '{"refusal":"Taken"} 409'
is 'a token that nobody has' "$(asked -H 'Authorization: Bearer nobody' "$desk/machines")" '{"refusal":"UnknownToken"} 401'
stopped
python3 -c 'import collections, datetime, json
lines = [json.loads(line) for line in open("objects.log")]
count = collections.Counter(line["event.action"] for line in lines)
assert count["script"] and count["script"] == sum(line.get("url.path", "").startswith("/ipxe/") for line in lines), count
assert count["accepted"] and count["accepted"] - count["closed"] in (0, 1), count
[taken] = [line for line in lines if line["event.action"] == "command"]
assert (taken["user.name"], taken["hall.command"], taken["http.response.status_code"]) == ("ada", "add_pool default", 409), taken
[unknown] = [line for line in lines if line["event.action"] == "machines"]
assert "user.name" not in unknown and unknown["event.outcome"] == "failure", unknown
for line in lines:
    moment = datetime.datetime.strptime(line["@timestamp"], "%Y-%m-%dT%H:%M:%SZ")
    assert abs(datetime.datetime.utcnow() - moment) < datetime.timedelta(minutes=1), line
    assert line["message"], line
    assert line["event.action"] == "ready" or line["client.ip"] == "127.0.0.1" and line["client.port"], line
assert lines[0]["event.action"] == "ready" and count["ready"] == 1, lines[0]' || bad 'a log of objects'
if has jq; then
    is 'what ada did, by jq' "$(jq -r 'select(.["user.name"] == "ada") | .["hall.command"]' objects.log)" 'add_pool default'
fi
good 'python3: a log of objects'

if has sqlite3; then
    tables=$(sqlite3 hall.db 'PRAGMA integrity_check; SELECT name FROM pools WHERE name < '"'pool'"' ORDER BY name; SELECT operator, status, body FROM receipts ORDER BY rowid LIMIT 1')
    is 'sqlite3 reads the tables' "$tables" $'ok\ndefault\nlab\nada|200|{}'
    good 'sqlite3: whole file, pools, receipt'
else
    echo 'not tried: sqlite3 is missing'
fi

"$here/hallctl_peer.sh" || bad 'hallctl'

[ "$(id -u)" = 0 ] && has ip && has unshare && has nsenter || { echo 'not tried: network namespaces need root, ip, unshare and nsenter'; exit 0; }
has dhcrelay || { echo 'not tried: dhcrelay is missing (isc-dhcp-relay)'; exit 0; }
"$here/relayed_peer.sh" || bad 'a client behind dhcrelay'
