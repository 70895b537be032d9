#!/usr/bin/env bash
# What can happen to a hall's files in a bad night, and that no hall is lost or mixed up by it: copies, restoring, logs that stand alone or are
# lost, files that are cut or replaced, an init that was cut off, paths that lead to one file, rights, descriptors and memory at their limit.
# Usage: tools/bad_night.sh     HALLBOOT=PROGRAM names a program that is built already. It wants bash, curl and python3; with
# strace it also cuts calls of the system off.
set -euo pipefail
here=$(cd "$(dirname "$0")" && pwd)
. "$here/program.sh"
program hallboot
work=$(mktemp -d)
server=
ended() {
    if [ -n "$server" ]; then kill -KILL "$server" 2> /dev/null || true; fi
    rm -rf "$work"
}
trap ended EXIT
cd "$work"
count=0 failed=0
good() { count=$((count + 1)); echo "good: $*"; }
bad() { failed=$((failed + 1)); echo "BAD: $*"; }
# holds WORDS COMMAND..: whether the command, quietly, ends with status 0.
holds() {
    local words=$1
    shift
    if "$@" > /dev/null 2>&1; then good "$words"; else bad "$words"; fi
}
# comes WORDS SECONDS COMMAND..: whether the command ends with status 0 within so many seconds.
comes() {
    local words=$1 end=$((SECONDS + $2))
    shift 2
    until "$@" > /dev/null 2>&1; do
        if [ $SECONDS -ge $end ]; then bad "$words"; return; fi
        sleep 0.3
    done
    good "$words"
}
token=operators-secret-1
digest=$(printf %s $token | sha256sum | cut -c1-64)
read -r discover boot http < <(python3 -c '
import socket
kept = [socket.socket(socket.AF_INET, kind) for kind in (socket.SOCK_DGRAM, socket.SOCK_DGRAM, socket.SOCK_STREAM)]
for s in kept: s.bind(("127.0.0.1", 0))
print(*(s.getsockname()[1] for s in kept))')
sockets=(--discover "127.0.0.1:$discover" --boot "127.0.0.1:$boot" --http "127.0.0.1:$http")

init() { "$HALLBOOT" init --db "$1" --admin ada --digest "$digest" > /dev/null; }
# serve DB OPTION..: serves it in the background, with its messages in the file errors.
serve() {
    local db=$1
    shift
    : > ready
    "$HALLBOOT" serve --db "$db" "${sockets[@]}" --turns 1000000000000 "$@" > ready 2> errors & server=$!
    for ((i = 0; i < 600; i++)); do
        if grep -q 'hall desk ready' ready || ! kill -0 $server 2> /dev/null; then return; fi
        sleep 0.1
    done
}
stop() {
    kill -TERM "$server" 2> /dev/null || true
    wait "$server" 2> /dev/null || true
    server=
}
# ends SECONDS: whether the service ends by itself; its exit status is in the variable status.
ends() {
    local tenths=$(($1 * 10))
    for ((i = 0; i < tenths; i++)); do
        if ! kill -0 "$server" 2> /dev/null; then
            status=0
            wait "$server" || status=$?
            server=
            return 0
        fi
        sleep 0.1
    done
    return 1
}
# command NAME: adds a pool by that name, and prints the status that is answered.
command() {
    curl --silent --max-time 5 --output /dev/null --write-out '%{http_code}' -H "Authorization: Bearer $token" \
        --data "{\"key\":\"$(cat /proc/sys/kernel/random/uuid)\",\"command\":\"add_pool\",\"pool\":\"$1\"}" "http://127.0.0.1:$http/commands" || true
}
# pools DB: the pools of a hall that isn't served.
pools() { python3 -c '
import sqlite3, sys
print(" ".join(row[0] for row in sqlite3.connect(f"file:{sys.argv[1]}?mode=ro", uri=True).execute("SELECT name FROM pools ORDER BY name")))' "$1"; }
mode() { stat -c %a "$1"; }

# ---- init
( umask 022; init new.db )
holds 'a new hall is for its owner alone' [ "$(mode new.db)" = 600 ]
python3 - new.db cut.db <<'PYTHON'
import sys
octets = bytearray(open(sys.argv[1], "rb").read()[:4096])
octets[0] = 0
open(sys.argv[2], "wb").write(octets)
open(sys.argv[2] + "-wal", "wb").write(bytes(41))
PYTHON
holds 'a file whose making was cut off is made anew' init cut.db
holds '.. and has a hall' "$HALLBOOT" report --db cut.db
printf 'a log of another hall' > alone.db-wal
status=0
"$HALLBOOT" init --db alone.db --admin ada --digest "$digest" > out 2> errors || status=$?
holds 'a log that stands alone is no place for a new hall' [ "$status" = 1 ]
holds '.. and stays' grep -q 'a log of another hall' alone.db-wal

# cut HOW N WORD..: hallboot with these words, whose Nth call that syncs or renames fails (error=EIO) or ends it (signal=KILL).
cut() {
    local how=$1 number=$2
    shift 2
    (timeout 60 strace -f -o calls -e trace=fsync,fdatasync,rename,renameat,renameat2 \
        -e "inject=fsync,fdatasync,rename,renameat,renameat2:$how:when=$number" "$HALLBOOT" "$@" || true) > /dev/null 2>&1
    sleep 1    # names of files have the second
}
has_strace=
if type -P strace > /dev/null; then has_strace=yes; else echo 'left out: what is cut off at each of its calls (wants strace)'; fi
if [ -n "$has_strace" ]; then
    for how in error=EIO signal=KILL; do
        kept=0
        for number in $(seq 14); do
            rm -rf cut && mkdir cut
            cut $how "$number" init --db cut/hall.db --admin ada --digest "$digest"
            init cut/hall.db 2> /dev/null || true
            if "$HALLBOOT" report --db cut/hall.db > /dev/null 2>&1; then kept=$((kept + 1)); fi
        done
        holds "after each init that was cut off by $how, init has made a hall" [ $kept = 14 ]
    done
fi

# ---- paths that lead to one file
init hall.db
ln -s hall.db link.db
ln hall.db twin.db
clash() {
    local words=$1 before
    shift
    before=$(cat hall.db | sha256sum)
    status=0
    timeout 20 "$HALLBOOT" "$@" --why > out 2> errors < /dev/null || status=$?
    if [ "$status" = 1 ] && grep -qx 'hallboot: BadInput' errors && grep -q 'must be another file' errors && [ "$before" = "$(cat hall.db | sha256sum)" ]; then
        good "$words"
    else
        bad "$words: status $status, $(tail -n 1 errors)"
    fi
}
clash '--backup onto the hall itself' serve --db hall.db "${sockets[@]}" --turns 3 --backup ./hall.db
clash '--backup onto its log' serve --db hall.db "${sockets[@]}" --turns 3 --backup hall.db-wal
clash '--backup through a link' serve --db hall.db "${sockets[@]}" --turns 3 --backup link.db
clash '--backup beside another name of the file' serve --db hall.db "${sockets[@]}" --turns 3 --backup twin.db
rm twin.db
cp hall.db copy.new
clash '--backup whose new copy is the hall' serve --db copy.new "${sockets[@]}" --turns 3 --backup copy
holds '.. which is still there' "$HALLBOOT" report --db copy.new
clash '--log onto the hall' serve --db hall.db "${sockets[@]}" --turns 3 --log hall.db
ln -s hall.db-journal journal
clash '--log through a link to what is not there' serve --db hall.db "${sockets[@]}" --turns 3 --log journal
clash '--log onto the copy' serve --db hall.db "${sockets[@]}" --turns 3 --log copies.db.new --backup copies.db
clash 'an import of the hall itself' import --db hall.db --token abc --at 1 link.db
clash 'a copy onto the log' backup --db hall.db --to hall.db-wal
clash 'a restored copy that is the hall' restore --db hall.db --from link.db

# ---- copies while it is served: at rest it looks after eight turns, each of which waits a second
has_pools() { cp "$1" seen.db && [ "$(pools seen.db)" = "$2" ]; }
mkdir -p copies
init served.db
serve served.db --backup copies/hall.db --backup-every 1
holds 'a command is answered' [ "$(command one)" = 200 ]
comes 'it is copied' 30 has_pools copies/hall.db 'default one'
printf 'stale' > copies/hall.db-wal
printf 'stale' > copies/hall.db-shm
holds 'another one is answered' [ "$(command two)" = 200 ]
comes 'no log stays beside a copy' 30 test ! -e copies/hall.db-wal
comes 'the copy has what was answered' 30 has_pools copies/hall.db 'default one two'
holds 'the copy is for its owner alone' [ "$(mode copies/hall.db)" = 600 ]
stop
serve served.db --backup first.db --backup-every 4000000
comes 'a service has a copy after a minute' 90 test -s first.db
stop
ln -s served.db through.db
serve through.db --backup linked.db --backup-every 1
holds 'a hall that is served through a link' [ "$(command three)" = 200 ]
comes '.. is copied with its log' 30 has_pools linked.db 'default one three two'
stop

# ---- backup and restore
"$HALLBOOT" backup --db served.db --to by_hand.db > out 2> errors || true
holds 'backup says what it copied' grep -q '^copied served.db to by_hand.db, [0-9]* octets: 0 machines; last numbers: machine 0, boot 0, order 0$' out
holds '.. which has all pools' [ "$(pools by_hand.db)" = 'default one three two' ]
serve served.db
holds 'more comes' [ "$(command four)" = 200 ]
holds 'a hall that is served is not copied by a second program' bash -c '! "$0" backup --db served.db --to other.db' "$HALLBOOT"
holds '.. nor replaced' bash -c '! "$0" restore --db served.db --from by_hand.db' "$HALLBOOT"
holds '.. and answers on' [ "$(command five)" = 200 ]
kill -KILL "$server"; wait "$server" 2> /dev/null || true; server=
holds 'a log was left' [ -s served.db-wal ]
rm served.db    # the disk lost the file, and not its log
"$HALLBOOT" restore --db served.db --from by_hand.db > out 2> errors || true
holds 'restore says what it did' grep -q '^restored served.db from by_hand.db of 20..-..-..T..:..:..Z: 0 machines; last numbers: machine 0, boot 0, order 0$' out
holds '.. and where the log is kept' bash -c 'aside=$(sed -n "s/^what was there is kept as //p" out); [ -n "$aside" ] && [ -s "$aside-wal" ]'
holds 'the hall is the copy and nothing else' [ "$(pools served.db)" = 'default one three two' ]
holds '.. and can be opened' "$HALLBOOT" report --db served.db
holds 'the copy stays' [ "$(pools by_hand.db)" = 'default one three two' ]
head -c 50000 by_hand.db > half.db
before=$(sha256sum < served.db)
holds 'half a copy is refused' bash -c '! "$0" restore --db served.db --from half.db' "$HALLBOOT"
holds '.. and so is what is no hall' bash -c 'echo text > text.db; ! "$0" restore --db served.db --from text.db' "$HALLBOOT"
holds '.. and what is not there' bash -c '! "$0" restore --db served.db --from absent.db' "$HALLBOOT"
holds '.. and changes nothing' [ "$before" = "$(sha256sum < served.db)" ]
holds '.. and leaves nothing behind' bash -c '! ls | grep -q "restored-"'
sleep 1
"$HALLBOOT" restore --db served.db --from by_hand.db > out 2> errors || true
holds 'a hall that is replaced is kept under its own name' bash -c 'aside=$(sed -n "s/^what was there is kept as //p" out); "$0" report --db "$aside"' "$HALLBOOT"

if [ -n "$has_strace" ]; then
    kept=0 mixed=0
    for number in $(seq 16); do
        rm -rf cut && mkdir cut
        "$HALLBOOT" backup --db served.db --to cut/hall.db > /dev/null
        serve cut/hall.db
        [ "$(command other)" = 200 ] || bad 'a command is answered'
        kill -KILL "$server"; wait "$server" 2> /dev/null || true; server=
        cut signal=KILL "$number" restore --db cut/hall.db --from by_hand.db
        cp -r cut seen
        if "$HALLBOOT" report --db seen/hall.db > /dev/null 2>&1; then
            case "$(pools seen/hall.db)" in 'default one three two' | 'default one other three two') ;; *) mixed=$((mixed + 1)) ;; esac
        fi
        rm -rf seen
        "$HALLBOOT" restore --db cut/hall.db --from by_hand.db > /dev/null 2>&1 || true
        if [ "$(pools cut/hall.db)" = 'default one three two' ]; then kept=$((kept + 1)); fi
    done
    holds 'a restore that is cut off at any call leaves the hall, the copy, or nothing that can be opened' [ $mixed = 0 ]
    holds '.. and is done by the next one' [ $kept = 16 ]
fi

# ---- a file that is lost, cut or replaced while it is served
gone() {
    local words=$1
    if ends 20 && [ "$status" = 1 ] && grep -q "isn't the hall's file any more" errors; then good "$words"; else bad "$words"; stop; fi
}
for what in 'rm lost.db-wal' 'truncate -s 0 lost.db-wal' 'truncate -s 0 lost.db' 'truncate -s 8192 lost.db' 'mv lost.db moved.db' 'cp by_hand.db other.db; mv other.db lost.db'; do
    rm -f lost.db*
    init lost.db
    serve lost.db
    [ "$(command one)" = 200 ] || bad 'a command is answered'
    bash -c "$what"
    gone "the service ends after: $what"
done

# ---- another hall after a fault: a sync of a command fails, which shuts the store, and the file is replaced before it is opened again
if [ -n "$has_strace" ]; then
    syncs() { grep -c fdatasync calls || true; }
    rm -f lost.db*
    init lost.db
    HALLBOOT_IS=$HALLBOOT
    HALLBOOT=traced
    traced() { exec strace -D -f -o calls -e trace=fdatasync "${inject[@]}" "$HALLBOOT_IS" "$@"; }
    inject=()
    serve lost.db
    first=$(($(syncs) + 1))
    stop
    inject=(-e "inject=fdatasync:error=EIO:when=$first")
    serve lost.db
    answered=$(command one)
    cp by_hand.db other.db
    mv other.db lost.db
    holds 'a command whose sync fails is not answered' [ "$answered" = 503 ]
    gone 'a hall that was put in the place of one with a fault is not served'
    HALLBOOT=$HALLBOOT_IS
fi

# ---- objects at standard error
objects() { python3 -c '
import json, sys
for line in open("errors"): json.loads(line)'; }
rm -f lost.db*
init lost.db
chmod 644 lost.db
serve lost.db --log - --log-format json
[ "$(command one)" = 200 ] || bad 'a command is answered'
rm lost.db
if ends 20; then good 'a service with a log of objects ends'; else bad 'a service with a log of objects ends'; stop; fi
holds '.. and each line at standard error is one' objects
holds '.. that it is ready' grep -q '"event.action":"ready"' errors
holds '.. and by which fault it ended' grep -q '"event.action":"fault","error.code":"Unavailable"' errors

# ---- rights, descriptors, memory
init rights.db
"$HALLBOOT" report --db rights.db > /dev/null
chmod 644 rights.db-wal 2> /dev/null || { : > rights.db-wal; chmod 644 rights.db-wal; }
serve rights.db
holds 'a log that others can read is named' grep -q 'others can use .*rights.db-wal' errors
stop
for few in 9 10 11 12 13 14 15 16 17 18; do
    hard=$(ulimit -Sn)
    ulimit -Sn $few
    serve rights.db --log rights.log
    ulimit -Sn "$hard"
    if grep -q ready ready; then
        holds "with $few descriptors it serves" [ "$(command "pool$few")" = 200 ]
    else
        holds "with $few descriptors it says so before it is ready" grep -q -E 'hallboot: (Io|Bind|Unavailable)' errors
    fi
    stop
done
serve rights.db
holds 'the stack is there before it is ready' [ "$(awk '/^VmStk/ { print $2 }' "/proc/$server/status")" -ge 512 ]
prlimit --pid "$server" --as="$(awk '/^VmSize/ { print $2 * 1024 }' "/proc/$server/status")"
for ((i = 0; i < 5; i++)); do command "limit$i" > /dev/null; done
holds 'commands end nothing where it may have no more address space' kill -0 "$server"
stop

echo "bad_night: $count good, $failed bad"
[ "$failed" = 0 ]
