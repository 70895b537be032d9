#!/usr/bin/env bash
# Each subcommand of hallboot but serve, with its exit status, its output and its message, against answers that were written
# out by hand. tools/real_peers.sh does serve. Usage: tools/program_rows.sh     HALLBOOT=PROGRAM names a program that is built already.
set -euo pipefail
here=$(cd "$(dirname "$0")" && pwd)
. "$here/program.sh"
. "$here/checks.sh"
program hallboot
crate=$here/../crates/hallboot
work=$(mktemp -d)
trap 'rm -rf "$work"' EXIT
cd "$work"

# run WORD..: hallboot with these words, on the file in, to the files out and err; its exit status is in the variable status.
run() {
    status=0
    "$HALLBOOT" "$@" < in > out 2> err || status=$?
}
# want STATUS OUTPUT MESSAGE WORD..: an ending line feed of output and message isn't compared.
want() {
    local wanted=$1 output=$2 message=$3
    shift 3
    run "$@"
    [ "$status" = "$wanted" ] || bad "status $status, not $wanted: $* $(cat err)"
    [ "$(cat out)" = "$output" ] || { cat out >&2; bad "output: $*"; }
    [ "$(cat err)" = "$message" ] || { cat err >&2; bad "message: $*"; }
    good
}
fault() { want 1 '' "hallboot: $1" "${@:2}"; }
# usage WORD..: wrong usage ends with status 2, prints nothing on standard output, and says why on standard error.
usage() {
    run "$@"
    [ "$status" = 2 ] && [ ! -s out ] && [ -s err ] || bad "usage: $* (status $status)"
    good
}
absent() { [ ! -e "$1" ] || bad "$1 was made"; }
zeros() { printf '00%.0s' $(seq "$1"); }
: > in

# Frames. The options end a message of 236 octets and the cookie.
id=61110000112233445566778899aabbccddeeff
head=0101060011223344000080
message() {   # message CIADDR SNAME FILE
    printf '%s' "${head}00${1}$(zeros 12)525400123456$(zeros 10)${2}${3}63825363"
}
options=3c20505845436c69656e743a417263683a30303030373a554e44493a3030333031365d0200075e03010310$id
discover=$(message "$(zeros 4)" "$(zeros 64)" "$(zeros 128)")350101$options
ask=$(message c000020a "$(zeros 64)" "$(zeros 128)")350103${options}2b07470400000000ffff
reply() {   # reply CIADDR NEXT FILE-IN-HEXADECIMAL OPTIONS: zeros follow to 300 octets
    local text
    text=020106001122334400008000${1}$(zeros 4)${2}$(zeros 4)525400123456$(zeros 10)$(zeros 64)${3}$(zeros $((128 - ${#3} / 2)))63825363${4}
    printf '%s%s' "$text" "$(zeros $((300 - ${#text} / 2)))"
}
loader=$(printf ipxe-x86_64.efi | od -An -v -tx1 | tr -d ' \n')
script=$(printf http://hall.example/ipxe/52:54:00:12:34:56 | od -An -v -tx1 | tr -d ' \n')
offer=3501023604c00002013c09505845436c69656e74
ack=3501053604c00002013c09505845436c69656e74
listed() { printf '52:54:00:12:34:56\n\n%s\n' "$1" > in; }

cp "$crate/stdin" in
want 0 "$(cat "$crate/stdout")" ''
want 0 "$(cat "$crate/stdout")" '' frame
listed "${discover}ff"
want 0 "$(reply "$(zeros 4)" c0000202 "$loader" "${offer}${id}2b04060108ffff")" ''
want 0 "$(reply "$(zeros 4)" 0a000006 "$loader" "35010236040a0000053c09505845436c69656e74${id}2b04060108ffff")" '' \
    frame --server 10.0.0.5 --next 10.0.0.6 --host desk.hall.example
for ipxe in 4d0469505845 4d050469505845; do
    listed "${discover}${ipxe}ff"
    want 0 "$(reply "$(zeros 4)" c0000202 "$script" "${offer}${id}2b04060108ffff")" '' frame
done
listed "$(message "$(zeros 4)" "5d0107ff$(zeros 60)" "5d0100ff$(zeros 124)")3501013401033c09505845436c69656e74"
want 0 "$(reply "$(zeros 4)" c0000202 "$loader" "${offer}2b04060108ffff")" '' frame --role discover
listed "$ask"
want 0 "$(reply c000020a c0000202 "$loader" "${ack}${id}2b0a060108470400000000ffff")" '' frame --role boot
want 3 '' '' frame
printf '\n%s\n' "${discover}ff" > in
want 3 '' '' frame
printf '\n\n' > in
want 3 '' '' frame
printf '\n' > in
fault BadInput frame
printf '52:54:00:12:34\n\n00\n' > in
fault BadInput frame
listed "${discover}ff"
fault BadInput frame --role none
fault BadInput frame --server 192.0.2
fault BadInput frame --next 192.0.2.256
fault BadInput frame --host ''
fault BadInput frame --host hall_example
usage frame --port 67
usage frame extra
usage nothing
status=0
"$HALLBOOT" frame < in > /dev/full 2> err || status=$?
[ "$status" = 1 ] && [ "$(cat err)" = 'hallboot: Io' ] || bad 'a reply that cannot be written is Io'
: > in

# A new hall.
ada=ba7816bf8f01cfea414140de5dae2223b00361a396177a9cb410ff61f20015ad
usage init --db hall.db --admin ada
usage init --admin ada --digest $ada
fault BadInput init --db hall.db --admin Ada --digest $ada
fault BadInput init --db hall.db --admin ada --digest "${ada}0"
fault BadInput init --db hall.db --admin ada --digest "${ada%?}g"
absent hall.db
want 0 'hall created' '' init --db hall.db --admin ada --digest $ada
fault NotEmpty init --db hall.db --admin ada --digest $ada
want 0 'hall created' '' init --db capitals.db --admin ada --digest "$(echo $ada | tr a-f A-F)"
: > empty.db
fault NotAHall report --db empty.db
fault NotAHall report --db absent.db
echo 'no tables at all' > text.db
run report --db text.db
[ "$status" = 1 ] || bad 'a file of text is no hall'
fault NotAHall report --db nowhere/hall.db
absent absent.db

# Requests. The last answer is in the file out.
fresh=000102030405060708090a0b0c0d0e0f
key=0
send() { run request --db hall.db --at "$1" --fresh $fresh; }
answered() {   # answered STATUS BODY: of the last response
    [ "$status" = 0 ] || bad "request: status $status $(cat err)"
    [ "$(head -n 1 out | cut -d' ' -f2)" = "$1" ] || { cat out >&2; bad "not $1: $(cat in)"; }
    [ "$(tail -n +6 out)" = "$2" ] || { cat out >&2; bad "not $2"; }
    good
}
get() {   # get MOMENT TARGET [TOKEN]
    printf 'GET %s HTTP/1.1\r\nHost: hall.example\r\n' "$2" > in
    [ $# = 2 ] || printf 'Authorization: Bearer %s\r\n' "$3" >> in
    printf '\r\n' >> in
    send "$1"
}
post() {   # post MOMENT TARGET BODY [TOKEN]
    printf 'POST %s HTTP/1.1\r\nHost: hall.example\r\n' "$2" > in
    [ $# = 3 ] || printf 'Authorization: Bearer %s\r\n' "$4" >> in
    printf 'Content-Length: %d\r\n\r\n%s' ${#3} "$3" >> in
    send "$1"
}
order() {   # order MOMENT TOKEN MEMBERS, with a new key
    key=$((key + 1))
    post "$1" /commands "{\"key\":\"00000000-0000-4000-8000-$(printf %012d $key)\",$3}" "$2"
}
refused() { answered "$1" "{\"refusal\":\"$2\"}"; }

usage request --db hall.db --at 1000
fault BadInput request --db hall.db --at 01 --fresh $fresh
fault BadInput request --db hall.db --at 1000000000001 --fresh $fresh
fault BadInput request --db hall.db --at 1 --fresh ${fresh}0
fault BadInput request --db absent.db --at 1 --fresh $fresh --host _
order 1000 abc '"command":"add_operator","operator":"olga","role":"user","digest":"2cf24dba5fb0a30e26e83b2ac5b9e29e1b161e5c1fa7425e73043362938b9824"'
answered 200 '{}'
[ "$(cat out)" = "$(printf 'HTTP/1.1 200 OK\r\nContent-Type: application/json\r\nContent-Length: 2\r\nConnection: close\r\n\r\n{}')" ] || bad 'the whole response'
order 1000 abc '"command":"add_operator","operator":"pow","role":"power","digest":"9f86d081884c7d659a2feaa0c55ad015a3bf4f1b2b0b822cd15d6c15b0f00a08"'
answered 200 '{}'
cp in again
order 1000 abc '"command":"add_pool","pool":"lab"'
answered 200 '{}'
order 1000 abc '"command":"grant","pool":"lab","operator":"olga"'
answered 200 '{}'
order 1000 abc '"command":"add_image","image":"live64","arch":"uefi64","kernel":"http://files.example/live/vmlinuz","initrd":"http://files.example/live/initrd","args":["quiet"]'
answered 200 '{}'
order 1000 abc '"command":"set_live","image":"live64"'
answered 200 '{}'
order 1000 abc '"command":"add_image","image":"jammy","arch":"uefi64","kernel":"http://files.example/jammy/vmlinuz","initrd":"http://files.example/jammy/initrd","args":[]'
answered 200 '{}'
order 1000 abc '"command":"add_machine","mac":"52:54:00:12:34:56","arch":"uefi64","pool":"lab"'
answered 200 '{"id":1,"status":"New","version":1}'
cp again in
send 1001
answered 200 '{}'

# Reports and the export.
line() { printf '%-32s %-27s %6s\n' "$@"; }
: > in
want 0 "$(line pool status count; line lab New 1; printf '%-60s %6s\n' total 1)" '' report --db hall.db
want 0 "$(line pool status count; line lab New 1; printf '%-60s %6s\n' total 1)" '' report --db hall.db --what hall
want 0 '' '' report --db hall.db --what orders
want 0 $'machine 1\nstatus New\nversion 1\npool lab\narch uefi64\nuuid -\nowner -\nimage -\nerase -\nlocked no\ndeadline -\ninterfaces 52:54:00:12:34:56' '' \
    report --db hall.db --what 1
fault NoMachine report --db hall.db --what 2
fault NoMachine report --db hall.db --what 0
fault NoMachine report --db hall.db --what 1000000000000000
fault BadInput report --db hall.db --what 1000000000000001
fault BadInput report --db hall.db --what 01
fault BadInput report --db hall.db --what Hall
usage report
usage report --db hall.db --db hall.db
names=id,macs,arch,uuid,pool,status,owner,image,locked,version
want 0 "$names"$'\n1,52:54:00:12:34:56,uefi64,,lab,New,,,no,1' '' export --db hall.db
usage export
want 0 already '' migrate --db hall.db
fault NotAHall migrate --db none.db
absent none.db
usage migrate

# Imports.
cp hall.db before.db
row=00000000-0000-4000-8000-0000000000a1,52:54:00:12:34:57,uefi64,,lab
printf 'key,mac,arch,uuid,pool\n%s\n' $row > good.csv
printf 'key,mac,arch,pool\n%s\n' $row > header.csv
printf 'key,mac,arch,uuid,pool\n%s\n%s,more\n' $row $row > row.csv
printf 'key,mac,arch,uuid,pool\n%s\n%s\n' $row 00000000-0000-4000-8000-0000000000a2,52:54:00:12:34:57,uefi64,,lab > taken.csv
usage import --db hall.db --token abc --at 1000
fault BadInput import --db hall.db --token 'a b' --at 1000 good.csv
fault BadInput import --db hall.db --token '' --at 1000 good.csv
fault BadInput import --db hall.db --token abc --at x good.csv
fault Io import --db absent2.db --token abc --at 1000 absent.csv
printf 'abc\nanother line\n' > token
printf 'a b\n' > no-token
usage import --db hall.db --at 1000 good.csv
fault BadInput import --db hall.db --token abc --token-file token --at 1000 good.csv
fault BadInput import --db hall.db --token-file no-token --at 1000 good.csv
fault Io import --db hall.db --token-file absent --at 1000 good.csv
absent absent2.db
fault BadHeader import --db hall.db --token abc --at 1000 header.csv
fault BadRow import --db hall.db --token abc --at 1000 row.csv
fault BadRow import --db hall.db --token abc --at 1000 /dev/zero
want 1 '1 401 {"refusal":"UnknownToken"}' '' import --db hall.db --token nobody --at 1000 good.csv
want 0 '1 200 {"id":2,"status":"New","version":1}' '' import --db hall.db --token abc --at 1000 good.csv
want 0 '1 200 {"id":2,"status":"New","version":1}' '' import --db hall.db --token abc --at 2000 good.csv
want 0 '1 200 {"id":2,"status":"New","version":1}' '' import --db hall.db --token-file token --at 2000 good.csv
want 1 $'1 200 {"id":2,"status":"New","version":1}\n2 409 {"refusal":"Taken"}' '' import --db hall.db --token abc --at 2000 taken.csv
want 0 "$names"$'\n1,52:54:00:12:34:56,uefi64,,lab,New,,,no,1\n2,52:54:00:12:34:57,uefi64,,lab,New,,,no,1' '' export --db hall.db
mv before.db hall.db

# A machine is commissioned, with tests.
order 1000 abc '"command":"commission","machine":1,"tests":true'
answered 200 '{"id":1,"status":"Commissioning","version":2}'
: > in
want 0 '               1                1 cycle' '' report --db hall.db --what orders
get 1010 /ipxe/52:54:00:12:34:56
answered 200 "#!ipxe
kernel http://files.example/live/vmlinuz quiet hall.purpose=commission hall.boot=1 hall.token=$fresh hall.desk=http://hall.example
initrd http://files.example/live/initrd
boot"
post 1010 /report/1/$fresh '{"stage":"started"}'
answered 200 '{"result":"counted"}'
post 1100 /report/1/$fresh '{"stage":"done"}'
answered 200 '{"result":"counted"}'
: > in
want 0 $'machine 1\nstatus Testing\nversion 4\npool lab\narch uefi64\nuuid -\nowner -\nimage -\nerase -\nlocked no\ndeadline 4700\ninterfaces 52:54:00:12:34:56' '' \
    report --db hall.db --what 1
want 0 '               2                1 cycle' '' report --db hall.db --what orders
get 1100 /orders test
answered 200 '{"orders":[{"kind":"cycle","machine":1,"number":2}]}'
get 1100 /machines/1 olga
refused 401 UnknownToken
get 1100 /machines/1 hello
answered 200 '{"arch":"uefi64","boot":null,"deadline":4700,"erase":null,"id":1,"image":null,"interfaces":["52:54:00:12:34:56"],"locked":false,"order":2,"owner":null,"pool":"lab","status":"Testing","uuid":null,"version":4}'

# Refusals of requests: the program's status is 0 all the same.
get 1100 /nowhere
refused 404 NoRoute
printf 'DELETE /machines HTTP/1.1\r\n\r\n' > in
send 1100
refused 405 WrongMethod
printf 'POST /commands HTTP/1.1\r\n\r\n' > in
send 1100
refused 411 NeedLength
printf 'POST /commands HTTP/1.1\r\nContent-Length: 16385\r\n\r\n' > in
send 1100
refused 413 TooLarge
get 1100 /ipxe/zz
refused 400 BadRequest
get 1100 /ipxe/00:00:00:00:00:01
refused 404 NoMachine
get 1100 /machines
refused 401 UnknownToken
get 1100 /machines test
refused 403 RoleNeeded
: > in
send 1100
refused 400 BadRequest
get 1100 /machines abc
status=0
"$HALLBOOT" request --db hall.db --at 1100 --fresh $fresh < in > /dev/full 2> err || status=$?
[ "$status" = 1 ] && [ "$(cat err)" = 'hallboot: Io' ] || bad 'a response that cannot be written is Io'
status=0
"$HALLBOOT" request --db hall.db --at 1100 --fresh $fresh < . > out 2> err || status=$?
[ "$status" = 1 ] && [ ! -s out ] && [ "$(cat err)" = 'hallboot: Io' ] || bad 'a request that cannot be read is Io'

# What serve checks before it opens or binds anything.
: > in
serve() { fault "$1" serve --db absent3.db --discover "$2" --boot "$3" --http "$4" --turns "$5" "${@:6}"; absent absent3.db; }
here4=127.0.0.1:0
usage serve --db absent3.db --discover $here4 --boot $here4 --http $here4
absent absent3.db
serve BadInput 127.0.0.1 $here4 $here4 0
serve BadInput $here4 localhost:1 $here4 0
serve BadInput $here4 $here4 127.0.0.1:65536 0
serve BadInput $here4 $here4 $here4 -
serve BadInput $here4 $here4 $here4 007
serve BadInput $here4 $here4 $here4 0 --host _
chmod 644 hall.db
want 0 'hall desk ready' 'hallboot: others can use hall.db, which has the tokens of boots: chmod 600 hall.db' \
    serve --db hall.db --discover $here4 --boot $here4 --http $here4 --turns 0
chmod 600 hall.db
want 0 'hall desk ready' '' serve --db hall.db --discover $here4 --boot $here4 --http $here4 --turns 0
fault Bind serve --db hall.db --discover 192.0.2.77:0 --boot $here4 --http $here4 --turns 0
fault Io serve --db hall.db --discover $here4 --boot $here4 --http $here4 --turns 0 --log nowhere/log

# What a fault is about, in a second line, where that is asked for. The error of the system has its number.
why() { want 1 '' "hallboot: $1"$'\n'"hallboot: $2" "${@:3}" --why; }
why BadInput "--what 07: hall, orders or a machine's number" report --db hall.db --what 07
why BadInput '--at 007: seconds since 1970 are decimal digits without a leading zero, at most 1000000000000' \
    request --db hall.db --at 007 --fresh 000102030405060708090a0b0c0d0e0f
why BadInput '--boot localhost:1: an address and a port are as in 10.0.0.5:67' serve --db hall.db --discover $here4 --boot localhost:1 --http $here4 --turns 0
why BadInput '--enlist maybe: yes or no' serve --db hall.db --discover $here4 --boot $here4 --http $here4 --turns 0 --enlist maybe
why BadInput '--log-format xml: text or json' serve --db hall.db --discover $here4 --boot $here4 --http $here4 --turns 0 --log-format xml
why BadInput '--token: one of --token and --token-file is given, not both' import --db hall.db --token abc --token-file token --at 1000 in
why Bind '--discover 192.0.2.77:0: Cannot assign requested address (os error 99)' \
    serve --db hall.db --discover 192.0.2.77:0 --boot $here4 --http $here4 --turns 0
why NotAHall 'absent4.db: No such file or directory (os error 2)' report --db absent4.db
why NoMachine '--what 77: the hall has no such machine' report --db hall.db --what 77
echo 'this is a text, and no table' > text.db
why Unavailable "text.db isn't a file of SQLite" report --db text.db
absent text.db-wal
ln hall.db other.db
why Unavailable 'hall.db has 2 names (hard links), and its log stands beside one of them' report --db hall.db
rm other.db
why NotEmpty 'hall.db has a hall already' init --db hall.db --admin ada --digest "$(zeros 32)"
printf 'key,mac,arch,uuid,pool\n00000000-0000-4000-8000-000000000777,52:54:00:77:77:77,uefi64,,default\nbad\n' > bad.csv
why BadRow 'bad.csv: row 2 after the header' import --db hall.db --token secret --at 1000 bad.csv
printf 'key,mac\n' > bad.csv
why BadHeader "bad.csv: its first line isn't key,mac,arch,uuid,pool" import --db hall.db --token secret --at 1000 bad.csv
why Io 'nowhere.csv: No such file or directory (os error 2)' import --db hall.db --token secret --at 1000 nowhere.csv

# Help: each subcommand's has an example.
for name in frame init migrate request serve report import export; do
    run $name --help
    [ "$status" = 0 ] && grep -q "Example: hallboot $name" out || bad "help of $name"
    good
done
run --help
[ "$status" = 0 ] && grep -q serve out || bad help
kit=$(sed -n 's/.*Proved with `\(.*\)`.*/\1/p' "$here/../README.md")
want 0 "hallboot 2, schema 2, $kit" '' --version

# What hallctl says of itself, and which refusals the books have, with their statuses, by the sources.
words=$here/../crates/hallctl_words/src
refusals=$here/../crates/hall_types/src/refusal.rt
grep -qF "\"2, $kit\"" "$words/command_line.rt" || bad "the kit of hallctl --version"
grep -qF "\"2, $kit\"" "$here/../crates/hallview/src/command_line.rt" || bad "the kit of hallview --version"
python3 - "$here/../docs" "$refusals" << 'PYTHON' || bad 'the refusals of docs/TROUBLE.md and docs/REFERENCE.md'
import re, sys
docs, source = sys.argv[1], open(sys.argv[2]).read()
told = set()
for book, heading in ("TROUBLE", "Refusals"), ("REFERENCE", "Refusals of programs"):
    names = []
    for line in open(f"{docs}/{book}.md").read().split(f"\n## {heading}\n")[1].split("\n## ")[0].splitlines():
        for word in re.findall(r"[A-Z]\w+|\d{3}", line.split("|")[1] if line.startswith("| ") else ""):
            if word.isdigit():
                told |= {(name, word) for name in names}
                names = []
            elif word != "Refusal":
                names.append(word)
    assert not names, names
body = source.split("pub fn status(self)")[1].split("/// What it means")[0]
there = {(name, status) for names, status in re.findall(r"((?:Refusal::\w+[\s|]*)+)=> (\d+)", body) for name in re.findall(r"Refusal::(\w+)", names)}
assert len(there) == source.split("pub const ALL")[1].split("];")[0].count("Refusal::") and told == there, told ^ there
PYTHON
good 2
for file in *-journal; do [ ! -e "$file" ] || bad "$file is left"; done
all_good
