#!/usr/bin/env bash
# The packages of make_deb.sh in a Debian of their own (debootstrap's): installed; a hall is made and served as the unit says; the package is
# upgraded over it and the hall is as it was; purged, after which halls, copies and logs are left, and empty folders are not. systemd-analyze and lintian look at unit and packages
# where they are there. It takes some minutes, and wants root, debootstrap, setpriv, curl and what make_deb.sh wants.
# Usage: tools/deb_trial.sh     HALLBOOT=PROGRAM, HALLCTL=PROGRAM and HALLVIEW=PROGRAM name programs that are built already, DEBIAN=FOLDER a Debian to copy.
set -euo pipefail
here=$(cd "$(dirname "$0")" && pwd)
[ "$(id -u)" = 0 ] || { echo 'deb_trial: only root can make a Debian' >&2; exit 1; }
for word in debootstrap setpriv curl; do
    command -v "$word" > /dev/null || { echo "deb_trial: $word is missing" >&2; exit 1; }
done
. "$here/program.sh"
. "$here/checks.sh"
program hallboot
program hallctl
program hallview
export HALLBOOT HALLCTL HALLVIEW
work=$(mktemp -d)
served=
ended() {
    [ -z "$served" ] || kill "$served" 2> /dev/null || true
    rm -rf --one-file-system "$work"
}
trap ended EXIT
root=$work/debian
if [ -n "${DEBIAN:-}" ]; then cp -a "$DEBIAN" "$root"; else debootstrap --variant=minbase --include=adduser,python3,systemd bookworm "$root" > "$work/said"; fi
holds() {    # holds WHAT WORD..: the command ends with status 0
    local what=$1
    shift
    if "$@" > "$work/out" 2>&1; then
        good
        echo "good: $what"
    else
        cat "$work/out" >&2
        bad "$what"
    fi
}
inside() { chroot "$root" env PATH=/usr/sbin:/usr/bin:/sbin:/bin DEBIAN_FRONTEND=noninteractive LC_ALL=C "$@"; }

"$here/make_deb.sh" "$work/debs" > "$work/said" 2>&1 || { cat "$work/said"; exit 1; }
holds 'four packages, with which lintian finds no error' [ "$(ls "$work/debs" | wc -l)" = 4 ]
mkdir "$root/debs"
cp "$work/debs"/*.deb "$root/debs/"
holds 'they can be installed' inside sh -c 'dpkg --install /debs/hall*.deb'
holds 'the man pages are there' [ "$(ls "$root"/usr/share/man/man[18]/hall* | wc -l)" = 6 ]
holds 'hall-power without settings says which file it wants' [ "$(inside hall-power --once 2>&1 || true)" = 'hall-power: /etc/hall-power/hall-power.toml: No such file or directory' ]
if command -v systemd-analyze > /dev/null; then
    for unit in hallboot hallview hall-power; do
        holds "systemd takes the unit of $unit" systemd-analyze verify --man=no --root="$root" "/lib/systemd/system/$unit.service"
    done
fi

# ---- a hall, served as the unit says
read -r discover boot http < <(python3 -c '
import socket
kept = [socket.socket(socket.AF_INET, kind) for kind in (socket.SOCK_DGRAM, socket.SOCK_DGRAM, socket.SOCK_STREAM)]
for s in kept: s.bind(("127.0.0.1", 0))
print(*(s.getsockname()[1] for s in kept))')
sed -i -E "s/^DISCOVER=.*/DISCOVER=127.0.0.1:$discover/; s/^BOOT=.*/BOOT=127.0.0.1:$boot/; s/^HTTP=.*/HTTP=127.0.0.1:$http/; s/^(SERVER|NEXT)=.*/\\1=127.0.0.1/; s/^HOST=.*/HOST=127.0.0.1:$http/" \
    "$root/etc/default/hallboot"
digest=$(printf %s secret | sha256sum | cut -c1-64)
as_hallboot() { inside setpriv --reuid=hallboot --regid=hallboot --clear-groups sh -c "umask 077; cd /var/lib/hallboot; $1"; }
holds 'a hall is made by the service its user' as_hallboot "hallboot init --db hall.db --admin ada --digest $digest"
start() {
    local line
    line=$(sed -nE 's/^ExecStart=(.*)/\1/p' "$root/lib/systemd/system/hallboot.service")
    : > "$work/ready"
    as_hallboot "set -a; . /etc/default/hallboot; exec $line" > "$work/ready" 2> "$work/log" &
    served=$!
    for _ in $(seq 100); do ! grep -q 'hall desk ready' "$work/ready" || return 0; sleep 0.1; done
    cat "$work/log"
    return 1
}
stop() { pkill -f "hallboot serve --db hall.db --discover 127.0.0.1:$discover" || true; wait "$served" 2> /dev/null || true; served=; }
machines() { curl --silent --max-time 10 -H 'Authorization: Bearer secret' "http://127.0.0.1:$http/machines"; }
holds 'it serves as the unit says' start
printf 'secret\n' > "$root/root/token"
holds 'hallctl adds a pool' inside hallctl --desk "http://127.0.0.1:$http" --token-file /root/token add-pool lab
holds 'and a machine' inside hallctl --desk "http://127.0.0.1:$http" --token-file /root/token add-machine --mac 52:54:00:12:34:56 --arch uefi64 --pool lab
printf '[lab]\ndesk = "http://127.0.0.1:%s"\ntoken_file = "/root/token"\n' "$http" > "$root/root/halls.toml"
view=$(python3 -c 'import socket; s = socket.socket(); s.bind(("127.0.0.1", 0)); print(s.getsockname()[1])')
inside hallview --config /root/halls.toml --listen "127.0.0.1:$view" --every 1 > "$work/view" 2>&1 &
for _ in $(seq 50); do curl -sS --max-time 5 "http://127.0.0.1:$view/state.json" 2> /dev/null | grep -q 52:54:00:12:34:56 && break; sleep 0.2; done
holds 'hallview shows it' grep -q '<td>52:54:00:12:34:56</td>' <(curl -sS --max-time 5 "http://127.0.0.1:$view/")
pkill -f "hallview --config /root/halls.toml --listen 127.0.0.1:$view" || true
python3 - "$discover" << 'PYTHON'
import socket, sys
options = bytes.fromhex("63825363 350101 3c20") + b"PXEClient:Arch:00007:UNDI:003000" + bytes.fromhex("5d020007 ff")
discover = (bytes.fromhex("010106000000000100000000") + bytes(16) + bytes.fromhex("525400123499") + bytes(202) + options).ljust(300, bytes(1))
socket.socket(socket.AF_INET, socket.SOCK_DGRAM).sendto(discover, ("127.0.0.1", int(sys.argv[1])))
PYTHON
unknown='discover DISCOVER 52:54:00:12:34:99 uefi64: silence, unknown, and no client is enlisted$'
for _ in $(seq 100); do ! grep -q "$unknown" "$work/log" || break; sleep 0.1; done
holds 'by the packaged settings a machine that nobody added gets silence' grep -q "$unknown" "$work/log"
holds 'the log is in UTC' grep -qE '^20..-..-..T..:..:..Z .* POST /commands add_pool lab by ada: 200' "$work/log"
before=$(machines)
stop

# ---- upgraded, and purged
VERSION_END=.1 "$here/make_deb.sh" "$work/next" > "$work/said" 2>&1
cp "$work/next"/hallboot_*.deb "$root/debs/next.deb"
holds 'the package is upgraded over the hall' inside dpkg --install /debs/next.deb
holds 'settings stay as they were' grep -q "^HTTP=127.0.0.1:$http\$" "$root/etc/default/hallboot"
holds 'it serves the hall again' start
holds 'which is as it was' [ "$(machines)" = "$before" ]
stop
as_hallboot 'touch hall.db.replaced-1 /var/log/hallboot/desk.log'
holds 'it is purged' inside dpkg --purge hallboot hallctl hallview hall-power
cp "$work/out" "$work/purged"
for folder in lib log; do holds "it is said why /var/$folder/hallboot stays" grep -q "^hallboot: /var/$folder/hallboot stays (Directory not empty)" "$work/purged"; done
holds 'hall, replaced hall and log stay' [ "$(inside sh -c 'cd /var; ls lib/hallboot/hall.db lib/hallboot/hall.db.replaced-1 log/hallboot/desk.log' | wc -l)" = 3 ]
holds 'an empty folder goes' [ ! -e "$root/var/backups/hallboot" ]
left=$(find "$root/etc" "$root/usr" "$root/lib/systemd" -name '*hallboot*' -o -name 'hallctl*' -o -name 'hallview*' -o -name 'hall-power*' -o -name 'hall-lists*' -o -name 'hall-moved*')
[ -z "$left" ] || bad "nothing else stays: $left"
good
inside sh -c 'mv /var/lib/hallboot /srv/hall; ln -s /srv/hall /var/lib/hallboot'
holds 'it is installed where the hall is behind a link' inside dpkg --install /debs/next.deb
holds 'and purged' inside dpkg --purge hallboot
holds 'the link stays, and the hall behind it' [ -L "$root/var/lib/hallboot" -a -s "$root/srv/hall/hall.db" ]
all_good 'the packages in a Debian of their own'
