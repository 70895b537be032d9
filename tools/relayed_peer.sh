#!/usr/bin/env bash
# dhcrelay passes an OFFER of the desk on to a client without an address in another network namespace, and tshark, where it is
# there, decodes what came. It is root's, and makes namespaces of its own.
# Usage: tools/relayed_peer.sh     HALLBOOT=PROGRAM names a program that is built already.
set -euo pipefail
here=$(cd "$(dirname "$0")" && pwd)
need() { type -P "$1" > /dev/null || { echo "relayed_peer: $1 is missing (Debian's package $2)" >&2; exit 1; }; }
if [ $$ != 1 ]; then    # not yet the first process of a namespace
    need python3 python3; need ip iproute2; need unshare util-linux; need nsenter util-linux; need dhcrelay isc-dhcp-relay
    [ "$(id -u)" = 0 ] || { echo 'relayed_peer: only root can make network namespaces' >&2; exit 1; }
    . "$here/program.sh"
    program hallboot
    exec unshare --net --pid --fork --kill-child --mount-proc "$here/relayed_peer.sh"
fi
work=$(mktemp -d)
trap 'rm -rf "$work"' EXIT    # all processes of the namespace end with this one
cd "$work"
good() { echo "good: $*"; }
bad() { echo "BAD: $*" >&2; exit 1; }

# desk 10.8.0.1 -- 10.8.0.2 relay 10.8.1.1 -- client without an address
unshare --net sleep infinity & relay=$!
unshare --net sleep infinity & client=$!
own() { readlink "/proc/$1/ns/net"; }
for ((i = 0; i < 600; i++)); do
    if [ "$(own $relay)" != "$(own self)" ] && [ "$(own $client)" != "$(own self)" ]; then break; fi
    sleep 0.1
done
in_relay() { nsenter --target "$relay" --net "$@"; }
in_client() { nsenter --target "$client" --net "$@"; }
ip link set lo up
ip link add desk type veth peer name upper
ip link set upper netns "$relay"
ip address add 10.8.0.1/24 dev desk
ip link set desk up
ip route add 10.8.1.0/24 via 10.8.0.2
in_relay ip link add lower type veth peer name card
in_relay ip link set card netns "$client"
in_relay ip link set lo up
in_relay ip address add 10.8.0.2/24 dev upper
in_relay ip address add 10.8.1.1/24 dev lower
in_relay ip link set upper up
in_relay ip link set lower up
in_client ip link set card address 52:54:00:12:34:99
in_client ip link set card up

"$HALLBOOT" init --db hall.db --admin ada --digest ba7816bf8f01cfea414140de5dae2223b00361a396177a9cb410ff61f20015ad > init.log
"$HALLBOOT" serve --db hall.db --discover 10.8.0.1:67 --boot 10.8.0.1:4011 --http 10.8.0.1:80 --turns 1000000000000 \
    --server 10.8.0.1 --next 10.8.0.2 --host 10.8.0.1 > serve.log &
for ((i = 0; i < 600; i++)); do
    if grep -q 'hall desk ready' serve.log; then break; fi
    sleep 0.1
done
grep -q 'hall desk ready' serve.log || bad 'the desk is ready within a minute'

# dhcrelay without -D: the desk doesn't echo relay agent information.
in_relay dhcrelay -4 -d -a --no-pid -i lower -i upper 10.8.0.1 2> relay.log &
sleep 1
in_client python3 "$here/peers.py" relayed card relayed.pcap || { cat relay.log >&2; bad 'dhcrelay -a passes the OFFER on'; }
good 'dhcrelay -a: the OFFER came to a client in another network namespace'

command -v tshark > /dev/null || { echo 'not tried: tshark is missing (tshark)'; exit 0; }
fields=$(timeout 60 tshark -r relayed.pcap -T fields -E separator=/s -e dhcp.option.dhcp -e dhcp.file -e dhcp.ip.server 2> tshark.log)
[ "$fields" = '2 ipxe-x86_64.efi 10.8.0.2' ] || bad "tshark: $fields"
marks=$(timeout 60 tshark -r relayed.pcap -Y '_ws.malformed || _ws.expert.severity >= 6291456' 2> tshark.log)
[ -z "$marks" ] || bad "tshark: $marks"
good 'tshark: the OFFER, no mark of a malformed field'
