#!/usr/bin/env bash
# The service beside dnsmasq as a proxyDHCP server and a bare UDP loop in C, with 10,000 machines in the file: OFFERs one by
# one and with 32 in flight, and the processor's time for one, its share at rest, and the median time of a DISCOVER and the time of 99 of 100 at rest, with 50
# silent connections, and with a flood of commands; and how long a DISCOVER and a script request take beside 64 clients that ask for the
# list of all machines without pause, 99 of 100; and how long a copy of the hall's file holds the desk. Clients are other machines in a
# hall: where 64 of them never pause, the desk has the first processor for itself, and they have the others. COUNT is the number of OFFERs
# in one of five runs. Needs root, for network namespaces of its own, and two processors; run it on a quiet machine.
# Usage: tools/serve_speed.sh [COUNT]     HALLBOOT=PROGRAM names a program that is built already.
set -euo pipefail
here=$(cd "$(dirname "$0")" && pwd)
need() { command -v "$1" > /dev/null || { echo "serve_speed: $1 is missing (Debian's package $2)" >&2; exit 1; }; }
need cc gcc; need dnsmasq dnsmasq-base; need ip iproute2; need unshare util-linux; need nsenter util-linux; need awk mawk
need setpriv util-linux; need taskset util-linux
[ "$(id -u)" = 0 ] || { echo "serve_speed: root is needed for network namespaces" >&2; exit 1; }

if [ "${SERVE_SPEED_INSIDE:-}" != yes ]; then
    . "$here/program.sh"
    program hallboot
    export SERVE_SPEED_INSIDE=yes
    [ "$(nproc)" -ge 2 ] || { echo "serve_speed: two processors are needed" >&2; exit 1; }
    exec unshare --net --pid --fork --kill-child --mount-proc "$here/serve_speed.sh" "$@"
fi

count=${1:-20000}
umask 077    # the hall's file is for its owner alone: the desk would say otherwise
work=$(mktemp -d)
trap 'rm -rf "$work"' EXIT    # all processes of the namespace end with this one
cd "$work"
cc -O2 -Wall -o peer "$here/serve_speed.c"
ended() {   # ended PROCESS: a message of no interest is dropped
    kill "$1" 2> /dev/null || true
    wait "$1" 2> /dev/null || true
}

# The desk is in this namespace at 10.9.0.1, its client in another one at 10.9.0.2.
unshare --net sleep infinity & other=$!
sleep 0.2
ip link set lo up
ip link add desk type veth peer name client
ip link set client netns "$other"
ip address add 10.9.0.1/24 dev desk
ip link set desk up
all=0-$(($(nproc --all) - 1)) others=1-$(($(nproc --all) - 1))
clients=$all    # the processors of clients
outside() { taskset -c "$clients" nsenter --target "$other" --net "$@"; }
outside ip link set lo up
outside ip address add 10.9.0.2/24 dev client
outside ip link set client up

# A virtual machine's idle processors wake up slowly at times: the best of five runs, for each of the three programs alike.
offers() {   # offers COUNT FLIGHT GAP: OFFERs a second, microseconds of the median and of 99 of 100; and the middle one of the five of these
    for run in 1 2 3 4 5; do outside ./peer offers 10.9.0.2 10.9.0.1 67 "$@"; done > offers.log
    echo "$(column 1 -nr 1) $(column 2 -n 1) $(column 3 -n 1) $(column 3 -n 3)"
}
column() { cut -d' ' -f"$1" offers.log | sort "$2" | sed -n "$3p"; }
asks() {   # asks TARGET COUNT GAP: the median and the time of 99 of 100 requests in microseconds
    for run in 1 2 3 4 5; do outside ./peer asks 10.9.0.1 80 "$1" abc "$2" "$3"; done > asks.log
    sort -k1,1n asks.log | head -n 1
}
busy() {   # busy PROCESS FLIGHT: its microseconds of a processor for an OFFER, by its nanoseconds, the least of five runs
    local before after
    for run in 1 2 3 4 5; do
        read -r before _ < "/proc/$1/schedstat"
        outside ./peer offers 10.9.0.2 10.9.0.1 67 "$count" "$2" 0 > busy.log
        read -r after _ < "/proc/$1/schedstat"
        awk -v t=$((after - before)) -v n="$count" 'BEGIN { printf "%.1f\n", t / 1e3 / n }'
    done | sort -n | head -n 1
}
rest='500 1 10000'    # 100 DISCOVERs a second
share() {   # share PROCESS: of one processor, in percent, over twenty seconds, by its nanoseconds: ticks may miss who wakes at them
    local before after
    read -r before _ < "/proc/$1/schedstat"
    sleep 20
    read -r after _ < "/proc/$1/schedstat"
    awk -v t=$((after - before)) 'BEGIN { printf "%.3f\n", t / 2e8 }'
}

./peer echo 10.9.0.1 67 & server=$!
sleep 0.3
read -r echo_one echo_median _ _ < <(offers "$count" 1 0)
read -r echo_many _ < <(offers "$count" 32 0)
read -r _ echo_rest echo_rest99 echo_middle99 < <(offers $rest)
echo_busy=$(busy "$server" 1) echo_busy_many=$(busy "$server" 32)
ended "$server"

for ((i = 0; i < 10000; i++)); do
    printf 'dhcp-host=52:54:00:00:%02x:%02x,set:known\n' $((i / 256)) $((i % 256))
done > hosts.conf
# dnsmasq walks its list of hosts for each DISCOVER, so it is measured without one too: that is what the desk is held against.
dnsmasq_with() {
    dnsmasq --conf-file="$1" --keep-in-foreground --port=0 --user=root --pid-file= --interface=desk --bind-interfaces \
        --dhcp-range=10.9.0.0,proxy,255.255.255.0 --pxe-service=BC_EFI,hall,ipxe-x86_64.efi --dhcp-leasefile="$work/leases" \
        --quiet-dhcp --log-facility="$work/dnsmasq.log" & server=$!
    sleep 1
}
dnsmasq_with hosts.conf
read -r hosts_one _ < <(offers $((count / 10)) 1 0)
ended "$server"
dnsmasq_with /dev/null
read -r dns_one dns_median _ < <(offers "$count" 1 0)
read -r dns_many _ < <(offers "$count" 32 0)
read -r _ dns_rest dns_rest99 dns_middle99 < <(offers $rest)
dns_busy=$(busy "$server" 1) dns_busy_many=$(busy "$server" 32)
dns_share=$(share "$server")
ended "$server"

"$HALLBOOT" init --db hall.db --admin ada --digest ba7816bf8f01cfea414140de5dae2223b00361a396177a9cb410ff61f20015ad > init.log
{
    echo key,mac,arch,uuid,pool
    for ((i = 0; i < 10000; i++)); do
        printf '00000000-0000-4000-8000-%012x,52:54:00:00:%02x:%02x,uefi64,00000000-0000-4000-9000-%012x,default\n' \
            "$i" $((i / 256)) $((i % 256)) "$i"
    done
} > machines.csv
begin=$(date +%s%N)
"$HALLBOOT" import --db hall.db --token abc --at 1000 machines.csv > import.log
commit=$(awk -v t=$(($(date +%s%N) - begin)) 'BEGIN { printf "%.0f", t / 1e3 / 10000 }')
cp hall.db copied.db

"$HALLBOOT" serve --db hall.db --discover 10.9.0.1:67 --boot 10.9.0.1:4011 --http 10.9.0.1:80 --turns 1000000000000 \
    --server 10.9.0.1 --next 10.9.0.1 --host 10.9.0.1 > serve.log & server=$!
for ((i = 0; i < 200; i++)); do
    if grep -q 'hall desk ready' serve.log; then break; fi
    sleep 0.1
done
grep -q 'hall desk ready' serve.log || { echo "serve_speed: the desk isn't ready after 20 seconds" >&2; exit 1; }
desk_share=$(share "$server")
read -r desk_one desk_median _ < <(offers "$count" 1 0)
read -r desk_many _ < <(offers "$count" 32 0)
read -r _ desk_rest desk_rest99 desk_middle99 < <(offers $rest)
desk_busy=$(busy "$server" 1) desk_busy_many=$(busy "$server" 32)
read -r script_rest script_rest99 < <(asks /ipxe/52:54:00:00:00:05 200 20000)
read -r list_rest _ < <(asks /machines 20 100000)
taskset -a -c -p 0 "$server" > affinity.log
clients=$others
outside setpriv --pdeathsig KILL ./peer list 10.9.0.1 80 64 abc & peer=$!
sleep 0.5
read -r _ _ listed99 listed_middle99 < <(offers $rest)
read -r _ script_listed99 < <(asks /ipxe/52:54:00:00:00:05 200 20000)
ended "$peer"
taskset -a -c -p "$all" "$server" > affinity.log
clients=$all
sleep 1
outside setpriv --pdeathsig KILL ./peer hold 10.9.0.1 80 50 & peer=$!
sleep 0.5
read -r _ held_rest held_rest99 held_middle99 < <(offers $rest)
ended "$peer"
outside setpriv --pdeathsig KILL ./peer flood 10.9.0.1 80 8 abc & peer=$!
sleep 0.5
read -r _ flood_rest flood_rest99 flood_middle99 < <(offers $rest)
ended "$peer"
ended "$server"

# A copy of the file, as it was with the 10,000 machines alone, each second, while clients ask on.
"$HALLBOOT" serve --db copied.db --discover 10.9.0.1:67 --boot 10.9.0.1:4011 --http 10.9.0.1:80 --turns 1000000000000 \
    --server 10.9.0.1 --next 10.9.0.1 --host 10.9.0.1 --log copies.log --backup copy.db --backup-every 1 > serve.log & server=$!
for ((i = 0; i < 200; i++)); do
    if grep -q 'hall desk ready' serve.log; then break; fi
    sleep 0.1
done
outside ./peer offers 10.9.0.2 10.9.0.1 67 1000 1 10000 > offers.log
ended "$server"
copied=$(sed -n 's/.* - backup of [0-9]* octets in \([0-9]*\) ms$/\1/p' copies.log | sort -n | tail -n 1)

row() { printf '%-34s %12s %12s %12s\n' "$@"; }
row '' 'bare C loop' dnsmasq desk
row 'OFFERs a second, one by one' "$echo_one" "$dns_one" "$desk_one"
row 'OFFERs a second, 32 in flight' "$echo_many" "$dns_many" "$desk_many"
row 'processor an OFFER, one by one, us' "$echo_busy" "$dns_busy" "$desk_busy"
row 'processor an OFFER, 32 in flight' "$echo_busy_many" "$dns_busy_many" "$desk_busy_many"
row 'median, one by one, us' "$echo_median" "$dns_median" "$desk_median"
row 'median at rest, us' "$echo_rest" "$dns_rest" "$desk_rest"
row '99 of 100 at rest, us' "$echo_rest99" "$dns_rest99" "$desk_rest99"
row 'the same, middle one of five runs' "$echo_middle99" "$dns_middle99" "$desk_middle99"
row 'processor at rest, percent' - "$dns_share" "$desk_share"
row 'median, 50 silent connections, us' - - "$held_rest"
row 'median, flood of commands, us' - - "$flood_rest"
echo "99 of 100 within: $held_rest99 us with silent connections, $flood_rest99 us in the flood; in the middle one of five runs $held_middle99 and $flood_middle99"
echo "a script request: $script_rest us at the median at rest, 99 of 100 within $script_rest99 us; the list of all machines: $list_rest us"
echo "beside 64 clients that list without pause, 99 of 100 within: $listed99 us a DISCOVER (middle one of five runs: $listed_middle99), $script_listed99 us a script request"
echo "dnsmasq with the 10,000 machines as hosts: $hosts_one OFFERs a second, one by one"
echo "a copy of the file holds the desk for $copied ms at most, of $(grep -c 'backup of' copies.log) copies of $(stat -c %s copy.db) octets"
echo "a command of the import, with its durable commit: $commit us"

status=0
want() {   # want VALUE <= BOUND TEXT
    if awk -v a="$1" -v b="$2" 'BEGIN { exit !(a <= b) }'; then echo "good: $3"; else echo "MISSED: $3 ($1, bound $2)"; status=1; fi
}
times() { awk -v a="$1" -v b="$2" 'BEGIN { print a * b }'; }
limit=$(awk -v r="$desk_rest" -v c="$commit" 'BEGIN { print 1.2 * r + c }')
want "$(times 1.3 "$dns_one")" "$desk_one" 'one by one, at least 1.3 times as many as dnsmasq'
want "$(times 2.5 "$dns_many")" "$desk_many" '32 in flight, at least 2.5 times as many as dnsmasq'
want "$desk_rest99" "$(times 2 "$echo_rest99")" '99 of 100 at rest within twice the time of the bare loop'
want "$desk_middle99" "$(times 2 "$echo_middle99")" 'the same in the middle one of five runs'
want "$desk_share" 0.05 'at rest at most 0.05 percent of a processor'
want "$desk_rest" 150 'at rest under 150 microseconds at the median'
want "${copied:-none}" 100 'a copy of the file holds the desk for 100 milliseconds at most'
want "$list_rest" 15000 'the list of 10,000 machines within 15 milliseconds'
for time in "$listed99 $desk_rest99 DISCOVER" "$script_listed99 $script_rest99 script"; do
    read -r beside rest what <<< "$time"
    want "$beside" "$(awk -v r="$rest" -v l="$list_rest" -v c="$commit" 'BEGIN { print r + l + c }')" "beside 64 that list, a $what waits for one list and one commit at most"
done
want "$held_rest" "$limit" 'with 50 silent connections, 1.2 times that and one commit'
want "$flood_rest" "$limit" 'in a flood of commands, 1.2 times that and one commit'
exit "$status"
