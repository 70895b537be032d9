#!/usr/bin/env bash
# TLS in front of operators, as docs/INSTALL.md has it, word by word: nginx before the desk, stunnel and ssh before hallctl. The desk's host and
# the operators' are network namespaces of this run's own; folders that the guide writes to are mounted over. It leaves nothing behind.
# Usage: tools/tls_trial.sh     as root. It wants nginx-light, stunnel4, openssh-server, openssl, curl, iproute2 and python3 of Debian.
# HALLBOOT=PROGRAM and HALLCTL=PROGRAM name programs that are built already, GUIDE=FILE another guide.
set -euo pipefail
here=$(cd "$(dirname "$0")" && pwd)
. "$here/checks.sh"
PATH=$PATH:/usr/sbin:/sbin
guide=$(realpath "${GUIDE:-$here/../docs/INSTALL.md}")
for tool in nginx stunnel4 sshd openssl curl ip unshare; do
    type -P $tool > /dev/null || { echo "tls_trial: $tool is missing" >&2; exit 1; }
done
[ "$(id -u)" = 0 ] || { echo 'tls_trial: only root can make network namespaces' >&2; exit 1; }
if [ $$ != 1 ]; then    # not yet the first process of a namespace
    . "$here/program.sh"
    program hallboot
    program hallctl
    exec unshare --net --mount --pid --fork --kill-child --mount-proc "$here/tls_trial.sh"
fi
work=$(mktemp -d)
trap 'rm -rf "$work"' EXIT    # all processes of the namespace end with this one
cd "$work"
block() { python3 "$here/guide_blocks.py" block "$guide" "$1"; }
comes() {    # comes WORDS COMMAND..: waits until the command ends with status 0, for twenty seconds at most
    local words=$1 end=$((SECONDS + 20))
    shift
    until "$@" > /dev/null 2>&1; do
        [ $SECONDS -lt $end ] || bad "$words"
        sleep 0.1
    done
    good
}
is() { [ "$2" = "$3" ] || bad "$1: '$2' and not '$3'"; good; }

# ---- two hosts, and what the guide leaves to its reader: a certificate and accounts
cp /etc/nginx/nginx.conf /etc/nginx/mime.types .
for folder in /etc/nginx /etc/stunnel /etc/ssh /var/log/nginx /run; do mount -t tmpfs none $folder; done
mkdir -p /run/netns /run/sshd /etc/nginx/conf.d /etc/ssl/hall
mount -t tmpfs none /etc/ssl/hall
echo '127.0.0.1 localhost
10.9.0.1 desk.hall.example' > hosts
mount --bind hosts /etc/hosts
ip link set lo up
ip netns add operators
ip link add desk type veth peer name operator netns operators
ip addr add 10.9.0.1/24 dev desk && ip link set desk up
at() { ip netns exec operators "$@"; }
at ip link set lo up
at ip addr add 10.9.0.2/24 dev operator && at ip link set operator up
openssl req -x509 -newkey ec -pkeyopt ec_paramgen_curve:P-256 -nodes -days 2 -subj '/CN=The hall' -keyout authority.key -out authority.pem 2> /dev/null
openssl req -newkey ec -pkeyopt ec_paramgen_curve:P-256 -nodes -subj '/CN=desk.hall.example' -keyout /etc/ssl/hall/desk.key -out desk.csr 2> /dev/null
openssl x509 -req -in desk.csr -CA authority.pem -CAkey authority.key -CAcreateserial -days 2 -extfile <(echo 'subjectAltName=DNS:desk.hall.example') \
    -out /etc/ssl/hall/desk.pem 2> /dev/null
cat /etc/ssl/certs/ca-certificates.crt authority.pem > authorities
mount --bind authorities /etc/ssl/certs/ca-certificates.crt
ssh-keygen -q -t ed25519 -N '' -f hostkey
ssh-keygen -q -t ed25519 -N '' -f olga
echo "desk.hall.example $(cut -d' ' -f1,2 hostkey.pub)" > known
cp olga.pub accounts
printf '%s\n' 'Port 22' "HostKey $work/hostkey" "AuthorizedKeysFile $work/accounts" 'StrictModes no' 'UsePAM no' 'PermitRootLogin yes' > sshd_config
printf '%s\n' 'Host *' 'User root' "IdentityFile $work/olga" "UserKnownHostsFile $work/known" > ssh_config

# ---- the desk, on its host's loopback
echo adas-secret-1 > ada
echo powers-secret-1 > pow
chmod 600 ada pow
digest_of() { printf %s "$(cat "$1")" | sha256sum | cut -c1-64; }
"$HALLBOOT" init --db hall.db --admin ada --digest "$(digest_of ada)" > /dev/null
"$HALLBOOT" serve --db hall.db --discover 10.9.0.1:67 --boot 10.9.0.1:4011 --http 127.0.0.1:8066 --turns 1000000000000 --server 10.9.0.1 \
    --next 10.9.0.1 --host desk.hall.example --log desk.log > ready & desk=$!
comes 'the desk serves' grep -q 'hall desk ready' ready

# ---- nginx
block 'map $uri' > /etc/nginx/conf.d/hall.conf
# Debian's own settings, which have logs too
cp nginx.conf mime.types /etc/nginx/
is 'nginx.conf has logs of its own' "$(grep -cE '^\s*(access|error)_log' /etc/nginx/nginx.conf)" 2
nginx -g 'daemon off;' &
comes 'nginx answers at port 443' at curl --silent --cacert authority.pem https://desk.hall.example/
code() { at curl --silent --output answer --write-out '%{http_code}' --cacert authority.pem "$@"; }
is 'a script, at the machines'"'"' port' "$(code http://desk.hall.example/ipxe/52:54:00:12:34:56)" 404
is 'is the desk'"'"'s answer' "$(cat answer)" '{"refusal":"NoMachine"}'
is 'a report, at the machines'"'"' port' "$(code --data '{"stage":"started"}' http://desk.hall.example/report/1/00112233445566778899aabbccddeeff)" 404
is 'is the desk'"'"'s answer' "$(cat answer)" '{"refusal":"NoBoot"}'
for path in machines machines/1 orders commands ''; do
    is "/$path, at the machines' port" "$(code "http://desk.hall.example/$path")" 404
    grep -q nginx answer || bad "/$path reaches the desk at the machines' port"
done
is 'a script, at the operators'"'"' port' "$(code https://desk.hall.example/ipxe/52:54:00:12:34:56)" 404
grep -q nginx answer || bad 'a script is given at the operators'"'"' port'
is 'no token, at the operators'"'"' port' "$(code https://desk.hall.example/machines)" 401

# ---- hallctl by stunnel
hallctl() { at "$HALLCTL" --token-file ada --timeout 5s "$@"; }
hello=$(block 'hallctl --desk http://127.0.0.1:8066' | sed 's/^hallctl //')
block 'verifyChain' > /etc/stunnel/hall.conf
{ echo 'foreground = yes'; cat /etc/stunnel/hall.conf; } > stunnel.conf
at stunnel4 stunnel.conf > stunnel.log 2>&1 &
comes 'the desk by stunnel' hallctl $hello
is 'hello by stunnel' "$(hallctl $hello)" 'the boot desk at http://127.0.0.1:8066 is there; your role is admin'
export HALL_DESK=http://127.0.0.1:8066
is 'a command by stunnel' "$(hallctl add-pool lab)" 'pool lab added'
is 'a refusal by stunnel' "$(hallctl add-pool lab || true)" 'pool lab: Taken: The name, digest, address or UUID is in use'
is 'an operator by stunnel' "$(hallctl add-operator pow --role power --digest "$(digest_of pow)")" 'operator pow added'
{ echo key,mac,arch,uuid,pool; for one in $(seq 500); do printf '%08d-0000-4000-8000-000000000000,52:54:00:00:%02x:%02x,uefi64,,lab\n' "$one" $((one / 256)) $((one % 256)); done; } > machines.csv
hallctl import machines.csv > imported
is 'machines by stunnel' "$(hallctl machines --ids | wc -l)" 500
status=0
at "$HALLCTL" --token-file ada wait 1 --for Ready --timeout 1s > waited 2>&1 || status=$?
is 'a wait by stunnel is over in time' $status 4

# ---- the power program, which speaks TLS itself
mkdir power
printf '%s\n' 'desk = "https://desk.hall.example"' "token = \"$work/pow\"" "table = \"$work/power/machines\"" '[controllers.ipmi]' 'driver = "ipmitool"' \
    'user = "desk"' "password = \"$work/pow\"" > power/settings
echo '1 ipmi bmc1' > power/machines
printf '#!/bin/sh\necho "Chassis Power is off"\n' > power/ipmitool
chmod +x power/ipmitool
at env PATH="$work/power:$PATH" SSL_CERT_FILE=/etc/ssl/certs/ca-certificates.crt python3 "$here/../power/hall_power.py" --config power/settings --check > checked 2>&1 ||
    bad "the power program: $(cat checked)"
good
pkill stunnel

# ---- hallctl by ssh
$(type -P sshd) -D -f sshd_config > sshd.log 2>&1 &
command=$(block 'ExitOnForwardFailure')
comes 'there is a way by ssh' at bash -c "ssh -F ssh_config -o BatchMode=yes ${command#ssh } 2> ssh.first & way=\$!; sleep 1; kill -0 \$way && kill \$way"
at bash -c "exec ssh -F ssh_config ${command#ssh }" > ssh.log 2>&1 &
comes 'the desk by ssh' hallctl hello
is 'machines by ssh' "$(hallctl machines --ids | wc -l)" 500

# ---- what the logs say
grep -q '127.0.0.1:[0-9]* command add_pool lab by ada: 200' desk.log || grep -q '127.0.0.1.*add_pool' desk.log || bad "the desk's log: $(head -3 desk.log)"
good
grep -q ' 10.9.0.2:[0-9]* POST /commands 200$' /var/log/nginx/hall.log || bad "nginx's log: $(head -3 /var/log/nginx/hall.log)"
good
grep -q ' POST /report/1 404$' /var/log/nginx/hall.log || bad "a report in nginx's log: $(grep report /var/log/nginx/hall.log)"
good
kill $desk
wait $desk || true
is 'a report while no desk serves' "$(code --data '{"stage":"started"}' http://desk.hall.example/report/1/00112233445566778899aabbccddeeff)" 502
comes 'it is in nginx'"'"'s log' grep -q ' POST /report/1 502$' /var/log/nginx/hall.log
! grep -rq -e 00112233445566778899aabbccddeeff -e secret-1 /var/log/nginx || bad 'a token is in a log of nginx'
good
all_good
