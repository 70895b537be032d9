#!/usr/bin/env bash
# A hall's file under stops and faults: ROUNDS times hallboot serve is killed (SIGKILL) at a random moment while 8 clients send commands,
# every second time over a disk that syncs 5 milliseconds slower, so that one commit answers several of them, after its files were copied
# twice at one moment; and as often one of its system calls on the hall's files fails, by strace, with EIO
# or ENOSPC, after which the same program answers each client again. After each, the file is whole (PRAGMA integrity_check of a copy), every command that was answered is there once, and each
# one that wasn't is sent again, octet for octet, until it is answered: it is done once, and every command that is sent again has its
# first answer. The copies are whole, and have what was answered before, and so are those that the service itself makes each second.
# Usage: tools/stop_torture.sh [ROUNDS [SEED]]     HALLBOOT=PROGRAM names a program that is built already.
set -euo pipefail
here=$(cd "$(dirname "$0")" && pwd)
need() { type -P "$1" > /dev/null || { echo "stop_torture: $1 is missing (Debian's package $2)" >&2; exit 1; }; }
need python3 python3; need strace strace
. "$here/program.sh"
program hallboot
exec python3 "$here/stop_torture.py" "$HALLBOOT" "${1:-20}" "${2:-$RANDOM}"
