#!/usr/bin/env bash
# docs/openapi.yaml against the desk: each example of a request is sent, each answer is of its schema, each refusal that a route documents is
# provoked, and no route answers a refusal that it doesn't document. Its lists of commands and refusals are those of the code. Some seconds.
# Usage: tools/openapi_trial.sh     HALLBOOT=PROGRAM names a program that is built already.
set -euo pipefail
here=$(cd "$(dirname "$0")" && pwd)
command -v python3 > /dev/null || { echo "openapi_trial: python3 is missing (Debian's package python3)" >&2; exit 1; }
. "$here/program.sh"
program hallboot
umask 077
work=$(mktemp -d)
trap 'rm -rf "$work"' EXIT
cd "$work"
timeout --foreground --kill-after=10 1700 python3 -B "$here/openapi_trial.py" "$HALLBOOT" "$here/.."
