#!/usr/bin/env bash
# A serving desk issues a thousand boots to machines that were added and commissioned by requests: the token of each has 32 hexadecimal digits, no two are alike,
# and no part of them looks counted or fixed. Usage: tools/token_trial.sh [MACHINES]     334 by default, with three boots each. HALLBOOT=PROGRAM names
# a program that is built already. It wants python3.
set -euo pipefail
here=$(cd "$(dirname "$0")" && pwd)
. "$here/program.sh"
program hallboot
work=$(mktemp -d)
trap 'rm -rf "$work"' EXIT
cd "$work"
python3 "$here/token_trial.py" "$HALLBOOT" "${1:-334}"
