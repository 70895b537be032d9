#!/usr/bin/env bash
# power/hall_power.py against a serving hall and stand-ins of controllers, over ipmitool and over Redfish, that refuse `off` of what is off, as many
# do, and take some seconds to be off. Orders of machines that are on and off are done, and not before the controller says so; one that never is
# off has failed; one that is withdrawn is carried out no further. --check and --dry-run change nothing; a secret that others may read, a table with a
# machine twice and a desk with a path are refused; a proxy of the environment and a controller with another certificate get nothing. Beside it, against
# a stand-in of the desk, a case (tools/power_cases.py) each of a table that is changed or wrong while it runs, of answers that are strange, late or lost,
# of orders that are withdrawn or replaced at each wait, of tries that fail, and of its options. It takes half a minute.
# Usage: tools/power_trial.sh     HALLBOOT=PROGRAM names a program that is built already. It wants python3 (3.11) and openssl.
set -euo pipefail
here=$(cd "$(dirname "$0")" && pwd)
for word in python3 openssl; do
    command -v "$word" > /dev/null || { echo "power_trial: $word is missing (Debian's package $word)" >&2; exit 1; }
done
. "$here/program.sh"
program hallboot
umask 077
work=$(mktemp -d)
trap 'rm -rf "$work"' EXIT
cd "$work"
timeout --foreground --kill-after=10 1700 python3 -B "$here/power_trial.py" "$HALLBOOT" "$here/../power/hall_power.py"
