#!/usr/bin/env bash
# live/hall-live, a copy in which only the system's paths are replaced, against a server that plays each answer: counted, repeat, refusals, other
# servers' answers, answers that are cut, late or missing, as the first and the second to `started` and to both verdicts, for each purpose. What is
# looked at: whether the work ran, which reports came, whether the machine was switched off, restarted or left on. Then where it must do nothing: no
# live image, a second run, no desk's words, words that were cut or that no desk writes. It takes under two minutes.
# Usage: tools/live_trial.sh [--script FILE]     --script plays another script. It wants python3 and curl, and /dev/shm in RAM.
set -euo pipefail
here=$(cd "$(dirname "$0")" && pwd)
script=$here/../live/hall-live
case $#.${1:-} in
    0.) ;;
    2.--script) script=$2; [ -f "$script" ] || { echo "live_trial: $script: no such file" >&2; exit 2; } ;;
    *) echo 'usage: tools/live_trial.sh [--script FILE]' >&2; exit 2 ;;
esac
for word in python3 curl; do
    command -v "$word" > /dev/null || { echo "live_trial: $word is missing (Debian's package $word)" >&2; exit 1; }
done
umask 077
work=$(mktemp -d) ram=
trap 'rm -rf "$work" "$ram"' EXIT
ram=$(mktemp -d /dev/shm/live_trial.XXXXXX)
status=0
timeout --foreground --kill-after=10 1700 python3 -B "$here/live_trial.py" "$script" "$ram" "$work" || status=$?
[ $status -le 1 ] || echo "live_trial: ended with status $status" >&2
exit $status
