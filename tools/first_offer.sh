#!/usr/bin/env bash
# The first OFFER, two or three minutes after a clone: builds what answers one frame, without proving it, gives it one machine's DISCOVER, and
# shows that and the desk's answer in words and octets. It is the call of `hallboot frame`, by play_calls, a program of stored runs, as
# the act `run` of its cases. It wants rt, the Rattle kit's command, and python3. Usage: tools/first_offer.sh
set -euo pipefail
here=$(cd "$(dirname "$0")" && pwd)
stored=$here/../crates/hallboot
for needed in rt python3; do
    type -P $needed > /dev/null || { echo "first_offer: $needed is missing" >&2; exit 1; }
done
cat <<'TEXT'
This builds the part of the desk that answers one frame, and gives it a machine's DISCOVER. It takes two or three
minutes, and as long the next time: nothing is kept, and nothing is proved. tools/first_hall.sh proves and builds the programs.
TEXT
work=$(mktemp -d)
# Shows that something goes on, where somebody watches.
( while sleep 5; do [ ! -t 2 ] || printf '\rbuilding for %d seconds ' $SECONDS >&2; done ) & shown=$!
ended() { kill "$shown" 2> /dev/null || true; rm -rf "$work"; }
trap ended EXIT
frame=$(tail -n 1 "$stored/stdin")
mac=$(head -n 1 "$stored/stdin")
status=0
printf '== the first OFFER\nrun discover %s\\n\\n%s\\n\n' "$mac" "$frame" > "$work/offer.cases"
(cd "$here/../crates/play_calls" && rt try --data "offer.cases=$work/offer.cases" -- offer.cases > "$work/answer" 2> "$work/said") || status=$?
kill "$shown" 2> /dev/null || true
[ ! -t 2 ] || printf '\r                              \r' >&2
# nothing is wanted of the act in that file, so what comes of it is printed: the way it ended, and in the next line what was written
if [ $status != 0 ] || ! grep -q '^  came   0 done$' "$work/answer"; then
    cat "$work/said" "$work/answer" >&2
    exit 1
fi
offer=$(sed -n '/^  came   0 done$/ { n; s/^ *//p }' "$work/answer")
offer=${offer%'\n'}
python3 "$here/frame_words.py" "A machine's DISCOVER" <<< "$frame"
python3 "$here/frame_words.py" "The desk's OFFER" <<< "$offer"
if [ "$offer" = "$(cat "$stored/stdout")" ]; then
    echo "The OFFER is that of hallboot's stored run, octet for octet. It came after $SECONDS seconds."
else
    echo "The OFFER isn't that of hallboot's stored run, crates/hallboot/stdout." >&2
    exit 1
fi
