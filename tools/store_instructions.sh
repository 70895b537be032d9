#!/usr/bin/env bash
# The instructions of a call of the store over a file, with 10 and with 10,000 machines in it, beside the same statements by the C
# library over a copy of the file, and those of a round of the desk over a file and over the store in memory. They are counted by
# valgrind, so that nothing else on the machine changes them: how a cost grows with the hall is seen here, how long it takes in
# store_speed.sh and desk_speed.sh.
# Usage: tools/store_instructions.sh     Needs cc and Debian's libsqlite3-dev and valgrind.
set -euo pipefail
here=$(cd "$(dirname "$0")" && pwd)
work=$(mktemp -d)
trap 'rm -rf "$work"' EXIT
. "$here/program.sh"
program play_desk
. "$here/least.sh"
cc -O2 -Wall -o "$work/in_c" "$here/store_speed.c" -lsqlite3 || { echo 'store_instructions: libsqlite3-dev is missing' >&2; exit 1; }

# The command for so many rounds: ours TIMES ROUNDS, and so on.
ours() { echo "$PLAY_DESK bench $work/hall $1"; }
memory() { echo "$PLAY_DESK bench - $1"; }
theirs() { echo "$work/in_c $work/hall $what $machines $2"; }
# counted MADE COMMAND..: the instructions of a command, over a new copy of a file.
counted() {
    rm -f "$work"/hall*
    cp "$work/$1" "$work/hall"
    valgrind --tool=callgrind --callgrind-out-file="$work/calls" "${@:2}" < "$work/log_${what}_$machines" > "$work/said" 2> "$work/err" ||
        { cat "$work/err" >&2; return 1; }
    sed -n 's/.*Collected : //p' "$work/err"
}
# a_count MADE WHOSE OVER: those of a round of `what` with so many `machines`, by the count of many rounds and that of none.
a_count() {
    local none all more=5000
    case $what in change | delete | allocate | report) more=500 ;; esac
    logged "$3" "$what" "$machines" "$more"
    none=$(counted "$1" $("$2" 0 0)) && all=$(counted "$1" $("$2" "$times" "$rounds_in")) || return 1
    echo $(((all - none) / rounds_in))
}
growth() { ratio "${count[$1.10000]}" "${count[$1.10]}"; }

declare -A count
row() { printf '%-16s %8s %8s %8s\n' "$@"; }
row 'what' machines instructions 'in C'
store='machine address unknown uuid interfaces token change delete'
rounds='offer script repeat allocate report'
for machines in 10 10000; do
    logged store machine "$machines" 1
    "$PLAY_DESK" bench "$work/machines_$machines" 0 < "$work/log_machine_$machines" > "$work/log"
done
for what in $store; do
    for machines in 10 10000; do
        count[$what.$machines]=$(a_count "machines_$machines" ours store)
        count[c.$what.$machines]=$(a_count "machines_$machines" theirs store)
        row "$what" "$machines" "${count[$what.$machines]}" "${count[c.$what.$machines]}"
    done
done
for what in $rounds; do
    for machines in 10 10000; do
        logged desk "$what" "$machines" 1
        "$PLAY_DESK" bench "$work/made" 0 < "$work/log_${what}_$machines" > "$work/log"
        count[$what.$machines]=$(a_count made ours desk)
        count[memory.$what.$machines]=$(a_count made memory desk)
        row "file, $what" "$machines" "${count[$what.$machines]}" -
        row "memory, $what" "$machines" "${count[memory.$what.$machines]}" -
        rm -f "$work"/made*
    done
done
for call in $store; do
    want "$(growth "$call")" 1.2 "$call: 10,000 machines cost at most 1.2 times what 10 cost; C's: $(growth "c.$call")"
done
for what in $rounds; do
    want "$(growth "$what")" 1.2 "file, $what: 10,000 machines cost at most 1.2 times what 10 cost"
    want "$(growth "memory.$what")" 1.2 "memory, $what: 10,000 machines cost at most 1.2 times what 10 cost"
done
exit "$status"
