#!/usr/bin/env bash
# The calls of the store over a file, with 10 and with 10,000 machines in it, beside the same statements by the C library over
# copies of the same files, with the same write-ahead log and a sync at each commit: the reads of a machine and of an operator,
# `change` (a machine put over its version, with a receipt), `delete` (a machine put with its interface, and deleted: two
# commits), `list` (all machines), `second` (which machine has expired, at the next second of a clock, where none has) and
# `quiet` (the same within one second, where the store runs no statement). The time of a round is that of all rounds, less that
# of none, each the least of seven runs over a new copy, in turn with the runs that it is compared with. FOLDER is where the files
# are made: on the disk that counts.
# Usage: tools/store_speed.sh [ROUNDS [FOLDER]]     Needs cc and Debian's libsqlite3-dev.
set -euo pipefail
here=$(cd "$(dirname "$0")" && pwd)
rounds=${1:-100000}
work=$(mktemp -d -p "${2:-${TMPDIR:-/tmp}}")
trap 'rm -rf "$work"' EXIT
. "$here/program.sh"
program play_desk
. "$here/least.sh"
cc -O2 -Wall -o "$work/in_c" "$here/store_speed.c" -lsqlite3 || { echo 'store_speed: libsqlite3-dev is missing' >&2; exit 1; }

# ours FILE CALL MACHINES TIMES, theirs FILE CALL MACHINES ROUNDS
ours() { "$PLAY_DESK" bench "$1" "$4" < "$work/log_$2_$3"; }
theirs() { "$work/in_c" "$@"; }
# run WHOSE CALL MACHINES TIMES-OR-ROUNDS: over a new copy; its sum is left in the file said.
run() {
    rm -f "$work"/hall*
    cp "$work/machines_$3" "$work/hall"
    sync "$work/hall"
    keep "$*" "$1" "$work/hall" "${@:2}"
}
# rounds_of CALL MACHINES: so many that a run takes long beside the opening of its file.
rounds_of() {
    case $1 in
    change | delete) echo $((rounds / 50 + 10)) ;;
    list | second) echo $((rounds * 5 / $2 + 50)) ;;
    quiet) echo $((rounds * 50)) ;;
    *) echo $((rounds * 2)) ;;
    esac
}
# both CALL MACHINES TIMES ROUNDS: ours and the C library's, whose sums are the same.
both() {
    run ours "$1" "$2" "$3"
    local sum
    sum=$(cat "$work/said")
    if [ "$1" = quiet ]; then return; fi
    run theirs "$1" "$2" "$4"
    [ "$sum" = "$(cat "$work/said")" ] || { echo "store_speed: $1, $2 machines: the sums differ" >&2; exit 1; }
}
row() { printf '%-11s %8s  %10s %10s %7s  %10s %10s %7s\n' "$@"; }

for machines in 10 10000; do
    logged store machine "$machines" 1
    "$PLAY_DESK" bench "$work/machines_$machines" 0 < "$work/log_machine_$machines" > "$work/log"
done
reads='machine address unknown uuid interfaces token'
declare -A processor clock in_c clock_in_c many all_of
row 'call' machines processor 'in C' ratio clock 'in C' ratio
for call in $reads change delete list second quiet; do
    for machines in 10 10000; do
        logged store "$call" "$machines" "$(rounds_of "$call" "$machines")"
        many[$machines]=$times all_of[$machines]=$rounds_in
    done
    for _ in 1 2 3 4 5 6 7; do
        for machines in 10 10000; do
            both "$call" "$machines" 0 0
            both "$call" "$machines" "${many[$machines]}" "${all_of[$machines]}"
        done
    done
    for machines in 10 10000; do
        key=$call.$machines n=${all_of[$machines]}
        none="ours $call $machines 0" all="ours $call $machines ${many[$machines]}"
        processor[$key]=$(a_round "${processor_of[$all]}" "${processor_of[$none]}" "$n")
        clock[$key]=$(a_round "${clock_of[$all]}" "${clock_of[$none]}" "$n")
        if [ "$call" = quiet ]; then
            row "$call" "$machines" "${processor[$key]}" - - "${clock[$key]}" - -
            continue
        fi
        none="theirs $call $machines 0" all="theirs $call $machines $n"
        in_c[$key]=$(a_round "${processor_of[$all]}" "${processor_of[$none]}" "$n")
        clock_in_c[$key]=$(a_round "${clock_of[$all]}" "${clock_of[$none]}" "$n")
        row "$call" "$machines" "${processor[$key]}" "${in_c[$key]}" "$(ratio "${processor[$key]}" "${in_c[$key]}")" \
            "${clock[$key]}" "${clock_in_c[$key]}" "$(ratio "${clock[$key]}" "${clock_in_c[$key]}")"
    done
done
echo 'microseconds a round; two commits in a round of delete'

growth() { ratio "${processor[$1.10000]}" "${processor[$1.10]}"; }
for call in $reads; do
    want "$(growth "$call")" 1.2 "$call: 10,000 machines cost at most 1.2 times what 10 cost"
    for machines in 10 10000; do
        key=$call.$machines
        want "$(ratio "${processor[$key]}" "${in_c[$key]}")" 1.3 "$call, $machines machines: at most 1.3 times C's"
    done
done
for machines in 10 10000; do
    key=change.$machines
    want "$(ratio "${clock[$key]}" "${clock_in_c[$key]}")" 1.65 "change, $machines machines: at most 1.65 times C's durable commit"
done
want "$(growth delete)" 1.2 'delete: 10,000 machines cost at most 1.2 times what 10 cost'
want "$(growth list)" 1200 'list: linear'
want "$(ratio "${processor[list.10000]}" "${in_c[list.10000]}")" 3 "list, 10,000 machines: at most 3 times one SELECT of both tables in C"
want "$(ratio "${processor[quiet.10000]}" "${processor[machine.10000]}")" 0.1 'quiet: no statement, at most a tenth of a keyed read'
exit "$status"
