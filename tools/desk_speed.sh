#!/usr/bin/env bash
# The time of the desk's answers, from octets to octets, with 10 and with 10,000 machines: processor time over the store in memory,
# and the time that passed over a file, in which each change is durable before its answer is given. The time of a round is that
# of all rounds, less that of none, each the least of seven runs, those with 10 and with 10,000 machines in turn. FOLDER is where the
# files are made: on the disk that counts.
# Usage: tools/desk_speed.sh [ROUNDS [FOLDER]]
set -euo pipefail
here=$(cd "$(dirname "$0")" && pwd)
rounds=${1:-100000}
work=$(mktemp -d -p "${2:-${TMPDIR:-/tmp}}")
trap 'rm -rf "$work"' EXIT
. "$here/program.sh"
program play_desk
. "$here/least.sh"

run() {   # run WHERE WHAT MACHINES TIMES: over a file, over a new copy of the file with such a hall
    local file=-
    if [ "$1" = file ]; then
        file=$work/hall
        rm -f "$work"/hall*
        cp "$work/made_$3" "$file"
        sync "$file"
    fi
    keep "$*" "$PLAY_DESK" bench "$file" "$4" < "$work/log_$2_$3"
}
rounds_of() {   # rounds_of WHERE WHAT MACHINES
    case "$1 $2" in
    *list) echo $((rounds / $3 / 5 + 10)) ;;
    'file allocate' | 'file report') echo $((rounds / 50 + 10)) ;;
    *allocate | *report) echo $((rounds / 5 + 10)) ;;
    memory*) echo $((rounds * 10)) ;;
    *) echo $((rounds * 2)) ;;
    esac
}
# time_of WHERE KEY: of a processor over the store in memory, on the clock over a file
time_of() { if [ "$1" = memory ]; then echo "${processor_of[$2]}"; else echo "${clock_of[$2]}"; fi; }

declare -A time many all_of
for where in memory file; do
    for what in offer script repeat allocate report list; do
        for machines in 10 10000; do
            logged desk "$what" "$machines" "$(rounds_of "$where" "$what" "$machines")"
            many[$machines]=$times all_of[$machines]=$rounds_in
            rm -f "$work"/made_"$machines"*
            if [ "$where" = file ]; then "$PLAY_DESK" bench "$work/made_$machines" 0 < "$work/log_${what}_$machines" > "$work/octets"; fi
        done
        for _ in 1 2 3 4 5 6 7; do
            for machines in 10 10000; do
                run "$where" "$what" "$machines" 0
                run "$where" "$what" "$machines" "${many[$machines]}"
            done
        done
        for machines in 10 10000; do
            n=${all_of[$machines]}
            none="$where $what $machines 0" all="$where $what $machines ${many[$machines]}"
            time[$machines]=$(a_round "$(time_of "$where" "$all")" "$(time_of "$where" "$none")" "$n")
            echo "$where, $what, $machines machines: ${time[$machines]} microseconds a round ($n rounds)"
        done
        if [ "$what" = list ]; then continue; fi
        want "$(ratio "${time[10000]}" "${time[10]}")" 1.2 "$where, $what: 10,000 machines cost at most 1.2 times what 10 cost"
    done
done
exit "$status"
