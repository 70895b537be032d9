# Sourced by desk_speed.sh and store_speed.sh, which set `work`, a folder: the least times of runs of a program. `play_desk bench` plays logs
# that bench_log.py writes.
declare -A processor_of clock_of
# keep KEY COMMAND..: runs a command, and keeps the least of its times under KEY, in microseconds; what it printed is the file said.
keep() {
    local key=$1 TIMEFORMAT='%3U %3S %3R' times processor clock
    shift
    times=$({ time "$@" > "$work/said" 2> "$work/err"; } 2>&1) || { cat "$work/err" >&2; return 1; }
    read -r processor clock < <(awk '{ printf "%d %d\n", ($1 + $2) * 1e6, $3 * 1e6 }' <<< "$times")
    if ((processor < ${processor_of[$key]:-processor + 1})); then processor_of[$key]=$processor; fi
    if ((clock < ${clock_of[$key]:-clock + 1})); then clock_of[$key]=$clock; fi
}
# logged OVER WHAT MACHINES ROUNDS: writes the log of so many rounds, at least, to the file log_WHAT_MACHINES, and sets `times`, how often
# it's to be played, and `rounds_in`, how many rounds those are.
logged() {
    local log=$work/log_$2_$3 lines
    python3 "$here/bench_log.py" "$@" > "$log"
    case $2 in
    allocate | report | change | delete | second) times=1 rounds_in=$4 ;;
    *)
        lines=$(sed '1,/^== rounds$/d' "$log" | wc -l)
        times=$((($4 + lines - 1) / lines)) rounds_in=$((times * lines))
        ;;
    esac
}
# a_round TIME OF_NONE ROUNDS: microseconds of a round, by the time of all rounds and that of none.
a_round() { awk -v all="$1" -v none="$2" -v n="$3" 'BEGIN { t = (all - none) / n; printf "%.3f\n", (t > 0 ? t : 0.001) }'; }
ratio() { awk -v a="$1" -v b="$2" 'BEGIN { printf "%.2f\n", a / b }'; }
status=0
want() {   # want VALUE BOUND TEXT
    if awk -v a="$1" -v b="$2" 'BEGIN { exit !(a <= b) }'; then echo "good: $3 ($1)"; else echo "MISSED: $3 ($1, bound $2)"; status=1; fi
}
