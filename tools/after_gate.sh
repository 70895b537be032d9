#!/usr/bin/env bash
# What the gate runs after its proofs: the tools that need no more than the built programs, python3 and curl. Each ends with a line `NAME: N checks, M failed`, and says there how
# much of the whole it was; the last line here has the sum of all. Usage: tools/after_gate.sh, after `rt ci`.
set -uo pipefail
here=$(cd "$(dirname "$0")" && pwd)
work=$(mktemp -d)
trap 'rm -rf "$work"' EXIT
for name in hallboot hallctl hallview play_desk play_calls; do
    built=$here/../crates/$name/out/$name
    # without its variable a tool builds the program itself
    if [ -x "$built" ]; then export "${name^^}=$built"; fi
done
tools=(
    case_words.sh
    'price_of_change.py --check'
    'wrong_bodies.py --check'
    lazy_calls.py
    walks.py
    program_rows.sh
    hallctl_peer.sh
    token_trial.sh
    lists_trial.sh
    live_trial.sh
    power_trial.sh
    moved_trial.sh
    mending_trial.sh
    'world.py --sample'
    openapi_trial.sh
    'view_peer.sh pages clients halls'
    stop_everywhere.sh
    refuse_memory.sh
    old_file.sh
)
checks=0 failed=0
for line in "${tools[@]}"; do
    read -ra words <<< "$line"
    status=0
    timeout --kill-after=10 1800 "$here/${words[0]}" "${words[@]:1}" > "$work/said" || status=$?
    cat "$work/said"
    read -r its_checks its_failed < <(sed -nE 's/^[a-z_]+: ([0-9]+) checks, ([0-9]+) failed.*/\1 \2/p' "$work/said" | tail -n 1)
    if [ $status != 0 ] && [ "${its_failed:-0}" = 0 ]; then
        echo "$line: ended with status $status"
        its_checks=$((${its_checks:-0} + 1)) its_failed=1
    fi
    checks=$((checks + ${its_checks:-0})) failed=$((failed + ${its_failed:-0}))
done
echo "after_gate: $checks checks, $failed failed"
[ $failed = 0 ]
