#!/usr/bin/env bash
# Plays a file of cases that need not be among those of the repository, and prints what differs and how much was compared. Status 1: something differs.
# Usage: tools/new_case.sh FILE [PROGRAM]     play_desk by default, for which the end of the file's name says what it's played over. A program that was
# built after the last change of the sources is taken as it is; PLAY_DESK=PROGRAM and so on name another one.
set -euo pipefail
here=$(cd "$(dirname "$0")" && pwd)
. "$here/program.sh"
[ $# = 1 ] || [ $# = 2 ] || { sed -n 's/^# \(Usage: [^ ]* FILE .PROGRAM.\).*/\1/p' "$0" >&2; exit 2; }
file=$1 name=${2:-play_desk}
crates=$here/../crates
variable=${name^^}
built=$crates/$name/out/$name
if [ -z "${!variable:-}" ] && [ -x "$built" ] && [ -z "$(find "$crates.txt" "$crates"/*/src -newer "$built" -print -quit)" ]; then
    printf -v "$variable" %s "$built"
fi
program "$name"
said=$("${!variable}" "$file")
# play_desk also counts the ways in which it played nothing
grep -v ': 0 cases, ' <<< "$said" || true
counts=$(grep -oE '[0-9]+ cases, [0-9]+ lines, [0-9]+ differences' <<< "$said")
! grep -qv ' 0 differences$' <<< "$counts"
