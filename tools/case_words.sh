#!/usr/bin/env bash
# Each refusal, silence, status, command and law has a case in the stored runs, which a search for its name finds; each case's name is there once in its
# program; tables at the heads of files and docs/ name cases that are there; each file of cases is played. What is missing is printed, a line each.
# Usage: tools/case_words.sh     It wants python3.
set -euo pipefail
here=$(cd "$(dirname "$0")" && pwd)
. "$here/checks.sh"
status=0
found=$(python3 "$here/case_words.py") || status=$?
[ -n "$found" ] || bad 'the cases could not be read'
good "$found"
[ $status = 0 ] || bad 'what is named above is missing'
all_good
