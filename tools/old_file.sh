#!/usr/bin/env bash
# A hall's file of the first version, made by SQLite itself (that of python3) from the texts of the first case of play_desk's migration.tables.cases, is
# carried over: hallboot refuses it before, its machines keep their boots and versions, a command is answered again with its old key, and SQLite finds the
# file whole. Then each single request for memory of the migration is refused, and the program ends before each of its calls on files: the file is as
# before or carried over, and the next migration ends it. At last the same texts with another number of the schema, and an empty file.
# Usage: tools/old_file.sh [APART]     every APART-th request for memory (1 by default). HALLBOOT=PROGRAM names a program that is built already. Wants
# python3 and a C compiler.
set -euo pipefail
here=$(cd "$(dirname "$0")" && pwd)
. "$here/program.sh"
program hallboot
exec python3 "$here/old_file.py" "${1:-1}"
