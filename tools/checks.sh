# For the scripts of this folder that the gate runs: counts checks. The first that fails ends the script with status 1. The last line of standard
# output is `NAME: N checks, M failed`, and says in brackets how much of the whole that is, where it isn't all.
count=0
checked() { basename "$0" .sh; }
good() { count=$((count + ${1:-1})); }
bad() {
    echo "BAD: $*" >&2
    echo "$(checked): $((count + 1)) checks, 1 failed"
    exit 1
}
all_good() { echo "$(checked): $count checks, 0 failed${1:+ ($1)}"; }
