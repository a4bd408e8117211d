# shellcheck shell=bash
# What the checks of the built program share: its place, a folder for their files, and how a call is
# compared. Sourced by the scripts beside it.
set -u
export LC_ALL=C
root=$(cd "$(dirname "${BASH_SOURCE[0]}")/.." && pwd)
program=${CLPA:-$root/crates/clpa/out/clpa}
work=$(mktemp -d)
trap 'rm -rf "$work"' EXIT
failed=0

# complain TEXT: what went wrong, and the check fails
complain() {
    echo "$1"
    failed=1
}

# expect STATUS LINE WORD...: the program's status and its line on the error output
expect() {
    local want_status=$1 want_line=$2
    shift 2
    "$program" "$@" >out 2>err
    local status=$?
    if [ "$status" != "$want_status" ] || [ "$(cat err)" != "$want_line" ]; then
        complain "clpa $*: status $status, $(cat err)"
    fi
}

# prints WANT WORD...: ends with 0, and what it prints is the file WANT
prints() {
    local want=$1
    shift
    expect 0 '' "$@"
    cmp -s out "$want" || complain "clpa $*: $(cmp out "$want" 2>&1)"
}

# says STATUS OUT ERR WORD...: the status and both outputs
says() {
    local want_status=$1 want_out=$2 want_err=$3
    shift 3
    "$program" "$@" >out 2>err
    local status=$?
    if [ "$status" != "$want_status" ] || [ "$(cat out)" != "$want_out" ] || [ "$(cat err)" != "$want_err" ]; then
        complain "clpa $*: status $status, $(head -c 300 out), $(head -c 300 err)"
    fi
}

# verdict WHAT: the last line of a check, and its status
verdict() {
    [ "$failed" = 0 ] && echo "$1: as it should"
    exit "$failed"
}

[ -x "$program" ] || { echo "no program at $program"; exit 1; }
cd "$work" || exit 1
