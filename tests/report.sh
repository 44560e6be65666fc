# shellcheck shell=bash
# How a test reports: `check` says `ok` or `FAIL` of each thing, and `failed` is 1 once one was not as it should be.
failed=0

# prepare COMMAND..: what a test cannot do without. Where it fails, the test ends with the last that it said.
prepare() {
    local said
    said=$("$@" 2>&1) || {
        tail -n 20 <<<"$said"
        exit 1
    }
}

# check WHAT COMMAND..: the command succeeds
check() {
    local what=$1 verdict='ok  '
    shift
    "$@" || {
        verdict=FAIL
        failed=1
    }
    echo "$verdict $(basename "$0"): $what"
}
