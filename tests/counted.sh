# shellcheck shell=bash disable=SC2034
# What the tests in bash share: a folder of their own that goes at the end, and counted checks.
set -u
here=$(cd "$(dirname "$0")/.." && pwd)
work=$(mktemp -d)
trap 'rm -rf "$work"' EXIT
passed=0 failed=0

# holds NAME COMMAND..: the command succeeds
holds() {
    local name=$1
    shift
    if "$@"; then
        passed=$((passed + 1))
    else
        failed=$((failed + 1))
        echo "failed: $name"
    fi
}
