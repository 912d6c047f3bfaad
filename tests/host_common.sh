# shellcheck shell=bash disable=SC2034
# What the tests of the host program share: the program in a folder of their own, and what they ask of it.
# shellcheck source=tests/counted.sh
. "$(dirname "$0")/counted.sh"
# named NAME: the number that crz.h has under that name
named() {
    sed -n "s/^#define $1 \([0-9]*\).*/\1/p; s/^ *$1 = \([0-9]*\).*/\1/p" "$here/include/crz.h"
}
# thousands NUMBER: as the program writes it
thousands() {
    sed ':a;s/\B[0-9]\{3\}\>/,&/;ta' <<<"$1"
}
image_length=$(named CRZ_IMAGE_LENGTH)
# before receipts had premiums, a record ended where the premium stands now
older_length=$(($(named CRZ_IMAGE_RECEIPTS) + $(named CRZ_RECEIPT_COUNT) * $(named CRZ_RECEIPT_PREMIUM)))
chmod 755 "$work"
cp "$1" "$work/crz" # other users may not reach the place where it was built
crz=$work/crz
cd "$work" || exit 2

# ends STATUS TEXT ARGUMENTS..: the program ends with the status and has said the text
ends() {
    local status=$1 text=$2 said
    shift 2
    said=$("$crz" "$@" 2>&1)
    local was=$?
    holds "$* ends with $was, not $status: $said" test "$was" -eq "$status"
    holds "$*: '$text' not in: $said" grep -qF -- "$text" <<<"$said"
}

# the last sequence number of a zone
sequence() {
    "$crz" log "$1" --head | sed 's/sequence \([0-9]*\),.*/\1/'
}

# the total of a zone in fen
total() {
    "$crz" show "$1" | sed -n '1s/.*total \(.*\) fen/\1/p' | tr -d ,
}

finish() {
    echo "$passed passed, $failed failed"
    [ "$failed" -eq 0 ]
}
