#!/usr/bin/env bash
# Broken copies of the vectors: each fault must be told by every program that reads them.
# Usage: tests/broken_vectors.sh VECTORS HISTORY STACK, the three programs. The last line is 'N passed, M failed'.
# shellcheck disable=SC2016 # a $ in an edit is sed's
# shellcheck source=tests/counted.sh
. "$(dirname "$0")/counted.sh"
vectors=$(realpath "$1") history=$(realpath "$2") stack=$(realpath "$3")
cd "$work" || exit 2

# few lines of each kind: three calls of a run, its first that changes the image among them and none before them, so that nothing is
# missed, a table of two calls of no kind, whose answers are the same on every image, and figures of a zone without lots; an image
# whose call changes it, one with another length, one that a table of several calls changes, and one with a figure above 0
mkdir whole broken
awk '/^Z/ { print } /^[CTS]/ { single = /^C/; calls += single } single { call[calls] = call[calls] $0 "\n" }
    single && /^I [0-9]/ && !last { last = calls < 3 ? 3 : calls }
    single && /^I/ && calls == last { printf "%s%s%s", call[last - 2], call[last - 1], call[last]; exit }' \
    "$here/tests/vectors/run-1.txt" >whole/run-1.txt
printf 'T %096d 2081\nR 0\nA 03 03\nI same\n' 0 >>whole/run-1.txt
zeros=$(printf ' 0%.0s' {1..96})
printf 'S 769\nR 0\nF%s\n' "$zeros" >>whole/run-1.txt
awk '/^Z/ { block = made = "" } { block = block $0 "\n" } /^[LCTS]/ { made = made substr($0, 1, 1) } /^A/ { words = NF - 1 }
    /^I [0-9]/ && made == "C" && changed == "" { changed = block }
    /^I/ && made == "LC" && shorter == "" { shorter = block }
    /^I [0-9]/ && made == "T" && words > 1 && table == "" { table = block }
    /^F.* [1-9]/ && made == "S" && figures == "" { figures = block }
    END { printf "%s%s%s%s", changed, shorter, table, figures }' \
    "$here/tests/vectors/images.txt" >whole/images.txt
printf '# remark\nrun-1.txt 1 0 0 3 1 1\nimages.txt 4 4 1 2 1 1\n' >whole/calls.txt
for reader in "$vectors" "$history" "$stack"; do
    holds "$reader passes the whole copy" grep -qx '[1-9][0-9]* passed, 0 failed' \
        <<<"$("$reader" whole/calls.txt | tail -n 1)"
done

# told READER NAME TEXT: it fails in its own words, and not by an accident
told() {
    local said status
    said=$("$1" broken/calls.txt 2>&1)
    status=$?
    holds "$2: $1 ends with $status: $said" test "$status" -eq 1
    holds "$2: '$3' not in: $said" grep -qF -- "$3" <<<"$said"
    holds "$2: $1 counts no failure: $said" grep -qx '[0-9]* passed, [1-9][0-9]* failed' <<<"$(tail -n 1 <<<"$said")"
}

# breaks NAME TEXT COMMAND..: the command makes the broken file from the whole one, and the readers tell it
breaks() {
    local name=$1 text=$2 reader
    shift 2
    cp whole/* broken/
    "$@" <"whole/$file" >"broken/$file"
    holds "$name: the copy is broken" test "$(cmp -s "whole/$file" "broken/$file" || echo broken)" = broken
    for reader in "${readers[@]}"; do
        told "$reader" "$name" "$text"
    done
}

breaks_run() {
    file=run-1.txt readers=("$vectors" "$history" "$stack")
    breaks "$@"
}

# the history table reads the runs alone
breaks_image() {
    file=images.txt readers=("$vectors" "$stack")
    breaks "$@"
}

breaks_list() {
    file=calls.txt readers=("$vectors" "$history" "$stack")
    breaks "$@"
}

# answers and changes are compared by one of them
breaks_bytes() {
    file=run-1.txt readers=("$vectors")
    breaks "$@"
}

bad_line="the line is none that may stand here, or is malformed"
differs="the step that ends here differs"

# ── Files that are too short or too long ────────────────────────────────────────────────────────────
breaks_run "an empty file" "run-1.txt: 0 lines Z, the list has 1" true
breaks_run "remarks alone" "run-1.txt: 0 lines C, the list has 3" sed 's/^/# /'
breaks_run "an empty line" "$bad_line" sed '5s/^/\n/'
breaks_run "a last line that is cut off" "the line does not end" head -c -1
breaks_image "a file that is cut off" "the line does not end" head -c -3
breaks_run "a file without its last line" "$bad_line" sed '$d'
breaks_run "a file without its first call" "run-1.txt: 2 lines C, the list has 3" sed '2,5d'
breaks_run "a file without its last step" "run-1.txt: 0 lines S, the list has 1" head -n -3
breaks_run "a file without its last two steps" "run-1.txt: 0 lines T, the list has 1" head -n -7
breaks_run "a call too many" "run-1.txt: 4 lines C, the list has 3" sed '1s/$/\nC - 0\nR 1\nA -\nI same/'
breaks_run "a table too many" "run-1.txt: 2 lines T, the list has 1" sed '1s/$/\nT - 0\nR 0\nA -\nI same/'
breaks_run "shortfalls too many" "run-1.txt: 2 lines S, the list has 1" sed '1s/$/\nS 767\nR 1\nF -/'
breaks_run "a zero byte" "the line does not end" sed '2s/$/\x00/'
breaks_run "line ends of another system" "$bad_line" sed 's/$/\r/'

# ── Lines that are missing, doubled or of no kind ───────────────────────────────────────────────────
breaks_run "no Z" "there is no image yet" sed '/^Z/d'
breaks_image "no second Z" "images.txt: 1 lines Z, the list has 4" sed '4,${/^Z/d}'
breaks_image "no P" "images.txt: 3 lines P, the list has 4" sed '0,/^P/{/^P/d}'
breaks_image "no L" "images.txt: 0 lines L, the list has 1" sed '/^L/d'
for letter in C T S R A I F; do
    breaks_run "no $letter" "$bad_line" sed "0,/^$letter/{/^$letter/d}"
    breaks_run "$letter twice" "$bad_line" sed "0,/^$letter/s/^$letter.*/&\n&/"
done
for letter in R A I; do
    breaks_run "no $letter of a table" "$bad_line" sed "/^T/,/^I/{/^$letter/d}"
    breaks_run "$letter of a table twice" "$bad_line" sed "/^T/,/^I/s/^$letter.*/&\n&/"
done
breaks_run "no R of shortfalls" "$bad_line" sed '/^S/,${/^R/d}'
breaks_run "R of shortfalls twice" "$bad_line" sed '/^S/,$s/^R.*/&\n&/'
breaks_run "F before R" "$bad_line" sed -n '/^S/,${/^S/p;/^R/h;/^F/{p;x;p};b};p'
breaks_run "F and no S" "$bad_line" sed '/^S/{N;d}'
breaks_run "F alone at the start" "$bad_line" sed "1s/\$/\nF$zeros/"
breaks_run "F of a call" "$bad_line" sed "0,/^A/s/^A.*/F$zeros/"
breaks_run "F behind a call's R" "$bad_line" sed "0,/^R/s/^R.*/&\nF$zeros/"
breaks_run "A of shortfalls" "$bad_line" sed 's/^F.*/A -/'
breaks_run "A behind the figures" "$bad_line" sed '$s/$/\nA -/'
breaks_run "I behind the figures" "$bad_line" sed '$s/$/\nI same/'
breaks_run "a call for a table" "$bad_line" sed 's/^T/C/'
breaks_run "a table for a call" "$bad_line" sed '0,/^C/s/^C .*/T - 0/'
breaks_run "a table for shortfalls" "$bad_line" sed 's/^S /T - /'
breaks_run "shortfalls for a table" "$bad_line" sed 's/^T .*/S 768/'
for letter in C T S R A I F; do
    breaks_run "another letter than $letter" "$bad_line" sed "0,/^$letter/s/^$letter/X/"
    breaks_run "a small letter $letter" "$bad_line" sed "0,/^$letter/s/^$letter/${letter,}/"
done
for letter in P L; do
    breaks_image "another letter than $letter" "$bad_line" sed "0,/^$letter/s/^$letter/X/"
    breaks_image "a small letter $letter" "$bad_line" sed "0,/^$letter/s/^$letter/${letter,}/"
done
breaks_image "another letter than Z" "$bad_line" sed '4,$s/^Z/X/'

# ── Lines of another form ───────────────────────────────────────────────────────────────────────────
for letter in C T A; do
    breaks_run "odd digits in $letter" "$bad_line" sed "0,/^$letter/s/^$letter ./$letter /"
    breaks_run "no digit in $letter" "$bad_line" sed "0,/^$letter/s/^$letter [0-9a-f]*/$letter /"
    breaks_run "a digit g in $letter" "$bad_line" sed "0,/^$letter/s/^$letter ./$letter g/"
    breaks_run "a digit F in $letter" "$bad_line" sed "0,/^$letter/s/^$letter ./$letter F/"
    breaks_run "two blanks in $letter" "$bad_line" sed "0,/^$letter/s/^$letter /& /"
done
for letter in P I; do
    breaks_image "odd digits in $letter" "$bad_line" sed "0,/^$letter [0-9]/s/^\($letter [0-9]*:\)./\1/"
    breaks_image "no digit in $letter" "$bad_line" sed "0,/^$letter [0-9]/s/^\($letter [0-9]*:\)[0-9a-f]*/\1/"
    breaks_image "no offset in $letter" "$bad_line" sed "0,/^$letter [0-9]/s/^$letter [0-9]*/$letter /"
    breaks_image "no colon in $letter" "$bad_line" sed "0,/^$letter [0-9]/s/:/ /"
    breaks_image "an offset outside in $letter" "$bad_line" sed "0,/^$letter [0-9]/s/^$letter /&65536:00 /"
    breaks_image "a blank behind $letter" "$bad_line" sed "0,/^$letter [0-9]/s/^$letter [0-9].*/& /"
done
breaks_run "a Z with more" "$bad_line" sed 's/^Z/Z 1/'
breaks_image "a length that is none" "$bad_line" sed 's/^L .*/L -1/'
breaks_image "a length that is too large" "$bad_line" sed 's/^L .*/L 65537/'
breaks_run "a number that is none" "$bad_line" sed '0,/^R/s/^R .*/R 0x/'
breaks_run "a call without the answer's length" "$bad_line" sed '0,/^C/s/^\(C [^ ]*\).*/\1/'
breaks_run "an answer longer than its buffer" "$bad_line" sed '0,/^C/s/^\(C [^ ]*\).*/\1 0/'
breaks_run "a table without the answers' length" "$bad_line" sed 's/^\(T [^ ]*\).*/\1/'
breaks_run "two answers and a buffer for one" "$bad_line" sed 's/^\(T [^ ]*\).*/\1 2079/'
breaks_run "a table that is too long for its answers" "$bad_line" sed "s/^T /&$(printf '%048d' 0)/"
breaks_run "an answer too few" "$bad_line" sed 's/^A 03 03/A 03/'
breaks_run "an answer too many" "$bad_line" sed 's/^A 03 03/& 03/'
breaks_run "no answer and one" "$bad_line" sed 's/^A 03 03/A - 03/'
breaks_run "one answer and none" "$bad_line" sed 's/^A 03 03/A 03 -/'
breaks_run "two blanks between answers" "$bad_line" sed 's/^A 03 03/A 03  03/'
breaks_run "a blank behind the answers" "$bad_line" sed 's/^A 03 03/& /'
breaks_run "odd digits in a table's last answer" "$bad_line" sed 's/^A 03 03/A 03 3/'
breaks_run "an answer of too many bytes" "$bad_line" sed "s/^A 03 03/A 03$(printf '%02080d' 0) 03/"
breaks_run "a last answer of too many bytes" "$bad_line" sed "s/^A 03 03/&$(printf '%02080d' 0)/"
breaks_run "a change that is neither" "$bad_line" sed '0,/^I/s/^I.*/I sane/'
for letter in S F; do
    breaks_run "no digit in $letter" "$bad_line" sed "s/^$letter [0-9]*/$letter /"
    breaks_run "nothing behind $letter" "$bad_line" sed "s/^$letter .*/$letter/"
    breaks_run "two blanks in $letter" "$bad_line" sed "s/^$letter /& /"
    breaks_run "a blank behind $letter" "$bad_line" sed "s/^$letter .*/& /"
    breaks_run "a digit x in $letter" "$bad_line" sed "s/^$letter [0-9]/&x/"
    breaks_run "a sign in $letter" "$bad_line" sed "s/^$letter /&-/"
    breaks_run "a fraction in $letter" "$bad_line" sed "s/^$letter [0-9]*/&.0/"
done
breaks_run "a word more in S" "$bad_line" sed 's/^S .*/& 0/'
breaks_run "a record in S" "$bad_line" sed 's/^S /S 00 /'
breaks_run "figures too long to be lent" "$bad_line" sed 's/^S .*/S 65537/'
breaks_run "figures longer than their buffer" "$bad_line" sed 's/^S .*/S 767/'
breaks_run "figures and no byte for them" "$bad_line" sed 's/^S .*/S 0/'
breaks_run "a figure too few" "$bad_line" sed 's/^F 0/F/'
breaks_run "a last figure too few" "$bad_line" sed '/^F/s/ 0$//'
breaks_run "a figure too many" "$bad_line" sed 's/^F .*/& 0/'
breaks_run "one figure" "$bad_line" sed 's/^F .*/F 0/'
breaks_run "no figure and one" "$bad_line" sed 's/^F .*/F - 0/'
breaks_run "figures and none behind them" "$bad_line" sed '/^F/s/ 0$/ -/'
breaks_run "a blank in the middle" "$bad_line" sed '/^F/s/ 0/  0/50'
breaks_run "a figure above 64 bits" "$bad_line" sed 's/^F 0/F 18446744073709551616/'
breaks_run "a last figure above 64 bits" "$bad_line" sed '/^F/s/ 0$/ 18446744073709551616/'
breaks_run "a figure of a digit too many" "$bad_line" sed 's/^F 0/F 100000000000000000000/'
breaks_run "a figure that 64 bits would take for 0" "$bad_line" sed 's/^F 0/F 36893488147419103232/'

# ── Lines that say something else ───────────────────────────────────────────────────────────────────
breaks_run "another number" "$differs" sed '0,/^R/s/^R .*/R 13/'
breaks_run "another number of a table" "$differs" sed '/^T/,$s/^R .*/R 14/'
breaks_run "another number of shortfalls" "$differs" sed '/^S/,$s/^R .*/R 2/'
breaks_run "fewer bytes for figures" "$differs" sed -e 's/^S .*/S 767/' -e 's/^F .*/F -/'
breaks_run "a table of odd length" "$differs" sed -e 's/^T ../T /' -e 's/^A 03 03/A 03/'
breaks_bytes "another answer" "$differs" sed '0,/^A/s/^A ../A 01/'
breaks_bytes "another first answer of a table" "$differs" sed 's/^A 03 03/A 04 03/'
breaks_bytes "another last answer of a table" "$differs" sed 's/^A 03 03/A 03 04/'
breaks_bytes "a table's answers that are not written" "$differs" sed 's/^A 03 03/A -/'
breaks_bytes "a last byte in a table's first answer" "$differs" sed "s/^A 03 03/A 03$(printf '%02076d' 0)01 03/"
breaks_bytes "another change" "$differs" sed 's/^I [0-9].*/I same/'
breaks_bytes "one byte more changed" "$differs" sed 's/^I [0-9].*/& 5000:01/'
breaks_bytes "a byte that a table leaves" "$differs" sed '/^T/,$s/^I same/I 5000:01/'
breaks_bytes "another first figure" "$differs" sed 's/^F 0/F 1/'
breaks_bytes "another last figure" "$differs" sed '/^F/s/ 0$/ 1/'
breaks_bytes "the most that 64 bits hold" "$differs" sed '/^F/s/ 0$/ 18446744073709551615/'
breaks_bytes "figures that are not written" "$differs" sed 's/^F .*/F -/'
file=images.txt
readers=("$vectors")
breaks "another change by a table" "$differs" sed '/^T/,$s/^I [0-9].*/I same/'
breaks "a figure of 0 for one above" "$differs" sed 's/^\(F.*\) [1-9][0-9]*/\1 0/'
breaks "a figure with a digit more" "$differs" sed 's/^\(F.*\) [1-9][0-9]*/&0/'
breaks "figures of another image" "$differs" sed '/^S/,$s/^F .*/F'"$zeros"'/'

# ── Lists ───────────────────────────────────────────────────────────────────────────────────────────
breaks_list "an empty list" "names no file that begins with" true
breaks_list "another count" "lines C, the list has 4" sed 's/ 3 1 1$/ 4 1 1/'
breaks_list "another count of tables" "lines T, the list has 2" sed 's/ 1 1$/ 2 1/'
breaks_list "another count of shortfalls" "lines S, the list has 2" sed 's/ 1$/ 2/'
breaks_list "a list without shortfalls" "not a name with the counts" sed 's/ 1 1$/ 1/'
breaks_list "a count too few" "not a name with the counts" sed 's/ 1$//'
breaks_list "a count too many" "not a name with the counts" sed 's/ 1$/ 1 1/'
breaks_list "a file that is not there" "run-9.txt: cannot be read" sed 's/run-1/run-9/'
holds "the list names every file of vectors" cmp -s <(sed '/^#/d; s/ .*//' "$here/tests/vectors/calls.txt" | sort) \
    <(cd "$here/tests/vectors" && find . -type f ! -name calls.txt | sed 's|^\./||' | sort)
echo "$passed passed, $failed failed"
[ "$failed" -eq 0 ]
