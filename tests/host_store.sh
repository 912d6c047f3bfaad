#!/usr/bin/env bash
# The host program's store: files that are none, output that fails, other users, full and read-only disks, kills, many
# programs at once, changed bytes. Usage: tests/host_store.sh PROGRAM FAST_PROGRAM; the second one is timed.
fast=$(realpath "$2")
# shellcheck source=tests/host_common.sh
. "$(dirname "$0")/host_common.sh"

# script COUNT: pay-ins of one fen
script() {
    for _ in $(seq "$1"); do echo "pay-in account 5 fen 1"; done
}

# whole ZONE: journal and image agree
whole() {
    "$crz" verify "$1" >verified 2>&1 || { cat verified; return 1; }
}

# as_nobody COMMAND..: as a user without rights of its own
as_nobody() {
    setpriv --reuid=65534 --regid=65534 --clear-groups "$@"
}

# change ZONE SQL..: edits the store past the program
change() {
    python3 - "$@" <<'END'
import sqlite3, sys
base = sqlite3.connect(sys.argv[1])
for statement in sys.argv[2:]:
    base.execute(statement)
base.commit()
END
}

# ── Names beside a zone ─────────────────────────────────────────────────────────────────────────────
"$crz" new a >/dev/null && "$crz" new a.next >/dev/null
"$crz" call a.next pay-in account 1 fen 9 >/dev/null
"$crz" call a pay-in account 1 fen 5 >/dev/null
holds "a zone named after another one stays" test "$(total a.next)" -eq 9
for ending in journal wal shm; do
    ends 3 "names that end in -$ending are SQLite's own" new "a-$ending"
done
holds "a zone at rest is one file" test "$(echo a*)" = "a a.next"
cp a.next a-journal
ends 3 "a-journal does not belong to it; move that file away first" call a pay-in account 1 fen 5
holds "a file with the name of SQLite's stays" cmp -s a.next a-journal
mv a-journal a-wal
ends 3 "a-wal does not belong to it" show a
holds "a file with the name of SQLite's stays" cmp -s a.next a-wal
mv a-wal b-journal
ends 3 "b-journal is there, left of another zone perhaps" new b
rm b-journal
ends 3 "its folder nowhere cannot be opened" new nowhere/b
deep=$(printf 'folder%0194d' 0)
mkdir -p "$deep/$deep"
ends 3 "its whole path is longer than 480 bytes" new "$deep/$deep/$deep"
(cd "$deep/$deep" && "$crz" new "$(printf 'zone%0194d' 0)" >/dev/null 2>&1)
holds "a long folder ends with $?" test $? -eq 3
holds "no zone that nobody could open is made" test -z "$(ls "$deep/$deep")"

# ── Files that are no zone ──────────────────────────────────────────────────────────────────────────
: >empty
printf 'some text\n' >text
head -c 4096 /dev/zero >zeros
python3 -c 'import sqlite3; c = sqlite3.connect("other"); c.execute("create table t(x)"); c.commit()'
mkdir folder
mkfifo pipe
for file in empty text zeros other; do
    before=$(sha256sum "$file")
    ends 3 "$file: is no zone" call "$file" day-close
    ends 3 "$file: is no zone" show "$file"
    holds "$file stays" test "$before" = "$(sha256sum "$file")"
done
ends 3 "is a folder, not a zone" call folder day-close
ends 3 "is no regular file" show pipe
for format in 1 2 3; do # before format 3 the image was shorter
    length=$([ "$format" -lt 3 ] && echo "$older_length" || echo "$image_length")
    cp a older && change older "pragma user_version = $format" \
        "update zone set image = cast(substr(image, 1, $length) as blob)"
    before=$(sha256sum older)
    for command in show log verify due; do
        ends 3 "older: is a zone of the older format $format; this program knows formats 4 and 5 and leaves the file" \
            "$command" older
    done
    ends 3 "the program that made it writes its image with 'crz export older IMAGE', and 'crz import ZONE IMAGE' here" \
        call older day-close
    ends 3 "takes that, or says which trades are to be finished first" export older older.image
    ends 3 "the call was not made" call older day-close
    holds "a zone of format $format stays" test "$before" = "$(sha256sum older)"
done
cp a newer && change newer "pragma user_version = 6"
ends 3 "is a zone of the newer format 6; this program knows formats 4 and 5 and leaves the file as it was" \
    call newer day-close
cp a tables && change tables "create table more (x)"
ends 3 "its tables are not those of a zone" call tables day-close
cp a cut && truncate -s -4096 cut
ends 3 "damaged" call cut day-close
cp a grown && head -c 4096 /dev/zero >>grown
ends 3 "it has another length than its header says" call grown day-close
ends 3 "it has another length than its header says" verify grown
ends 3 "damaged" verify cut
ln a twice
ends 3 "has 2 names (hard links)" call a day-close
rm twice

# ── Modes, links, names of any kind ─────────────────────────────────────────────────────────────────
chmod 444 a
ends 3 "nobody may write it (mode 444); 'chmod u+w a' allows it" call a pay-in account 1 fen 5
script 3 >three
script 40 >forty
ends 3 "nobody may write it (mode 444)" play a three --table
holds "a zone that nobody may write stays" test "$(total a)" -eq 5
for mode in 600 640 666; do
    chmod "$mode" a
    (umask 027 && "$crz" call a pay-in account 1 fen 1 >/dev/null)
    holds "a call keeps mode $mode" test "$(stat -c %a a)" = "$mode"
done
(umask 077 && "$crz" new private >/dev/null)
holds "a new zone has the caller's mode" test "$(stat -c %a private)" = 600
mkdir elsewhere
"$crz" new elsewhere/linked >/dev/null
ln -s elsewhere/linked link
ends 0 "total 5 fen" call link pay-in account 5 fen 5
ends 0 "total 7 fen" call elsewhere/linked pay-in account 5 fen 2
ends 0 "total 7 fen" show link
holds "a link stays one, without files beside it" test -L link -a "$(echo link*)" = link
ends 3 "exists already" new link
ln -s nothing dangling
ends 3 "exists already" new dangling
ends 3 "there is no such file" show dangling
for name in 'file:name?mode=memory' ':memory:' $'line\nbreak' 'a b' "caf"$'\351'; do
    ends 0 "a fresh zone" new "$name"
    ends 0 "accepted, sequence 1" call "$name" pay-in account 1 fen 1
    holds "'$name' is a file" test -s "$name"
done

# ── Output that cannot be written ───────────────────────────────────────────────────────────────────
"$crz" new out >/dev/null
said=$("$crz" call out pay-in account 1 fen 5 2>&1 >/dev/full)
holds "an answer to a full device ends with $?" test $? -eq 4
holds "a full device: $said" grep -qF "call 1 was made, but its answer could not be shown" <<<"$said"
holds "a full device: $said" grep -qF "'crz log out --last 1' shows it" <<<"$said"
holds "the call was made" test "$(total out)" -eq 5
ends 3 "last sequence number is 1, not 0" call out --expect 0 pay-in account 1 fen 5
"$crz" call out pay-in account 1 fen 5 >&- 2>said
holds "a closed output ends with $?" test $? -eq 3
holds "a closed output: $(cat said)" grep -qF "standard output is closed" said
"$crz" call out pay-in account 1 fen 5 1<out 2>said
holds "an output that is open for reading ends with $?" test $? -eq 3
holds "nothing was done" test "$(total out)" -eq 5
cp out whole.copy
"$crz" call out pay-in account 1 fen 5 >>out 2>said
holds "an output into the zone ends with $?" test $? -eq 3
holds "an output into the zone: $(cat said)" grep -qF "goes into the zone itself" said
"$crz" call out pay-in account 1 fen 5 >>out 2>&1
holds "output and messages into the zone end with $?" test $? -eq 3
"$crz" call out pay-in account 1 fen 5 >out-journal 2>said
holds "an output into SQLite's file ends with $?" test $? -eq 3
rm out-journal
holds "the zone stays" cmp -s out whole.copy
"$crz" call out pay-in account 1 fen 5 <&- >said 2>&-
holds "closed input and messages end with $?" test $? -eq 0
holds "the answer is in its place" grep -qF "accepted, sequence 2" said
"$crz" play out - <&- >said 2>&1
status=$?
holds "a closed input ends with $status: $(cat said)" test "$status" -eq 3
script 3 | "$crz" play out - >/dev/full 2>said
holds "a script to a full device ends with $?" test $? -eq 3
holds "nothing of the script was made" test "$(total out)" -eq 10
"$crz" play out forty --table >/dev/full 2>said
holds "tables to a full device end with $?" test $? -eq 3
holds "tables to a full device: $(cat said)" grep -qF "of the script's 40 calls 0 were made" said
holds "no table was made" test "$(total out)" -eq 10
# the first table's answers go out, those of the second do not
"$crz" new answered >/dev/null
head -c $((40960 - 4000)) /dev/zero >filled
script 70 | (ulimit -f 40; "$crz" play answered - --table >>filled 2>said)
status=$?
holds "answers of a table that are not shown end with $status: $(cat said)" test "$status" -eq 4
holds "which calls: $(cat said)" grep -qF "calls 33 to 64 were made, but not all of their answers could be shown" said
holds "where they are: $(cat said)" grep -qF "'crz log answered --last 32' shows them" said
holds "how many: $(cat said)" grep -qF "of the script's 70 calls 64 were made" said
holds "the tables were made" test "$(total answered)" -eq 64
ends 3 "last sequence number is 64, not 32" play answered three --table --expect 32
head -c 40950 /dev/zero >filled
script 1 | (ulimit -f 40; "$crz" play answered - --table >>filled 2>said)
status=$?
holds "a table that cannot be named is not made: $status: $(cat said)" test "$status" -eq 3 -a "$(total answered)" -eq 64
head -c 40900 /dev/zero >filled
script 1 | (ulimit -f 40; "$crz" play answered - --table >>filled 2>said)
status=$?
holds "a table of one call that is not shown ends with $status: $(cat said)" test "$status" -eq 4
holds "a table of one call: $(cat said)" grep -qF "call 65 was made, but its answer could not be shown" said
whole answered
holds "journal and image agree" test $? -eq 0
# answers that fit exactly, and a last line that does not: calls were made
"$crz" new exact >/dev/null
head -c $((40960 - 68)) /dev/zero >filled
script 1 | (ulimit -f 40; "$crz" play exact - >>filled 2>said)
status=$?
holds "a last line that is not shown ends with $status: $(cat said)" test "$status" -eq 4
holds "a last line that is not shown: $(cat said)" grep -qF "of the script's 1 call 1 were made" said
{ script 50; sleep 0.2; } | { "$crz" play out - 2>said; echo $? >status; } | head -n 1 >/dev/null
holds "a script into a closed pipe ends with $(cat status)" grep -q '[34]' status
holds "a call into a closed pipe is told" grep -qF "of the script's 50 calls" said
"$crz" show out >/dev/full 2>said
holds "a table to a full device ends with $?" test $? -eq 3
"$crz" export out out.image >/dev/full 2>said
status=$?
holds "an image to a full device ends with $status: $(cat said)" test "$status" -eq 4
rm out.image
whole out
holds "journal and image agree" test $? -eq 0
holds "no file beside the zone" test "$(echo out*)" = out

# ── A zone's format rises with its first table ──────────────────────────────────────────────────────
# format ZONE: the number that its header has
format() {
    od -An -tu1 -j63 -N1 "$1" | tr -d ' '
}

"$crz" new formats >/dev/null
holds "a new zone has format 4" test "$(format formats)" -eq 4
"$crz" call formats pay-in account 1 fen 5 >/dev/null
"$crz" play formats forty >/dev/null 2>&1
holds "calls leave it at 4" test "$(format formats)" -eq 4
ends 3 "last sequence number is 41, not 40" play formats forty --table --expect 40
holds "a table that is not made leaves it at 4" test "$(format formats)" -eq 4
(ulimit -f $(($(stat -c %s formats) / 1024)); "$crz" play formats forty --table >said 2>&1)
status=$?
holds "a table that finds no room ends with $status: $(cat said)" test "$status" -eq 3
ends 0 "total 45 fen" show formats
holds "a table taken back leaves it at 4" test "$(format formats)" -eq 4
"$crz" play formats three --table >/dev/null 2>&1
holds "the first table makes it 5" test "$(format formats)" -eq 5
"$crz" call formats pay-in account 1 fen 5 >/dev/null
"$crz" play formats forty --table >/dev/null 2>&1
holds "and it stays at 5" test "$(format formats)" -eq 5
ends 0 "replay: 85 calls compared, 43 of them in 3 tables" verify formats
"$crz" export formats formats.image >/dev/null && "$crz" import formats.new formats.image >/dev/null
holds "a zone made from its image has format 4" test "$(format formats.new)" -eq 4

# ── Writers wait, with a limit and a message ────────────────────────────────────────────────────────
"$crz" new held >/dev/null
cat >hold.py <<'END'
import sqlite3, sys, time
base = sqlite3.connect(sys.argv[1], isolation_level=None)
base.execute("begin " + sys.argv[2])
print("held", flush=True)
time.sleep(60)
END
# held_by LOCK: a program that holds the zone's lock and is stopped
held_by() {
    : >holding # what an earlier one said is no sign
    python3 hold.py held "$1" >holding &
    holder=$!
    disown "$holder" # it is killed below, and nobody needs to hear of it
    for _ in $(seq 500); do [ -s holding ] && break; sleep 0.01; done
    kill -STOP "$holder"
}
held_by immediate
start=$(date +%s%N)
ends 3 "in use by another program; gave up after 1 second, --wait SECONDS waits longer" call held --wait 1 pay-in account 1 fen 5
took=$((($(date +%s%N) - start) / 1000000))
holds "the wait ended after $took ms" test "$took" -ge 1000 -a "$took" -lt 4000
ends 3 "in use by another program; gave up after 0 seconds" call held --wait 0 pay-in account 1 fen 5
ends 3 "in use by another program; gave up after 0 seconds" play held three --wait 0 --table
ends 3 "of the script's 3 calls 0 were made" play held three --wait 0 --table
ends 0 "total 0 fen" show held
("$crz" call held --wait 30 pay-in account 1 fen 5 >said 2>&1) &
waiting=$!
sleep 1.3
kill -KILL "$holder"
wait "$waiting"
holds "who waits long enough is served: $(cat said)" grep -qF "accepted, sequence 1" said
holds "a long wait is told" grep -qF "waiting up to 30 seconds" said
held_by exclusive
ends 3 "in use by another program" show held --wait 0
kill -KILL "$holder"
ends 0 "total 5 fen" show held

# ── Signals ─────────────────────────────────────────────────────────────────────────────────────────
# A script that is asked to end finishes its call, says how far it came, leaves one file and ends by the signal.
script 20000 >many
script 100000 >longer
for name in INT TERM HUP; do
    "$crz" new "signal.$name" >/dev/null
    : >said
    env --default-signal="$name" "$crz" play "signal.$name" many >said 2>&1 &
    player=$!
    for _ in $(seq 1000); do [ -s said ] && break; sleep 0.01; done
    sleep 0.1
    kill -s "$name" "$player"
    wait "$player" 2>/dev/null
    holds "a script that gets $name ends with $?" test $? -eq $((128 + $(kill -l "$name")))
    told=$(grep -c '^accepted' said)
    holds "$name: $(tail -n 1 said)" grep -qF "of the script's 20,000 calls $(thousands "$told") were made" said
    holds "$name: what was told is there" test "$(total "signal.$name")" -eq "$told"
    holds "$name: one file is left" test "$(echo signal."$name"*)" = "signal.$name"
done
# In tables it finishes the table.
"$crz" new signal.table >/dev/null
: >said
env --default-signal=TERM "$crz" play signal.table longer --table >said 2>&1 &
player=$!
for _ in $(seq 1000); do [ -s said ] && break; sleep 0.01; done
sleep 0.1
kill -s TERM "$player"
wait "$player" 2>/dev/null
holds "a script in tables that gets TERM ends with $?" test $? -eq 143
told=$(grep -c '^accepted' said)
holds "whole tables were made: $told" test $((told % 32)) -eq 0 -a "$told" -lt 100000
holds "tables and TERM: $(tail -n 1 said)" grep -qF "of the script's 100,000 calls $(thousands "$told") were made" said
holds "tables and TERM: what was told is there" test "$(total signal.table)" -eq "$told"
holds "tables and TERM: one file is left" test "$(echo signal.table*)" = signal.table
held_by immediate
env --default-signal=TERM "$crz" call held --wait 60 pay-in account 1 fen 5 >said 2>&1 &
waiting=$!
sleep 0.5
kill -s TERM "$waiting"
wait "$waiting"
holds "a call that waits and gets TERM ends with $?" test $? -eq 143
holds "a call that waits and gets TERM: $(cat said)" grep -qF "held: the call was not made" said
kill -KILL "$holder"
ends 0 "total 5 fen" show held

# ── Many programs at once ───────────────────────────────────────────────────────────────────────────
"$crz" new shared >/dev/null
ln -s shared shared-too
script 30 >thirty
for n in $(seq 10); do
    name=shared
    [ $((n % 2)) -eq 0 ] && name=shared-too
    "$crz" play "$name" thirty --wait 60 >"said.$n" 2>&1 &
done
for _ in $(seq 20); do "$crz" log shared --last 3 >/dev/null; "$crz" show shared >/dev/null; done
wait
accepted=$(cat said.* | grep -c '^accepted')
holds "ten programs: $accepted calls accepted" test "$accepted" -eq 300
holds "ten programs: the total is what was accepted" test "$(total shared)" -eq "$accepted"
holds "ten programs: every call has its own number" test "$(cat said.* | grep -o 'sequence [0-9]*' | sort -u | wc -l)" -eq 300
whole shared
holds "ten programs: journal and image agree" test $? -eq 0

# Tables of two programs and calls of two others: nobody comes between the calls of a table.
"$crz" new mixed >/dev/null
script 100 >hundred
rm -f said.*
for n in 1 2; do
    "$crz" play mixed hundred --wait 60 --table >"said.$n" 2>&1 &
    "$crz" play mixed hundred --wait 60 >"said.$n.single" 2>&1 &
done
wait
holds "tables and calls at once: 400 accepted" test "$(cat said.* | grep -c '^accepted')" -eq 400
holds "every call has its own number" test "$(cat said.* | grep -o 'sequence [0-9]*' | sort -u | wc -l)" -eq 400
for n in 1 2; do # 32, 32, 32 and 4 calls, each table with numbers one behind the other
    grep -o '^calls.*\|sequence [0-9]*' "said.$n" | awk '/^calls/ { next_of_table = 0; tables++; next }
        next_of_table && $2 != next_of_table { bad = 1 } { next_of_table = $2 + 1 } END { exit bad || tables != 4 }'
    holds "the calls of a table follow one another" test $? -eq 0
done
whole mixed
holds "tables and calls at once: journal and image agree" test $? -eq 0
holds "what verify counts: $(cat verified)" grep -qF "replay: 400 calls compared, 200 of them in 8 tables" verified

# A call beside a long script does not wait for its end.
"$crz" new beside >/dev/null
"$crz" play beside many >said 2>&1 &
player=$!
for _ in $(seq 1000); do [ -s said ] && break; sleep 0.01; done
for n in $(seq 5); do ends 0 "accepted" call beside pay-in account 1 fen 1; done
holds "the script still runs" kill -s TERM "$player"
wait "$player"
: >said
"$crz" play beside longer --table >said 2>&1 &
player=$!
for _ in $(seq 1000); do [ -s said ] && break; sleep 0.01; done
for n in $(seq 5); do ends 0 "accepted" call beside pay-in account 1 fen 1; done
holds "the script in tables still runs" kill -s TERM "$player"
wait "$player"
whole beside
holds "calls between tables: journal and image agree" test $? -eq 0

# ── Files that go while a script runs ───────────────────────────────────────────────────────────────
"$crz" new gone >/dev/null
script 300 >three_hundred
"$crz" play gone three_hundred >said 2>&1 &
player=$!
for _ in $(seq 2000); do
    rm -f gone-journal
    kill -0 "$player" 2>/dev/null || break
done
wait "$player"
holds "SQLite's file removed: every accepted call is there" test "$(total gone)" -eq "$(grep -c '^accepted' said)"
whole gone
holds "SQLite's file removed: journal and image agree" test $? -eq 0
: >said
"$crz" play gone many >said 2>&1 &
player=$!
for _ in $(seq 500); do [ -s said ] && break; sleep 0.01; done
mv gone away
wait "$player"
holds "a zone moved away ends its script with $?" test $? -eq 3
holds "a zone moved away is told" grep -qF "the file was moved or replaced while in use" said
holds "a zone moved away has what was accepted" test "$(total away)" -eq $((300 + $(grep -c '^accepted' said)))
mv away gone
before=$(total gone)
: >said
"$crz" play gone longer --table >said 2>&1 &
player=$!
for _ in $(seq 500); do [ -s said ] && break; sleep 0.01; done
mv gone away
wait "$player"
holds "a zone moved away ends its tables with $?" test $? -eq 3
holds "and has what was accepted" test "$(total away)" -eq $((before + $(grep -c '^accepted' said)))

# ── Other users ─────────────────────────────────────────────────────────────────────────────────────
if [ "$(id -u)" -eq 0 ] && as_nobody true 2>/dev/null; then
    mkdir -m 777 open && mkdir -m 755 shut && mkdir unread
    chown 65534:65534 unread
    (cd open && as_nobody "$crz" new user >/dev/null && chmod 666 user)
    ends 0 "accepted, sequence 1" call open/user pay-in account 1 fen 1
    holds "a zone keeps its owner" test "$(stat -c %u open/user)" -eq 65534
    holds "its owner calls it" as_nobody "$crz" call open/user pay-in account 1 fen 1 >/dev/null
    "$crz" new open/both >/dev/null && chmod 666 open/both
    holds "a second user calls a zone of mode 666" as_nobody "$crz" call open/both pay-in account 1 fen 1 >/dev/null
    holds "the first user calls it again" "$crz" call open/both pay-in account 1 fen 1 >/dev/null
    holds "a zone of two users keeps its owner" test "$(stat -c %u open/both)" -eq 0
    "$crz" new open/mine >/dev/null && chmod 644 open/mine
    said=$(as_nobody "$crz" call open/mine pay-in account 1 fen 1 2>&1)
    holds "a zone of another user ends with $?: $said" test $? -eq 3
    holds "a zone of another user: $said" grep -qF "cannot be written: Permission denied" <<<"$said"
    holds "a zone of another user can be read" as_nobody "$crz" show open/mine >/dev/null
    "$crz" new shut/zone >/dev/null && chmod 666 shut/zone
    said=$(as_nobody "$crz" call shut/zone pay-in account 1 fen 1 2>&1)
    holds "a folder of another user ends with $?: $said" test $? -eq 3
    holds "a folder of another user: $said" grep -qF "its folder cannot be written" <<<"$said"
    as_nobody "$crz" new unread/zone >/dev/null
    chmod 333 unread
    said=$(as_nobody "$crz" call unread/zone pay-in account 1 fen 1 2>&1)
    holds "a folder that cannot be read ends with $?: $said" test $? -eq 3
    holds "a folder that cannot be read: $said" grep -qF "may not be read" <<<"$said"
    said=$(as_nobody "$crz" new unread/other 2>&1)
    holds "no new zone in a folder that cannot be read: $?" test $? -eq 3 -a ! -e unread/other
    chmod 755 unread
    holds "nothing was done there" test "$(total unread/zone)" -eq 0
else
    echo "not root: two users and folders of others are not tried"
fi

# ── A full disk ─────────────────────────────────────────────────────────────────────────────────────
"$crz" new limited >/dev/null
(ulimit -f 40; "$crz" play limited many >said 2>&1)
status=$?
holds "a limit on the file's length ends with $status: $(tail -n 1 said)" test "$status" -eq 3
holds "a limit on the file's length is told" grep -qE 'crz: limited: the disk (is full|reports an error)' said
holds "what was accepted is there" test "$(total limited)" -eq "$(grep -c '^accepted' said)"
whole limited
holds "journal and image agree after it" test $? -eq 0
ends 0 "accepted" call limited pay-in account 5 fen 1
before=$(total limited)
(ulimit -f 60; "$crz" play limited longer --table >said 2>&1)
status=$?
holds "a limit on the file's length ends tables with $status: $(tail -n 1 said)" test "$status" -eq 3
holds "it is told" grep -qE 'crz: limited: the disk (is full|reports an error)' said
told=$(grep -c '^accepted' said)
holds "whole tables were accepted: $told" test $((told % 32)) -eq 0 -a "$told" -gt 0
holds "what was accepted is there" test "$(total limited)" -eq $((before + told))
whole limited
holds "journal and image agree after it" test $? -eq 0
cat >disks.sh <<'END'
crz=$1
mount -t tmpfs -o size=160k none disk || exit 9
"$crz" new disk/zone >/dev/null
head -c 60k /dev/zero >disk/filler
"$crz" play disk/zone many >full.said 2>&1
echo $? >full.status
"$crz" show disk/zone | sed -n '1s/.*total \(.*\) fen/\1/p' | tr -d , >full.total
"$crz" verify disk/zone >full.verify 2>&1
rm disk/filler
"$crz" call disk/zone pay-in account 5 fen 1 >full.after 2>&1
"$crz" show disk/zone | sed -n '1s/.*total \(.*\) fen/\1/p' | tr -d , >tables.before
head -c 30k /dev/zero >disk/filler
"$crz" play disk/zone many --table >tables.said 2>&1
echo $? >tables.status
"$crz" show disk/zone | sed -n '1s/.*total \(.*\) fen/\1/p' | tr -d , >tables.total
"$crz" verify disk/zone >tables.verify 2>&1
rm disk/filler
head -c 200k /dev/zero >disk/filler 2>/dev/null
"$crz" new disk/other >full.new 2>&1
ls disk >full.ls
rm disk/filler
mount -o remount,ro disk || exit 9
"$crz" show disk/zone >ro.show 2>&1
echo $? >ro.show.status
"$crz" verify disk/zone >ro.verify 2>&1
"$crz" call disk/zone pay-in account 5 fen 1 >ro.call 2>&1
echo $? >ro.status
"$crz" play disk/zone three --table >ro.table 2>&1
echo $? >ro.table.status
"$crz" new disk/third >ro.new 2>&1
echo $? >ro.new.status
END
mkdir disk
if unshare -m sh disks.sh "$crz" 2>unshare.said; then
    holds "a full disk ends with $(cat full.status)" grep -qx 3 full.status
    holds "a full disk is told: $(tail -n 2 full.said)" grep -qF "the disk is full; make room and try again" full.said
    holds "a full disk has what was accepted" test "$(cat full.total)" -eq "$(grep -c '^accepted' full.said)"
    holds "a full disk: $(cat full.verify)" grep -qF "history: the books" full.verify
    holds "room again: $(cat full.after)" grep -qF "accepted" full.after
    holds "a full disk ends tables with $(cat tables.status)" grep -qx 3 tables.status
    holds "a full disk has the tables that were accepted: $(tail -n 2 tables.said)" test \
        "$(cat tables.total)" -eq $(($(cat tables.before) + $(grep -c '^accepted' tables.said)))
    holds "and no part of one" test $(($(grep -c '^accepted' tables.said) % 32)) -eq 0
    holds "a full disk and tables: $(cat tables.verify)" grep -qF "history: the books" tables.verify
    holds "no new zone on a full disk: $(cat full.new)" grep -qF "cannot be made: No space left" full.new
    holds "nothing is left of it" test "$(tr '\n' ' ' <full.ls)" = "filler zone "
    holds "a read-only disk is shown: $(cat ro.show.status)" grep -qx 0 ro.show.status
    holds "a read-only disk is verified" grep -qF "history: the books" ro.verify
    holds "a read-only disk ends with $(cat ro.status)" grep -qx 3 ro.status
    holds "a read-only disk is told: $(cat ro.call)" grep -qF "cannot be written: Read-only file system" ro.call
    holds "a read-only disk ends tables with $(cat ro.table.status)" grep -qx 3 ro.table.status
    holds "a read-only disk is told: $(cat ro.table)" grep -qF "cannot be written: Read-only file system" ro.table
    holds "a read-only disk: $(cat ro.table)" grep -qF "no call was made" ro.table
    holds "no new zone on a read-only disk: $(cat ro.new)" grep -qx 3 ro.new.status
else
    echo "no disk of our own ($(head -n 1 unshare.said)): the limit on a file's length stands in for a full disk"
    if [ "$(id -u)" -ne 0 ]; then
        "$crz" new locked.zone >/dev/null && mkdir locked && mv locked.zone locked/zone && chmod 555 locked
        ends 3 "its folder cannot be written" call locked/zone pay-in account 1 fen 1
        ends 0 "total 0 fen" show locked/zone
        chmod 755 locked
    fi
fi

# ── Kills ───────────────────────────────────────────────────────────────────────────────────────────
# killed_in ROUND WORDS..: kills the program in the middle; `told` is how many calls it has shown as accepted
killed_in() {
    local round=$1 player
    shift
    : >said
    "$crz" "$@" >said 2>&1 &
    player=$!
    # every other kill comes after the first answer, however slow the machine
    for _ in $(seq $((round % 2 * 1000))); do [ -s said ] && break; sleep 0.01; done
    sleep "0.0$((RANDOM % 90 + 10))"
    kill -9 "$player" 2>/dev/null
    wait "$player" 2>/dev/null
    told=$(grep -c '^accepted' said)
}

# A kill at any moment leaves the old state or the new one, journal and image agreeing, and nothing shown is lost.
"$crz" new killed >/dev/null
last=0
for round in $(seq 25); do
    killed_in "$round" play killed many
    whole killed
    holds "round $round: journal and image agree" test $? -eq 0
    now=$(total killed)
    holds "round $round: $now fen after $last and $told answers" test -n "$now" -a "${now:-0}" -ge $((last + told)) \
        -a "${now:-0}" -le $((last + told + 1))
    last=${now:-0}
done
holds "the kills came in the middle of the script: $last" test "$last" -gt 0 -a "$last" -lt 500000
# A kill in the middle of a table leaves all of its calls or none.
"$crz" new killed.table >/dev/null
last=0 cut=0
for round in $(seq 25); do
    killed_in "$round" play killed.table many --table
    whole killed.table
    holds "tables, round $round: journal and image agree" test $? -eq 0
    now=$(total killed.table)
    holds "tables, round $round: $now fen after $last and $told answers" test -n "$now" -a "${now:-0}" -ge $((last + told)) \
        -a "${now:-0}" -le $((last + (told + 31) / 32 * 32 + 32))
    holds "tables, round $round: whole tables" test $(((${now:-0} - last) % 32)) -eq 0
    [ "${now:-0}" -eq $((last + told)) ] || cut=$((cut + 1))
    last=${now:-0}
done
holds "the kills came in the middle of the script: $last" test "$last" -gt 0 -a "$last" -lt 500000
holds "what verify counts" grep -qF "replay: $(thousands "$last") calls compared, $(thousands "$last") of them in $(thousands $((last / 32))) table" verified
echo "kills between tables: $cut of 25 left a table that was made and not told"
for round in $(seq 20); do
    "$fast" new "made.$round" >/dev/null 2>&1 &
    player=$!
    sleep "0.00$((RANDOM % 9 + 1))"
    kill -9 "$player" 2>/dev/null
    wait "$player" 2>/dev/null
    [ ! -e "made.$round" ] || "$crz" verify "made.$round" >/dev/null
    holds "a new zone is whole or not there" test $? -eq 0
done
holds "a killed 'new' leaves no other file" test -z "$(find . -name 'made.*[!0-9]*')"

# A commit that was cut off while pages were being written is taken back by the next program.
cat >cut.py <<'END'
import os, sqlite3, sys
base = sqlite3.connect(sys.argv[1], isolation_level=None)
base.execute("pragma cache_size = 1")
base.execute("begin immediate")
base.execute("update zone set image = zeroblob(length(image))")
base.execute("update journal set answer = zeroblob(2000)")
os._exit(9)
END
"$crz" new halfway >/dev/null && script 100 | "$crz" play halfway - >/dev/null
cp halfway whole.copy
# cut_off: pages of the zone are changed, and SQLite's file knows what they were
cut_off() {
    python3 cut.py "${1:-halfway}"
    holds "a commit was cut off" test "$(cmp -s "${1:-halfway}" whole.copy || echo changed)" = changed -a -s "${1:-halfway}-journal"
}
cut_off
ends 0 "total 100 fen" show halfway
holds "reading took it back" cmp -s halfway whole.copy
cut_off
ends 0 "accepted, sequence 101" call halfway pay-in account 5 fen 1
whole halfway
holds "a call took it back" test $? -eq 0
cp halfway whole.copy
cut_off
ends 0 "3 calls in 1 table: 3 accepted, 0 refused" play halfway three --table
whole halfway
holds "a table took it back" test $? -eq 0
ends 0 "accepted, sequence 105" call halfway take-out account 5 fen 3
if [ "$(id -u)" -eq 0 ] && as_nobody true 2>/dev/null; then
    cp halfway whole.copy
    cut_off
    said=$(as_nobody "$crz" show halfway 2>&1)
    holds "a user who may not write ends with $?: $said" test $? -eq 3
    holds "a user who may not write: $said" grep -qF "open the zone once as a user who may write it" <<<"$said"
    ends 0 "total 101 fen" show halfway
    # In a folder where files belong to their makers, only the one who left SQLite's file can take it away.
    mkdir -m 1777 sticky
    mv halfway sticky && chmod 666 sticky/halfway
    cp sticky/halfway whole.copy
    cut_off sticky/halfway
    said=$(as_nobody "$crz" show sticky/halfway 2>&1)
    holds "SQLite's file of another user ends with $?: $said" test $? -eq 3
    holds "SQLite's file of another user: $said" grep -qF "open the zone once as the user whose file that is" <<<"$said"
    ends 0 "total 101 fen" show sticky/halfway
fi

# ── Syncs that fail ─────────────────────────────────────────────────────────────────────────────────
if gcc -shared -fPIC -o failing.so "$here/tests/failing_sync.c" -ldl 2>/dev/null; then
    "$crz" new synced >/dev/null
    for n in $(seq 8); do
        before=$(sequence synced)
        ASAN_OPTIONS=verify_asan_link_order=0 FAIL_SYNC=$n LD_PRELOAD=./failing.so "$crz" call synced pay-in account 5 fen 1 >said 2>&1
        status=$?
        after=$(sequence synced)
        case $status in
        0) holds "sync $n, accepted: $(cat said)" test "$after" -eq $((before + 1)) ;;
        3) holds "sync $n, not made: $(cat said)" test "$after" -eq "$before" ;;
        4) holds "sync $n, unsure: $(cat said)" grep -qF "'crz log synced --last 1' shows whether it was made" said ;;
        *) holds "sync $n ends with $status: $(cat said)" false ;;
        esac
        whole synced
        holds "sync $n: journal and image agree" test $? -eq 0
    done
    # Two tables: all of a table's calls or none, and a message that names them.
    unsure=0
    for n in $(seq 14); do
        before=$(sequence synced)
        ASAN_OPTIONS=verify_asan_link_order=0 FAIL_SYNC=$n LD_PRELOAD=./failing.so "$crz" play synced forty --table >said 2>&1
        status=$?
        after=$(sequence synced) told=$(grep -c '^accepted' said)
        case $status in
        0) holds "sync $n, tables accepted: $(cat said)" test "$after" -eq $((before + 40)) ;;
        3) holds "sync $n, table not made: $(cat said)" test "$after" -eq $((before + told)) ;;
        4) # told are the tables before it
            unsure=$((unsure + 1))
            calls=$((told == 0 ? 32 : 8)) first=$((before + told + 1))
            holds "sync $n, unsure: $(tail -n 2 said)" grep -qF "the disk failed while calls $first to $((first + calls - 1)) were kept, all or none of them; 'crz log synced --last $calls' shows whether they were made" said
            holds "sync $n: all or none of $before, $told, $after" test "$after" -eq $((first - 1)) -o "$after" -eq $((first + calls - 1)) ;;
        *) holds "sync $n, tables end with $status: $(cat said)" false ;;
        esac
        holds "sync $n: only whole tables are told" test "$told" -eq 0 -o "$told" -eq 32 -o "$told" -eq 40
        whole synced
        holds "sync $n, tables: journal and image agree" test $? -eq 0
    done
    holds "a sync failed at the end of a commit: $unsure" test "$unsure" -gt 0
else
    echo "no shared objects can be built: failing syncs are not tried"
fi

# ── A disk that knows no files without a name ───────────────────────────────────────────────────────
cat >named.c <<'END'
#include <errno.h>
int openat(int folder, const char *path, int flags, ...) /* the program has no other use for it */
{
    (void)folder, (void)path, (void)flags;
    errno = EOPNOTSUPP;
    return -1;
}
END
if gcc -shared -fPIC -o named.so named.c 2>/dev/null; then
    LD_PRELOAD=./named.so "$fast" new named >said 2>&1
    holds "a new zone there: $(cat said)" grep -qF "named: a fresh zone" said
    LD_PRELOAD=./named.so "$fast" new named >said 2>&1
    holds "a zone that exists there: $(cat said)" grep -qF "exists already" said
    LD_PRELOAD=./named.so "$fast" export named named.image >said 2>&1
    holds "an image there: $(cat said)" test "$(stat -c %s named.image)" -eq "$image_length"
    whole named
    holds "the zone is whole" test $? -eq 0
    holds "no other file is left" test "$(echo named*)" = "named named.c named.image named.so"
fi

# ── Progress ────────────────────────────────────────────────────────────────────────────────────────
cat >terminal.py <<'END'
"""Runs a command with a terminal as its standard error until it has said both texts there, or ends."""
import os, pty, select, subprocess, sys, time
try:
    master, slave = pty.openpty()
except OSError as error:
    print("no terminal of our own (%s): progress is not tried" % error)
    sys.exit(0)
texts, command = [text.encode() for text in sys.argv[1:3]], sys.argv[3:]
program = subprocess.Popen(command, stdout=subprocess.DEVNULL, stderr=slave)
seen, end = b"", time.time() + 20
while not all(text in seen for text in texts) and time.time() < end:
    ended = program.poll() is not None
    if select.select([master], [], [], 0 if ended else 1)[0]:
        seen += os.read(master, 100)
    elif ended:
        break
program.kill()
program.wait()
sys.exit(0 if all(text in seen for text in texts) else 1)
END
"$crz" new long >/dev/null
holds "a long script shows how far it is on a terminal" python3 terminal.py 'play: ' ' of 20,000 calls' "$crz" play long many
holds "and nowhere else" test "$(timeout 2 "$crz" play long many 2>&1 >/dev/null | grep -c 'play: ')" -eq 0
holds "a long script in tables shows it too" python3 terminal.py 'play: ' ' of 100,000 calls' "$crz" play long longer --table
cat >clock.c <<'END'
#include <time.h>
int clock_gettime(clockid_t clock, struct timespec *time) /* every look at the clock is two seconds later */
{
    static time_t seconds;
    (void)clock;
    *time = (struct timespec){seconds += 2, 0};
    return 0;
}
END
if gcc -shared -fPIC -o clock.so clock.c 2>/dev/null; then
    holds "a long verify shows it too" python3 terminal.py 'verify: ' ' calls' env LD_PRELOAD=./clock.so "$fast" verify long
    holds "and nowhere else" test "$(LD_PRELOAD=./clock.so "$fast" verify long 2>&1 >/dev/null | grep -c 'verify: ')" -eq 0
fi

# ── Changed bytes ───────────────────────────────────────────────────────────────────────────────────
"$crz" new good >/dev/null && "$crz" play good "$here/host/day.txt" >/dev/null
cp good full && script 30 | "$crz" play full - >/dev/null && script 60 | "$crz" play full - --table >/dev/null
"$crz" log full >full.log
"$crz" show full >full.show
size=$(stat -c %s full)
found=0 untouched=0
for ((at = 0; at < size; at += 512)); do
    cp full bad
    byte=$(od -An -tu1 -j "$at" -N 1 full)
    printf "\\$(printf %o $((byte ^ (1 + RANDOM % 255))))" | dd of=bad bs=1 seek="$at" conv=notrunc 2>/dev/null
    "$crz" verify bad >said 2>&1
    verdict=$?
    if [ "$verdict" -eq 3 ] && grep -q '^crz: bad: ' said; then
        found=$((found + 1))
    elif [ "$verdict" -eq 0 ] && "$crz" log bad | cmp -s - full.log && "$crz" show bad | cmp -s - full.show; then
        untouched=$((untouched + 1))
    else
        holds "byte $at changed: verify ends with $verdict: $(cat said)" false
    fi
    if [ $((at % 1024)) -eq 0 ]; then
        "$crz" call bad pay-in account 5 fen 1 >said 2>&1
    else
        "$crz" play bad forty --table >said 2>&1
    fi
    status=$?
    "$crz" verify bad >after 2>&1
    after=$?
    case "$status" in
    3) holds "byte $at changed: refused with a message" grep -q '^crz: bad: ' said ;;
    0) holds "byte $at changed: a call leaves the verdict: $(cat after)" test "$after" -eq "$verdict" ;;
    *) holds "byte $at changed: a call ends with $status: $(cat said)" false ;;
    esac
done
echo "one byte changed at $((found + untouched)) places: found at $found, nothing of the zone touched at $untouched"
holds "changed bytes are found" test "$found" -gt $((untouched / 4))

# caught SQL TEXT: verify names what the statement changed
caught() {
    cp good bad
    change bad "$1"
    "$crz" verify bad >said 2>&1
    holds "$1: verify ends with $?" test $? -eq 3
    holds "$1: '$2' not in $(cat said)" grep -qF "$2" said
}
caught "update journal set call = x'010400000000000080969800000000000000000000000000' where sequence = 5" \
    "line 5 of the journal is the first bad one: it does not fit its hash"
caught "update journal set call = x'01040000000000008096980000000000000000000000000000' where sequence = 5" \
    "line 5 of the journal is the first bad one: it cannot be read"
caught "update journal set answer = x'00000000100000000100000000000000' where sequence = 7" "line 7 of the journal"
caught "update journal set number = 11 where sequence = 9" "line 9 of the journal"
caught "update journal set time = '2001-01-01T00:00:00.000Z' where sequence = 0" "line 0 of the journal"
caught "update journal set hash = (select hash from journal where sequence = 3) where sequence = 4" "line 4 of the journal"
caught "update journal set image_hash = null where sequence = 34" "line 34 of the journal"
caught "delete from journal where sequence = 12" "line 12 of the journal is the first bad one: it is missing"
caught "delete from journal where sequence = 34" \
    "line 33 of the journal is the first bad one: the image was kept with another last line"
caught "update journal set entry = 'crz_other' where sequence = 6" "line 6 of the journal"
caught "update journal set call = 5 where sequence = 20" "line 20 of the journal"
caught "update zone set image = zeroblob(length(image))" "every line is good, but the image is not the one after them"
caught "update zone set image = cast(image as text)" "its image has another type or length"
caught "update zone set place = 2" "it has no image"
caught "delete from zone" "damaged"
cp good bad
change bad "update zone set image = cast(substr(image, 1, 31) || x'01' || substr(image, 33) as blob)"
ends 3 "the image does not fit its hash in the last line of the journal" call bad pay-in account 5 fen 1
ends 3 "the image does not fit its hash" show bad
cp good bad
change bad "update journal set number = 1 where sequence = 34"
ends 3 "the last line of the journal does not fit its hash" call bad pay-in account 5 fen 1

# Someone who changes a line and makes all hashes anew is caught by the replay; the hashes are made here by another hand.
cat >forge.py <<'END'
import hashlib, sqlite3, struct, sys
base = sqlite3.connect(sys.argv[1])
for statement in sys.argv[2:]:
    base.execute(statement)
def field(value):
    if value is None:
        return b"\0"
    value = value.encode() if isinstance(value, str) else value
    return b"\1" + struct.pack("<I", len(value)) + value
before = bytes(32)
rows = base.execute("select sequence, number, time, entry, call, answer, further, image_hash from journal order by sequence").fetchall()
for row in rows:
    before = hashlib.sha256(before + struct.pack("<QI", row[0], row[1]) + b"".join(map(field, row[2:]))).digest()
    base.execute("update journal set hash = ? where sequence = ?", (before, row[0]))
base.execute("update zone set last_hash = ?", (before,))
base.commit()
END
cp good bad && python3 forge.py bad
holds "hashes made by another hand are the same" cmp -s <("$crz" log good --head) <("$crz" log bad --head)
cp good bad && python3 forge.py bad "update journal set time = '2001-01-01T00:00:00.000Z' where sequence = 3"
ends 0 "replay: 34 calls compared" verify bad
holds "a desk that wrote the head down sees it" test "$("$crz" log good --head)" != "$("$crz" log bad --head)"
cp good bad && python3 forge.py bad "update journal set number = 11, answer = x'0B' where sequence = 9"
ends 3 "line 9 of the journal is the first bad one: the library returns another number" verify bad
cp good bad && python3 forge.py bad "update journal set answer = x'00000000100000000100000000000000' where sequence = 2"
ends 3 "line 2 of the journal is the first bad one: the library gives another answer" verify bad
cp good bad && python3 forge.py bad \
    "update journal set image_hash = (select image_hash from journal where sequence = 4) where sequence = 5"
ends 3 "line 5 of the journal is the first bad one: the image after it is another" verify bad

# Lines of a table, edited by someone who makes all hashes anew: behind 38 calls made one by one there are tables of 32,
# 32 and 5 calls, then three more calls.
{ script 3; echo "take-out account 6 fen 1"; } | "$crz" play good - >/dev/null
{ script 20; echo "take-out account 6 fen 1"; script 11; } >mixed.script
cat mixed.script mixed.script three three >script.tables
head -n 69 script.tables | "$crz" play good - --table >/dev/null
script 3 | "$crz" play good - >/dev/null
ends 0 "replay: 110 calls compared, 69 of them in 3 tables, 107 accepted and 3 refused" verify good
holds "the tables" test "$("$crz" log good --last 71 | grep -o 'table [0-9]* to [0-9]*' | uniq | tr '\n' ' ')" = \
    "table 39 to 70 table 71 to 102 table 103 to 107 "
# forged LINE TEXT SQL..: the line is named with these words
forged() {
    local line=$1 text=$2
    shift 2
    cp good bad && python3 forge.py bad "$@"
    ends 3 "line $line of the journal is the first bad one: $text" verify bad
}
forged 45 "the library returns another number" "update journal set number = 11, answer = x'0B' where sequence = 45"
forged 45 "the library returns another number" "update journal set number = 11 where sequence = 45"
forged 59 "the library returns another number" "update journal set number = 7, answer = x'07' where sequence = 59"
forged 59 "the library gives another answer" "update journal set answer = x'07' where sequence = 59"
forged 45 "the library gives another answer" "update journal set answer = x'00000000100000000100000000000000' where sequence = 45"
forged 39 "the library gives another answer" "update journal set call = (select call from journal where sequence = 1) where sequence = 39"
forged 60 "the library gives another answer" "update journal set call = (select call from journal where sequence = 1) where sequence = 60"
forged 70 "the image after it is another" \
    "update journal set image_hash = (select image_hash from journal where sequence = 38) where sequence = 70"
forged 41 "its call record has another length than those of a table" "update journal set call = x'01' where sequence = 41"
forged 107 "its call record has another length than those of a table" \
    "update journal set call = cast(substr(call, 1, 23) as blob) where sequence = 107"
forged 50 "it went through an entry that this program does not know" "update journal set entry = 'crz_tables' where sequence = 50"
# a call by itself among those of a table, a table without its end, one that is too long, one cut in two
forged 50 "it has no hash of the image" "update journal set entry = 'crz_call' where sequence = 50"
forged 39 "it has no hash of the image" "update journal set entry = 'crz_call' where sequence = 39"
forged 69 "its table ends with it, but it has no hash of the image" "update journal set entry = 'crz_call' where sequence = 70"
forged 107 "its table ends with it, but it has no hash of the image" "update journal set image_hash = null where sequence = 107"
forged 71 "its table has more calls than a table can have" "update journal set image_hash = null where sequence = 70"
forged 71 "its table has more calls than a table can have" "update journal set image_hash = null where sequence in (70, 102)"
forged 50 "it has another time than the table that it stands in" \
    "update journal set time = '2001-01-01T00:00:00.000Z' where sequence = 50"
cp good joined
for _ in 1 2; do
    sleep 0.01
    "$crz" play joined three --table >/dev/null
done
cp joined bad && python3 forge.py bad "update journal set image_hash = null where sequence = 113"
ends 3 "line 114 of the journal is the first bad one: it has another time than the table that it stands in" verify bad
forged 50 "the image after it is another" \
    "update journal set image_hash = (select image_hash from journal where sequence = 70) where sequence = 50"
forged 38 "it has no hash of the image" "update journal set image_hash = null where sequence = 38"
forged 0 "it has no hash of the image" "update journal set image_hash = null where sequence = 0"
forged 0 "it is no start" "update journal set entry = 'crz_table' where sequence = 0"
forged 70 "it is missing" "delete from journal where sequence = 70"
forged 45 "it is missing" "delete from journal where sequence = 45"
forged 39 "it is missing" "delete from journal where sequence between 39 and 70"
# the first bad line is named where a later one of the same table is bad too
forged 45 "the library gives another answer" "update journal set answer = x'00000000100000000100000000000000' where sequence = 45" \
    "delete from journal where sequence = 50"
forged 45 "the library gives another answer" "update journal set answer = x'00000000100000000100000000000000' where sequence = 45" \
    "update journal set entry = 'crz_call' where sequence = 50"
cp good bad && python3 forge.py bad "update journal set answer = x'00000000100000000100000000000000' where sequence = 45"
change bad "update journal set call = 5 where sequence = 50"
ends 3 "line 45 of the journal is the first bad one: the library gives another answer" verify bad
# a journal that ends in the middle of a table
forged 100 "it has no hash of the image" "delete from journal where sequence > 100"
cp good bad && change bad "delete from journal where sequence > 100"
ends 3 "the journal does not end with the line that the image was kept with" call bad pay-in account 5 fen 1
ends 3 "the journal does not end with the line that the image was kept with" play bad three --table
cp good bad && python3 forge.py bad "delete from journal where sequence > 100"
ends 3 "the image does not fit its hash in the last line of the journal" play bad three --table
# without new hashes the changed line itself is named
caught "update journal set number = 11 where sequence = 45" "line 45 of the journal is the first bad one: it does not fit its hash"
caught "update journal set entry = 'crz_call' where sequence = 50" "line 50 of the journal is the first bad one: it does not fit its hash"
caught "update journal set image_hash = null where sequence = 70" "line 70 of the journal is the first bad one: it does not fit its hash"
caught "update journal set image_hash = (select image_hash from journal where sequence = 70) where sequence = 50" \
    "line 50 of the journal is the first bad one: it does not fit its hash"
caught "update journal set call = 5 where sequence = 45" "line 45 of the journal is the first bad one: it cannot be read"
caught "delete from journal where sequence = 45" "line 45 of the journal is the first bad one: it is missing"
caught "delete from journal where sequence > 100" "line 100 of the journal is the first bad one: it has no hash of the image"

# ── Speed ───────────────────────────────────────────────────────────────────────────────────────────
# 1,000 calls a second are asked for, and 200 needed. A disk or a machine that others use too can be slower than that for
# a while; then SQLite alone, with commits of the same size, says what could be had.
cat >alone.py <<'END'
import sqlite3, sys, time
base = sqlite3.connect(sys.argv[1], isolation_level=None)
for statement in ("pragma journal_mode = persist", "pragma synchronous = extra", "create table journal (line blob)",
                  "create table zone (image blob)", "insert into zone values (zeroblob(0))"):
    base.execute(statement)
start = time.time()
for _ in range(500):
    base.execute("begin immediate")
    base.execute("insert into journal values (zeroblob(150))")
    base.execute("update zone set image = randomblob(?)", (int(sys.argv[2]),))
    base.execute("commit")
print(int(500 / (time.time() - start)))
END
script 2000 >two_thousand
"$crz" new speed >/dev/null
enough=no
for round in 1 2 3 4 5; do
    alone=$(python3 alone.py "alone.$round" "$image_length")
    start=$(date +%s%N)
    "$fast" play speed two_thousand >/dev/null
    rate=$((2000 * 1000 / (($(date +%s%N) - start) / 1000000 + 1)))
    echo "play: $rate calls a second, each durable before its answer; SQLite alone: $alone"
    [ "$rate" -ge 1000 ] || [ $((2 * rate)) -ge "$alone" ] && enough=yes && break
done
holds "play makes 1,000 calls a second, or half as many as SQLite alone" test "$enough" = yes
# In tables there is one commit for 32 calls. It writes more than that of one call; four times as many calls are asked for.
head -n 500 two_thousand >five_hundred
enough=no
for round in 1 2 3 4 5; do
    start=$(date +%s%N)
    "$fast" play speed five_hundred >/dev/null
    rate=$((500 * 1000 / (($(date +%s%N) - start) / 1000000 + 1)))
    start=$(date +%s%N)
    "$fast" play speed two_thousand --table >/dev/null
    tables=$((2000 * 1000 / (($(date +%s%N) - start) / 1000000 + 1)))
    echo "play: $rate calls a second, in tables $tables"
    [ "$tables" -ge $((4 * rate)) ] && enough=yes && break
done
holds "play makes four times as many calls a second in tables" test "$enough" = yes
finish
