#!/usr/bin/env bash
# The host program's words: commands, calls, refusals, scripts, what a desk asks, and objects for programs.
# Usage: tests/host.sh PROGRAM     with the proved archive in target/staticlib
# shellcheck source=tests/host_common.sh
. "$(dirname "$0")/host_common.sh"

version=$(sed -n 's/^#define CRZ_VERSION "\(.*\)"/\1/p' "$here/include/crz.h")

# ── Commands and options ────────────────────────────────────────────────────────────────────────────
ends 2 "crz new FILE"
ends 0 "crz new FILE" --help
ends 0 "crz new FILE" help
ends 0 "crz $version, zone formats 4 and 5, SQLite 3" --version
for command in new call play show log verify statement due import export; do
    ends 0 "crz $command FILE" help "$command"
    ends 0 "crz $command FILE" "$command" --help
    ends 0 "crz $version, zone formats 4 and 5" "$command" --version
    ends 2 "$command takes FILE" "$command"
done
ends 0 "crz new FILE" help --help
ends 0 "crz new FILE" help help
ends 0 "crz $version" help --version
ends 0 "kilograms   1,000 to 60,000" help call
ends 0 "register account N receipt N kilograms N [premium N]" help register
ends 0 "premium     -5,000 to 5,000; 0 where it is left out" help register
ends 0 "limit-bid account N receipt N yuan N" help limit-bid
ends 0 "yuan        5 to 200,000 in steps of 5" help limit-bid
ends 0 "the seller: sends the buyer an invoice, at most what is left of the full payment" help invoice
ends 0 "the buyer: confirms the pending invoice; pays what the confirmed sum then gives of the rest, less what was paid" help confirm
ends 2 "'limt-bid' is no command and no kind of call; did you mean 'limit-bid'?" help limt-bid
ends 0 "limit-bid account N receipt N yuan N" help call
ends 0 "any account but the seller" help call
holds "crz new --help makes no zone" test ! -e --help
ends 2 "'statment' is no command; did you mean 'statement'?" statment zone 1
ends 2 "'hlep' is no command; did you mean 'help'?" hlep
ends 2 "'--versoin' is no command; did you mean '--version'?" --versoin
ends 2 "'pay-in' is a kind of call: 'crz call FILE pay-in ..'" pay-in zone
ends 2 "'shwo' is no command and no kind of call; did you mean 'show'?" help shwo
ends 2 "'s?[31m' is no command" $'s\e[31m'
ends 2 "show: '--jsno' is no option of it; did you mean '--json'?" show zone --jsno
ends 2 "show: '--stop' is no option of it" show zone --stop
ends 2 "show takes FILE; 'more' is too much" show zone more
ends 2 "log: --last: 'ten' is not a whole number" log zone --last ten
ends 2 "log: --account: 97 is not in 1 to 96" log zone --account 97
ends 2 "log: --lot has no value" log zone --lot
ends 2 "log: --last is there twice" log zone --last 1 --last=2
ends 2 "log: --head takes no value" log zone --head=1
ends 2 "log: --head does not go together with --account, --lot or --last" log zone --head --last 1
ends 2 "statement: account '0' is not in 1 to 96" statement zone 0
ends 2 "statement: account 'eleven' is not a whole number" statement zone eleven
ends 3 "zone: there is no such file; 'crz new zone' makes a zone" show zone
ends 3 "crz: '': there is no such file" show ""
ends 3 "there is no such file" call zone day-close
ends 3 "the call was not made" call zone day-close
holds "a call on no zone leaves no file" test ! -e zone
ends 0 "zone: a fresh zone, sequence 0" new zone
ends 3 "zone: exists already and stays as it is" new zone
ends 0 "--odd: a fresh zone" new -- --odd
ends 0 "day 1, morning" show -- --odd

# ── Calls in words ──────────────────────────────────────────────────────────────────────────────────
ends 2 "'sell' is no kind of call" call zone sell
ends 2 "'limit-bit' is no kind of call; did you mean 'limit-bid'?" call zone limit-bit
ends 2 "'fen' is missing" call zone pay-in account 3
ends 2 "'fen' has no value" call zone pay-in account 3 fen
ends 2 "is there twice" call zone pay-in account 3 account 3 fen 1
ends 2 "is not one of its fields" call zone pay-in account 3 yuan 1
ends 2 "pay-in: 'acount' is no field; did you mean 'account'?" call zone pay-in acount 3 fen 1
ends 2 "not a whole number" call zone pay-in account 3 fen 1.5
ends 2 "not a whole number" call zone pay-in account 3 fen ""
ends 2 "not a whole number" call zone pay-in account 3 fen -
ends 2 "grouped in another way" call zone pay-in account 3 fen 12,34
ends 2 "grouped in another way" call zone pay-in account 3 fen 1234,567
ends 2 "grouped in another way" call zone pay-in account 3 fen ,123
ends 2 "grouped in another way" call zone pay-in account 3 fen 0,005
ends 2 "grouped in another way" call zone pay-in account 3 fen 000,123
ends 2 "register: 'premiums' is no field; did you mean 'premium'?" \
    call zone register account 3 receipt 1 kilograms 41237 premiums 5
ends 2 "list: 'basis' is no field; did you mean 'basis-yuan'?" \
    call zone list account 3 receipt 1 contract 1 days 0 basis 5
ends 2 "register: 'kilograms' is missing" call zone register account 3 receipt 1 premium 5
ends 2 "register: 'premium' has no value" call zone register account 3 receipt 1 kilograms 41237 premium
ends 2 "register: 'premium' is there twice" \
    call zone register account 3 receipt 1 kilograms 41237 premium 5 premium 5
ends 2 "register: 'basis-yuan' is not one of its fields" call zone register account 3 receipt 1 kilograms 41237 basis-yuan 5
ends 2 "list: 'premium' is not one of its fields" \
    call zone list account 3 receipt 1 contract 1 days 0 basis-yuan 0 premium 5
ends 2 "premium: 2,147,483,648 does not fit; it takes -5,000 to 5,000" \
    call zone register account 3 receipt 1 kilograms 41237 premium 2147483648
ends 2 "premium: '+5' is not a whole number" call zone register account 3 receipt 1 kilograms 41237 premium +5
ends 2 "account: 256 does not fit; it takes 1 to 96" call zone pay-in account 256 fen 1
ends 2 "does not fit" call zone pay-in account 3 fen -1
ends 2 "is too large" call zone pay-in account 3 fen 99999999999999999999
ends 2 "99..' is too large" call zone pay-in account 3 fen "$(printf '9%.0s' $(seq 2000))"
ends 2 "aa..' is no kind of call" call zone "$(printf 'a%.0s' $(seq 2000))"
ends 2 "aa..' is no field" call zone pay-in "$(printf 'a%.0s' $(seq 2000))" 1
holds "bad words leave no line" test "$(sequence zone)" -eq 0
ends 0 "accepted, sequence 1: morning, total 1,234,567 fen" call zone pay-in account 3 fen 1,234,567
ends 0 "1,234,567" show zone

# ── Refusals say what they see ──────────────────────────────────────────────────────────────────────
ends 1 "refused 4, sequence 2: a field is out of range: account 97 is not in 1 to 96" call zone pay-in account 97 fen 1
ends 1 "fen 0 is not in 1 to 1,000,000,000,000" call zone pay-in account 3 fen 0
ends 1 "account 0 is not in 1 to 96; fen 0 is not in" call zone pay-in account 0 fen 0
ends 1 "yuan 15003 is no multiple of 5" call zone limit-bid account 3 receipt 1 yuan 15003
ends 1 "basis-yuan 50,001 is not in -50,000 to 50,000" \
    call zone list account 3 receipt 1 contract 1 days 0 basis-yuan 50001
ends 1 "refused 5" call zone day-close
ends 1 "it is the morning of day 1; morning-close comes first" call zone day-close
ends 1 "refused 6" call zone list account 3 receipt 1 contract 1 days 0 basis-yuan 0
ends 1 "receipt 1 is not registered" call zone lodge account 3 receipt 1
ends 0 "lot 1: registered, owner 3" call zone register account 3 receipt 1 kilograms 41,237
ends 1 "receipt 1 is registered already, its owner is 3" call zone register account 4 receipt 1 kilograms 41237
ends 1 "lot 1 is in state 'idle', limit-bid needs 'listed' or 'bid stands'" \
    call zone limit-bid account 4 receipt 1 yuan 15000
ends 1 "refused 7" call zone list account 4 receipt 1 contract 1 days 0 basis-yuan 0
ends 1 "account 4 is not the owner of lot 1, who is 3" call zone list account 4 receipt 1 contract 1 days 0 basis-yuan 0
ends 0 "lot 1: listed, seller 3" call zone list account 3 receipt 1 contract 1 days 0 basis-yuan -14,999
ends 1 "account 3 is the seller of lot 1" call zone limit-bid account 3 receipt 1 yuan 15000
ends 1 "account 4 is not the seller of lot 1, who is 3" call zone withdraw-listing account 4 receipt 1
ends 1 "refused 9" call zone market-bid account 4 receipt 1
ends 1 "contract 1 has no ask today" call zone market-bid account 4 receipt 1
ends 1 "refused 10" call zone limit-bid account 4 receipt 1 yuan 14995
ends 1 "price, basis and premium leave nothing to pay: price 14,995, basis -14,999 and premium 0 make -4 yuan per tonne" \
    call zone limit-bid account 4 receipt 1 yuan 14995
ends 1 "account 4 has 0 fen free, limit-bid needs 5,000,000 fen" call zone limit-bid account 4 receipt 1 yuan 15000
ends 1 "account 3 has 1,234,567 fen free, take-out needs 1,234,568 fen" call zone take-out account 3 fen 1234568
ends 0 "accepted" call zone pay-in account 4 fen 5000000
ends 0 "bid stands, buyer 4, seller 3, 15,000 yuan per tonne" call zone limit-bid account 4 receipt 1 yuan 15000
ends 1 "the bid is 15,000, the standing bid 15,000 yuan per tonne" call zone limit-bid account 5 receipt 1 yuan 15000
ends 1 "account 5 is not the buyer of lot 1, who is 4" call zone withdraw-bid account 5 receipt 1
ends 0 "struck, buyer 4, seller 3" call zone quote contract 1 yuan 15000
ends 0 "seller 3 must lodge" due zone
ends 0 "lodged" call zone lodge account 3 receipt 1
ends 0 "settled" call zone morning-close
ends 1 "it is the afternoon of day 1, its morning close is made" call zone morning-close
ends 0 "first paid, buyer 4, seller 3, 3,299 fen" call zone first-payment account 3 receipt 1
ends 1 "no invoice waits for a confirmation; 4,124 fen are left to invoice" call zone confirm account 4 receipt 1
ends 1 "the invoice is 4,125 fen, 4,124 fen are left to invoice" call zone invoice account 3 receipt 1 fen 4125
ends 0 "invoiced" call zone invoice account 3 receipt 1 fen 100
ends 1 "an invoice of 100 fen waits for its confirmation, which pays 20 fen; 4,024 fen are left to invoice" \
    call zone invoice account 3 receipt 1 fen 100
ends 0 "left to invoice 4,024 fen" show zone
ends 0 "full payment 4,124 fen, rest 825 fen, held from the buyer 825 fen" show zone
for _ in $(seq 1000); do echo "pay-in account 9 fen 1,000,000,000,000"; done >rich
"$crz" new rich.zone >/dev/null
ends 1 "with 1,000,000,000,000 fen more it would pass 1,000,000,000,000,000" \
    play rich.zone <(cat rich; echo pay-in account 9 fen 1,000,000,000,000)
ends 0 "replay: 1,001 calls compared, 1,000 accepted and 1 refused" verify rich.zone

# ── Premiums ────────────────────────────────────────────────────────────────────────────────────────
"$crz" new premium >/dev/null
ends 1 "refused 4, sequence 1: a field is out of range: premium 5,001 is not in -5,000 to 5,000" \
    call premium register account 1 receipt 1 kilograms 1000 premium 5001
ends 1 "a field is out of range: kilograms 999 is not in 1,000 to 60,000; premium -5,001 is not in -5,000 to 5,000" \
    call premium register account 1 receipt 1 kilograms 999 premium -5,001
holds "a refused register leaves no receipt" test -z "$("$crz" show premium | grep lot)"
cat >script <<'END'
pay-in account 4 fen 5,001,000
pay-in account 5 fen 5,001,000
register account 1 receipt 1 kilograms 1000 premium -5
register account 1 receipt 2 kilograms 41,237
register account 1 receipt 3 kilograms 1,000 premium 5,000
register premium -5,000 kilograms 1,000 receipt 128 account 1
list account 1 receipt 1 contract 1 days 0 basis-yuan 0
list account 1 receipt 3 contract 1 days 0 basis-yuan -5,004
END
ends 0 "8 calls: 8 accepted, 0 refused" play premium script
ends 0 "lot 1: listed, owner 1, 1,000 kilograms, premium -5 yuan per tonne, seller 1" show premium
ends 0 "lot 2: idle, owner 1, 41,237 kilograms, premium 0 yuan per tonne" show premium
ends 0 "lot 3: listed, owner 1, 1,000 kilograms, premium 5,000 yuan per tonne, seller 1" show premium
ends 0 "lot 128: idle, owner 1, 1,000 kilograms, premium -5,000 yuan per tonne" show premium
ends 0 "  register account 1 receipt 1 kilograms 1,000 premium -5" log premium
ends 0 "  register account 1 receipt 2 kilograms 41,237 premium 0" log premium
ends 1 "refused 10" call premium limit-bid account 4 receipt 1 yuan 5
ends 1 "price 5, basis 0 and premium -5 make 0 yuan per tonne, at least 1 is needed" \
    call premium limit-bid account 4 receipt 1 yuan 5
ends 0 "bid stands" call premium limit-bid account 4 receipt 3 yuan 5
ends 0 "full payment 100 fen, rest 20 fen, held from the buyer 5,000,000 fen" show premium
ends 0 "listing ended" call premium withdraw-listing account 1 receipt 3
ends 0 "lot 3: idle, owner 1, 1,000 kilograms, premium 5,000 yuan per tonne" show premium
ends 0 "accepted" call premium quote contract 1 yuan 5
ends 1 "ask 5, basis 0 and premium -5 make 0 yuan per tonne, at least 1 is needed" \
    call premium market-bid account 4 receipt 1
ends 0 "struck, buyer 4, seller 1, 10 yuan per tonne" call premium limit-bid account 4 receipt 1 yuan 10
ends 0 "lot 1, due day 1: struck, full payment 500 fen, seller 1 must lodge" due premium
printf 'lodge account 1 receipt 1\nmorning-close\n' >script
ends 0 "lot 1: settled, buyer 4, seller 1, 500 fen" play premium script
ends 0 "lot 1: settled, owner 4, 1,000 kilograms, premium -5 yuan per tonne, seller 1, buyer 4" show premium
ends 0 "held for lot 1, settled, premium -5: 500 fen" statement premium 4
cp premium settled
cat >script <<'END'
first-payment account 1 receipt 1
invoice account 1 receipt 1 fen 250
confirm account 4 receipt 1
invoice account 1 receipt 1 fen 250
confirm account 4 receipt 1
list account 4 receipt 1 contract 2 days 1 basis-yuan 6
limit-bid account 5 receipt 1 yuan 5
END
ends 0 "7 calls: 7 accepted, 0 refused" play premium script
ends 0 "lot 1: bid stands, owner 4, 1,000 kilograms, premium -5 yuan per tonne, seller 4, buyer 5" show premium
ends 0 "first paid, lot 1, to account 1, premium -5 " statement premium 4
ends 0 "part paid, lot 1, from account 4, premium -5 " statement premium 1
ends 0 "full payment 600 fen" show premium
ends 0 "pay-ins 5,001,000 + received 0 - take-outs 0 - passed on 500 fen" statement premium 4
ends 0 "+400" statement premium 1
ends 0 "history: the books" verify premium

# ── Invoices, cut as the seller likes ───────────────────────────────────────────────────────────────
# A full payment of 100 fen: 80 at first, and a rest of 20.
"$crz" new parts >/dev/null
cat >script <<'END'
pay-in account 2 fen 5,000,000
register account 1 receipt 3 kilograms 1,000
list account 1 receipt 3 contract 1 days 0 basis-yuan -4
quote contract 1 yuan 5
market-bid account 2 receipt 3
lodge account 1 receipt 3
morning-close
first-payment account 1 receipt 3
END
ends 0 "lot 3: first paid, buyer 2, seller 1, 80 fen" play parts script
"$crz" export parts uncut.image >/dev/null
ends 0 "of the rest paid 0 fen, invoices confirmed 0 fen, pending 0 fen, left to invoice 100 fen" show parts
ends 0 "      no invoice is pending, there is nothing to confirm" show parts
ends 0 "held for lot 3, first paid, premium 0: 20 fen, no invoice is pending, 100 fen are left to invoice" statement parts 2
ends 0 "  to invoice for lot 3, buyer 2, premium 0: 100 fen, no invoice is pending" statement parts 1
# part INVOICE FEN LEFT: what is said of an invoice before its confirmation, and what that then pays
part() {
    ends 0 "        its confirmation pays $2 fen of the rest, $3 fen are left to invoice" \
        call parts invoice account 1 receipt 3 fen "$1"
    ends 0 "      the next confirmation pays $2 fen" show parts
    ends 0 "pending $1 fen, left to invoice $3 fen" show parts
    ends 0 " fen, of which the next confirmation pays $2 fen, $3 fen are left to invoice" statement parts 2
    ends 0 "to invoice for lot 3, buyer 2, premium 0: $3 fen, an invoice of $1 fen is pending, its confirmation pays $2 fen" \
        statement parts 1
    ends 1 "an invoice of $1 fen waits for its confirmation, which pays $2 fen; $3 fen are left to invoice" \
        call parts invoice account 1 receipt 3 fen 1
    ends 0 "lot 3: part paid, buyer 2, seller 1, $2 fen" call parts confirm account 2 receipt 3
}
part 33 6 67
ends 0 "of the rest paid 6 fen, invoices confirmed 33 fen, pending 0 fen, left to invoice 67 fen" show parts
ends 1 "the invoice is 68 fen, 67 fen are left to invoice" call parts invoice account 1 receipt 3 fen 68
ends 1 "no invoice waits for a confirmation; 67 fen are left to invoice" call parts confirm account 2 receipt 3
part 33 7 34
ends 0 "of the rest paid 13 fen, invoices confirmed 66 fen, pending 0 fen, left to invoice 34 fen" show parts
"$crz" export parts parts.image >/dev/null
part 34 7 0
ends 0 "lot 3: idle, owner 2" show parts
holds "a lot that is over is not to be invoiced" test -z "$("$crz" statement parts 1 | grep 'to invoice')"
ends 0 "pay-ins 5,000,000 + received 0 - take-outs 0 - passed on 100 fen" statement parts 2
holds "the log knows no image of then" test -z "$("$crz" log parts | grep 'its confirmation')"
ends 0 "history: the books" verify parts
# cut_zone NAME INVOICE..: from the first payment on, confirmed to 66 fen in these invoices
cut_zone() {
    local name=$1
    shift
    "$crz" import "$name" uncut.image >/dev/null
    for fen; do printf 'invoice account 1 receipt 3 fen %d\nconfirm account 2 receipt 3\n' "$fen"; done |
        "$crz" play "$name" - >"$name.said"
}
cut_zone cut.one 66
mapfile -t single < <(yes 1 | head -n 66)
cut_zone cut.fen "${single[@]}"
cut_zone cut.first 1 65
cut_zone cut.last 65 1
cut_zone cut.thirds 33 33
for name in one fen first last thirds; do
    ends 0 "of the rest paid 13 fen, invoices confirmed 66 fen" show "cut.$name"
    holds "cut as $name: the same zone" cmp -s <("$crz" show cut.one) <("$crz" show "cut.$name")
    ends 0 "every number, every answer and the image agree" verify "cut.$name"
done
cut_zone cut.guide 33
ends 0 "its confirmation pays 7 fen of the rest, 34 fen are left to invoice" call cut.guide invoice account 1 receipt 3 fen 33
"$crz" show cut.guide | tail -n 3 | while read -r line; do grep -F "          $line" "$here/docs/GUIDE.md"; done >guided
holds "the guide has the lot between its invoices" test "$(wc -l <guided)" -eq 3
for account in 1 2; do
    "$crz" statement cut.guide "$account" | grep "to invoice" >line
    holds "each side of a trade has one line about it" test "$(wc -l <line)" -eq 1
    holds "the guide has: $(cat line)" grep -qF "    $(cat line)" "$here/docs/GUIDE.md"
done
holds "a part of 0 fen is listed" test "$(grep -c 'part paid, buyer 2, seller 1, 0 fen' cut.fen.said)" -eq 53
holds "and so is one of 1 fen" test "$(grep -c 'part paid, buyer 2, seller 1, 1 fen' cut.fen.said)" -eq 13
holds "each was told before" cmp -s <(sed -n 's/.*its confirmation pays \(.*\) of the rest.*/\1/p' cut.fen.said) \
    <(sed -n 's/.*part paid, buyer 2, seller 1, //p' cut.fen.said)
holds "a statement has parts of 0 fen" test "$("$crz" statement cut.fen 1 | grep -c 'part paid, .* 0$')" -eq 53

# ── Scripts ─────────────────────────────────────────────────────────────────────────────────────────
"$crz" new script.zone >/dev/null
printf 'pay-in account 1 fen 5\n\n# remark\nsell account 1\npay-in account 1\n  take-out account 1 fen 1 # remark\nqoute contract 1 yuan 5\n' >script
ends 2 "script: line 4: 'sell' is no kind of call" play script.zone script
ends 2 "script: line 5: pay-in: 'fen' is missing" play script.zone script
ends 2 "script: line 7: 'qoute' is no kind of call; did you mean 'quote'?" play script.zone script
ends 2 "script: 3 bad lines; no call was made" play script.zone script
ends 3 "nothing: cannot be opened" play script.zone nothing
ends 3 "cannot be read" play script.zone .
printf '# remark\npay-in account 1 \0fen 5\n' >script
ends 2 "script: line 2: the line has a zero byte" play script.zone script
printf 'pay-in account 1 fen 5\0' >script
ends 2 "script: line 1: the line has a zero byte" play script.zone script
printf 'pay-in account 1 fen %490d\nsell\n' 5 >script
ends 2 "script: line 1: the line is longer than 510 bytes" play script.zone script
ends 2 "script: line 2: 'sell' is no kind of call" play script.zone script
printf '\377\376p\0a\0' >script
ends 3 "is not UTF-8 text" play script.zone script
holds "bad lines leave no line in the journal" test "$(sequence script.zone)" -eq 0
printf 'pay-in account 1 fen %489d\ntake-out account 1 fen 5' 5 >script
ends 0 "2 calls: 2 accepted, 0 refused" play script.zone script
printf '\357\273\277pay-in account 1 fen 1,000\r\n\r\ntake-out account 1 fen 1000\r\n' >script
ends 0 "2 calls: 2 accepted, 0 refused" play script.zone script
printf 'take-out account 1 fen 5\npay-in account 1 fen 5\n' >script
ends 1 "2 calls: 1 accepted, 1 refused" play script.zone script
ends 1 "1 call: 0 accepted, 1 refused; stopped, 2 not made" play script.zone --stop <(echo take-out account 1 fen 6; cat script)
holds "the script - is standard input" test "$(echo take-out account 1 fen 5 | "$crz" play script.zone - | tail -n 1)" = \
    "1 call: 1 accepted, 0 refused"
ends 0 "0 calls: 0 accepted, 0 refused" play script.zone /dev/null

# ── A retry cannot act twice ────────────────────────────────────────────────────────────────────────
"$crz" new expect.zone >/dev/null
ends 0 "accepted, sequence 1" call expect.zone --expect 0 pay-in account 1 fen 7
ends 3 "the journal's last sequence number is 1, not 0 as --expect asks" call expect.zone --expect 0 pay-in account 1 fen 7
ends 3 "the call was not made" call expect.zone --expect=2 pay-in account 1 fen 7
printf 'pay-in account 1 fen 1\npay-in account 1 fen 1\n' >script
ends 0 "accepted, sequence 3" play expect.zone script --expect 1
ends 3 "of the script's 2 calls 0 were made" play expect.zone script --expect 1
holds "what --expect holds back is not made" test "$(total expect.zone)" -eq 9

# ── The business day ────────────────────────────────────────────────────────────────────────────────
"$crz" new day >/dev/null && "$crz" play day "$here/host/day.txt" >said
holds "the day is accepted" test $? -eq 0
for line in "settled, buyer 11, seller 1, 63,092,610 fen" "buyer default, buyer 13" "seller default, seller 3" \
    "struck, buyer 13, seller 2" "> register account 2 receipt 2 kilograms 42,000 premium -80" \
    "penalty, seller 3, buyer 14, 5,000,000 fen" "> pay-in account 11 fen 100,000,000"; do
    holds "the day has: $line" grep -qF "$line" said
done
holds "no lot is struck for the mill that withdrew" test "$(grep -c 'struck, buyer 12' said)" -eq 0
ends 0 "day 2, afternoon, total 166,000,000 fen" show day
ends 0 "replay: 34 calls compared, 34 accepted and 0 refused" verify day
ends 0 "history: the books and frozen money of 96 accounts" verify day

# ── What a desk asks ────────────────────────────────────────────────────────────────────────────────
ends 0 "0  20" log day
ends 0 "start with a fresh zone" log day
holds "the log has every line" test "$("$crz" log day | grep -c '^[0-9]')" -eq 35
holds "the log's last lines" test "$("$crz" log day --last 2 | grep '^[0-9]' | sed 's/ .*//' | tr '\n' ' ')" = "33 34 "
holds "no last line" test -z "$("$crz" log day --last 0)"
holds "lines of an account" test "$("$crz" log day --account 13 | grep '^[0-9]' | sed 's/ .*//' | tr '\n' ' ')" = "3 20 22 25 26 "
holds "the last line of an account" test "$("$crz" log day --account 13 --last 1 | grep '^[0-9]' | sed 's/ .*//')" = 26
holds "lines of a lot" test "$("$crz" log day --lot 3 | grep '^[0-9]' | sed 's/ .*//' | tr '\n' ' ')" = "8 12 23 26 34 "
holds "lines of a lot and an account" test "$("$crz" log day --lot 3 --account 14 | grep -c '^[0-9]')" -eq 3
holds "the log's words make a script" cmp -s <("$crz" log day | sed -n 's/^[1-9][0-9]*  [^ ]*  //p') \
    <("$crz" new again >/dev/null; "$crz" log day | sed -n 's/^[1-9][0-9]*  [^ ]*  //p' >script; "$crz" play again script |
        sed -n 's/^> //p')
holds "a replayed log is the same zone" cmp -s <("$crz" show day) <("$crz" show again)
holds "the head is the last hash" grep -q "$("$crz" verify day | sed -n 's/.*last hash //p')" <("$crz" log day --head)
ends 0 "sequence 34, 20" log day --head
ends 0 "pay-ins 100,000,000 + received 0 - take-outs 0 - passed on 63,092,610 fen" statement day 11
ends 0 "= free 36,907,390 + frozen 0 = 36,907,390 fen" statement day 11
ends 0 "first paid, lot 1, to account 1" statement day 11
ends 0 "buyer default, lot 2, from account 13" statement day 2
ends 0 "penalty, lot 3, to account 14" statement day 3
ends 0 "penalty, lot 3, from account 3" statement day 14
ends 0 "the next morning close, of day 3 (tomorrow: today's is made), works 0 lots" due day
sed '/^morning-close/,$d' "$here/host/day.txt" >script
"$crz" new noon >/dev/null && "$crz" play noon script >/dev/null
ends 0 "the next morning close, of day 1 (today), works 3 lots" due noon
ends 0 "lot 1, due day 1: lodged, full payment 63,092,610 fen, seller 1 has lodged" due noon
ends 0 "buyer 13 has 1,000,000 fen free and the deposit of 5,000,000 fen, lacks 55,782,000 fen for this lot alone" due noon
ends 0 "lot 3, due day 1: struck, full payment 60,560,000 fen, seller 3 must lodge" due noon
ends 0 "held for lot 1, lodged, premium 100: 5,000,000 fen" statement noon 11
ends 0 "held from the buyer 5,000,000 fen" show noon
printf 'morning-close\n' | "$crz" play noon - >/dev/null
ends 0 "seller 3 owes 5,000,000 fen to buyer 14" due noon
ends 0 "(tomorrow: today's is made), works 1 lot" due noon

# ── What to pay in before the close ─────────────────────────────────────────────────────────────────
made="today's close is made, nothing is to be paid in for it; what to pay in for tomorrow's is shown after the day close"
nobody="nobody has to pay in before the morning close"
# asks_nobody ZONE TEXT: due has no figure and ends with the text
asks_nobody() {
    holds "due $1 ends with: $2" test "$("$crz" due "$1" | tail -n 1)" = "$2"
    holds "due $1 asks nobody" test "$("$crz" due "$1" | grep -c 'has to pay in .* fen')" -eq 0
}
# asked ZONE: what due asks for, ACCOUNT=FEN for each account
asked() {
    "$crz" due "$1" | sed -n 's/^  account \([0-9]*\) has to pay in \([0-9,]*\) fen before the morning close$/\1=\2/p' |
        tr -d , | tr '\n' ' '
}
asks_nobody day "$made"
asks_nobody noon "$made"
"$crz" new short >/dev/null && cp short unused
asks_nobody short "$nobody"
# Ginners 3 and 16 do not lodge on day 1, and owe mill 20 a penalty by the morning close of day 2.
cat >script <<'END'
pay-in account 20 fen 1,000,000,000
pay-in account 3 fen 1,200,000
register account 3 receipt 30 kilograms 41,237
register account 16 receipt 31 kilograms 41,237
list account 3 receipt 30 contract 1 days 0 basis-yuan 300
list account 16 receipt 31 contract 1 days 0 basis-yuan 300
quote contract 1 yuan 15,000
market-bid account 20 receipt 30
market-bid account 20 receipt 31
END
"$crz" play short script >/dev/null
asks_nobody short "$nobody"
"$crz" call short morning-close >/dev/null
ends 0 "seller 3 has 1,200,000 fen free, lacks 3,800,000 fen for this lot alone" due short
asks_nobody short "$made"
"$crz" call short day-close >/dev/null
holds "a penalty alone: $(asked short)" test "$(asked short)" = "3=3800000 16=5000000 "
# On day 2 mill 11 buys two lots, and its money covers each of them alone; 12 lacks a fen; 13 has none, and its seller
# has not lodged; the lot of 14 costs less than the deposit, that of 15 is due tomorrow; 16 buys one beside its penalty.
for lot in 1 2 3 4 5 6 7; do
    weight=41,237 basis=300 days=0
    [ "$lot" -ne 5 ] || { weight=1,000 basis=-14,999; }
    [ "$lot" -ne 6 ] || days=1
    echo "register account 1 receipt $lot kilograms $weight"
    echo "list account 1 receipt $lot contract 1 days $days basis-yuan $basis"
done >script
cat >>script <<'END'
quote contract 1 yuan 15,000
pay-in account 11 fen 70,000,000
market-bid account 11 receipt 1
market-bid account 11 receipt 2
pay-in account 12 fen 63,092,609
market-bid account 12 receipt 3
pay-in account 13 fen 5,000,000
market-bid account 13 receipt 4
pay-in account 14 fen 5,000,000
market-bid account 14 receipt 5
pay-in account 15 fen 5,000,000
market-bid account 15 receipt 6
pay-in account 16 fen 12,000,000
market-bid account 16 receipt 7
END
for lot in 1 2 3 5 6 7; do echo "lodge account 1 receipt $lot"; done >>script
ends 0 " accepted, 0 refused" play short script
ends 0 "the next morning close, of day 2 (today), works 8 lots" due short
figures="3=3800000 11=56185220 12=1 13=58092610 16=56092610 "
holds "what each has to pay in: $(asked short)" test "$(asked short)" = "$figures"
"$crz" due short >short.due
# explained ACCOUNT FEN ASKED FREE: the lines of an account, one behind the other
explained() {
    holds "account $1 has to pay in $2 fen" grep -qxF "      its due lots together ask for $3 fen beyond deposits, it has $4 fen free" \
        <(grep -xFA 1 "  account $1 has to pay in $2 fen before the morning close" short.due)
}
explained 3 3,800,000 5,000,000 1,200,000
explained 11 56,185,220 116,185,220 60,000,000
explained 12 1 58,092,610 58,092,609
explained 13 58,092,610 58,092,610 0
explained 16 56,092,610 63,092,610 7,000,000
ends 0 "buyer 12 has 58,092,609 fen free and the deposit of 5,000,000 fen, lacks 1 fen for this lot alone" due short
holds "mill 11 lacks nothing for either lot alone" test "$(grep -c 'buyer 11 has .* deposit of 5,000,000 fen$' short.due)" -eq 2
holds "the accounts stand behind the lots" test "$(sed -n 's/^  \([a-z]\+\) .*/\1/p' short.due | uniq -c | tr -s ' \n' ' ')" = \
    " 8 lot 5 account "
holds "where somebody has to pay in, it does not say nobody" test "$(grep -c nobody short.due)" -eq 0
"$crz" export short short.image >/dev/null && "$crz" due short >/dev/null && "$crz" export short short.again >/dev/null
holds "asking changes nothing" cmp -s short.image short.again
# moved NAME OFFSET NUMBER: a zone with that image, one byte of it another
moved() {
    python3 -c 'import sys; b = bytearray(open("short.image", "rb").read()); b[int(sys.argv[2])] = int(sys.argv[3])
open(sys.argv[1], "wb").write(b)' "$1.image" "$(named "$2")" "$3"
    "$crz" import "$1" "$1.image" >/dev/null
}
moved afternoon CRZ_IMAGE_PHASE 1
ends 0 "the next morning close, of day 3 (tomorrow: today's is made), works 9 lots" due afternoon
asks_nobody afternoon "$made" # though lots are left that were due today
moved overdue CRZ_IMAGE_DAY 3
holds "what was due yesterday is due: $(asked overdue)" test "$(asked overdue)" = "3=3800000 11=56185220 12=1 13=58092610 15=58092610 16=56092610 "
moved early CRZ_IMAGE_DAY 1
ends 0 "the next morning close, of day 1 (today), works 0 lots" due early
asks_nobody early "$nobody"
# close_after NAME ACCOUNT=FEN..: these pay in, then comes the close; NAME.due and NAME.said are what is said before and of it
close_after() {
    local name=$1 one
    shift
    cp short "$name"
    for one; do echo "pay-in account ${one%=*} fen ${one#*=}"; done | "$crz" play "$name" - >/dev/null
    "$crz" due "$name" >"$name.due"
    "$crz" call "$name" morning-close >"$name.said"
}
# defaults NAME [ACCOUNT]: lots in whose default a buyer is named, or that buyer
defaults() {
    grep -c "\(buyer default\|both defaulted\), buyer ${2:-[0-9]*}," "$1.said"
}
close_after nobody.paid
holds "where nobody pays in, each of these buyers defaults" test "$(defaults nobody.paid)" -ge 4
# shellcheck disable=SC2086 # one word for each account
close_after all.paid $figures
holds "once all have paid in nobody has to" grep -qxF "$nobody" all.paid.due
holds "all have paid in: no default" test "$(defaults all.paid)" -eq 0
holds "all have paid in: both penalties pass whole" test "$(grep -c 'penalty, .*, 5,000,000 fen' all.paid.said)" -eq 2
asks_nobody all.paid "$made"
for one in 11=56185220 12=1 13=58092610 16=56092610; do
    close_after alone "$one"
    holds "account ${one%=*} alone has paid in: it is in no default" test "$(defaults alone "${one%=*}")" -eq 0
    holds "account ${one%=*} alone has paid in: the others default" test "$(defaults alone)" -ge 3
done
# 12 and 13 have one due trade as buyers and no part in another due lot: a fen less is a default
close_after fen.less 13=58092609
holds "a fen less: it is what is left to pay in" grep -qxF "  account 13 has to pay in 1 fen before the morning close" fen.less.due
holds "a fen less, not lodged: both defaulted" grep -qF "lot 4: both defaulted, buyer 13, seller 1" fen.less.said
holds "a fen less, lodged: a buyer default" grep -qF "lot 3: buyer default, buyer 12, seller 1, 5,000,000 fen" fen.less.said
# A library that refuses what it never should: the program says so and shows nothing.
echo '#include "crz.h"
uint32_t refused(const uint8_t *image, size_t image_len, uint8_t *figures, size_t figures_len)
{
    return image[0] != 0 && image_len != 0 && figures != NULL && figures_len != 0 ? CRZ_NUMBER_BAD_IMAGE : 0;
}' >refused.c
holds "a program with such a library" gcc -std=c99 -Dcrz_shortfalls=refused -I"$here/include" -o refusing "$here"/host/*.c refused.c \
    "$here/target/staticlib/libcrz.a" -lsqlite3 -lcrypto
crz=./refusing ends 3 "crz: the library returns 2 where it is asked for the shortfalls" due short
crz=./refusing ends 3 "crz: the library returns 2 where it is asked for the shortfalls" due short --json
holds "and nothing is shown" test -z "$(./refusing due short 2>/dev/null)"

# ── A desk with books of its own ────────────────────────────────────────────────────────────────────
# desk ZONE SEED OPTION..: 1,500 random calls
desk() {
    local zone=$1 seed=$2 last status
    shift 2
    "$crz" new "$zone" >/dev/null
    python3 "$here/tests/host_desk.py" "$crz" "$zone" "$seed" 1500 "$@" >said
    status=$?
    cat said
    holds "a desk with books of its own ends with $status" test "$status" -eq 0
    last=$(tail -n 1 said)
    passed=$((passed + ${last%% *}))
    ends 0 "replay: 1,500 calls compared" verify "$zone"
    ends 0 "history: the books" verify "$zone"
}
# One of the two runs ends in a morning, the other in an afternoon, both with lots that are due; each call by call and
# in tables.
for seed in 131 91; do
    desk "desk.$seed" "$seed"
    desk "tables.$seed" "$seed" --table
    ends 0 "1,500 of them in 47 tables" verify "tables.$seed"
    holds "the same zone in tables" cmp -s <("$crz" show "desk.$seed") <("$crz" show "tables.$seed")
done
# Many accounts are short: the first run ends in a morning in which some have to pay in, the second in an afternoon.
for seed in 16 53; do
    desk "desk.$seed" "$seed" --short
done
holds "some have to pay in at the end: $(asked desk.16)" test "$(asked desk.16 | wc -w)" -eq 4
asks_nobody desk.53 "$made"

# ── Tables of calls ─────────────────────────────────────────────────────────────────────────────────
# words ZONE: the calls of its log, as a script
words() {
    "$crz" log "$1" | sed -n 's/^[1-9][0-9]*  [^ ]*  //p'
}
# one_by_one and in_tables: what play prints of the script, without what is said of the tables
one_by_one() {
    "$crz" play "$@" | sed '$d'
}
in_tables() {
    "$crz" play "$@" --table | sed '/, as one table/d; $d'
}
# same_zone NAME ONE OTHER: image and calls
same_zone() {
    rm -f one.image other.image
    "$crz" export "$2" one.image >/dev/null && "$crz" export "$3" other.image >/dev/null
    holds "$1: the same image" cmp -s one.image other.image
    holds "$1: the same calls" cmp -s <(words "$2") <(words "$3")
}
words desk.91 >desk.script
table=$(named CRZ_TABLE_COUNT)
for count in 0 1 $((table - 1)) "$table" $((table + 1)) $((2 * table)) $((2 * table + 1)); do
    head -n "$count" desk.script >script
    tables=$(((count + table - 1) / table))
    "$crz" new "single.$count" >/dev/null && "$crz" new "table.$count" >/dev/null
    one_by_one "single.$count" script >single.said
    in_tables "table.$count" script >table.said
    holds "$count calls: the same answers in tables" cmp -s single.said table.said
    holds "$count calls: every answer" test "$(grep -c '^accepted\|^refused' table.said)" -eq "$count"
    same_zone "$count calls" "single.$count" "table.$count"
    holds "$count calls make $tables tables" test \
        "$("$crz" log "table.$count" | sed -n 's/^    [ar].*, \(table [0-9 to]*\):.*/\1/p' | sort -u | wc -l)" -eq "$tables"
    ends 0 "replay: $count call$([ "$count" -eq 1 ] || echo s) compared" verify "table.$count"
done
ends 0 "replay: 65 calls compared, 65 of them in 3 tables" verify table.65
ends 0 "replay: 1 call compared, 1 of them in 1 table, " verify table.1
"$crz" new empty >/dev/null && cp empty empty.copy
ends 0 "0 calls in 0 tables: 0 accepted, 0 refused" play empty /dev/null --table
holds "a script without calls makes no table" cmp -s empty empty.copy
# what is said of tables, and their lines in the log
yes "pay-in account 5 fen 1" | head -n 65 >script
ends 0 "calls 1 to 32 of 65, as one table" play empty script --table
ends 0 "calls 33 to 64 of 65, as one table" play empty script --table
ends 0 "call 65 of 65, as one table" play empty script --table
ends 0 "65 calls in 3 tables: 65 accepted, 0 refused" play empty script --table
"$crz" call empty take-out account 5 fen 1 >/dev/null
# marks OPTION..: how many lines have which mark in the log, in their order
marks() {
    "$crz" log empty "$@" | sed -n 's/^    [ar][a-z]*\( [0-9]*\)\{0,1\}\(, \)\{0,1\}\(.*\):.*/\3/p' | uniq -c | tr -s ' \n' ' '
}
holds "marks of the last tables: $(marks --last 66)" test "$(marks --last 66)" = " 32 table 196 to 227 32 table 228 to 259 1 table 260 1 "
for last in 1 2 3 20 33 34 35 65; do
    holds "the last $last lines have their marks" test "$("$crz" log empty --last "$last")" = \
        "$("$crz" log empty | tail -n $((2 * last)))"
done
holds "marks of an account's last lines" test "$(marks --account 5 --last 3)" = " 1 table 228 to 259 1 table 260 1 "
# a refused call stops none behind it, and each finds what those before it left
cat >script <<'END'
take-out account 7 fen 1
pay-in account 7 fen 5
take-out account 7 fen 6
register account 1 receipt 3 kilograms 1,000
register account 2 receipt 3 kilograms 1,000
list account 1 receipt 3 contract 1 days 0 basis-yuan -4
pay-in account 2 fen 5,000,000
quote contract 1 yuan 5
market-bid account 2 receipt 3
lodge account 1 receipt 3
morning-close
first-payment account 1 receipt 3
invoice account 1 receipt 3 fen 33
confirm account 2 receipt 3
invoice account 1 receipt 3 fen 68
invoice account 1 receipt 3 fen 33
pay-in account 97 fen 1
END
"$crz" new refused >/dev/null && "$crz" play refused script --table >table.said
holds "a table with refused calls ends with $?" test $? -eq 1
for text in "refused 11, sequence 1: not enough free money: account 7 has 0 fen free, take-out needs 1 fen" \
    "refused 11, sequence 3: not enough free money: account 7 has 5 fen free, take-out needs 6 fen" \
    "receipt 3 is registered already, its owner is 1" "lot 3: struck, buyer 2, seller 1, 5 yuan per tonne" \
    "lot 3: settled, buyer 2, seller 1, 100 fen" "its confirmation pays 6 fen of the rest, 67 fen are left to invoice" \
    "the invoice is 68 fen, 67 fen are left to invoice" "its confirmation pays 7 fen of the rest, 34 fen are left to invoice" \
    "refused 4, sequence 17: a field is out of range: account 97 is not in 1 to 96" \
    "17 calls in 1 table: 12 accepted, 5 refused"; do
    holds "a table says: $text" grep -qF "$text" table.said
done
ends 0 "replay: 17 calls compared, 17 of them in 1 table, 12 accepted and 5 refused" verify refused
ends 0 "    refused 11, table 1 to 17: not enough free money" log refused
ends 0 "first paid, lot 3, to account 1" statement refused 2
# --stop ends at the first refused call, in a table too
for count in 1 31 32 33 40 64; do # accepted ones before it
    "$crz" new stopped >/dev/null && "$crz" new halted >/dev/null
    { yes "pay-in account 5 fen 1" | head -n "$count"; echo "take-out account 6 fen 1"; yes "pay-in account 5 fen 2" | head -n 50; } >script
    one_by_one halted script --stop >single.said
    in_tables stopped script --stop >table.said
    holds "--stop after $count calls: the same answers" cmp -s single.said table.said
    holds "--stop after $count calls: the refused one is the last" grep -q "^refused 11, sequence $((count + 1)):" <(tail -n 1 table.said)
    same_zone "--stop after $count calls" halted stopped
    ends 0 "$count accepted and 1 refused" verify stopped
    rm stopped halted
done
"$crz" new stopped >/dev/null
ends 1 "2 calls in 1 table: 1 accepted, 1 refused; stopped, 2 not made" play stopped --table --stop \
    <(printf 'pay-in account 1 fen 1\ntake-out account 2 fen 1\npay-in account 1 fen 1\nday-close\n')
ends 0 "calls 1 to 2 of 2, as one table that ends with the first refused call" play stopped --stop --table \
    <(printf 'pay-in account 1 fen 1\npay-in account 1 fen 1\n')
# --expect is asked of the first table
yes "pay-in account 5 fen 1" | head -n 40 >script
ends 3 "the journal's last sequence number is 4, not 3 as --expect asks" play stopped script --table --expect 3
ends 3 "of the script's 40 calls 0 were made" play stopped script --table --expect 3
holds "what --expect holds back is not made" test "$(sequence stopped)" -eq 4
ends 0 "40 calls in 2 tables: 40 accepted, 0 refused" play stopped script --table --expect 4
ends 2 "1 bad line; no call was made" play stopped <(cat script; echo sell) --table
ends 2 "play: --table takes no value" play stopped script --table=8
ends 2 "play: --table is there twice" play stopped script --table --table
ends 2 "play: '--tabel' is no option of it; did you mean '--table'?" play stopped script --tabel
ends 2 "call: '--table' is no option of it" call stopped pay-in account 5 fen 1 --table
ends 0 "  --table          make them in tables of up to $table calls" help play
ends 0 "'table 65 to 96' has" help log
holds "the log of tables makes a script" cmp -s <(words refused) <("$crz" new replayed >/dev/null
    words refused | "$crz" play replayed - --table | sed -n 's/^> //p')
same_zone "a log played again in a table" refused replayed
"$crz" export refused refused.image >/dev/null && "$crz" import imported.table refused.image >/dev/null
printf 'confirm account 2 receipt 3\nconfirm account 2 receipt 3\n' >script
ends 1 "2 calls in 1 table: 1 accepted, 1 refused" play imported.table script --table
ends 0 "replay: 2 calls compared, 2 of them in 1 table" verify imported.table
ends 0 "this one was imported" verify imported.table

# ── Objects for programs ────────────────────────────────────────────────────────────────────────────
cat >objects.py <<'END'
import json, sys
kinds, names = {}, set()
def collect(value):
    for item in value if isinstance(value, list) else [value]:
        if isinstance(item, dict):
            names.update(item)
            for inner in item.values():
                collect(inner)
for line in sys.stdin:
    o = json.loads(line)
    kinds.setdefault(o["type"], []).append(o)
    collect(o)
    assert all(not isinstance(v, float) for v in o.values()), o
page = open(sys.argv[2]).read().replace('"', " ").replace(",", " ").split()
assert not [n for n in names | set(kinds) if n not in page], "not in the man page"
exec(sys.argv[1])
END
# objects PYTHON ARGUMENTS..: the program's output is objects, one a line, and the statement holds of them
objects() {
    local claim=$1
    shift
    holds "$*: $claim" python3 objects.py "$claim" "$here/host/crz.1" < <("$crz" "$@" --json)
}
objects 'assert len(kinds["call"]) == 34 and kinds["start"][0]["through"] == "crz_fresh"' log day
objects 'assert kinds["call"][0]["call"] == {"kind": "pay-in", "account": 11, "fen": 100000000}' log day
objects 'assert [c["call"]["premium_yuan"] for c in kinds["call"] if c["call"]["kind"] == "register"] == [100, -80, 0, 0]' log day
objects 'assert [e["fen"] for c in kinds["call"] for e in c["entries"] if e["outcome"] == "settled"] == [63092610]' log day
objects 'assert [e["yuan"] for c in kinds["call"] for e in c["entries"] if e["outcome"] == "struck"] == [15000, 14990, 14990]' log day
objects 'assert len(kinds["head"][0]["hash"]) == 64 and kinds["head"][0]["sequence"] == 34' log day --head
objects 'assert kinds["zone"][0] == {"type": "zone", "day": 2, "phase": "afternoon", "total_fen": 166000000}' show day
objects 'assert sum(a["free_fen"] + a["frozen_fen"] for a in kinds["account"]) == 166000000' show day
objects 'assert kinds["lot"][0]["owner"] == 11 and kinds["lot"][0]["full_fen"] is None' show day
objects 'assert [lot["premium_yuan"] for lot in kinds["lot"]] == [100, -80, 0, 0]' show day
objects 'assert [m["premium_yuan"] for m in kinds["movement"]] == [None, -5, -5, -5]' statement premium 4
objects 'assert len(kinds["contract"]) == 8 and len(kinds["lot"]) == 4' show day
objects 'assert all(lot["next_part_fen"] is None and lot["left_to_invoice_fen"] is None for lot in kinds["lot"])' show day
objects 'lot = kinds["lot"][0]; assert lot["left_to_invoice_fen"] == 34 and lot["next_part_fen"] is None' show cut.one
objects 'held = kinds["held"][0]; assert held["fen"] == 7 and held["left_to_invoice_fen"] == 34 and held["next_part_fen"] is None' \
    statement cut.one 2
objects 'assert kinds["to_invoice"] == [{"type": "to_invoice", "lot": 3, "buyer": 2, "premium_yuan": 0,
    "left_to_invoice_fen": 34, "pending_fen": 0, "next_part_fen": None}] and "held" not in kinds' statement cut.one 1
objects 'c = kinds["call"][0]; assert c["next_part_fen"] == 0 and c["left_to_invoice_fen"] == 33 and c["accepted"]' \
    call cut.one invoice account 1 receipt 3 fen 1
objects 'lot = kinds["lot"][0]; assert lot["left_to_invoice_fen"] == 33 and lot["next_part_fen"] == 0' show cut.one
objects 'held = kinds["held"][0]; assert held["fen"] == 7 and held["left_to_invoice_fen"] == 33 and held["next_part_fen"] == 0' \
    statement cut.one 2
objects 'assert kinds["to_invoice"] == [{"type": "to_invoice", "lot": 3, "buyer": 2, "premium_yuan": 0,
    "left_to_invoice_fen": 33, "pending_fen": 1, "next_part_fen": 0}]' statement cut.one 1
objects 'assert "to_invoice" not in kinds' statement cut.one 2
objects 'assert kinds["held"][0]["state"] == "settled" and kinds["held"][0]["left_to_invoice_fen"] is None' statement settled 4
objects 'assert "to_invoice" not in kinds' statement settled 1
objects 'c = kinds["call"][0]; assert not c["accepted"] and c["next_part_fen"] is None and c["left_to_invoice_fen"] is None' \
    call cut.one invoice account 1 receipt 3 fen 1
objects 'assert kinds["call"][0]["next_part_fen"] is None and kinds["call"][0]["entries"][0]["fen"] == 0' \
    call cut.one confirm account 2 receipt 3
objects 'assert all(c["next_part_fen"] is None and c["left_to_invoice_fen"] is None for c in kinds["call"])' log cut.one
objects 'assert {bool(lot["pending_fen"]) for lot in kinds["lot"] if lot["state"] == "first paid"} == {True, False}' show desk.91
objects 'b = kinds["balance"][0]; assert b["pay_ins_fen"] - b["passed_fen"] == b["free_fen"] == 36907390' statement day 11
objects 'assert [m["out_fen"] for m in kinds["movement"]] == [None, 50474088, 6000000, 6618522]' statement day 11
objects 'assert kinds["close"][0]["lots"] == 1 and kinds["due"][0]["penalty_fen"] == 5000000' due noon
objects 'assert list(kinds) == ["close", "due", "shortfall"] and kinds["shortfall"] == [{"type": "shortfall", "account": a, "fen": fen}
    for a, fen in ((3, 3800000), (11, 56185220), (12, 1), (13, 58092610), (16, 56092610))]' due short
objects 'assert kinds["close"] == [{"type": "close", "day": 2, "today": True, "lots": 8}] and len(kinds["due"]) == 8' due short
objects 'assert kinds["close"] == [{"type": "close", "day": 3, "today": False, "lots": 2}] and "shortfall" not in kinds' due all.paid
objects 'assert [(d["lot"], d["lacks_fen"]) for d in kinds["due"]] == [(4, 5000000), (6, 58092610)]' due all.paid
objects 'assert list(kinds) == ["close"] and kinds["close"][0]["today"]' due unused
objects 'c = kinds["call"][0]; assert c["accepted"] and c["number"] == 0 and c["sequence"] == 35 and c["reason"] is None' \
    call day pay-in account 96 fen 3
objects 'c = kinds["call"][0]; assert not c["accepted"] and c["seen"].startswith("account 97") and c["total_fen"] is None' \
    call day pay-in account 97 fen 3
printf 'pay-in account 5 fen 1\ntake-out account 5 fen 2\n' >script
objects 'assert len(kinds["call"]) == 2 and kinds["played"][0] == {"type": "played", "calls": 2, "tables": 0, "accepted": 1, "refused": 1, "not_made": 0}' \
    play day script
objects 'assert all(c["table"] is None and c["through"] == "crz_call" for c in kinds["call"])' log day
objects 'c = kinds["call"][0]; assert c["table"] is None and c["through"] == "crz_call"' call day pay-in account 5 fen 1
objects 'assert [c["table"] for c in kinds["call"]] == [{"first": 40, "last": 41}] * 2 and kinds["played"] == [{"type": "played",
    "calls": 2, "tables": 1, "accepted": 2, "refused": 0, "not_made": 0}]' \
    play day <(printf 'pay-in account 5 fen 1\npay-in account 5 fen 2\n') --table
objects 'assert [c["table"] for c in kinds["call"]] == [{"first": n - (n - 1) % 32, "last": min(n - (n - 1) % 32 + 31, 65)}
    for n in range(1, 66)]' log table.65
objects 'assert [(c["sequence"], c["table"]) for c in kinds["call"]] == [(64, {"first": 33, "last": 64}), (65, {"first": 65, "last": 65})]' \
    log table.65 --last 2
objects 'assert {c["through"] for c in kinds["call"]} == {"crz_table"} and len({c["time"] for c in kinds["call"]}) == 1' log refused
objects 'assert [c["seen"] for c in kinds["call"] if not c["accepted"]] == [None] * 5' log refused
objects 'assert "call" not in kinds and kinds["played"] == [{"type": "played", "calls": 0, "tables": 0, "accepted": 0, "refused": 0,
    "not_made": 0}]' play day /dev/null --table

# ── Raw images ──────────────────────────────────────────────────────────────────────────────────────
ends 0 "day.image: the image after sequence 41" export day day.image
holds "the length of an image" test "$(stat -c %s day.image)" -eq "$image_length"
ends 3 "exists already" export day day.image
ends 3 "if it is a raw image, 'crz import ZONE day.image'" show day.image
ends 0 "moved: a zone with that image, sequence 0" import moved day.image
holds "an imported zone is the same" cmp -s <("$crz" show day) <("$crz" show moved)
ends 0 "accepted, sequence 1" call moved pay-in account 11 fen 10
ends 0 "at the start 36,907,390 + pay-ins 10" statement moved 11
ends 0 "start with an imported image: day 2, afternoon" log moved
ends 0 "need a start from a fresh zone, this one was imported" verify moved
ends 0 "replay: 1 call compared" verify moved
ends 3 "exists already" import moved day.image
head -c "$((image_length - 1))" day.image >short
ends 3 "is no raw image: an image has $(thousands "$image_length") bytes, one of an older program $(thousands "$older_length")" \
    import short.zone short
{ cat day.image; printf '\0'; } >long
ends 3 "is no raw image" import long.zone long
{ printf '\377'; tail -c +2 day.image; } >damaged
ends 3 "is no valid image of a zone; no zone was made" import damaged.zone damaged
holds "a bad image makes no zone" test ! -e short.zone -a ! -e long.zone -a ! -e damaged.zone

# An image from before there were premiums: its records are shorter, and each receipt gets premium 0.
cat >before.py <<'END'
import sys
start, longer, shorter = map(int, sys.argv[3:])
image = open(sys.argv[1], "rb").read()
records = [image[at:at + longer] for at in range(start, len(image), longer)]
open(sys.argv[2], "wb").write(image[:start] + b"".join(record[:shorter] for record in records))
END
# before IMAGE OLDER: the image as a program without premiums would write it
before() {
    python3 before.py "$1" "$2" "$(named CRZ_IMAGE_RECEIPTS)" "$(named CRZ_RECEIPT_LENGTH)" "$(named CRZ_RECEIPT_PREMIUM)"
}
# a day without premiums, up to a lot that is first paid, one with a penalty due and one with a standing bid
sed 's/ premium -*[0-9]*//; /^invoice .* fen 33092610/,$d' "$here/host/day.txt" >script
echo "limit-bid account 14 receipt 4 yuan 14985" >>script
"$crz" new plain >/dev/null && "$crz" play plain script >/dev/null && "$crz" export plain plain.image >/dev/null
before plain.image older.image
holds "the length of an older image" test "$(stat -c %s older.image)" -eq "$older_length"
ends 3 "if it is a raw image, 'crz import ZONE older.image'" show older.image
ends 0 "older.zone: a zone with that older image, every premium 0, sequence 0" import older.zone older.image
for state in "first paid" "penalty due" "bid stands"; do
    ends 0 ": $state, owner" show older.zone
done
holds "an older image is the same zone" cmp -s <("$crz" show plain) <("$crz" show older.zone)
ends 0 "older.again: the image after sequence 0" export older.zone older.again
holds "its image has premiums now" cmp -s plain.image older.again
ends 0 "accepted, sequence 1" call older.zone pay-in account 11 fen 10
ends 0 "replay: 1 call compared" verify older.zone
for seed in 131 91; do # without their premiums the frozen money does not fit
    "$crz" export "desk.$seed" "desk.$seed.image" >/dev/null
    before "desk.$seed.image" "desk.$seed.older"
    ends 3 "is no valid image of a zone; no zone was made" import "desk.$seed.zone" "desk.$seed.older"
done
head -c "$((older_length - 1))" older.image >short
ends 3 "is no raw image" import short.zone short
holds "a bad older image makes no zone" test ! -e short.zone -a ! -e desk.131.zone -a ! -e desk.91.zone

# An image of version 2.0.0 may have less paid of a rest than confirmed invoices make it: then it names the trades.
cat >paid.py <<'END'
"""paid.py IMAGE CHANGED LOT FEN MOVED OFFSETS..: so many fen more as paid of a lot, and moved from buyer to seller or not"""
import sys
image = bytearray(open(sys.argv[1], "rb").read())
lot, fen, moved, receipts, length, paid, seller, buyer, accounts = map(int, sys.argv[3:])
def add(at, width, fen):
    image[at:at + width] = (int.from_bytes(image[at:at + width], "little") + fen).to_bytes(width, "little")
record = receipts + length * (lot - 1)
add(record + paid, 4, fen)
if moved:
    add(accounts + 16 * (image[record + buyer] - 1) + 8, 8, -fen)
    add(accounts + 16 * (image[record + seller] - 1), 8, fen)
open(sys.argv[2], "wb").write(image)
END
# paid_more IMAGE CHANGED LOT FEN MOVED: as paid.py has it
paid_more() {
    python3 paid.py "$@" "$(named CRZ_IMAGE_RECEIPTS)" "$(named CRZ_RECEIPT_LENGTH)" "$(named CRZ_RECEIPT_PAID)" \
        "$(named CRZ_RECEIPT_SELLER)" "$(named CRZ_RECEIPT_BUYER)" "$(named CRZ_IMAGE_ACCOUNTS)"
}
# not_taken IMAGE TEXT..: no zone is made, and each text is said
not_taken() {
    local image=$1
    shift
    for text; do ends 3 "$text" import not.taken "$image"; done
    holds "$image makes no zone" test ! -e not.taken
}
# silent TEXT IMAGE: an import does not say it
silent() {
    holds "$2: said '$1'" test -z "$("$crz" import not.taken "$2" 2>&1 | grep -F -- "$1")"
}
ends 0 "taken: a zone with that image, sequence 0" import taken parts.image
ends 0 "of the rest paid 13 fen, invoices confirmed 66 fen" show taken
paid_more parts.image below 3 -1 1
not_taken below \
    "below: lot 3 has 12 fen as paid of its rest, where its confirmed invoices make it 13 fen (rest 20 x confirmed 66 / full payment 100)" \
    "below: these trades were paid in part by the rule of versions before 3.0.0; no zone was made" \
    "finish each of them with version 2.0.0, invoices confirmed up to the full payment, then export and import again"
silent "is no valid image" below
before below below.older
not_taken below.older "lot 3 has 12 fen as paid of its rest, where its confirmed invoices make it 13 fen" \
    "finish each of them with the version that made the image"
before parts.image parts.older
ends 0 "taken.older: a zone with that older image, every premium 0, sequence 0" import taken.older parts.older
holds "and it is the same zone" cmp -s <("$crz" show taken) <("$crz" show taken.older)
paid_more parts.image above 3 1 1
not_taken above "lot 3 has 14 fen as paid of its rest, where its confirmed invoices make it 13 fen" \
    "above: is no valid image of a zone; no zone was made"
silent "2.0.0" above # no version pays more
for fen in 1 -1; do # a byte that changed, with the money as it was
    paid_more parts.image changed 3 "$fen" 0
    not_taken changed "lot 3 has $((13 + fen)) fen as paid of its rest" "is no valid image of a zone; no zone was made"
    silent "2.0.0" changed
done
paid_more uncut.image early 3 1 1
not_taken early "lot 3 has 1 fen as paid of its rest, where its confirmed invoices make it 0 fen (rest 20 x confirmed 0 /"
python3 -c 'b = bytearray(open("below", "rb").read()); b[6:8] = bytes(2); open("dayless", "wb").write(b)'
not_taken dayless "is no valid image of a zone; no zone was made"
silent "as paid" dayless # more is wrong than that
# two lots between their invoices, one with an invoice pending; one of them paid less, both, or one more
cat >script <<'END'
day-close
pay-in account 5 fen 5,000,000
register account 4 receipt 128 kilograms 1,000 premium 10
list account 4 receipt 128 contract 1 days 0 basis-yuan -4
quote contract 1 yuan 5
market-bid account 5 receipt 128
lodge account 4 receipt 128
morning-close
first-payment account 4 receipt 128
invoice account 4 receipt 128 fen 999
confirm account 5 receipt 128
invoice account 1 receipt 3 fen 20
END
ends 0 "part paid, buyer 5, seller 4, 199 fen" play taken script
"$crz" export taken two.image >/dev/null
ends 0 "a zone with that image" import two two.image
paid_more two.image one.of.two 128 -1 1
not_taken one.of.two "lot 128 has 198 fen as paid of its rest, where its confirmed invoices make it 199 fen"
silent "lot 3 has" one.of.two
paid_more one.of.two both 3 -2 1
not_taken both "lot 3 has 11 fen as paid of its rest, where its confirmed invoices make it 13 fen" \
    "lot 128 has 198 fen as paid" "finish each of them with version 2.0.0"
paid_more one.of.two mixed 3 1 1
not_taken mixed "lot 3 has 14 fen as paid" "lot 128 has 198 fen as paid" "is no valid image of a zone"

# The last day of a zone, by an image of that day.
python3 -c 'b = bytearray(open("day.image", "rb").read()); b[6:8] = (30000).to_bytes(2, "little"); open("last.image", "wb").write(b)'
ends 0 "a zone with that image" import last last.image
ends 0 "day 30,000, afternoon" show last
ends 0 "no morning close comes: day 30,000 is the last" due last
ends 1 "refused 5, sequence 1: not in this phase of the day: day 30,000 is the last day of a zone" call last day-close
objects 'assert kinds["close"][0] == {"type": "close", "day": None, "today": False, "lots": 0}' due last

# ── What the documents show ─────────────────────────────────────────────────────────────────────────
mkdir readme guide guide/target
(cd readme && python3 "$here/tests/host_samples.py" "$crz" "$here/README.md")
holds "the README's samples" test $? -eq 0
"$crz" new guide/target/day.crz >/dev/null && "$crz" play guide/target/day.crz "$here/host/day.txt" >/dev/null
# shellcheck disable=SC2016 # the quotes are the document's
sed -n '/^`open.txt`:$/,/^one commit/s/^    //p' "$here/docs/GUIDE.md" >guide/open.txt
(cd guide && python3 "$here/tests/host_samples.py" "$crz" "$here/docs/GUIDE.md")
holds "the guide's samples" test $? -eq 0
ends 0 "replay: 42 calls compared, 5 of them in 1 table, 41 accepted and 1 refused" verify guide/target/day.crz
# guided NUMBER NAME: a program with the guide's lines in C of that number, on an image from standard input
guided() {
    cat >"$2.c" <<'END'
#include "crz_records.h"
#include <inttypes.h>
#include <stdio.h>
int main(void)
{
    static uint8_t image[CRZ_IMAGE_LENGTH];
    if (fread(image, 1, sizeof image, stdin) != sizeof image)
        return 1;
END
    # shellcheck disable=SC2016 # the quotes are the document's
    awk -v number="$1" '/^```c$/ { within = ++found == number; next } /^```$/ { within = 0 } within' "$here/docs/GUIDE.md" >>"$2.c"
    printf '    return 0;\n}\n' >>"$2.c"
    gcc -std=c99 -Wall -Wextra -Wconversion -Werror -I"$here/include" -o "$2" "$2.c" "$here/target/staticlib/libcrz.a"
}
holds "the guide's lines in C" guided 1 ours
holds "the guide's table of calls in C" guided 2 ours.table
holds "the guide's shortfalls in C" guided 3 ours.figures
"$crz" new ours.zone >/dev/null && "$crz" export ours.zone ours.image >/dev/null
holds "what it prints: $(./ours.table <ours.image)" test "$(./ours.table <ours.image)" = "call 0: number 0
call 1: number 11
call 2: number 0"
head -c "$image_length" /dev/zero >ours.zeros
holds "and on no valid image" test "$(./ours.table <ours.zeros)" = "call 0: number 2
call 1: number 2
call 2: number 2"
holds "what the figures are: $(./ours.figures <short.image)" test "$(./ours.figures <short.image)" = "account 3 has to pay in 3800000 fen
account 11 has to pay in 56185220 fen
account 12 has to pay in 1 fen
account 13 has to pay in 58092610 fen
account 16 has to pay in 56092610 fen"
holds "and on no valid image" test "$(./ours.figures <ours.zeros)" = "number 2, no figures"
holds "and where nobody has to pay in" test -z "$(./ours.figures <ours.image)"
# on the image of an invoice that waits
"$crz" call cut.thirds invoice account 1 receipt 3 fen 4 >/dev/null && "$crz" export cut.thirds thirds.image >/dev/null
holds "what they print: $(./ours <thirds.image)" test "$(./ours <thirds.image)" = "lot 3: left to invoice 30 fen
the next confirmation pays 1 fen"
holds "and without an invoice" test "$(./ours <parts.image)" = "lot 3: left to invoice 34 fen
no invoice is pending"
holds "the man page is of version $version" grep -q "^.TH CRZ 1 .* \"crz $version\"" "$here/host/crz.1"
for command in new call play show log verify statement due import export; do
    holds "the man page has $command" grep -q "fBcrz $command" "$here/host/crz.1"
done
if command -v groff >/dev/null 2>&1; then
    holds "the man page is well formed" test -z "$(groff -man -ww -Tutf8 "$here/host/crz.1" 2>&1 >/dev/null)"
fi

# ── The shared object ───────────────────────────────────────────────────────────────────────────────
# Its name for the linker has the version's first number: programs of another one do not take it.
holds "a shared object is made from target/staticlib/libcrz.a" "$here/tools/shared" "$PWD/shared"
holds "its name" grep -qF "[libcrz.so.${version%%.*}]" <(readelf -d shared/libcrz.so)
holds "its files" test "$(echo shared/*)" = "shared/libcrz.so shared/libcrz.so.${version%%.*}"
finish
