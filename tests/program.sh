#!/usr/bin/env bash
# The program as it is started by a shell: its statuses, its two streams, the files that it writes, and what a test in the language cannot
# make: a pipe over the limit, an argument that is not UTF-8, and a machine with little memory.
#
#   tests/program.sh PROGRAM
set -euo pipefail
program=$(realpath "$1")
examples=$(realpath "$(dirname "$0")/../examples")
docs=$(realpath "$(dirname "$0")/../docs")
room=$(mktemp -d)
trap 'rm -rf "$room"' EXIT
cd "$room"
cp "$examples/territories.csv" "$examples/works.cwr" "$examples/usage.csv" .
most=268435456
failed=0

# check NAME STATUS OUT ERR WORD..: the program, run with these words, ends with the status and writes these two
# texts. A text of `*` may be anything but nothing.
check() {
    local name=$1 status=$2 out=$3 err=$4 got=0
    shift 4
    "$@" >out 2>err || got=$?
    if [ "$got" != "$status" ] || ! is_text "$out" out || ! is_text "$err" err; then
        echo "program.sh: $name: status $got, wanted $status; it wrote:"
        head -c 400 out err
        failed=$((failed + 1))
    fi
}

is_text() {
    if [ "$1" = '*' ]; then [ -s "$2" ]; else printf '%b' "$1" | cmp -s - "$2"; fi
}

# twice USAGE: what a command with this usage says of a submitter that is given two files.
twice() {
    echo "error: the submitter 'MOON' has a file already\n\nUsage: royalty_run $1\n\nFor more information, try '--help'.\n"
}
several_files='--tis <F> --works <F> --cwr <NAME=F> --usage <F>'

plan=(--workers 2 --readers 1 --nodes 16)
files=(--tis territories.csv --cwr works.cwr --usage usage.csv)

check 'a division' 0 'P,A,2\nM,,1\n' '' "$program" split 3 A=5000
check 'a run' 0 "$(sed 's/\\/\\\\/g' "$examples/statements.csv")\n" '' "$program" run "${files[@]}" "${plan[@]}"
check 'a run with = and in another order' 0 "$(sed 's/\\/\\\\/g' "$examples/statements.csv")\n" '' \
    "$program" run --nodes=16 --usage=usage.csv --readers 1 --cwr works.cwr --workers=2 --tis=territories.csv
# The second line is reversed at the end: its parties have two postings that come to nothing.
{ cat usage.csv; echo 'RADIO-US-01,NT0001,840,P,-98701'; } >corrected.csv
corrected=$(sed -e 's/^S,BIGSKY,.*/L,BIGSKY,RADIO-US-01,-29611\nS,BIGSKY,2,0/' \
    -e 's/^S,LINDQVIST,.*/L,LINDQVIST,RADIO-US-01,-29610\nS,LINDQVIST,4,37834/' \
    -e 's/^S,OKAFOR,.*/L,OKAFOR,RADIO-US-01,-19740\nS,OKAFOR,4,25334/' \
    -e 's/^S,RIVER,.*/L,RIVER,RADIO-US-01,-19740\nS,RIVER,6,172284/' \
    -e 's/^R,.*/R,,10,465261/' "$examples/statements.csv")
check 'a line that is reversed' 0 "$corrected\n" '' \
    "$program" run --tis territories.csv --cwr works.cwr --usage corrected.csv "${plan[@]}"
printf 'party,payee\nNOBODY,SOMEBODY\n' >payees.csv
check 'payees of other parties' 0 "$(sed 's/\\/\\\\/g' "$examples/statements.csv")\n" '' "$program" run "${files[@]}" --payees payees.csv "${plan[@]}"
printf 'party,payee\nRIVER,OKAFOR\nRIVER,BIGSKY\n' >payees.csv
check 'a party with two payees' 1 '' 'royalty_run: payee fault 3 at row 2\n' "$program" run "${files[@]}" --payees payees.csv "${plan[@]}"
check 'two tables of payees' 2 '' '*' "$program" run "${files[@]}" --payees payees.csv --payees payees.csv "${plan[@]}"
check 'help' 0 '*' '' "$program" --help
kit=$(rt version)
logic="logic ${kit##* logic }"
! grep -q 'not proved, for trials' "$program" || logic='not proved, for trials'
check 'the version' 0 "royalty_run 0.1.0\n$logic\nMIT or Apache-2.0, at your choice\n" '' "$program" --version
check 'a bad table' 1 '' 'royalty_run: tis fault 1 at row 0\n' "$program" run --tis usage.csv --cwr works.cwr --usage usage.csv "${plan[@]}"
facts='territories.csv: territories: 22
works.cwr: works with a registration in force: 3
works.cwr: registrations replaced by later ones: 1
works.cwr: parties in force: 6
works.cwr: accounts, the residue'"'"'s included: 7
'
check 'a check' 0 "${facts}usage.csv: usage lines: 9
usage.csv: divided: lines 6, amount 557912, to the residue 10000
usage.csv: WORK, not registered: lines 1, amount 300
usage.csv: LAND, territory not in the table: lines 1, amount 750
usage.csv: OVER, claims over 100.06 per cent: lines 1, amount 5000
usage.csv: work 'NT0009' is not registered: lines 1, amount 300
usage.csv: territory 999 is not in the table: lines 1, amount 750
usage.csv: work 'NT0002' is not claimed in full: lines 1, to the residue 10000
usage.csv: work 'NT0003' is claimed over 100.06 per cent: lines 1, amount 5000
" '' "$program" check "${files[@]}"
# Cut off behind its fourth line, in an exclusion's registration, a file has sound lines and no trailers.
head -n 6 works.cwr >cut.cwr
sed 's/^TRL0000200000004/TRL0000300000005/; s/^SWR\(.*\)OKAFOR /XWR\1OKAFOR /' works.cwr >miscounted.cwr
tr '\n' '\r' <works.cwr >returns.cwr
{ cat usage.csv; sed -n 3p usage.csv; sed -n '2s/,/,"/p' usage.csv; } >quoted.csv
for form in 'cut.cwr: remark: its last record is no TRL, so it may be cut off\n' \
    "miscounted.cwr: remark: record types that CWR 2.2 does not have: 1, 'XWR' (3)\nmiscounted.cwr: remark: line 40: TRL says 3 groups, and the file has 2\nmiscounted.cwr: remark: line 40: TRL says 5 transactions, and the file has 4\n" \
    'returns.cwr: remark: no line is an NWR or REV\nreturns.cwr: remark: line ends are CR alone, so that all of it is one line\nreturns.cwr: remark: its last record is no TRL, so it may be cut off\nreturns.cwr: remark: it has the work of no usage line\n'; do
    check "a check of ${form%%:*}" 0 "$form" '' \
        bash -c '"$0" check --tis territories.csv --cwr "$1" --usage usage.csv | grep "^$1: remark"' "$program" "${form%%:*}"
done
check 'a check of a quote that does not end' 0 'quoted.csv: remark: row 11: a quote opens in it that does not end\n' '' \
    bash -c '"$0" check --tis territories.csv --cwr works.cwr --usage quoted.csv | grep remark' "$program"
{ cat usage.csv; sed -n 3p usage.csv; } >twice.csv
check 'a check of a line that stands there twice' 0 'twice.csv: remark: rows that are the same as an earlier one: 1, in row 10\n' '' \
    bash -c '"$0" check --tis territories.csv --cwr works.cwr --usage twice.csv | grep remark' "$program"
# Reversed whole, the list has the same lines again with the opposite amounts.
{ cat usage.csv; tail -n +2 usage.csv | sed 's/,\([0-9]*\)$/,-\1/'; } >reversed.csv
check 'a check of lines that are reversed' 0 "${facts}reversed.csv: usage lines: 18
reversed.csv: divided: lines 12, amount 0, to the residue 0
reversed.csv: WORK, not registered: lines 2, amount 0
reversed.csv: LAND, territory not in the table: lines 2, amount 0
reversed.csv: OVER, claims over 100.06 per cent: lines 2, amount 0
reversed.csv: work 'NT0009' is not registered: lines 2, amount 0
reversed.csv: territory 999 is not in the table: lines 2, amount 0
reversed.csv: work 'NT0002' is not claimed in full: lines 2, to the residue 0
reversed.csv: work 'NT0003' is claimed over 100.06 per cent: lines 2, amount 0
" '' "$program" check --usage reversed.csv --tis territories.csv --cwr works.cwr
# An exclusion and two parties are mistyped.
sed 's/E0840/E0841/' works.cwr >mistyped.cwr
printf 'party,payee\nRIVER,OKAFOR\nMOOM,BIGSKY\nNT0001,BIGSKY\n' >mistyped.csv
check 'a check that remarks what a run passes over' 0 'mistyped.cwr: remark: share lines whose territory is not in the table: 1, in line 6\nmistyped.csv: remark: rows whose party no registration in force has: 2, in row 2, 3\n' '' \
    bash -c 'set -o pipefail; "$0" check --tis territories.csv --payees mistyped.csv --cwr mistyped.cwr --usage usage.csv | grep remark' "$program"
head -n 1 territories.csv >none.csv
check 'a check of files of another kind' 0 "none.csv: territories: 0
usage.csv: works with a registration in force: 0
usage.csv: registrations replaced by later ones: 0
usage.csv: parties in force: 0
usage.csv: accounts, the residue's included: 1
usage.csv: remark: no line is an NWR or REV
usage.csv: remark: record types that CWR 2.2 does not have: 5, 'usa' (1), 'RAD' (5), 'CD-' (2), 'FIL' (1), '\"CL' (1)
usage.csv: remark: its last record is no TRL, so it may be cut off
usage.csv: usage lines: 9
usage.csv: divided: lines 0, amount 0, to the residue 0
usage.csv: WORK, not registered: lines 9, amount 563962
usage.csv: LAND, territory not in the table: lines 0, amount 0
usage.csv: OVER, claims over 100.06 per cent: lines 0, amount 0
usage.csv: work 'NT0001' is not registered: lines 5, amount 517661
usage.csv: work 'NT0002' is not registered: lines 2, amount 41001
usage.csv: work 'NT0003' is not registered: lines 1, amount 5000
usage.csv: work 'NT0009' is not registered: lines 1, amount 300
usage.csv: remark: it has the work of no usage line
none.csv: remark: it has the territory of no usage line
" '' "$program" check --tis none.csv --cwr usage.csv --usage usage.csv
sed -e '2s/,[^,]*$/,12,5/' -e '4s/,M,/,m,/' usage.csv >spoilt.csv
check 'a check that tells of faults' 1 "spoilt.csv: row 1: the number of fields is 6, not 5; the first is 'RADIO-DE-01' (fault 1)\nspoilt.csv: row 3: right 'm' is not P, M or S (fault 4)\n$facts" '' \
    "$program" check --usage spoilt.csv --tis territories.csv --cwr works.cwr
check 'a check of a file that is not there' 4 '' 'royalty_run: cannot read absent\n' "$program" check --usage absent --tis territories.csv --cwr works.cwr
check 'a report to an output that is full' 4 '' 'royalty_run: cannot write\n' bash -c '"$0" check --usage spoilt.csv --tis territories.csv --cwr works.cwr >/dev/full' "$program"
check 'a wrong word' 2 '' '*' "$program" splti
check 'a wrong pair' 2 '' 'royalty_run: pair fault 2 at 2\n' "$program" split 5 A=1 A=2
check 'an argument that is not UTF-8' 2 '' 'royalty_run: an argument is not UTF-8\n' "$program" split 5 $'\xff=1'
check 'a file that is not there' 4 '' 'royalty_run: cannot read absent\n' "$program" run --tis absent --cwr works.cwr --usage usage.csv "${plan[@]}"
printf 'code\n' >'territories.csv '
check 'a path that ends in a blank' 1 '' 'royalty_run: tis fault 1 at row 0\n' "$program" run --tis 'territories.csv ' --cwr works.cwr --usage usage.csv "${plan[@]}"
check 'a standard error that is full' 1 '' '' bash -c '"$0" "$@" 2>/dev/full' "$program" run --tis usage.csv --cwr works.cwr --usage usage.csv "${plan[@]}"
check 'an output that is full' 4 '' 'royalty_run: cannot write\n' bash -c '"$0" split 3 A=5000 >/dev/full' "$program"

# A file of registrations whose one fault is more payees than a run has accounts: a check tells that fault, and no lack of memory.
awk 'BEGIN { for (work = 0; work < 64; work++) { printf "NWR%016d%-62s%-14s\n", 0, "SONG", "W" work; for (party = 0; party < 256; party++) printf "SPT%016d%-9s      000010000100001I2136\n", 0, "P" work * 256 + party } }' >many.cwr
check 'more payees than accounts' 1 'many.cwr: the parties in force have more than 16383 payees (fault 8)\nterritories.csv: territories: 22\nmany.cwr: remark: its last record is no TRL, so it may be cut off\nusage.csv: usage lines: 9\n' '' "$program" check --tis territories.csv --cwr many.cwr --usage usage.csv

# An output file is whole under its name, or it is as it was and nothing is left beside it.
# is_alone DIRECTORY NAME..: a directory has files of these names and no others
is_alone() { local directory=$1; shift; [ "$(ls -A "$directory")" = "$(printf '%s\n' "$@" | sort)" ]; }
# holds NAME FILE TEXT..: a file has the bytes of another
holds() {
    cmp -s "$2" "$3" || { echo "program.sh: $1: $2 is not $3"; failed=$((failed + 1)); }
}
# lies NAME DIRECTORY NAME..: a directory has these files alone
lies() {
    local name=$1
    shift
    is_alone "$@" || { echo "program.sh: $name: $1 has $(ls -A "$1" | tr '\n' ' ')"; failed=$((failed + 1)); }
}
mkdir kept
check 'a run into a file' 0 '' '' "$program" run "${files[@]}" "${plan[@]}" --output kept/all.csv
holds 'a run into a file' kept/all.csv "$examples/statements.csv"
printf 'before\n' >kept/all.csv
chmod 640 kept/all.csv
check 'a run that is refused' 1 '' 'royalty_run: tis fault 1 at row 0\n' "$program" run --output=kept/all.csv --tis usage.csv --cwr works.cwr --usage usage.csv "${plan[@]}"
check 'a run over a file that is not there' 4 '' 'royalty_run: cannot read absent\n' "$program" run --tis absent --cwr works.cwr --usage usage.csv "${plan[@]}" --output kept/all.csv
holds 'a run that is refused' kept/all.csv <(printf 'before\n')
lies 'a run that is refused' kept all.csv
printf 'mine\n' >kept/all.csv.new
check 'a run in place of a file' 0 '' '' "$program" run --output kept/all.csv "${files[@]}" "${plan[@]}"
holds 'a run in place of a file' kept/all.csv "$examples/statements.csv"
holds 'a file of another name' kept/all.csv.new <(printf 'mine\n')
lies 'a run in place of a file' kept all.csv all.csv.new
[ "$(stat -c %a kept/all.csv)" = 640 ] || { echo 'program.sh: a replaced file has other permissions'; failed=$((failed + 1)); }
rm kept/all.csv.new
check 'an output in no directory' 4 '' 'royalty_run: cannot write absent/all.csv\n' "$program" run "${files[@]}" "${plan[@]}" --output absent/all.csv
check 'an output that is a directory' 4 '' 'royalty_run: cannot write kept\n' "$program" run "${files[@]}" "${plan[@]}" --output kept
ln -s all.csv kept/link.csv
check 'an output that is a link' 4 '' 'royalty_run: cannot write kept/link.csv\n' "$program" run "${files[@]}" "${plan[@]}" --output kept/link.csv
cp usage.csv before.csv
ln usage.csv kept/hard.csv
ln -s ../usage.csv kept/soft.csv
for path in territories.csv works.cwr usage.csv ./usage.csv kept/../usage.csv kept/hard.csv kept/soft.csv; do
    check "statements in place of the input $path" 2 '' "royalty_run: $path is an input, which the output would replace\n" "$program" run "${files[@]}" "${plan[@]}" --output "$path"
done
check 'statements in place of the payees' 2 '' 'royalty_run: ./payees.csv is an input, which the output would replace\n' "$program" run "${files[@]}" --payees payees.csv "${plan[@]}" --output ./payees.csv
check 'statements in place of an input that is not there' 2 '' 'royalty_run: absent is an input, which the output would replace\n' "$program" run --tis absent --cwr works.cwr --usage usage.csv "${plan[@]}" --output absent
holds 'statements in place of an input' usage.csv before.csv
rm kept/hard.csv kept/soft.csv
# An input that cannot be looked at is one that cannot be read, whatever the output.
check 'an input that is in no directory' 4 '' 'royalty_run: cannot read usage.csv/works.cwr\n' "$program" run --tis territories.csv --cwr usage.csv/works.cwr --usage usage.csv "${plan[@]}" --output kept/none.csv
check 'an output that is a device' 4 '' 'royalty_run: cannot write /dev/null\n' "$program" run "${files[@]}" "${plan[@]}" --output /dev/null
check 'two outputs' 2 '' '*' "$program" run "${files[@]}" "${plan[@]}" --output kept/one.csv --output kept/two.csv
lies 'outputs that are refused' kept all.csv link.csv
check 'help with an output' 0 '*' '' "$program" run --output kept/help.csv --help
lies 'help with an output' kept all.csv link.csv
check 'a full standard output that is not asked' 0 '' '' bash -c '"$0" "$@" >/dev/full' "$program" run "${files[@]}" "${plan[@]}" --output kept/all.csv
holds 'a full standard output that is not asked' kept/all.csv "$examples/statements.csv"

# The statements of a list's parts merge to those of the list.
{ head -n 1 usage.csv; sed -n '2,5p' usage.csv; } >first.csv
{ head -n 1 usage.csv; sed -n '6,$p' usage.csv; } >second.csv
mkdir parts
for part in first second; do
    check "statements of the $part part" 0 '' '' "$program" run --tis territories.csv --cwr works.cwr --usage "$part.csv" "${plan[@]}" --output "parts/$part"
done
statements=$(sed 's/\\/\\\\/g' "$examples/statements.csv")
check 'a merge' 0 "$statements\n" '' "$program" merge parts/first parts/second
check 'a merge of one' 0 "$statements\n" '' "$program" merge kept/all.csv
check 'a merge into a file' 0 '' '' "$program" merge --output parts/all parts/first parts/second
holds 'a merge into a file' parts/all "$examples/statements.csv"
check 'a merge into one of its files' 0 '' '' "$program" merge --output parts/second parts/first parts/second
holds 'a merge into one of its files' parts/second "$examples/statements.csv"
# Lines without any residue or payee merge too: the text of a list that has none changes nothing but the number of texts.
head -n 1 usage.csv >empty.csv
check 'statements of no lines' 0 'T,,0,0\nR,,0,0\n' '' "$program" run --tis territories.csv --cwr works.cwr --usage empty.csv "${plan[@]}"
printf 'T,,0,0\nR,,0,0\n' >parts/none
check 'a merge of merged statements' 0 "$statements\n" '' "$program" merge parts/none parts/all
sed '3s/,[^,]*$/,1/' parts/all >parts/damaged
check 'a damaged text' 1 '' '*' "$program" merge parts/first parts/damaged
grep -q '^royalty_run: statement fault [1-6] at row [0-9]* of parts/damaged$' err || { echo 'program.sh: a damaged text has no such message'; failed=$((failed + 1)); }
check 'a text that is cut off' 1 '' "royalty_run: statement fault 6 at row 2 of parts/cut\n" bash -c 'head -n 1 parts/first >parts/cut; "$0" merge parts/cut' "$program"
printf 'before\n' >parts/kept
check 'a damaged text into a file' 1 '' '*' "$program" merge --output parts/kept parts/first parts/damaged
holds 'a damaged text into a file' parts/kept <(printf 'before\n')
lies 'a damaged text into a file' parts all cut damaged first kept none second
check 'a path that comes twice' 2 '' '*' "$program" merge parts/first parts/first
check 'a text that is not there' 4 '' 'royalty_run: cannot read absent\n' "$program" merge parts/first absent
check 'merged statements to an output that is full' 4 '' 'royalty_run: cannot write\n' bash -c '"$0" merge parts/first >/dev/full' "$program"
# Each text may be right, and all of them too much.
printf 'T,,0,0\nR,,600000000000000000,0\n' | tee parts/many1 >parts/many2
check 'too many usage lines' 1 '' 'royalty_run: the statements are of more than 1000000000000000000 portions or usage lines\n' "$program" merge parts/many1 parts/many2

# What was paid beside what is right: the difference brings the one to the other.
mkdir adjusted
printf 'L,A,u1,60\nS,A,1,60\nL,B,u1,40\nS,B,1,40\nT,,0,0\nR,,1,100\n' >adjusted/paid
printf 'L,A,u1,50\nS,A,1,50\nL,C,u1,40\nS,C,1,40\nM,OVER,u1,10\nT,,1,10\nR,,1,100\n' >adjusted/right
difference='L,A,u1,-10\nS,A,1,-10\nL,B,u1,-40\nS,B,1,-40\nL,C,u1,40\nS,C,1,40\nM,OVER,u1,10\nT,,1,10\nR,,0,0\n'
check 'a difference' 0 "$difference" '' "$program" adjust adjusted/paid adjusted/right
check 'a difference into a file' 0 '' '' "$program" adjust adjusted/paid adjusted/right --output adjusted/difference
holds 'a difference into a file' adjusted/difference <(printf "$difference")
check 'what was paid with the difference' 0 'L,A,u1,60\nL,A,u1,-10\nS,A,2,50\nL,B,u1,40\nL,B,u1,-40\nS,B,2,0\nL,C,u1,40\nS,C,1,40\nM,OVER,u1,10\nT,,1,10\nR,,1,100\n' '' "$program" merge adjusted/paid adjusted/difference
check 'no difference' 0 'T,,0,0\nR,,0,0\n' '' "$program" adjust kept/all.csv parts/all
check 'a text with itself' 0 'T,,0,0\nR,,0,0\n' '' "$program" adjust parts/all parts/all
check 'texts of other usage lines' 1 '' "royalty_run: statement fault 7 at row $(wc -l <parts/first) of parts/first\n" "$program" adjust kept/all.csv parts/first
check 'a damaged text that was paid' 1 '' '*' "$program" adjust parts/damaged parts/cut
grep -q '^royalty_run: statement fault [1-6] at row [0-9]* of parts/damaged$' err || { echo 'program.sh: a damaged text that was paid has no such message'; failed=$((failed + 1)); }
check 'a text that is right and cut off' 1 '' 'royalty_run: statement fault 6 at row 2 of parts/cut\n' "$program" adjust parts/all parts/cut
check 'texts of other usage lines into a file' 1 '' '*' "$program" adjust kept/all.csv parts/first --output adjusted/difference
holds 'texts of other usage lines into a file' adjusted/difference <(printf "$difference")
ln adjusted/right adjusted/linked
check 'a difference in place of what was paid' 2 '' 'royalty_run: adjusted/paid is an input, which the output would replace\n' "$program" adjust adjusted/paid adjusted/right --output adjusted/paid
check 'a difference in place of what is right' 2 '' 'royalty_run: adjusted/linked is an input, which the output would replace\n' "$program" adjust adjusted/paid adjusted/right --output adjusted/linked
check 'what was paid is not there' 4 '' 'royalty_run: cannot read absent\n' "$program" adjust absent adjusted/right
check 'what is right is in no directory' 4 '' 'royalty_run: cannot read adjusted/paid/right\n' "$program" adjust adjusted/paid adjusted/paid/right --output adjusted/difference
check 'what is right is not there' 4 '' 'royalty_run: cannot read absent\n' "$program" adjust adjusted/paid absent
check 'a difference to an output that is full' 4 '' 'royalty_run: cannot write\n' bash -c '"$0" adjust adjusted/paid adjusted/right >/dev/full' "$program"
check 'a difference, its output first' 0 '' '' "$program" adjust --output=adjusted/difference -- adjusted/paid adjusted/right
holds 'a difference, its output first' adjusted/difference <(printf "$difference")
lies 'differences' adjusted difference linked paid right
# A text that is another one when it is read again, after a second in which the first reader has come to its end.
mkfifo turning
turns() { { cat "$1" >turning; sleep 1; cat "$2" >turning; } 2>/dev/null & }
turns parts/first parts/cut
check 'a merge of a text that changes' 4 '' 'royalty_run: turning changed while it was read\n' "$program" merge parts/all turning
turns adjusted/paid parts/cut
check 'a difference to a text that changes' 4 '' 'royalty_run: turning changed while it was read\n' "$program" adjust turning adjusted/right
turns adjusted/right kept/all.csv
check 'a difference to a text of other usage lines than before' 4 '' 'royalty_run: turning changed while it was read\n' "$program" adjust adjusted/paid turning
rm turning

# Runs over the files of several submitters, and the tables to begin with.
several=$examples/three_submitters
mkdir several
cp "$several"/*.cwr "$several"/*.csv several
rm several/statements.csv several/*.printed.csv
cd several
tables=(--tis territories.csv --works works.csv --payees payees.csv --usage usage.csv)
cwr=(--cwr MOON=moon.cwr --cwr HARBOR=harbor.cwr --cwr NORTH=north.cwr)
statements=$(sed 's/\\/\\\\/g' "$several/statements.csv")
check 'a run over three files' 0 "$statements\n" '' "$program" run "${tables[@]}" "${cwr[@]}" "${plan[@]}"
cp moon.cwr moon=light.cwr
check 'files in another order, a name with =, and another plan' 0 "$statements\n" '' \
    "$program" run --cwr NORTH=north.cwr --workers=8 --cwr=MOON=moon=light.cwr --readers 8 "${tables[@]}" --cwr HARBOR=./harbor.cwr --nodes 1
check 'a run over three files into a file' 0 '' '' "$program" run "${tables[@]}" "${cwr[@]}" "${plan[@]}" --output MOON=moon.cwr
holds 'a run over three files into a file' MOON=moon.cwr "$several/statements.csv"
explained='U,7,RADIO-NO-0007,T9104182072,578,P,48213
R,
W,MOON,ML0003,22
C,MOON,24,1,MOON,00000000407,2500,I,2136,yes,yes
C,MOON,25,1,MOON,00000000407,0,E,2101,no,no
C,MOON,27,2,TINKITE,00341900277,2500,I,2101,no,no
C,MOON,30,3,WRENFELD,00611204430,2500,I,2136,yes,yes
W,HARBOR,1003,20
C,HARBOR,22,1,P001,00000000512,2500,I,2136,yes,yes
C,HARBOR,23,1,P001,00000000512,2500,E,2101,no,no
C,HARBOR,24,1,P001,00000000512,2500,I,124,no,no
C,HARBOR,26,2,P004,00341900277,2500,I,2101,no,no
C,HARBOR,27,2,P004,00341900277,2500,E,124,no,no
C,HARBOR,30,3,W001,00702265514,2500,I,2136,yes,yes
A,1,00000000407,2500
A,2,00000000512,2500
A,9,00611204430,2500
A,13,00702265514,2500
B,10000,0,1
P,1,00000000407,2500,12053,2500,1,12054
P,2,00000000512,2500,12053,2500,2,12053
P,9,00611204430,2500,12053,2500,3,12053
P,13,00702265514,2500,12053,2500,4,12053
P,0,,0,0,0,5,0
'
check 'an explanation over three files' 0 "$explained" '' "$program" explain "${tables[@]}" "${cwr[@]}" --row 7
check 'an explanation over files in another order' 0 "$explained" '' \
    "$program" explain --row=7 --cwr NORTH=north.cwr --cwr=MOON=moon.cwr "${tables[@]}" --cwr HARBOR=harbor.cwr
check 'a row of three files that there is none of' 2 '' 'royalty_run: the usage list has no row 201\n' "$program" explain "${tables[@]}" "${cwr[@]}" --row 201
check 'an explanation with two files of one submitter' 2 '' "$(twice "explain [OPTIONS] $several_files --row <n>")" \
    "$program" explain "${tables[@]}" "${cwr[@]}" --cwr MOON=north.cwr --row 7
sed 's/^T9104182072,MOON,ML0003,/T9104182072,MOON,ML9999,/' works.csv >other.csv
check 'an explanation of a registration that is not in force' 0 'W,MOON,ML9999,\nW,HARBOR,1003,20\n' '' \
    bash -c 'set -o pipefail; "$0" "$@" | grep ^W' "$program" explain "${tables[@]/works.csv/other.csv}" "${cwr[@]}" --row 7
facts='territories.csv: territories: 41
payees.csv: parties with a payee: 31
works.csv: registrations linked: 51
moon.cwr: registrations in force: 19
moon.cwr: registrations replaced by later ones: 0
harbor.cwr: registrations in force: 16
harbor.cwr: registrations replaced by later ones: 1
north.cwr: registrations in force: 16
north.cwr: registrations replaced by later ones: 0
'
reported="${facts}works.csv: works with a registration in force: 40
works.csv: parties in force: 31
works.csv: accounts, the residue's included: 26
usage.csv: usage lines: 200
payees.csv: remark: rows whose party no registration that is linked has: 1, in row 5
works.csv: remark: rows whose registration is not in force: 1, in row 51
moon.cwr: remark: registrations in force that no row links: 1, 'ML0112'
usage.csv: divided: lines 187, amount 5967308, to the residue 264245
usage.csv: WORK, not registered: lines 8, amount 8677
usage.csv: LAND, territory not in the table: lines 2, amount 3550
usage.csv: OVER, claims over 100.06 per cent: lines 3, amount 71800
usage.csv: work 'MOON:ML0112' is not registered: lines 3, amount 5166
usage.csv: work 'T9135551234' is not registered: lines 5, amount 3511
usage.csv: territory 566 is not in the table: lines 2, amount 3550
usage.csv: work 'NORTH:1025' is not claimed in full: lines 2, to the residue 88325
usage.csv: work 'T9130607339' is not claimed in full: lines 4, to the residue 60898
usage.csv: work 'T9113400263' is not claimed in full: lines 5, to the residue 45991
usage.csv: work 'T9131019379' is not claimed in full: lines 4, to the residue 15389
usage.csv: work 'HARBOR:1013' is not claimed in full: lines 1, to the residue 13334
usage.csv: work 'T9110773814' is not claimed in full: lines 1, to the residue 13333
usage.csv: work 'T9131906359' is not claimed in full: lines 2, to the residue 11717
usage.csv: work 'MOON:ML0016' is not claimed in full: lines 3, to the residue 6046
usage.csv: work 'T9131704648' is not claimed in full: lines 4, to the residue 5023
usage.csv: work 'T9130802050' is not claimed in full: lines 1, to the residue 4125
usage.csv: further works that are not claimed in full: 3
usage.csv: work 'T9110773814' is claimed over 100.06 per cent: lines 3, amount 71800; in row 12: HARBOR claims 6000 of 10000, NORTH claims 5000 of 10000
"
check 'a check of three files' 0 "$reported" '' "$program" check "${tables[@]}" "${cwr[@]}"
sed '4s/MOON/LUNA/' works.csv >luna.csv
check 'a check of three files that tells of a fault' 1 "luna.csv: row 3: submitter 'LUNA' is the name of no file (fault 3)
$(grep -v '^works' <<< "$facts")
usage.csv: usage lines: 200
" '' "$program" check "${tables[@]/works.csv/luna.csv}" "${cwr[@]}"
check 'a check of three files, of which one is not there' 4 '' 'royalty_run: cannot read absent\n' \
    "$program" check "${tables[@]/works.csv/luna.csv}" "${cwr[@]}" --cwr LUNA=absent
check 'a check with two files of one submitter' 2 '' "$(twice "check [OPTIONS] $several_files")" \
    "$program" check "${tables[@]}" "${cwr[@]}" --cwr MOON=north.cwr
check 'help with a check of several files' 0 "Usage: royalty_run check [OPTIONS] $several_files\n" '' \
    bash -c 'set -o pipefail; "$0" "$@" | grep ^Usage' "$program" check --works works.csv --help
check 'a table of works' 0 "$(cat "$several/works.printed.csv")\n" '' "$program" works "${cwr[@]}"
check 'a table of payees' 0 "$(cat "$several/payees.printed.csv")\n" '' "$program" parties "${cwr[@]}"
check 'a run over tables as they were printed' 0 '*' '' \
    "$program" run --tis territories.csv --works "$several/works.printed.csv" --payees "$several/payees.printed.csv" --usage usage.csv "${cwr[@]}" "${plan[@]}"
check 'a table of works to an output that is full' 4 '' 'royalty_run: cannot write\n' bash -c '"$0" "$@" >/dev/full' "$program" works "${cwr[@]}"
head -n 2 works.csv | sed 's/MOON/LUNA/' >luna.csv
check 'a work of nobody' 1 '' 'royalty_run: works fault 3 at row 1\n' "$program" run "${tables[@]/works.csv/luna.csv}" "${cwr[@]}" "${plan[@]}"
sed '/^SPT/s/I2136/J2136/' north.cwr >wrong.cwr
line=$(grep -n -m 1 '^SPT.*J2136' wrong.cwr | cut -d : -f 1)
wrong=(--cwr MOON=moon.cwr --cwr NORTH=./wrong.cwr --cwr HARBOR=absent)
fault="royalty_run: cwr fault 3 at line $line of ./wrong.cwr\n"
check 'a run over a file with a fault' 1 '' "$fault" "$program" run "${tables[@]}" "${wrong[@]}" "${plan[@]}"
check 'an explanation over a file with a fault' 1 '' "$fault" "$program" explain "${tables[@]}" "${wrong[@]}" --row 7
for command in works parties; do
    check "$command over a file with a fault" 1 '' "$fault" "$program" "$command" "${wrong[@]}"
done
check 'a file of a submitter that is not there' 4 '' 'royalty_run: cannot read absent\n' "$program" parties --cwr HARBOR=absent --cwr NORTH=./wrong.cwr
check 'a table that is not there, and one with a fault' 4 '' 'royalty_run: cannot read absent\n' \
    "$program" run --tis usage.csv --works works.csv --usage absent "${cwr[@]}" "${plan[@]}"
check 'two files of one submitter' 2 '' "$(twice "run [OPTIONS] $several_files --workers <n> --readers <n> --nodes <n>")" \
    "$program" run "${tables[@]}" "${cwr[@]}" --cwr MOON=soft.cwr "${plan[@]}"
check 'a file without a submitter' 2 '' '*' "$program" works --cwr moon.cwr
check 'a table to begin with into a file' 2 '' '*' "$program" works "${cwr[@]}" --output kept.csv
ln works.csv hard.csv
ln -s north.cwr soft.cwr
for path in ./works.csv hard.csv soft.cwr moon.cwr; do
    check "statements in place of the input $path" 2 '' "royalty_run: $path is an input, which the output would replace\n" "$program" run "${tables[@]}" "${cwr[@]}" "${plan[@]}" --output "$path"
done
holds 'statements in place of a table of works' works.csv "$several/works.csv"
holds 'statements in place of registrations' north.cwr "$several/north.cwr"
[ ! -e kept.csv ] || { echo 'program.sh: a table to begin with is in a file'; failed=$((failed + 1)); }
cd ..

# Each command that a page shows prints what stands below it there. They are run in turn.
mkdir bin
ln -s "$program" bin/royalty_run
run_shown() (
    PATH="$room/bin:$PATH"
    cd shown
    while IFS= read -r line <&3; do
        case $line in '$ '*) printf '%s\n' "$line"; eval "${line#'$ '}" ;; esac
    done 3<../commands
)
as_shown() { run_shown | diff commands -; }
# shows PAGE COMMAND N: the page shows the command N times or more, and all of it is so
shows() {
    rm -rf shown
    mkdir shown
    cp -r "$examples" shown/examples
    awk '/^```console$/ { on = 1; next } /^```/ { on = 0 } on' "$docs/$1" >commands
    check "the examples of $1" 0 '' '' as_shown
    [ "$(grep -c "^\\$ royalty_run $2" commands)" -ge "$3" ] || { echo "program.sh: $1 shows no examples"; failed=$((failed + 1)); }
}
shows RULES.md explain 10
shows GUIDE.md import 1
shows CORRECTED_MONTH.md run 3

# A table of the most bytes is read and refused for its first row, and one of a byte more is not cut short but not
# read at all: as a file, and through a pipe.
truncate -s "$most" large
truncate -s "$((most + 1))" larger
check 'a file of the most bytes' 1 '' 'royalty_run: tis fault 1 at row 0\n' "$program" run --tis large --cwr works.cwr --usage usage.csv "${plan[@]}"
check 'a file of one byte more' 4 '' 'royalty_run: cannot read larger\n' "$program" run --tis larger --cwr works.cwr --usage usage.csv "${plan[@]}"
mkfifo pipe
for bytes in $most $((most + 1)); do
    { head -c "$bytes" /dev/zero >pipe 2>/dev/null || true; } &
    if [ "$bytes" = "$most" ]; then
        check 'a pipe of the most bytes' 1 '' 'royalty_run: tis fault 1 at row 0\n' "$program" run --tis pipe --cwr works.cwr --usage usage.csv "${plan[@]}"
    else
        check 'a pipe of one byte more' 4 '' 'royalty_run: cannot read pipe\n' "$program" run --tis pipe --cwr works.cwr --usage usage.csv "${plan[@]}"
    fi
    wait
done

# A list of a million lines, of more than half the most bytes, whose works are not registered: all of it stays with the residue, and a
# check counts it. Then its last line has a fault, and is read.
awk 'BEGIN { u = sprintf("%064d", 1); w = sprintf("%064d", 2)
    print "usage,work,territory,right,amount"
    for (n = 1; n <= 1000000; n++) print u "," w ",0276,P,1000000000000" }' >long.csv
[ "$(stat -c %s long.csv)" -gt $((most / 2)) ] || { echo 'program.sh: the long list is too short'; failed=$((failed + 1)); }
long=(--tis territories.csv --cwr works.cwr --usage long.csv)
check 'a million lines that stay with the residue' 0 'T,,1000000,1000000000000000000\nR,,1000000,1000000000000000000\n' '' bash -c 'set -o pipefail; "$0" "$@" | tail -n 2' "$program" run "${long[@]}" "${plan[@]}"
check 'a check of a million lines' 0 'long.csv: usage lines: 1000000\n' '' bash -c 'set -o pipefail; "$0" "$@" | grep "usage lines:"' "$program" check "${long[@]}"
sed -i '1000001s/,P,/,X,/' long.csv
check 'a fault in the last line of a long list' 1 '' 'royalty_run: usage fault 4 at row 1000000\n' "$program" run "${long[@]}" "${plan[@]}"
rm long.csv
# A file of more than four fifths of the most bytes, whose registrations are its last lines.
{ yes "$(printf 'ALT%0148d' 0)" | head -n 1500000; cat "$examples/works.cwr"; } >long.cwr || true
[ "$(stat -c %s long.cwr)" -gt $((most / 5 * 4)) ] || { echo 'program.sh: the long file is too short'; failed=$((failed + 1)); }
check 'a long file of registrations' 0 '' '' "$program" run --tis "$examples/territories.csv" --cwr long.cwr --usage "$examples/usage.csv" "${plan[@]}" --output paid
holds 'a long file of registrations' paid "$examples/statements.csv"
rm long.cwr paid
# A text of three million rows of a payee and as many of the residue, which is merged again.
awk 'BEGIN { print "usage,work,territory,right,amount"; for (n = 1; n <= 1000000; n++) print "u,NT0002,250,M,4" }' >long.csv
check 'a million lines of a payee' 0 '' '' "$program" run --tis "$examples/territories.csv" --cwr "$examples/works.cwr" --usage long.csv "${plan[@]}" --output part1
cp part1 part2
cp part1 part3
check 'three long texts' 0 '' '' "$program" merge --output whole part1 part2 part3
check 'the last rows of a long text' 0 'T,,3000000,3000000\nR,,3000000,12000000\n' '' tail -n 2 whole
check 'a long text that is merged again' 0 '' '' bash -c 'set -o pipefail; "$0" merge whole | cmp - whole' "$program"
rm long.csv part1 part2 part3 whole
# Of many faults the first hundred are told, and how many more there are.
awk 'BEGIN { print "usage,work,territory,right,amount"; for (n = 1; n <= 6000; n++) print "u,W,276,X,1" }' >faulty.csv
check 'a check of six thousand faults' 1 'faulty.csv: further faults: 5900\n' '' bash -c '"$0" "$@" >told; status=$?; grep further told; exit "$status"' "$program" check --tis territories.csv --cwr works.cwr --usage faulty.csv
awk 'BEGIN { printf "NWR%016d%-60sEN%-14s\n", 0, "", "W"
    for (n = 1; n <= 6000; n++) printf "SPT%016d%-15s%05d%05d%05dJ2136\n", 0, n, 1, 1, 1 }' >faulty.cwr
check 'a check of six thousand share lines with faults' 1 'faulty.cwr: further faults: 5900\n' '' bash -c '"$0" "$@" >told; status=$?; grep further told; exit "$status"' "$program" check --tis territories.csv --cwr faulty.cwr --usage usage.csv
# A line of several submitters is explained where there are six thousand accounts.
awk 'BEGIN { for (n = 1; n <= 6000; n++)
    printf "NWR%016d%-60sEN%-14s\nSPT%016d%-15s%05d%05d%05dI2136\n", 0, "", n, 0, n, 10000, 10000, 10000 }' >many.cwr
printf 'usage,work,territory,right,amount\nu,A:6000,276,P,5\n' >one.csv
many=(--cwr A=many.cwr --cwr B=works.cwr)
check 'a table of six thousand works' 0 '' '' bash -c '"$0" "$@" >many.works' "$program" works "${many[@]}"
check 'an explanation among six thousand accounts' 0 'P,5559,A:6000,10000,5,0,1,5\nP,0,,0,0,0,2,0\n' '' \
    bash -c 'set -o pipefail; "$0" "$@" | grep ^P' "$program" explain --tis territories.csv --works many.works "${many[@]}" --usage one.csv --row 1

# Memory is refused for a large file.
check 'little memory' 3 '' 'royalty_run: out of room\n' bash -c 'ulimit -v 65536; exec "$0" "$@"' "$program" run --tis large --cwr works.cwr --usage usage.csv "${plan[@]}"

[ "$failed" = 0 ] || { echo "program.sh: $failed failed"; exit 1; }
echo 'program.sh: ok'
