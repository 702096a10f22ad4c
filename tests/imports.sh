#!/usr/bin/env bash
# Usage lines of sales reports, as `royalty_run import` makes them: those of the example, of files as
# spreadsheets write them, and of what is wrong with arguments and files. Where an import fails, both
# tables are as they were. At the end the commands at the head of README.md are run as they stand
# there.
#
#   tests/imports.sh PROGRAM
set -euo pipefail
export LC_ALL=C
program=$(realpath "$1")
root=$(realpath "$(dirname "$0")/..")
example=$root/examples/three_submitters
room=$(mktemp -d)
trap 'rm -rf "$room"' EXIT
cd "$room"
failed=0

# fail TEXT..: counts what failed, and says it
fail() {
    echo "imports.sh: $*"
    failed=$((failed + 1))
}

# is_text TEXT FILE: the file has this text; `*` is any but nothing
is_text() {
    if [ "$1" = '*' ]; then [ -s "$2" ]; else printf '%b' "$1" | cmp -s - "$2"; fi
}

# check NAME STATUS OUT ERR ARGUMENT..: `import` with these arguments ends with the status and
# writes these two texts.
check() {
    local name=$1 status=$2 out=$3 err=$4 got=0
    shift 4
    "$program" import "$@" >out 2>err || got=$?
    [ "$got" = "$status" ] || fail "$name: status $got, not $status: $(head -c 400 err)"
    is_text "$out" out || fail "$name: it printed $(head -c 600 out)"
    is_text "$err" err || fail "$name: it wrote $(head -c 400 err)"
}

# has NAME FILE TEXT: a file has this text, with escapes as printf has them
has() { printf '%b' "$3" | cmp -s - "$2" || fail "$1: $2 has $(head -c 600 "$2")"; }

# lies NAME DIRECTORY NAME..: a directory has these files alone
lies() {
    local name=$1 directory=$2
    shift 2
    [ "$(ls -A "$directory")" = "$(printf '%s\n' "$@" | sort)" ] ||
        fail "$name: $directory has $(ls -A "$directory" | tr '\n' ' ')"
}

# The example.
cp "$example"/{sales,recordings,countries,rights}.csv .
columns=(--usage Use --work ISRC --territory Country --right Right --amount 'Net EUR')
maps=(--works recordings.csv --territories countries.csv --rights rights.csv)
mkdir made
targets=(--output made/usage.csv --rejects made/rejects.csv)
summary=$(sed -n '/^sales.csv: /p' "$example/README.md")
check 'the example' 1 "$summary\n" '' sales.csv --where Status=Reported "${columns[@]}" "${maps[@]}" "${targets[@]}"
cmp made/usage.csv "$example/usage.csv" || fail 'the example: other usage lines'
cmp made/rejects.csv "$example/rejects.csv" || fail 'the example: other rejected rows'
lies 'the example' made usage.csv rejects.csv
# Corrected, the rejected rows are imported by themselves.
sed -e 's/ZZCOV2600001/ZZT262610334/' -e 's/,UK,/,GB,/' -e 's/0\.125/0.12/' made/rejects.csv >again.csv
check 'rows that were corrected' 0 'again.csv: rows: 3, amount 2074\nagain.csv: usage lines: 3, amount 2074\nagain.csv: rejected rows: 0, amount 0\nagain.csv: rows passed over: 0, amount 0\n' '' \
    again.csv --where Status=Reported "${columns[@]}" "${maps[@]}" "${targets[@]}"
has 'rows that were corrected' made/rejects.csv 'rejected_row,rejected_since,rejected_row,rejected_since,Status,Use,ISRC,Title,Country,Right,Net EUR\n'

# A spreadsheet's habits: a byte order mark, CR LF, quotes, commas for decimals, rows without
# anything and lines without anything at the end.
printf '\xef\xbb\xbfUse;Work;Land;"Net ""EUR"""\r\n"RADIO; 1";W1;276;"1.234,56"\r\nRADIO 2;W1;276;-0,5\r\nTV;W1;276;"1.234"\r\n;;;\r\n\r\n' >sheet.csv
check 'a spreadsheet' 1 'sheet.csv: rows: 4, amount 123406, without the amounts of 2\nsheet.csv: usage lines: 2, amount 123406\nsheet.csv: rejected rows: 1, amount 0, without the amounts of 1\nsheet.csv: rejected since its amount is no decimal number: 1, amount 0, without the amounts of 1\nsheet.csv: rows passed over: 1, amount 0, without the amounts of 1\n' '' \
    sheet.csv --delimiter semicolon --decimal-comma --usage Use --work Work --territory Land --right =P --amount 'Net "EUR"' "${targets[@]}"
has 'a spreadsheet' made/usage.csv 'usage,work,territory,right,amount\nRADIO; 1,W1,276,P,123456\nRADIO 2,W1,276,P,-50\n'
has 'a spreadsheet' made/rejects.csv 'rejected_row,rejected_since,Use,Work,Land,"Net ""EUR"""\n3,its amount is no decimal number,TV,W1,276,1.234\n'
# The rest of a file whose quote does not end is one row.
printf 'a,b,c,d\nU1,W,1,1\n"U2,W,1,2\nU3,W,1,3\n' >quote.csv
check 'a quote that does not end' 1 '*' '' quote.csv --usage a --work b --territory c --right =M --amount d "${targets[@]}"
grep -qx 'quote.csv: rejected since a field of it has a line break: 1, amount 0, without the amounts of 1' out || fail "a quote that does not end: $(cat out)"
has 'a quote that does not end' made/usage.csv 'usage,work,territory,right,amount\nU1,W,1,M,100\n'

# A flat file of records of several kinds, in millionths.
printf 'HEAD\t2026\nSR\tA\t1\tx\tW1\t578\t0.000125\nAS\tx\nSR\tB\t2\ty\tW1\t578\t1000000.000001\nSR\tC\t3\ty\tW1\n' >flat.txt
check 'a flat file' 1 'flat.txt: rows: 5, amount 125, without the amounts of 4\nflat.txt: usage lines: 1, amount 125\nflat.txt: rejected rows: 2, amount 0, without the amounts of 2\nflat.txt: rejected since it does not have the fields that it should have: 1, amount 0, without the amounts of 1\nflat.txt: rejected since its amount is more than 1000000000000 units: 1, amount 0, without the amounts of 1\nflat.txt: rows passed over: 2, amount 0, without the amounts of 2\n' '' \
    flat.txt --delimiter=tab --no-header --where '#1=SR' --usage '#2' --usage '#3' --work '#5' --territory '#6' --right =S --amount '#7' --decimals 6 "${targets[@]}"
has 'a flat file' made/usage.csv 'usage,work,territory,right,amount\nA-1,W1,578,S,125\n'
has 'a flat file' made/rejects.csv '4,its amount is more than 1000000000000 units,SR,B,2,y,W1,578,1000000.000001\n5,it does not have the fields that it should have,SR,C,3,y,W1\n'
printf '' >empty.csv
check 'a file without a row, and without a header' 0 'empty.csv: rows: 0, amount 0\nempty.csv: usage lines: 0, amount 0\nempty.csv: rejected rows: 0, amount 0\nempty.csv: rows passed over: 0, amount 0\n' '' \
    empty.csv --no-header --usage '#1' --work =W --territory =1 --right =P --amount '#2' "${targets[@]}"

# What is wrong with arguments and files. Both tables are as they were.
echo 'lines before' >made/usage.csv
echo 'rows before' >made/rejects.csv
cp -r made before
printf 'from,to\nDE,Germany\n' >wrong.csv
printf 'Use,ISRC,Use,Country,Right,Net EUR\n' >twice.csv
check 'a file without a header' 1 '' 'royalty_run: empty.csv has no header\n' empty.csv "${columns[@]}" "${targets[@]}"
check 'a column that is not there' 1 '' "royalty_run: sales.csv has no column 'Isrc'\n" sales.csv "${columns[@]/ISRC/Isrc}" "${targets[@]}"
check 'the first of two columns that are not there' 1 '' "royalty_run: sales.csv has no column '#8'\n" sales.csv "${columns[@]/ISRC/#8}" --where None=1 "${targets[@]}"
check 'two columns of one name' 1 '' "royalty_run: twice.csv has more than one column 'Use'\n" twice.csv "${columns[@]}" "${targets[@]}"
check 'a name without a header' 2 '' "royalty_run: there is no header to find the column 'Use' in\n" sales.csv --no-header "${columns[@]}" "${targets[@]}"
check 'a table of values with a fault' 1 '' 'royalty_run: map fault 3 at row 1 of wrong.csv\n' sales.csv "${columns[@]}" --territories wrong.csv "${targets[@]}"
check 'a table of values that is another' 1 '' 'royalty_run: map fault 1 at row 0 of sales.csv\n' absent "${columns[@]}" --rights ./rights.csv --works sales.csv "${targets[@]}"
check 'a file that is not there' 4 '' 'royalty_run: cannot read absent\n' absent "${columns[@]}" "${maps[@]}" "${targets[@]}"
check 'a table of values that is not there' 4 '' 'royalty_run: cannot read absent\n' sales.csv "${columns[@]}" --rights absent "${targets[@]}"
check 'a file that is a directory' 4 '' 'royalty_run: cannot read made\n' made "${columns[@]}" "${targets[@]}"
for wrong in '--where=Status' '--where==x' '--delimiter=;' '--decimals=10' '--decimals=' '--decimals=+2'; do
    check "the argument $wrong" 2 '' '*' sales.csv "${columns[@]}" "$wrong" "${targets[@]}"
done
check 'an import without rejected rows' 2 '' '*' sales.csv "${columns[@]}" --output made/usage.csv
check 'two works' 2 '' '*' sales.csv "${columns[@]}" --work Title "${targets[@]}"
check 'help' 0 '*' '' --help
check 'an argument that is not UTF-8' 2 '' 'royalty_run: an argument is not UTF-8\n' $'\xff' "${columns[@]}" "${targets[@]}"
diff -r before made || fail 'a table has changed'
# Nor is an input replaced, or one table by the other, under whatever name.
cp sales.csv same.csv
ln sales.csv hard.csv
ln -s rights.csv soft.csv
mkdir inner
for path in sales.csv ./sales.csv inner/../sales.csv hard.csv soft.csv countries.csv; do
    check "usage lines in place of the input $path" 2 '' "royalty_run: $path is an input, which the output would replace\n" sales.csv "${columns[@]}" "${maps[@]}" --output "$path" --rejects made/rejects.csv
    check "rejected rows in place of the input $path" 2 '' "royalty_run: $path is an input, which the output would replace\n" sales.csv "${columns[@]}" "${maps[@]}" --rejects "$path" --output made/usage.csv
done
check 'one file for both' 2 '' 'royalty_run: inner/../made/usage.csv is named for both tables\n' sales.csv "${columns[@]}" --output made/usage.csv --rejects inner/../made/usage.csv
check 'one new file for both' 2 '' 'royalty_run: ./new.csv is named for both tables\n' sales.csv "${columns[@]}" --output inner/../new.csv --rejects ./new.csv
for path in absent/usage.csv made /dev/null ''; do
    check "usage lines at $path" 4 '' "royalty_run: cannot write $path\n" sales.csv "${columns[@]}" --output "$path" --rejects made/rejects.csv
    check "rejected rows at $path" 4 '' "royalty_run: cannot write $path\n" sales.csv "${columns[@]}" --rejects "$path" --output made/usage.csv
done
cmp sales.csv same.csv || fail 'the report has changed'
diff -r before made || fail 'a table has changed'
[ ! -e new.csv ] || fail 'one new file for both: it is there'
# The summary comes last. An output that refuses it finds both tables whole.
got=0
"$program" import sales.csv --where Status=Reported "${columns[@]}" "${maps[@]}" "${targets[@]}" >/dev/full 2>err || got=$?
[ "$got" = 4 ] || fail "an output that is full: status $got"
has 'an output that is full' err 'royalty_run: cannot write\n'
cmp made/usage.csv "$example/usage.csv" || fail 'an output that is full: other usage lines'
lies 'an output that is full' made usage.csv rejects.csv
# A table has the permissions of the one that it replaces.
chmod 640 made/usage.csv
check 'a file with permissions' 1 '*' '' sales.csv --where Status=Reported "${columns[@]}" "${maps[@]}" "${targets[@]}"
[ "$(stat -c %a made/usage.csv)" = 640 ] || fail 'a replaced table has other permissions'

# The commands at the head of README.md, with the files of the example but for what they write.
mkdir bin shown
ln -s "$program" bin/royalty_run
cp "$example"/*.cwr "$example"/{sales,recordings,countries,rights,territories,works,payees,names}.csv shown
awk '/^```$/ { if (++fences == 2) exit; next } fences == 1 { sub(/^\$ /, ""); sub(/^    /, ""); print }' "$root/README.md" >commands
[ "$(grep -c '^royalty_run ' commands)" = 5 ] || fail 'README.md does not begin with five commands'
(cd shown && PATH="$room/bin:$PATH" bash -u ../commands >../printed 2>&1) || fail "README.md: status $?: $(cat printed)"
for file in usage.csv rejects.csv works.printed.csv payees.printed.csv; do
    cmp "shown/$file" "$example/$file" || fail "README.md: another $file"
done
for page in "$example"/documents/*.html; do
    cmp "shown/2026-2/$(basename "$page")" "$page" || fail "README.md: another $(basename "$page")"
done
((failed == 0)) || { echo "imports.sh: $failed failed"; exit 1; }
echo 'imports.sh: all passed'
