#!/usr/bin/env bash
# The documents of a distribution, as `royalty_run statements` writes them: those of the examples,
# and of files whose titles and names try to be tags, formulas and what no screen shows. Each folder
# is read back by tools/documents.py, which compares it with its statements. Where the command is
# refused, no folder is left.
#
#   tests/documents.sh PROGRAM
set -euo pipefail
export LC_ALL=C
program=$(realpath "$1")
root=$(realpath "$(dirname "$0")/..")
examples=$root/examples
room=$(mktemp -d)
trap 'rm -rf "$room"' EXIT
cd "$room"
failed=0

# fail TEXT..: counts what failed, and says it
fail() {
    echo "documents.sh: $*"
    failed=$((failed + 1))
}

# check NAME STATUS ERR WORD..: `statements` with these words ends with the status, prints nothing,
# and writes this to standard error. A text of `*` may be anything but nothing.
check() {
    local name=$1 status=$2 err=$3 got=0
    shift 3
    "$program" statements "$@" >out 2>err || got=$?
    [ "$got" = "$status" ] || fail "$name: status $got, not $status: $(head -c 400 err)"
    [ ! -s out ] || fail "$name: it printed $(head -c 400 out)"
    if [ "$err" = '*' ]; then [ -s err ]; else printf '%b' "$err" | cmp -s - err; fi ||
        fail "$name: it wrote $(head -c 400 err)"
}

# documents WORD..: the reader of documents
documents() { (cd "$root" && python3 -m tools.documents "$@"); }

# agree FOLDER PAGES [WORD..]: so many pages of a folder agree with its statements
agree() {
    local folder=$1 pages=$2 told
    shift 2
    told=$(documents "$room/$folder" "$@" 2>&1) || true
    [ "$told" = "$pages pages agree" ] || fail "$folder: $told"
}

# same NAME FILE FILE: two files have the same bytes
same() { cmp -s "$2" "$3" || fail "$1: $2 is not $3"; }

# lies NAME DIRECTORY NAME..: a directory has these files alone
lies() {
    local name=$1 directory=$2
    shift 2
    [ "$(ls -A "$directory")" = "$(printf '%s\n' "$@" | sort)" ] ||
        fail "$name: $directory has $(ls -A "$directory" | tr '\n' ' ')"
}

# The examples. How many threads there are makes no difference.
cp "$examples"/{territories,usage}.csv "$examples/works.cwr" .
files=(--tis territories.csv --cwr works.cwr --usage usage.csv)
check 'the small example' 0 '' "${files[@]}" --to small
agree small 8
same 'the small example' small/statements.csv "$examples/statements.csv"
several=$examples/three_submitters
words=(--tis territories.csv --works works.csv --payees payees.csv --usage usage.csv
    --cwr MOON=moon.cwr --cwr HARBOR=harbor.cwr --cwr NORTH=north.cwr --names names.csv
    --title 'Distribution 2026/2' --currency EUR)
one_thread=(--workers 1 --readers 1 --nodes 1)
(
    cd "$several"
    "$program" statements "${words[@]}" --to "$room/three"
    "$program" statements "${words[@]}" --to "$room/one" "${one_thread[@]}"
) || fail 'three submitters are refused'
agree three 27
diff -r three one >differs || fail "another number of threads: $(head -c 400 differs)"
# Where somebody watches, a line tells how many documents are written, and is cleared.
(
    cd "$several"
    python3 -c 'import pty, sys; sys.exit(pty.spawn(sys.argv[1:]) >> 8)' "$program" statements \
        "${words[@]}" --to "$room/watched" "${one_thread[@]}"
) >line || fail "a terminal: $(cat -v line)"
[ "$(cat -v line)" = "$(printf '^Mdocuments written: %s' 16 32 48)^M^[[K" ] ||
    fail "a terminal: $(cat -v line)"
diff -r three watched >differs || fail "on a terminal: $(head -c 400 differs)"
same 'three submitters' three/statements.csv "$several/statements.csv"
shown=$(cd "$several/documents" && find . -type f | sort)
[ "$(wc -l <<< "$shown")" = 4 ] || fail "the examples have other documents:" "$shown"
for path in $shown; do
    same 'a document in the examples' "three/$path" "$several/documents/$path"
done

# Records of a CWR file, with what is read of them at its positions.
title() { printf 'NWR%016d%-60bEN%-14s\n' 0 "$2" "$1"; }
publisher() { printf 'SPU%016d01%-9s%-45b\n' 0 "$1" "$2"; }
writer() { printf 'SWR%016d%-9s%-45b%-30b\n' 0 "$1" "$2" "$3"; }
share() { printf 'SPT%016d%-15s%05d%05d%05dI2136\n' 0 "$1" "$2" "$2" "$2"; }

# Texts of others. \002 stands for a byte 0.
{
    title H1 '<script>alert(1)</script>'
    publisher '***' '<img src=x onerror=alert(1)>'
    share '***' 10000
    title H2 "&amp; &lt;b> \"Q\" 'q'"
    writer "<b>\"&'" "O'NEIL\\x1b" '\xff"'
    share "<b>\"&'" 6000
    publisher '=1+1' "=cmd|' /C calc'!A0"
    share '=1+1' 4000
    title H3 '=1+1'
    share a,b 10000
    title H4 '-A\tB\x01\x1b[31m\x7f\002.'
    share LONG 10000
    title H5 '\xff\xfeCAF\xe9 \xc3\x89T\xc3\x89 \xf0\x9f\x8e\xb5 \xc0\xbc'
    publisher ZERO '&#60;b&#62;'
    share ZERO 10000
    title H6 '+\xe2\x80\xaeLIVE\xe2\x80\xa8 \xef\xbb\xbf'
    share OWES 5000
    title H7 ''
    share '***' 10000
    title "=<b>\"'&" ']]>--><!-- \\x1b </title></style>'
    share '***' 10000
} | tr '\002' '\000' >hostile.cwr
long="\"><script>alert('a payee of sixty-four bytes')</script>&<!--@+-,"
use="</td></tr></table><script>alert('a use of 64 bytes')</script>\";&"
[ ${#long},${#use} = 64,64 ] || fail "texts of ${#long} and ${#use} bytes, not of 64"
printf 'party,payee\nLONG,"%s"\n' "${long//\"/\"\"}" >hostile.payees
cat >hostile.csv <<END
usage,work,territory,right,amount
"${use//\"/\"\"}",H1,276,P,1000
"=HYPERLINK(""http://a.b"",""x"")",H2,276,M,500
two  spaces & 'quotes',H3,840,S,777
 +1 ,H4,250,P,1000000000000
zero,H5,276,P,100
zero,H5,276,P,-100
@SUM(A1),H6,276,P,-701
-1,H7,276,P,1
<!--,"=<b>""'&",276,P,2
</main>,<unregistered>,276,P,3
&,H1,999,P,4
END
{
    printf 'code,name\n276,"<b>""Ger&many""</b>'"'"'"\n'
    printf '840,=1+1\xff\n250,\xe2\x80\xae\xc3\x87\n'
} >hostile.names
hostile=(--tis territories.csv --payees hostile.payees --cwr hostile.cwr --usage hostile.csv)
named=(--names hostile.names --title '</style><script>alert("t")</script>'
    --currency "</style><script>\"'&")
"$program" run "${hostile[@]}" --workers 2 --readers 1 --nodes 16 >hostile.statements

# They come back as they went in; what cannot be seen, by its bytes.
cat >texts <<'END'
title </style><script>alert("t")</script>
currency </style><script>"'&
payee LONG LONG
payee *** <img src=x onerror=alert(1)>
payee <b>"&' \xff" O'NEIL\x1b
payee =1+1 =cmd|' /C calc'!A0
payee OWES OWES
payee ZERO &#60;b&#62;
payee a,b a,b
work <unregistered> 
work =<b>"'& ]]>--><!-- \x1b </title></style>
work H1 <script>alert(1)</script>
work H2 &amp; &lt;b> "Q" 'q'
work H3 =1+1
work H4 -A\x09B\x01\x1b[31m\x7f\x00.
work H5 \xff\xfeCAF\xe9 ÉTÉ 🎵 \xc0\xbc
work H6 +\xe2\x80\xaeLIVE\xe2\x80\xa8 \xef\xbb\xbf
work H7 
use 1 </td></tr></table><script>alert('a use of 64 bytes')</script>";&
use 2 =HYPERLINK("http://a.b","x")
use 3 two  spaces & 'quotes'
use 4  +1 
use 5 zero
use 6 zero
use 7 @SUM(A1)
use 8 -1
use 9 <!--
use 10 </main>
use 11 &
territory 999
territory <b>"Ger&many"</b>' 276
territory =1+1\xff 840
territory \xe2\x80\xaeÇ 250
END
wanted=$(<texts)
printf '%s\n' "${wanted//LONG/"$long"}" >texts
for decimals in 2 0 9; do
    check "$decimals decimals" 0 '' "${hostile[@]}" "${named[@]}" --decimals "$decimals" \
        --to "hostile.$decimals"
    agree "hostile.$decimals" 9 --decimals "$decimals"
    same "$decimals decimals" hostile.statements "hostile.$decimals/statements.csv"
    documents "$room/hostile.$decimals" --texts >found || true
    same "$decimals decimals" texts found
done
lies 'names of hostile payees' hostile.2/payees \
    0001-script-alert-a-payee-of-sixty-four-bytes.{csv,html} 0002-payee.{csv,html} \
    0003-b.{csv,html} 0004-1-1.{csv,html} 0005-OWES.{csv,html} 0006-ZERO.{csv,html} \
    0007-a-b.{csv,html}
cat >sheet <<'END'
row,usage,work,title,territory,right,amount,share,base,portion
2,"'=HYPERLINK(""http://a.b"",""x"")",H2,"&amp; &lt;b> ""Q"" 'q'",276,M,500,4000,10000,200
END
same 'a sheet of formulas' sheet hostile.2/payees/0004-1-1.csv
# A payee whose total is below 0 is told what that means, and no other is.
means='Reversals come to more than the other uses, so nothing is payable: you owe this amount.'
told=$(cd hostile.2/payees && grep -lF "$means" -- *.html) || true
[ "$told" = 0005-OWES.html ] || fail "told that they owe an amount: $told"
head -n 1 usage.csv >empty.csv
check 'no usage lines' 0 '' "${files[@]/usage.csv/empty.csv}" --to empty --title 'Dé\x1b'
agree empty 2
documents "$room/empty" --texts >found
same 'no usage lines' <(printf '%s\n' 'title Dé\x1b') found
# An empty title is none.
check 'an empty title' 0 '' "${files[@]}" --to untitled --title ''
diff -r small untitled >differs || fail "an empty title: $(head -c 400 differs)"
# A right and a reason may come to less than nothing: their rows are red, and no others.
{
    cat empty.csv
    printf '%s\n' B1,NT0001,276,P,100 B2,NT0001,276,M,-50 B3,NONE,276,S,-3 B4,NT0001,4,P,7
} >back.csv
check 'rights and reasons below 0' 0 '' "${files[@]/usage.csv/back.csv}" --to back
agree back "$(find back -name '*.html' | wc -l)"
[ "$(grep -c '<tr class="neg"><th scope="row">' back/index.html)" = 3 ] ||
    fail "rights and reasons below 0: $(grep -o '<tr class="neg">.*' back/index.html)"
# The largest amounts, with most decimals and with none.
awk 'BEGIN { print "usage,work,territory,right,amount"
    for (n = 1; n <= 2000; n++)
        print "L" n ",NT0001,276,P," (n % 4 ? "" : "-") "1000000000000" }' >most.csv
for decimals in 0 9; do
    check "the largest amounts, $decimals decimals" 0 '' "${files[@]/usage.csv/most.csv}" \
        --to "most.$decimals" --decimals "$decimals"
    agree "most.$decimals" "$(find "most.$decimals" -name '*.html' | wc -l)" --decimals "$decimals"
done

# Where it is refused, there is no folder, and nothing beside it.
mkdir to
printf 'mine\n' >to/file
mkdir -p to/folder/payees to/empty to/beside.new
ln -s nowhere to/link
before=$(ls -lAR to)
# refused NAME STATUS ERR WORD..: the same, and the directory of the folders is as it was
refused() {
    check "$@"
    [ "$(ls -lAR to)" = "$before" ] || fail "$1: it left $(ls -AR to | tr '\n' ' ')"
}
for path in file folder folder/ empty link folder/payees; do
    refused "a folder in place of $path" 2 "royalty_run: to/$path is there already\n" \
        "${files[@]}" --to "to/$path"
done
refused 'a folder in place of one, and files that are not there' 2 \
    'royalty_run: to/folder is there already\n' --tis absent --cwr absent --usage absent \
    --to to/folder
for path in to/absent/folder to/file/folder to/link/folder ''; do
    refused "a folder in no directory, $path" 4 "royalty_run: cannot write $path\n" \
        "${files[@]}" --to "$path"
done
# Permissions do not keep whoever may do everything from writing, but nobody makes a folder there.
refused 'a folder where none can be made' 4 'royalty_run: cannot write /proc/folder\n' \
    "${files[@]}" --to /proc/folder
if [ "$(id -u)" != 0 ]; then
    chmod 555 to/empty
    before=$(ls -lAR to)
    refused 'a directory that may not be written' 4 'royalty_run: cannot write to/empty/folder\n' \
        "${files[@]}" --to to/empty/folder
fi
printf 'code,name\n0,Nowhere\n' >wrong.names
refused 'names with a fault' 1 'royalty_run: names fault 2 at row 1\n' \
    "${files[@]}" --names wrong.names --to to/new
refused 'a table of names that is none' 1 'royalty_run: names fault 1 at row 0\n' \
    "${files[@]}" --names usage.csv --to to/new
printf 'code,name\n276,Germany\n0276,Deutschland\n' >twice.names
refused 'a territory with two names' 1 'royalty_run: names fault 3 at row 2\n' \
    "${files[@]}" --names twice.names --to to/new
refused 'names that are not there' 4 'royalty_run: cannot read absent\n' \
    "${files[@]}" --names absent --to to/new
refused 'territories with a fault' 1 'royalty_run: tis fault 1 at row 0\n' \
    "${files[@]/territories.csv/usage.csv}" --to to/new
sed 's/,M,/,X,/' usage.csv >wrong.csv
refused 'usage lines with a fault' 1 'royalty_run: usage fault 4 at row 3\n' \
    "${files[@]/usage.csv/wrong.csv}" --to to/new
sed 's/^SPT\(.*\)I2136/SPT\1J2136/' works.cwr >wrong.cwr
line=$(grep -n -m 1 '^SPT.*J2136' wrong.cwr | cut -d : -f 1)
refused 'registrations with a fault' 1 "royalty_run: cwr fault 3 at line $line\n" \
    "${files[@]/works.cwr/wrong.cwr}" --to to/new
several_files=(--tis "$several/territories.csv" --works "$several/works.csv"
    --payees "$several/payees.csv" --usage "$several/usage.csv")
refused 'a file of a submitter with a fault' 1 \
    "royalty_run: cwr fault 3 at line $line of wrong.cwr\n" "${several_files[@]}" \
    --cwr MOON=wrong.cwr --cwr HARBOR="$several/harbor.cwr" --cwr NORTH="$several/north.cwr" \
    --to to/new
refused 'a file of a submitter that is not there' 4 'royalty_run: cannot read absent\n' \
    "${several_files[@]}" --cwr MOON=absent --cwr HARBOR="$several/harbor.cwr" \
    --cwr NORTH="$several/north.cwr" --to to/new
refused 'files that are not there' 4 'royalty_run: cannot read absent\n' \
    "${files[@]/works.cwr/absent}" --to to/new
refused 'no folder' 2 '*' "${files[@]}"
refused 'two folders' 2 '*' "${files[@]}" --to to/new --to to/other
for words in '--decimals 10' '--decimals -1' '--decimals x' '--workers 9' '--output to/file' \
    '--title' '--names'; do
    # shellcheck disable=SC2086
    refused "the words $words" 2 '*' "${files[@]}" --to to/new $words
done
refused 'a title that is not UTF-8' 2 'royalty_run: an argument is not UTF-8\n' \
    "${files[@]}" --to to/new --title $'\xff'

# A folder of the new one's name is left alone, and a slash behind the name changes nothing.
check 'a folder beside one of its name' 0 '' "${files[@]}" --to to/beside/
lies 'a folder beside one of its name' to beside beside.new empty file folder link
lies 'a folder of the name of a new one' to/beside.new
agree to/beside 8

# Of two that write the same folder at once one is refused, and the other's is whole.
statuses=()
for _ in 1 2; do
    "$program" statements "${files[@]}" --to to/both 2>err &
done
for process in $(jobs -p); do
    got=0
    wait "$process" || got=$?
    statuses+=("$got")
done
case "${statuses[*]}" in
    '0 2' | '2 0') agree to/both 8 ;;
    *) fail "two folders of one name: statuses ${statuses[*]}" ;;
esac
lies 'two folders of one name' to beside beside.new both empty file folder link

[ "$failed" = 0 ] || { echo "documents.sh: $failed failed"; exit 1; }
echo 'documents.sh: ok'
