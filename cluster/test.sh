#!/usr/bin/env bash
# Runs months as docs/CLUSTER.md tells it, without Slurm: sbatch, squeue and scontrol are stand-ins
# here, which run the same scripts. The list is made up, has 4,000 lines and is cut in 16 parts; the
# merged text has to be that of the plain program over the whole list. Parts are killed, and tables,
# parts and statements changed, which has to be found. Smaller months are over the files of the
# three submitters of examples/. It takes python3 and cargo, and half a minute. PROGRAM may be the
# plain program too: it is given the option --output here.
#
#   cluster/test.sh PROGRAM
set -euo pipefail
program=$(realpath "$1")
here=$(realpath "$(dirname "$0")")
top=$(realpath "$here/..")
month=$here/month
temporary=$(mktemp -d)
trap 'rm -rf "$temporary"' EXIT
room="$temporary/a month's room"
mkdir "$room"
cd "$room"
failed=0

# check NAME STATUS TEXT WORD..: the command ends with this status, and what it writes has the text.
check() {
    local name=$1 status=$2 text=$3 got=0
    shift 3
    "$@" > said 2>&1 || got=$?
    [[ $got == "$status" && $(< said) == *"$text"* ]] ||
        not_so "$name: status $got, wanted $status and '$text'; it wrote: $(head -c 1000 said)"
}

# hold NAME WORD..: the words end with status 0.
hold() {
    "${@:2}" > said 2>&1 || not_so "$1: $(head -c 1000 said)"
}

not_so() {
    echo "test.sh: $1"
    failed=$((failed + 1))
}

# --- The programs, and what stands in for Slurm ---

plain=$(PYTHONPATH=$top python3 -m tools.plain)
takes_output=no
[[ $("$program" run --help 2> /dev/null) != *--output* ]] || takes_output=yes

# The program with a note of each call, and an accident where a file in `accidents` is named for it.
mkdir accidents bin
cat > royalty_run <<TEXT
#!/usr/bin/env bash
room=$(printf %q "$room") program=$(printf %q "$program") takes_output=$takes_output
TEXT
cat >> royalty_run <<'TEXT'
words=() output='' usage=''
for ((k = 1; k <= $#; k++)); do
    [[ ${!k} != --usage ]] || { next=$((k + 1)) && usage=$(basename "${!next}" .csv); }
    if [[ ${!k} == --output ]]; then
        k=$((k + 1)) && output=${!k}
    else
        words+=("${!k}")
    fi
done
echo "$1 ${usage:-$output}" >> "$room/calls"
accident=$room/accidents/$usage
[[ ! -e $accident.kill ]] || kill -KILL $$
[[ ! -e $accident.kill_job ]] || { kill -KILL $PPID && kill -KILL $$; }
[[ ! -e $accident.touch ]] || { chmod u+w inputs/works.cwr && echo >> inputs/works.cwr; }
status=0
if [[ $takes_output == yes ]]; then
    "$program" "$@" || status=$?
else
    "$program" "${words[@]}" > "$output.new" || status=$?
    if [[ $status == 0 ]]; then mv "$output.new" "$output"; else rm "$output.new"; fi
fi
[[ $1 != merge || ! -e $room/accidents/merge_touch ]] || touch parts/part-0001.statements
[[ $1 != merge || ! -e $room/accidents/merge ]] || sed -i '$s/^R,,4/R,,5/' "$output"
exit "$status"
TEXT
chmod +x royalty_run

# As sbatch does, it runs a copy of the script in the folder that it is given. A job that waits for
# one that failed is never run.
cat > bin/sbatch <<TEXT
#!/usr/bin/env bash
spool=$(printf %q "$room/spool")
TEXT
cat >> bin/sbatch <<'TEXT'
set -euo pipefail
mkdir -p "$spool"
array='' waits='' output='' folder=$PWD parsable=no
while [[ ${1-} == --* ]]; do
    case $1 in
        --parsable) parsable=yes ;;
        --job-name=*) [[ ${1#*=} =~ ^month-[0-9a-f]{10}$ ]] ;;
        --chdir=*) folder=${1#*=} ;;
        --output=*) output=${1#*=} ;;
        --array=*) array=${1#*=} ;;
        --dependency=afterok:*) waits=${1#*:} ;;
        --cpus-per-task=*) echo "${1#*=}" >> "$spool/processors" ;;
        --kill-on-invalid-dep=yes | --partition=*) ;;
        *) echo "sbatch: unknown option $1" >&2 && exit 1 ;;
    esac
    shift
done
[[ $parsable == yes && $folder == /* ]]
id=$(($(find "$spool" -name '*.script' | wc -l) + 1))
script=$spool/$id.script
cp -- "$1" "$script"
shift
echo "$id"
cd -- "$folder"
result=well
for other in ${waits//:/ }; do
    [[ $(< "$spool/$other.result") == well ]] || { echo never > "$spool/$id.result" && exit; }
done
array=${array%\%*}
indices=()
for range in ${array//,/ }; do
    mapfile -t -O ${#indices[@]} indices < <(seq "${range%-*}" "${range#*-}")
done
for index in "${indices[@]-}"; do
    log=${output//%A/$id}
    log=${log//%j/$id}
    SLURM_ARRAY_TASK_ID=$index bash "$script" "$@" > "${log//%a/$index}" 2>&1 < /dev/null ||
        result=badly
done
echo "$result" > "$spool/$id.result"
TEXT
cat > bin/squeue <<TEXT
#!/usr/bin/env bash
[[ ! -e $(printf %q "$room/accidents/queue") ]] || echo 17
TEXT
printf '#!/usr/bin/env bash\necho "MaxArraySize            = 6"\n' > bin/scontrol
chmod +x bin/*
export PATH="$room/bin:$PATH"

# --- Cutting ---

# That parts have the rows of their list is tested by tools/tests/test_cut.py.
{
    echo usage,work,territory,right,amount
    printf 'u%s,W1,276,P,1\n' {1..9}
} > list.csv
check 'cutting a list' 0 '3 parts, 9 usage lines' "$here/cut" --lines 4 list.csv cut-0
cutting_by_pipe() { "$here/cut" --lines 4 - cut-1 < list.csv; }
check 'cutting standard input' 0 '3 parts, 9 usage lines' cutting_by_pipe
(cd cut-1 && sha256sum --check --quiet sums) > said 2>&1 || not_so "the sums of parts: $(< said)"
cmp -s cut-0/sums cut-1/sums || not_so 'a list and standard input give other parts'
mkdir link_of_cut link_of_month
ln -s "$here/cut" link_of_cut/
ln -s "$month" link_of_month/
check 'cutting through a link' 0 '9 parts, 9 usage lines' link_of_cut/cut --lines 1 list.csv cut-2
: > empty.csv
check 'an empty file' 1 'it has no header' "$here/cut" empty.csv cut-empty
echo 'usage,work,territory,right' > other.csv
check 'another header' 1 'does not begin with the header' "$here/cut" other.csv cut-other
{
    printf 'usage,work,territory,right,amount\nu1,W1,276,P,1\n"u2,W1,276,P,1\n'
    yes 'u3,W1,276,P,1' | head -n 100000 || true
} > open.csv
check 'a quote that is not closed' 1 'row 2 has more than 1048576 bytes; is a quote not closed?' \
    "$here/cut" open.csv cut-open
check 'a list that is not there' 4 'absent.csv' "$here/cut" absent.csv cut-absent
check 'a folder with parts in it' 4 'part-0001.csv' "$here/cut" list.csv cut-0

# --- A month ---

PYTHONPATH=$top python3 -m bench.large made --lines 4000 --works 300 --parties 60 --seed 7 \
    --taken-back 0.1
python3 - <<'TEXT'
import csv

with open("made/usage.csv", newline="") as file:
    header, *rows = csv.reader(file)
with open("usage.csv", "w", newline="") as file:
    file.write(",".join(header) + "\r\n\r\n")
    for k, row in enumerate(rows):
        if k % 3 == 0:
            row[0] = f'Club "Lido", night {k}'
        end = "\r\n" if k % 5 == 0 else "\n"
        quoting = csv.QUOTE_ALL if k % 4 == 0 else csv.QUOTE_MINIMAL
        csv.writer(file, lineterminator=end, quoting=quoting).writerow(row)
with open("made/works.cwr") as file:
    parties = sorted({line[19:28].strip() for line in file if line[:3] in ("SPT", "SWT")})
with open("payees.csv", "w", newline="") as file:
    rows = [[party, 'Moon, "M"'] for party in parties[:20]]
    csv.writer(file).writerows([["party", "payee"], *rows])
with open("usage.csv", "rb+") as file:
    file.truncate(len(file.read().rstrip(b"\r\n")))
with open("made/tis.csv") as file:
    rows = file.readlines()
with open("tis.csv", "w") as file:
    file.writelines(rows)
with open("fewer.csv", "w") as file:
    file.writelines(rows[:-20])
TEXT
cp made/works.cwr .
files=(--tis tis.csv --cwr works.cwr --usage usage.csv)
cut=("${files[@]}" --payees payees.csv --program royalty_run --lines 250)
plan=(--workers 1 --readers 1 --nodes 16)
"$plain" run "${files[@]}" --payees payees.csv "${plan[@]}" --whole > whole
"$plain" run --tis fewer.csv --cwr works.cwr --usage usage.csv --payees payees.csv "${plan[@]}" \
    --whole > whole_of_fewer
"$plain" run "${files[@]}" "${plan[@]}" --whole > whole_without_payees

# new FOLDER: a month whose parts are not made yet; no accidents happen.
new() {
    rm -rf accidents/* calls
    hold "cutting $1" "$month" cut "$1" "${cut[@]}"
}

# made FOLDER: the same, made and merged
made() {
    new "$1"
    hold "running $1" "$month" run "$1" -j 4
    rm calls
}

# is_merged NAME FOLDER TEXT
is_merged() {
    cmp -s "$2/month.statements" "$3" || not_so "$1: the merged text is not $3"
    (cd "$2" && sha256sum --check --quiet month.made manifest) > said 2>&1 || not_so "$1: $(< said)"
    check "$1, its status" 0 'merged: month.statements' "$month" status "$2"
}

# called NAME CALL..: what the program was called for since, in any order
called() {
    local name=$1
    shift
    [[ $(sort calls 2> /dev/null) == "$(printf '%s\n' "$@" | sort)" ]] ||
        not_so "$name: the program was called for $(sort calls | tr '\n' ';')"
    rm -f calls
}

not_merged() {
    [[ ! -e $2/month.statements ]] || not_so "$1: there is a month.statements"
}

all=()
for k in {01..16}; do all+=("run part-00$k"); done
last='merge merging/month.statements'

new slurm
check 'before it is run' 1 'part-0016: it is not made' "$month" status slurm
hold 'submit' "$month" submit slurm --at-once 2 -- --partition=one
called 'submit' "${all[@]}" "$last"
is_merged 'submit' slurm whole
[[ $(find spool -name '*.script' | wc -l) == 5 ]] ||
    not_so 'submit: the parts are not in four arrays'
hold 'submit once more' "$month" submit slurm
called 'submit once more' "$last"
hold 'again with nothing to do' "$month" again slurm
called 'again with nothing to do' "$last"
is_merged 'again with nothing to do' slurm whole
[[ $(sort -u spool/processors) == 2 ]] || not_so 'submit: tasks have other processors'
touch accidents/queue
check 'submit while jobs are under way' 1 'jobs of this month are under way' "$month" submit slurm

new killed
touch accidents/part-0005.kill accidents/part-0012.kill_job
hold 'submit, and two are killed' "$month" submit killed
called 'submit, and two are killed' "${all[@]}"
not_merged 'two are killed' killed
[[ $(< "spool/$(find spool -name '*.script' | wc -l).result") == never ]] ||
    not_so 'two are killed: the job that merges was run'
check 'merging without two' 1 '2 of 16 parts are not made; nothing was merged' "$month" merge killed
check 'the status of a killed part' 1 'part-0005: the program was killed by signal 9' \
    "$month" status killed
check 'the status of a killed job' 1 'part-0012: it was begun, and has not ended' \
    "$month" status killed
not_merged 'merging without two' killed
rm accidents/part-0012.kill_job
hold 'again, and one is killed' "$month" again killed
called 'again, and one is killed' 'run part-0005' 'run part-0012'
not_merged 'one is killed' killed
rm accidents/part-0005.kill
check 'again' 0 $'makes parts 5\njob' "$month" again killed
called 'again' 'run part-0005' "$last"
is_merged 'again' killed whole

new here
touch accidents/part-0005.kill
check 'run, and one is killed' 1 'part-0005: the program was killed by signal 9' \
    "$month" run here -j 4
called 'run, and one is killed' "${all[@]}"
not_merged 'run, and one is killed' here
rm accidents/part-0005.kill
hold 'run once more' "$month" run here
called 'run once more' 'run part-0005' "$last"
is_merged 'run once more' here whole
hold 'merging in groups' "$month" merge here --group 3
[[ $(wc -l < calls) == 9 ]] ||
    not_so 'merging in groups: it is not six groups, two groups and one text'
is_merged 'merging in groups' here whole
with_few_files() (
    ulimit -n 37
    "$month" merge here
)
hold 'merging with few files' with_few_files
is_merged 'merging with few files' here whole
touch accidents/merge_touch
check 'statements that change while they are merged' 1 'changed while parts were merged' \
    "$month" merge here
rm accidents/merge_touch
touch accidents/merge
check 'a merged text of other lines' 1 'the list has 4000 usage lines' "$month" run here
cmp -s here/month.statements whole || not_so 'a merged text of other lines is kept'

rm accidents/*
hold 'cutting without payees' \
    "$month" cut without "${files[@]}" --program royalty_run --lines 700 --workers 2 --readers=2
hold 'running without payees' "$month" run without
hold 'submit with more threads' "$month" submit without
[[ $(tail -n 1 spool/processors) == 4 ]] || not_so 'submit with more threads: other processors'
is_merged 'running without payees' without whole_without_payees
[[ $(wc -l < without/manifest) == 10 ]] || not_so 'a month without payees has another manifest'

# --- What changes is found, and named ---

# damage FILE: changes a byte and leaves its time as it was; what it was is kept.
damage() {
    rm -f kept
    cp -p "$1" kept
    chmod u+w "$1"
    sed -i '2s/.$/#/' "$1"
    touch -r kept "$1"
}

# put_back FILE: as it was before it was damaged
put_back() {
    rm -f "$1"
    cp -p kept "$1"
}

new tables
for k in {1..8}; do hold "part $k" "$month" part tables "$k"; done
damage tables/inputs/territories.csv
for k in {9..16}; do
    check "part $k, with another table" 1 'inputs/territories.csv is not what the manifest says' \
        "$month" part tables "$k"
done
check 'run with another table' 1 'inputs/territories.csv is not what the manifest says' \
    "$month" run tables
check 'submit with another table' 1 'inputs/territories.csv is not what the manifest says' \
    "$month" submit tables
check 'status with another table' 1 \
    'part-0009: inputs/territories.csv is not what the manifest says' \
    "$month" status tables
put_back tables/inputs/territories.csv
rm -f calls
hold 'run with the table as it was' "$month" run tables -j 4
called 'run with the table as it was' "${all[@]:8}" "$last"
is_merged 'run with the table as it was' tables whole
for file in territories.csv payees.csv works.cwr royalty_run; do
    damage "tables/inputs/$file"
    check "merging with another $file" 1 "inputs/$file is not what the manifest says" \
        "$month" merge tables
    rm -f "tables/inputs/$file"
    check "merging without $file" 1 "inputs/$file is missing" "$month" merge tables
    put_back "tables/inputs/$file"
done

new renewed
for k in {1..8}; do hold "part $k" "$month" part renewed "$k"; done
hold 'renew' "$month" renew renewed --tis fewer.csv
for k in {9..16}; do hold "part $k, by the new table" "$month" part renewed "$k"; done
check 'merging parts of two tables' 1 'part-0008: it was made from another inputs/territories.csv' \
    "$month" merge renewed
not_merged 'merging parts of two tables' renewed
rm -f calls
hold 'again by the new table' "$month" again renewed
called 'again by the new table' "${all[@]:0:8}" "$last"
is_merged 'again by the new table' renewed whole_of_fewer
hold 'renew once more' "$month" renew renewed --tis tis.csv
check 'a merged text of another table' 1 'not merged' "$month" status renewed

# In the folder of the link there is no cut.
hold 'a month through a link' link_of_month/month cut through_a_link "${cut[@]}"
[[ -f through_a_link/parts/part-0016.csv ]] || not_so 'a month through a link has no parts'

new while
touch accidents/part-0002.touch
check 'registrations that change while a part is run' 1 'changed while it was run' \
    "$month" part while 2
check 'its status' 1 'part-0002: a table, the registrations, the program or the part changed' \
    "$month" status while

made touched
damage touched/parts/part-0003.statements
check 'statements touched by hand' 1 'parts/part-0003.statements changed after it was made' \
    "$month" merge touched
hold 'run after that' "$month" run touched
called 'run after that' 'run part-0003' "$last"
truncate -s -10 touched/parts/part-0004.statements
check 'statements cut off' 1 'part-0004: its statements changed after it was made' \
    "$month" merge touched
touch -r touched/parts/part-0004.csv touched/parts/part-0004.statements
check 'statements cut off, with an old time' 1 \
    'parts/part-0004.statements changed after it was made' \
    "$month" merge touched
rm touched/parts/part-0005.statements touched/parts/part-0006.made
check 'statements that are missing' 1 'part-0005: its statements are missing' "$month" merge touched
check 'a part of which nothing is told' 1 'part-0006: it is not made' "$month" merge touched
cp touched/parts/part-0008.made touched/parts/part-0007.made
check 'a part of which another one is told' 1 'part-0007: parts/part-0007.made is damaged' \
    "$month" merge touched
cmp -s touched/month.statements whole || not_so 'month.statements did not stay as it was'
hold 'again after all of that' "$month" again touched
called 'again after all of that' \
    'run part-0004' 'run part-0005' 'run part-0006' 'run part-0007' "$last"
is_merged 'again after all of that' touched whole

made parts
damage parts/parts/part-0003.csv
check 'a part that changed' 1 'parts/part-0003.csv is not what the manifest says' \
    "$month" merge parts
check 'making a part that changed' 1 'parts/part-0003.csv is not what the manifest says' \
    "$month" part parts 3
rm -f parts/parts/part-0003.csv
check 'a part that is missing' 1 'parts/part-0003.csv is missing' "$month" merge parts
check 'making a part that is missing' 1 'parts/part-0003.csv is missing' "$month" part parts 3
put_back parts/parts/part-0003.csv
hold 'a part that is back' "$month" run parts
is_merged 'a part that is back' parts whole
sed -i '/part-0016/d' parts/manifest
check 'a manifest that lacks a part' 1 'the manifest has 15 parts, and the plan 16' \
    "$month" merge parts

# --- Several submitters ---

three=$top/examples/three_submitters
tables=(--tis "$three/territories.csv" --payees "$three/payees.csv" --works "$three/works.csv")
usage=(--usage "$three/usage.csv")
cwr=(--cwr MOON="$three/moon.cwr" --cwr=HARBOR="$three/harbor.cwr" --cwr NORTH="$three/north.cwr")
few=("${usage[@]}" --program royalty_run --lines 60)
four=("${all[@]:0:4}")
sed '/THE SALT ROAD/s/1012/9912/' "$three/north.cwr" > north.cwr
"$plain" run "${tables[@]}" "${cwr[@]:0:3}" --cwr NORTH=north.cwr "${usage[@]}" "${plan[@]}" \
    --whole > whole_without_1012

rm -rf accidents/* calls
hold 'cutting for three' "$month" cut three "${few[@]}" "${cwr[@]}" "${tables[@]}"
hold 'cutting for three in another order' \
    "$month" cut three_again "${tables[@]}" "${cwr[@]:3}" "${few[@]}" "${cwr[@]:0:3}"
cmp -s three/manifest three_again/manifest || not_so 'the order of submitters makes a difference'
[[ $(wc -l < three/manifest) == 12 ]] || not_so 'a month of three has another manifest'
for file in moon harbor north; do
    cmp -s "$three/$file.cwr" "three/inputs/submitters/${file^^}.cwr" ||
        not_so "a month of three does not have $file.cwr"
done
hold 'submit for three' "$month" submit three
called 'submit for three' "${four[@]}" "$last"
is_merged 'submit for three' three "$three/statements.csv"

file=inputs/submitters/NORTH.cwr
damage "three_again/$file"
check 'part 2, with another file of NORTH' 1 "$file is not what the manifest says" \
    "$month" part three_again 2
check 'status with another file of NORTH' 1 "part-0002: $file is not what the manifest says" \
    "$month" status three_again
damage "three/$file"
for words in 'merge three' 'run three' 'submit three'; do
    check "$words with another file of NORTH" 1 "$file is not what the manifest says" \
        "$month" $words
done
rm -f "three/$file"
check 'merging without the file of NORTH' 1 "$file is missing" "$month" merge three
cp three/manifest manifest_of_three
check 'renew without the file of NORTH' 4 'there is no new manifest' \
    "$month" renew three --cwr MOON="$three/moon.cwr"
cmp -s three/manifest manifest_of_three || not_so 'renew without a file wrote a manifest'
put_back "three/$file"
hold 'run with the file of NORTH as it was' "$month" run three
called 'run with the file of NORTH as it was' "$last"

check 'renew one of three' 0 '' "$month" renew three --cwr NORTH=north.cwr
[[ ! -s said ]] || not_so "renew one of three: it wrote $(< said)"
check 'merging parts of another file of NORTH' 1 "part-0001: it was made from another $file" \
    "$month" merge three
hold 'run after that' "$month" run three
called 'run after that' "${four[@]}" "$last"
is_merged 'run after that' three whole_without_1012
check 'one more submitter' 0 'EAST-2 is a new submitter' \
    "$month" renew three --cwr EAST-2=north.cwr --works "$three/works.csv"
check 'merging parts without one' 1 \
    'part-0004: it was made without inputs/submitters/EAST-2.cwr' "$month" merge three
hold 'run with one more submitter' "$month" run three
called 'run with one more submitter' "${four[@]}" "$last"
is_merged 'run with one more submitter' three whole_without_1012

for file in works payees; do grep -v NORTH "$three/$file.csv" > "$file.two.csv"; done
hold 'cutting for two' "$month" cut two "${few[@]}" "${tables[@]:0:2}" --payees payees.two.csv \
    --works=works.two.csv "${cwr[@]:0:3}"
hold 'making a part for two' "$month" part two 3
check 'from two to three' 0 'NORTH is a new submitter' \
    "$month" renew two "${tables[@]:2}" "${cwr[@]:3}"
rm -f calls
hold 'run from two to three' "$month" run two
called 'run from two to three' "${four[@]}" "$last"
is_merged 'run from two to three' two "$three/statements.csv"

for word in ../NORTH sub/NORTH -NORTH NORTH/../../../NORTH A.B 12345678901234567; do
    sed "s|NORTH|$word|" manifest_of_three > three_again/manifest
    check "a manifest with $word" 1 'the manifest is damaged' "$month" status three_again
done
sed '/works.csv/d' manifest_of_three > three_again/manifest
check 'a manifest that lacks the works' 1 'the manifest has no inputs/works.csv' \
    "$month" run three_again
sed '/submitters/d' manifest_of_three > three_again/manifest
check 'a manifest that lacks submitters' 1 'the manifest has no file of a submitter' \
    "$month" run three_again

# --- Refusals ---

{ sed -n 1p made/usage.csv; echo $'"two\nlines",W1,276,P,1'; sed 1d made/usage.csv; } > faulty.csv
hold 'cutting a list with a fault' \
    "$month" cut faulty --tis tis.csv --cwr works.cwr --usage faulty.csv --program royalty_run \
    --lines 2000
check 'a list with a fault' 1 'part-0001: the program ended with status 1' "$month" run faulty
check 'the fault' 1 'usage fault 2 at row 1' "$month" status faulty
check 'a folder that is not empty' 2 'faulty is not empty' "$month" cut faulty "${cut[@]}"
check 'no folder' 4 'there is no folder absent' "$month" status absent
mkdir begun
check 'a folder without a manifest' 4 'has no manifest' "$month" merge begun
check 'no table' 4 'cannot read absent' \
    "$month" cut new_one --tis absent --cwr works.cwr --usage usage.csv --program royalty_run
check 'no registrations' 2 '--cwr is missing' "$month" cut new_one --tis tis.csv --usage usage.csv
check 'an option twice' 2 '--tis is given twice' "$month" cut new_one --tis a --tis b
check 'an option that is none' 2 '--speed does not belong here' "$month" cut new_one --speed 3
check 'too many workers' 2 '--workers is a number from 1 to 8' \
    "$month" cut new_one "${files[@]}" --workers 9
check 'a list without a header' 1 'does not begin with the header' \
    "$month" cut other --tis tis.csv --cwr works.cwr --usage other.csv --program royalty_run
check 'what of it is there' 4 'has no manifest' "$month" run other
check 'a command that is none' 2 'there is no command merg' "$month" merg faulty
for word in works.cwr MOON MOON= =; do
    check "--cwr $word with --works" 2 "--cwr $word is not NAME=F" \
        "$month" cut new_one "${few[@]}" "${tables[@]}" --cwr "$word"
done
for word in =a -A=a 'A B=a' A.B=a A/B=a 12345678901234567=a $'A\n=a' Ä=a; do
    check "--cwr $word" 2 'the name is not 1 to 16 letters' \
        "$month" cut new_one "${few[@]}" "${tables[@]}" --cwr "$word"
done
check 'a submitter twice' 2 '--cwr=MOON is given twice' \
    "$month" cut new_one "${few[@]}" "${tables[@]}" "${cwr[@]}" --cwr MOON=works.cwr
check 'a file that is not there' 4 'cannot read absent=b' \
    "$month" cut new_one "${few[@]}" "${tables[@]}" "${cwr[@]}" --cwr WEST=absent=b
many=()
for k in {1..257}; do many+=(--cwr "N$k=$three/north.cwr"); done
check '257 submitters' 2 'at most 256 submitters' \
    "$month" cut new_one "${few[@]}" "${tables[@]}" "${many[@]}"
check '254 submitters more' 2 'at most 256 submitters' "$month" renew two "${many[@]:6}"
check 'no submitter' 2 '--cwr is missing' "$month" cut new_one "${few[@]}" "${tables[@]}"
check 'several submitters without --works' 2 '--cwr is given twice' \
    "$month" cut new_one "${few[@]}" "${tables[@]:0:2}" "${cwr[@]}"
[[ ! -e new_one ]] || not_so 'a month whose words are wrong is begun'
cp works.cwr A=works.cwr
hold 'a path with = in it' "$month" cut one --tis tis.csv --cwr A=works.cwr --usage list.csv \
    --program royalty_run
cmp -s one/inputs/works.cwr works.cwr || not_so 'a path with = in it is not taken whole'
cp one/manifest manifest_of_one
for words in '--works works.two.csv' '--works=works.two.csv --cwr A=works.cwr --cwr B=works.cwr'; do
    check "renew $words" 2 'one was cut without --works' "$month" renew one $words
done
check 'renew with two files' 2 '--cwr is given twice' "$month" renew one --cwr a=b --cwr c=d
cmp -s one/manifest manifest_of_one || not_so 'what renew refuses has another manifest'
check 'renew with a name that is mistyped' 2 'two has no submitter moon' \
    "$month" renew two --cwr NORTH=north.cwr --cwr moon=works.cwr
check 'renew with a file of no submitter' 2 '--cwr works.cwr is not NAME=F' \
    "$month" renew two --cwr works.cwr
(cd two && sha256sum --check --quiet manifest) > said 2>&1 || not_so "what renew refuses: $(< said)"
check 'no words' 2 'month cut FOLDER' "$month"
check 'help' 0 'month cut FOLDER' "$month" --help
check 'help for a command' 0 'month cut FOLDER' "$month" submit --help
check 'a part that there is not' 2 'there is no part 17' "$month" part slurm 17

((failed == 0)) || { echo "test.sh: $failed failed" && exit 1; }
echo 'test.sh: ok'
