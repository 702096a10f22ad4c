#!/usr/bin/env bash
# Runs a program with what it asks of the system refused: each allocation, each thread, each read
# and write, and each file that is opened, given permissions, brought to the disk or renamed and
# each directory that is made, in turn; and with reads and writes that are cut short or interrupted.
# It divides one amount, checks the examples and explains a line of them, makes the tables to begin
# with of three submitters' files, checks these and explains a line of them, runs on the examples
# with several plans, and into an output file over one CWR file and over three, writes a folder of
# documents, makes usage lines and rejected rows of a sales report, merges statements and adjusts
# them, each to standard output and into a file, and runs on 2,000 usage lines, whose rows are
# written by four threads.
#
# Each run has to end within a minute: with the whole answer; where memory or a thread was refused,
# with status 3 and nothing printed, but that a merge or an adjustment may have begun; where a read, a write or a
# file was, with status 4, what the output took, and a message that says which. An output file is
# then as it was, or at the very end whole, and no new file is left beside it. A folder of documents
# is not there, or at the very end whole, and no new folder is left beside it. Of the two tables of
# an import, which rejects rows and so ends with status 1, each is as it was or whole.
#
# It takes a C compiler, and a minute; `quick`, all but the other plans, most allocations of the
# documents and the many lines, half of it. Usage: tests/refuse.sh PROGRAM [quick]
set -euo pipefail
program=$(realpath "$1")
plans=('1 1 1' '2 2 16' '3 1 2' '8 8 64') most_steps=1
[[ ${2-} != quick ]] || plans=('2 2 16') most_steps=9
examples=$(dirname "$(realpath "$0")")/../examples
room=$(mktemp -d)
trap 'rm -rf "$room"' EXIT
"${CC:-cc}" -shared -fPIC -O1 -o "$room/refuse.so" "$(dirname "$0")/refuse.c" -ldl

# A run is over where this many numbers in a row are past its last allocation; how many there are depends on the threads.
past=40

# Whether files are brought to the disk by the system is not asked here.
export SKIP_SYNC=1

# The arguments of the runs that follow, what they are called, the file or the folder that has their
# whole answer, and the file or the folder that they write, if they do; or the folder of the two
# tables that they write beside what they print, and the folder that has these whole. A merge or an
# adjustment may have begun to print where memory or a read is refused. Of allocations every one is refused, or one
# of so many. The last so many refusals may leave something whole.
words=() name='' whole='' kept='' folder='' tables='' whole_tables='' may_begin='' steps=1 late=2

# The status of a run to which nothing is refused.
ends=0

fail() {
    echo "refuse.sh: $name, $1: status $status: $(cat "$room/err")"
    exit 1
}

# answer VARIABLE=NUMBER..: runs the words with this in the environment
answer() {
    status=0
    if [[ -n $kept ]]; then
        rm -f "$kept".new*
        echo before > "$kept"
    fi
    [[ -z $folder ]] || rm -rf "$folder" "$folder".new*
    if [[ -n $tables ]]; then
        rm -rf "$tables"
        mkdir "$tables"
        echo before | tee "$tables/usage.csv" > "$tables/rejects.csv"
    fi
    env "$@" LD_PRELOAD="$room/refuse.so" timeout 60 "$program" "${words[@]}" > "$room/out" 2> "$room/err" || status=$?
}

# whether no new file or folder is left beside the one that is written
is_alone() {
    if [[ -n $tables ]]; then
        [[ $(ls -A "$tables") == rejects.csv$'\n'usage.csv ]]
    else
        [[ ! -e ${kept:-$folder}.new ]]
    fi
}

# whether a table is as it was
is_table_before() {
    [[ $(head -c 100 "$tables/$1") == before ]]
}

is_as_before() {
    is_alone && [[ -z $kept || $(< "$kept") == before ]] && [[ -z $folder || ! -e $folder ]] || return 1
    [[ -z $tables ]] || { is_table_before usage.csv && is_table_before rejects.csv; }
}

# whether the file or the folder has the whole answer
has_whole() {
    if [[ -n $kept ]]; then
        cmp -s "$kept" "$whole"
    else
        diff -r "$folder" "$whole" > /dev/null
    fi
}

# whether a table is as it was or whole
is_left() {
    is_table_before "$1" || cmp -s "$tables/$1" "$whole_tables/$1"
}

is_whole() {
    [[ $status == "$ends" && ! -s $room/err ]] && is_alone || return 1
    [[ -z $tables ]] || diff -r "$tables" "$whole_tables" > /dev/null || return 1
    if [[ -n $kept$folder ]]; then
        [[ ! -s $room/out ]] && has_whole
    else
        cmp -s "$room/out" "$whole"
    fi
}

# whether what was printed is where the answer begins
is_beginning() {
    if [[ -n $kept$folder ]]; then
        [[ ! -s $room/out ]]
    else
        cmp -s -n "$(stat -c %s "$room/out")" "$room/out" "$whole"
    fi
}

is_out_of_room() {
    [[ $status == 3 && $(< "$room/err") == 'royalty_run: out of room' ]] && is_beginning && is_as_before && [[ -n $may_begin || ! -s $room/out ]]
}

is_cut_off() {
    is_beginning || return 1
    case $status:$(< "$room/err") in
        '4:royalty_run: cannot write')
            [[ -z $kept$folder ]] && { [[ -z $tables ]] || diff -r "$tables" "$whole_tables" > /dev/null; }
            ;;
        "4:royalty_run: cannot write $kept$folder") is_as_before || { is_alone && has_whole; } ;;
        "4:royalty_run: cannot write $tables/"*)
            [[ -n $tables && ! -s $room/out ]] && is_alone && is_left usage.csv && is_left rejects.csv
            ;;
        '4:royalty_run: cannot read '*) is_as_before && [[ -n $may_begin || ! -s $room/out ]] ;;
        *) return 1 ;;
    esac
}

# sweep VARIABLE CHECK [STEP]: refuses one number after another, or one of so many; where the answer
# is not whole, CHECK has to hold. `refusals` counts these. Only where one of the last two is refused
# may the output be there, whole: it gets its name when its bytes are on the disk. The tables of an
# import get theirs one after another, so there it is one of some more.
sweep() {
    local step=${3-1} number answered=0 named=()
    number=$((1 - step)) refusals=0
    while ((answered < past)); do
        number=$((number + step))
        answer "$1=$number"
        if is_whole; then
            answered=$((answered + step))
        elif "$2"; then
            answered=0 refusals=$((refusals + 1))
            is_as_before || named+=("$refusals")
        else
            fail "$1=$number"
        fi
    done
    ((refusals > 0)) || fail "$1: nothing was refused"
    for number in ${named[@]+"${named[@]}"}; do
        ((number > refusals - late)) || fail "$1: named at refusal $number of $refusals"
    done
}

# sweep_all THREADS [FILES]: all of it over the words, whose run starts so many threads that it cannot do without, and opens, gives permissions, brings to the disk or renames so many
# files: one that is not brought to the disk is missing among them
sweep_all() {
    local threads=$1 allocations transfers files=0
    answer REFUSE=0
    is_whole || fail 'nothing refused'
    sweep REFUSE is_out_of_room "$steps"
    allocations=$refusals
    sweep REFUSE_IO is_cut_off
    transfers=$refusals
    if [[ ${words[0]} != split ]]; then
        sweep REFUSE_FILE is_cut_off
        files=$refusals
        ((files == ${2-$files})) || fail "$files files refused, not $2"
    fi
    if ((threads > 0)); then
        sweep REFUSE_THREAD is_out_of_room
        ((refusals == threads)) || fail "$refusals threads refused, not $threads"
    fi
    for few in SHORT_IO=1 INTERRUPT_IO=2 'SHORT_IO=7 INTERRUPT_IO=3'; do
        # shellcheck disable=SC2086
        answer $few
        is_whole || fail "$few"
    done
    echo "$name: $allocations allocations, $threads threads, $transfers reads and writes, $files files refused in turn"
}

# set_run USAGE WORKERS READERS NODES
set_run() {
    words=(run --tis "$examples/territories.csv" --cwr "$examples/works.cwr" --usage "$1" --workers "$2" --readers "$3" --nodes "$4")
    name="$2 workers, $3 readers, $4 nodes"
}

words=(split 100 A=3333 B=3333 C=3333) name='a division' whole=$room/portions
printf 'P,A,34\nP,B,33\nP,C,33\nM,,0\n' > "$whole"
sweep_all 0

# The report and the explanation are those of runs in which nothing is refused; tests/program.sh has their texts.
files=(--tis "$examples/territories.csv" --cwr "$examples/works.cwr" --usage "$examples/usage.csv")
for words_of in 'check' 'explain --row 2'; do
    read -ra begin <<< "$words_of"
    words=("${begin[@]}" "${files[@]}") name=$words_of whole=$room/whole
    "$program" "${words[@]}" > "$whole"
    sweep_all 0
done

# The tables to begin with over the files of several submitters; program.sh has their texts, too.
several=$examples/three_submitters
cwr=(--cwr "MOON=$several/moon.cwr" --cwr "HARBOR=$several/harbor.cwr"
    --cwr "NORTH=$several/north.cwr")
for table in works parties; do
    words=("$table" "${cwr[@]}") name="the table of $table" whole=$room/whole
    "$program" "${words[@]}" > "$whole"
    sweep_all 0
done
for words_of in 'check' 'explain --row 7'; do
    read -ra begin <<< "$words_of"
    words=("${begin[@]}" --tis "$several/territories.csv" --works "$several/works.csv" "${cwr[@]}"
        --payees "$several/payees.csv" --usage "$several/usage.csv")
    name="$words_of over three files" whole=$room/whole
    "$program" "${words[@]}" > "$whole"
    sweep_all 0
done

whole=$examples/statements.csv
for plan in "${plans[@]}"; do
    read -r workers readers nodes <<< "$plan"
    set_run "$examples/usage.csv" "$workers" "$readers" "$nodes"
    sweep_all "$((workers + readers))"
done

# The same into a file that is there, and statements merged.
kept=$room/kept
set_run "$examples/usage.csv" 2 1 16
words+=(--output "$kept") name="$name, into a file"
sweep_all 3 9
words=(run --tis "$several/territories.csv" --works "$several/works.csv" "${cwr[@]}"
    --payees "$several/payees.csv" --usage "$several/usage.csv"
    --workers 2 --readers 1 --nodes 16 --output "$kept")
name='a run over three files, into a file' whole=$several/statements.csv
sweep_all 3 13
whole=$examples/statements.csv
cp "$whole" "$room/all"
printf 'T,,0,0\nR,,0,0\n' > "$room/none"
words=(merge --output "$kept" "$room/all" "$room/none") name='a merge into a file'
sweep_all 0 8
kept='' may_begin=1
words=(merge "$room/none" "$room/all") name='a merge'
sweep_all 0
may_begin=''

# The difference between two texts, into a file and to standard output.
printf 'L,A,u1,60\nS,A,1,60\nM,OPEN,u1,40\nT,,1,40\nR,,1,100\n' > "$room/paid"
printf 'L,A,u1,50\nS,A,1,50\nM,OVER,u1,50\nT,,1,50\nR,,1,100\n' > "$room/right"
printf 'L,A,u1,-10\nS,A,1,-10\nM,OVER,u1,50\nM,OPEN,u1,-40\nT,,2,10\nR,,0,0\n' > "$room/difference"
whole=$room/difference kept=$room/kept
words=(adjust "$room/paid" "$room/right" --output "$kept") name='a difference into a file'
sweep_all 0 8
kept='' may_begin=1
words=(adjust "$room/paid" "$room/right") name='a difference'
sweep_all 0
may_begin=''
whole=$examples/statements.csv

# A folder of documents, of two lines. Its parent alone is brought to the disk behind its name.
{ head -n 1 "$examples/usage.csv"; grep -e 'NT0003' -e 'FILM' "$examples/usage.csv"; } > "$room/two.csv"
words=(statements --tis "$examples/territories.csv" --cwr "$examples/works.cwr"
    --usage "$room/two.csv" --workers 2 --readers 1 --nodes 16)
whole=$room/documents
"$program" "${words[@]}" --to "$whole"
folder=$room/folder
words+=(--to "$folder") name='a folder of documents' steps=$most_steps
sweep_all 3 26
folder='' steps=1

# An import of the first rows of a report, of which two are rejected.
head -n 62 "$several/sales.csv" > "$room/sales.csv"
printf 'Reported,,x,y,NO,Mechanical,1\nReported,A,x,y,NO,Mechanical,1.001\n' >> "$room/sales.csv"
tables=$room/tables whole_tables=$room/whole_tables whole=$room/summary ends=1 late=8
words=(import "$room/sales.csv" --where Status=Reported --usage Use --work ISRC --territory Country
    --right Right --amount 'Net EUR' --works "$several/recordings.csv"
    --territories "$several/countries.csv" --rights "$several/rights.csv"
    --output "$tables/usage.csv" --rejects "$tables/rejects.csv")
mkdir "$tables"
"$program" "${words[@]}" > "$whole" && fail 'no row was rejected'
mv "$tables" "$whole_tables"
name='an import'
sweep_all 0
tables='' ends=0 late=2

[[ ${2-} != quick ]] || exit 0

# The statements of many lines are those of a run in which nothing is refused.
head -n 1 "$examples/usage.csv" > "$room/usage.csv"
for _ in {1..200}; do tail -n +2 "$examples/usage.csv" | head -n 10; done >> "$room/usage.csv"
set_run "$room/usage.csv" 2 2 4
whole=$room/statements.csv
"$program" "${words[@]}" > "$whole"
name="$name, $(wc -l < "$whole") rows of many lines"
sweep_all 4
