#!/usr/bin/env bash
# Kills a program at a hundred random moments while it writes, a third of them runs and a third of
# them merges, each into a file, and a third of them folders of documents. It looks at the file,
# which is as it was before or whole, and at the folder, which is not there or whole. What a killed
# program leaves beside it is removed, and one more run makes the file whole, and the folder.
# It takes half a minute. Usage: tests/kill.sh PROGRAM [TIMES]
set -euo pipefail
program=$(realpath "$1")
times=${2:-100}
examples=$(dirname "$(realpath "$0")")/../examples
room=$(mktemp -d)
trap 'rm -rf "$room"' EXIT
cd "$room"
head -n 1 "$examples/usage.csv" > usage.csv
for _ in {1..4000}; do tail -n +2 "$examples/usage.csv" | head -n 10; done >> usage.csv
run=(run --tis "$examples/territories.csv" --cwr "$examples/works.cwr" --usage usage.csv --workers 2 --readers 2 --nodes 16)
"$program" "${run[@]}" > statements
"$program" merge statements > merged
documents=(statements "${run[@]:1}" --to)
"$program" "${documents[@]}" documents
mkdir kept folders
killed=0 whole=0 absent=0 complete=0

fail() {
    echo "kill.sh: $1"
    exit 1
}

# milliseconds WORD..: how long the words take
milliseconds() {
    local begin
    begin=$(date +%s%N)
    "$@"
    echo $((($(date +%s%N) - begin) / 1000000 + 1))
}

# ends MILLISECONDS WORD..: a program with these words, which takes that long, is killed within half
# as long again, or ends before; `status` is its status
ends() {
    local most=$(($1 * 3 / 2)) process
    shift
    ((most < 1000)) || most=999
    status=0
    "$program" "$@" 2> told &
    process=$!
    sleep "$(printf '0.%03d' $((RANDOM % most)))"
    kill -KILL "$process" 2> /dev/null || true
    wait "$process" 2> /dev/null || status=$?
}

# kill_once NAME WHOLE MILLISECONDS WORD..: the words are killed while they write a file
kill_once() {
    local name=$1 wanted=$2 long=$3 status
    shift 3
    echo before > kept/all
    ends "$long" "$@" --output kept/all
    if [[ $(head -c 7 kept/all) == before ]]; then
        [[ $status == 137 ]] || fail "$name: status $status, and the file is as it was: $(< told)"
        killed=$((killed + 1))
    elif cmp -s kept/all "$wanted"; then
        whole=$((whole + 1))
    else
        fail "$name: the file is neither as it was nor whole"
    fi
    rm -f kept/all.new*
    [[ $(ls kept) == all ]] || fail "$name: other files are left: $(ls kept)"
}

# kill_folder MILLISECONDS: the documents are killed while they are written to a folder
kill_folder() {
    local status
    rm -rf folders/all
    ends "$1" "${documents[@]}" folders/all
    if [[ ! -e folders/all ]]; then
        [[ $status == 137 ]] || fail "documents: status $status, and no folder: $(< told)"
        absent=$((absent + 1))
    elif diff -r folders/all documents > differs; then
        complete=$((complete + 1))
    else
        fail "documents: the folder is not whole: $(< differs)"
    fi
    rm -rf folders/all.new
    [[ -z $(ls folders) || $(ls folders) == all ]] ||
        fail "documents: others are left: $(ls folders)"
}

long=$(milliseconds "$program" "${run[@]}" --output kept/all)
long_merge=$(milliseconds "$program" merge --output kept/all statements)
long_documents=$(milliseconds "$program" "${documents[@]}" folders/all)
for _ in $(seq $((times / 3))); do
    kill_once 'a run' statements "$long" "${run[@]}"
    kill_once 'a merge' merged "$long_merge" merge statements
    kill_folder "$long_documents"
done
"$program" "${run[@]}" --output kept/all
cmp kept/all statements || fail 'the last run'
rm -rf folders/all
"$program" "${documents[@]}" folders/all
diff -r folders/all documents || fail 'the last folder'
found="$killed times as it was, $whole times whole; no folder $absent times, whole $complete times"
((killed > 0 && whole > 0 && absent > 0 && complete > 0)) ||
    fail "$found: another size of list is needed"
echo "kill.sh: $found"
