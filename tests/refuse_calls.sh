#!/usr/bin/env bash
# Runs a build of refusal_runs with its memory and its threads refused.
# - Each allocation and each thread in turn: each call answers as it does where nothing is refused, or that memory was,
#   and each is refused an allocation at some number.
# - All allocations once a mailbox or a pool is open: its calls ask for none, and answer as with ample memory.
# - Each allocation and thread in turn of a run over mailboxes, and of one over a pool: if its workers came to all lines,
#   all their postings and end marks were taken, with a book or without.
# It takes a C compiler, and half a minute. Usage: tests/refuse_calls.sh PROGRAM
set -euo pipefail
program=$(realpath "$1")
room=$(mktemp -d)
trap 'rm -rf "$room"' EXIT
"${CC:-cc}" -shared -fPIC -O1 -o "$room/refuse.so" "$(dirname "$0")/refuse.c" -ldl

fail() {
    echo "refuse_calls.sh: $1"
    head -c 2000 "$room/out" "$room/err"
    exit 1
}

# answers WORD VARIABLE NUMBER: what it prints for a word, where a variable of refuse.c has this number. It ends by itself.
answers() {
    local status=0
    printf '%s\n' "$1" | env "$2=$3" LD_PRELOAD="$room/refuse.so" timeout 60 "$program" > "$room/out" 2> "$room/err" || status=$?
    ((status < 2)) || fail "$1, $2=$3: status $status"
}

# ends_from WORD NUMBER: the same, where it ends as it asks for this allocation
ends_from() {
    local status=0
    printf '%s\n' "$1" | timeout 60 env END_FROM="$2" LD_PRELOAD="$room/refuse.so" "$program" > "$room/out" 2> "$room/err" || status=$?
    ((status == 0 || status == 99)) || fail "$1, END_FROM=$2: status $status"
}

# past the last one, if so many numbers in a row change nothing. A run that has no book anyway has some hundred allocations.
past=200

# sweep WORD VARIABLE CHECK: one number of a word refused after another; what it then prints is looked at by the function CHECK
sweep() {
    local number=0 same=0 refusals=0
    answers "$1" "$2" 0
    cp "$room/out" "$room/all"
    while ((same < past)); do
        number=$((number + 1))
        answers "$1" "$2" "$number"
        if cmp -s "$room/out" "$room/all"; then
            same=$((same + 1))
        else
            same=0 refusals=$((refusals + 1))
            "$3" || fail "$1, $2=$number"
        fi
    done
    ((refusals > 0)) || fail "$1, $2: nothing was refused"
    echo "$1, $2: $refusals refused in turn"
}

# each line is that of ample memory, or says that memory was refused; there are none where the word itself was not read
is_answered() {
    awk 'NR == FNR { all[FNR] = $0; lines = FNR; next }
        { none = all[FNR]; sub(/: [^:]*$/, ": no memory", none) }
        $0 != all[FNR] && $0 != none { exit 1 }
        END { if (FNR != lines && FNR != 0) exit 1 }' "$room/all" "$room/out" || return 1
    grep ': no memory$' "$room/out" >> "$room/refused" || true
}

# a run without a book, all of whose items were taken if its workers came to all lines: `finished` counts those. Or none was begun.
is_counted() {
    case $(< "$room/out") in
        '65 lines, 133 items, no room') finished=$((finished + 1)) ;;
        '65 lines, '*) return 1 ;;
        *' lines, '*' items, no room' | 'no memory' | '') ;;
        *) return 1 ;;
    esac
}

: > "$room/refused"
sweep calls REFUSE is_answered
calls=$(wc -l < "$room/all") seen=$(sort -u "$room/refused" | wc -l)
((calls == seen)) || fail "only $seen of $calls calls were refused memory"
sweep calls REFUSE_THREAD is_answered

for word in links lanes pool 'linked sequence'; do
    answers "$word" REFUSE 0
    cp "$room/out" "$room/all"
    from=1
    until answers "$word" REFUSE_FROM "$from" && grep -q opened "$room/out"; do
        from=$((from + 1))
        ((from < 1000)) || fail "$word: never opened"
    done
    cmp -s "$room/out" "$room/all" || fail "$word, REFUSE_FROM=$from"
    # the first allocation behind the opening, if there were one: the program ends there, and has told that it opened
    from=1
    until ends_from "$word" "$from" && grep -q opened "$room/out"; do
        from=$((from + 1))
        ((from < 1000)) || fail "$word: never opened"
    done
    cmp -s "$room/out" "$room/all" || fail "$word: it asks for memory once it is open"
    echo "$word: it asks for no memory once it is open, and is the same with all of it refused"
done

for word in counted 'counted pool'; do
    finished=0
    sweep "$word" REFUSE is_counted
    ((finished > 0)) || fail "$word: no run came to all lines and then had no book"
    sweep "$word" REFUSE_THREAD is_counted
done
