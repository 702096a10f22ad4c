#!/usr/bin/env bash
# What `make install` puts in place: the program as it was built, and a man page and completions that have the options of its help.
#
#   tests/install.sh PROGRAM
set -euo pipefail
program=$(realpath "$1")
cd "$(dirname "$0")/.."
room=$(mktemp -d)
trap 'rm -rf "$room"' EXIT
failed=0

# same NAME WANTED FOUND: two texts are the same
same() {
    [ "$2" = "$3" ] || { printf 'install.sh: %s: wanted %s, found %s\n' "$1" "${2//$'\n'/ }" "${3//$'\n'/ }"; failed=$((failed + 1)); }
}

make -s install PROGRAM="$program" DESTDIR="$room" PREFIX=/usr
share=$room/usr/share
page=$share/man/man1/royalty_run.1
bash_file=$share/bash-completion/completions/royalty_run
zsh_file=$share/zsh/site-functions/_royalty_run
fish_file=$share/fish/vendor_completions.d/royalty_run.fish
same 'the files' "$(printf '%s\n' "$room/usr/bin/royalty_run" "$page" "$bash_file" "$zsh_file" "$fish_file" | sort)" \
    "$(find "$room" -type f | sort)"
cmp "$program" "$room/usr/bin/royalty_run" || failed=$((failed + 1))
[ -x "$room/usr/bin/royalty_run" ] || { echo 'install.sh: the program cannot be started'; failed=$((failed + 1)); }

# The long names of a command's options, in its help and in each of the files. The man page has a section of a title.
in_help() { "$program" "$@" --help | sed -n '/^Options:$/,/^$/s/^ *\(-[A-Za-z], \)\?\(--[a-z-]*\).*/\2/p' | sort; }
in_page() {
    awk -v head=".SH ${1^^}" '/^\.SH/ { on = $0 == head } on && before == ".TP" && /^\.B/ { print } { before = $0 }' "$page" |
        sed 's/\\-/-/g; s/.*\(--[a-z-]*\).*/\1/' | sort
}
in_zsh() { sed -n "/^    $1)/,/^        ;;/p" "$zsh_file" | sed -n "s/^ *'\*\?\(--[a-z-]*\).*/\1/p" | sort; }
in_fish() { grep "'__fish_seen_subcommand_from $1'" "$fish_file" | sed -n 's/.* -l \([a-z-]*\) .*/--\1/p' | sort; }

# The lines for a value `NAME=F`, or `F`, of the option --cwr of runs and of tables to begin with.
cwr_in_zsh() { sed -n '/^    \(run\|works\|parties\))/,/^        ;;/p' "$zsh_file" | grep "'\*--cwr=.*compset.*_files"; }
cwr_in_fish() { grep "_from \(run\|works\|parties\)' -l cwr -r -F" "$fish_file"; }

# completed WORD..: what bash completes the last of these words to, behind the name of the program
. "$bash_file"
completed() {
    COMP_WORDS=(royalty_run "$@")
    COMP_CWORD=$#
    _royalty_run
    printf '%s\n' "${COMPREPLY[@]}" | sort
}

# uses COMMAND: the usage that its help tells
uses() { "$program" "$@" --help | sed -n 's/^Usage: //p'; }

commands=$("$program" --help | sed -n '/^Commands:$/,/^$/s/^  \([a-z]*\) .*/\1/p' | grep -vx help | sort)
same 'the commands in bash' "$commands" "$(completed '' | grep -v '^-')"
for command in $commands; do
    options=$(in_help "$command")
    [ -n "$options" ] || { echo "install.sh: the help of $command has no options"; failed=$((failed + 1)); }
    same "$command in the man page" "$options" "$(in_page "$command")"
    same "$command in bash" "$options" "$(completed "$command" --)"
    same "$command in zsh" "$options" "$(in_zsh "$command")"
    same "$command in fish" "$options" "$(in_fish "$command")"
done

# Runs over the files of several submitters have options of their own.
same 'the commands for several submitters' "$(printf 'parties\nrun\nworks')" "$(grep -x 'works\|parties\|run' <<< "$commands")"
same 'run --works in the man page' "$(in_help run --works F)" "$(in_page 'run over several files')"
same 'run --works in the help of run' "$(in_help run)" "$(in_help run --works F)"
for use in "$(uses run)" "$(uses run --works F)" "$(uses works)" "$(uses parties)"; do
    same "the synopsis of $use" 1 "$(sed -n '/^\.SH SYNOPSIS$/,/^\.fi$/s/\\-/-/gp' "$page" | grep -cxF -- "$use")"
done

# Where a path is due bash completes to one, and where a number is due to nothing.
same 'a path behind --tis' "$room/usr" "$(completed run --tis "$room/us")"
same 'a path behind --tis=' "$room/usr" "$(completed run --tis = "$room/us")"
same 'a path behind --works' "$room/usr" "$(completed run --works "$room/us")"
for command in run works parties; do
    same "a path behind $command --cwr NAME=" "$room/usr" "$(completed "$command" --cwr MOON = "$room/us")"
    same "a path behind $command --cwr=NAME=" "$room/usr" "$(completed "$command" --cwr = MOON = "$room/us")"
    same "a path behind NAME= of the second $command --cwr" "$room/usr" "$(completed "$command" --cwr MOON = moon.cwr --cwr SUN = "$room/us")"
done
same 'a path behind run --cwr' "$room/usr" "$(completed run --cwr "$room/us")"
same 'a name behind works --cwr' '' "$(completed works --cwr "$room/us")"
same 'a path behind --tis NAME=' '' "$(completed run --tis MOON = "$room/us")"
cd "$room"
same 'any path behind NAME=' usr "$(completed works --cwr MOON =)"
cd - >/dev/null
for file in zsh fish; do
    same "paths behind --cwr in $file" 3 "$("cwr_in_$file" | wc -l)"
done
same 'a text to merge' "$room/usr" "$(completed merge "$room/us")"
same 'a number' '' "$(completed run --workers '')"
same 'a file of no command' '' "$(completed split "$room/us")"

[ "$failed" = 0 ] || { echo "install.sh: $failed failed"; exit 1; }
echo 'install.sh: ok'
