#!/usr/bin/env bash
# Writes the program's man page, and its completions for bash, zsh and fish, from its own `--help`.
#
#   install/pages.sh PROGRAM FOLDER
#
# leaves royalty_run.1, royalty_run.bash, _royalty_run (for zsh) and royalty_run.fish in the folder.
set -euo pipefail
program=$(realpath "$1")
folder=$2
mkdir -p "$folder"
name=royalty_run

# The values and arguments that are paths, as the help calls them, and a value that is a name and a
# path.
paths=(F STATEMENTS)
named=NAME=F

# The help of each command, and under the key `all` that of the whole program. A command that takes
# `--works` has another help with it, under a key with ` --works` behind the name.
declare -A help
help[all]=$("$program" --help)

# items COMMAND SECTION: a line for each item below `SECTION:` in the help of a command: its words, what stands in < > behind them, and
# what it is for, with a mark between them of which the help has none.
mark=$'\x1f'
items() {
    awk -v section="$2:" -v OFS="$mark" '
        $0 == section { on = 1; next }
        on && /^$/ { exit }
        on {
            sub(/^ +/, "")
            match($0, /   *|$/)
            words = substr($0, 1, RSTART - 1)
            told = substr($0, RSTART + RLENGTH)
            value = ""
            if (match(words, /<[^>]*>/)) {
                value = substr(words, RSTART + 1, RLENGTH - 2)
                words = substr(words, 1, RSTART - 1)
            }
            sub(/ +$/, "", words)
            print words, value, told
        }' <<< "${help[$1]}"
}

mapfile -t commands < <(items all Commands | cut -d "$mark" -f 1 | grep -vx help)
for command in "${commands[@]}"; do
    help[$command]=$("$program" "$command" --help)
    ! grep -q '^ *--works <' <<< "${help[$command]}" || help["$command --works"]=$("$program" "$command" --works F --help)
done

# about COMMAND: the first line of its help
about() { head -n 1 <<< "${help[$1]}"; }

# usage COMMAND: what stands behind `Usage:`
usage() { sed -n 's/^Usage: //p' <<< "${help[$1]}"; }

# rest COMMAND: what stands below its options
rest() { sed '1,/^Options:$/d' <<< "${help[$1]}" | sed '1,/^$/d'; }

is_path() { [[ " ${paths[*]} " == *" $1 "* ]]; }

has_works() { [[ -n ${help["$1 --works"]:-} ]]; }

# each_option COMMAND CALL: calls it for each option, with its letter, its long name, its value and what it is for. A letter and a
# value are empty where there is none.
each_option() {
    local words value told letter
    while IFS=$mark read -r words value told; do
        letter=
        [[ $words != *,* ]] || letter=${words%%,*}
        "$2" "${letter#-}" "${words##*--}" "$value" "$told"
    done < <(items "$1" Options)
}

# --- the man page

roff() { sed -e 's/\\/\\e/g' -e 's/-/\\-/g' -e "s/^[.']/\\\\\\&&/"; }

man_option() {
    printf '.TP\n'
    printf '%s' "${1:+-$1, }--$2" | roff | sed 's/.*/.B &/'
    [ -z "$3" ] || printf ' %s' "$3" | roff
    printf '\n'
    roff <<< "$4"
}

man_arguments() {
    local words value told
    while IFS=$mark read -r words value told; do
        printf '.TP\n.I %s\n%s\n' "$(roff <<< "$value")" "$(roff <<< "$told")"
    done < <(items "$1" Arguments)
}

# man_text: lines that are laid out by hand
man_text() { printf '.PP\n.nf\n'; roff; printf '.fi\n'; }

# man_command COMMAND TITLE: a section on its use, its arguments and its options
man_command() {
    printf '.SH %s\n' "$2"
    usage "$1" | roff | sed 's/.*/.B &/'
    printf '.PP\n'
    about "$1" | roff
    man_arguments "$1"
    each_option "$1" man_option
}

man_page() {
    local command
    printf '.TH ROYALTY_RUN 1 "" "%s"\n' "$("$program" --version | head -n 1)"
    printf '.SH NAME\n%s \\- %s\n' "$name" "$(about all | sed 's/./\l&/' | roff)"
    printf '.SH SYNOPSIS\n.nf\n'
    for command in "${commands[@]}"; do
        usage "$command" | roff
        ! has_works "$command" || usage "$command --works" | roff
    done
    printf '.fi\n.SH DESCRIPTION\n'
    rest all | sed '/^Exit status:$/,$d' | man_text
    printf '.SH OPTIONS\n'
    each_option all man_option
    for command in "${commands[@]}"; do
        man_command "$command" "${command^^}"
        rest "$command" | man_text
        has_works "$command" || continue
        man_command "$command --works" "${command^^} OVER SEVERAL FILES"
        [ "$(rest "$command")" = "$(rest "$command --works")" ] || rest "$command --works" | man_text
    done
    printf '.SH EXIT STATUS\n'
    rest all | sed '1,/^Exit status:$/d' | roff | sed -E 's/^ *([0-9]+) +(.*)/.TP\n.B \1\n\2/'
}

# --- completions

# The words of all options that are gathered, of those whose value is a path, and of those whose value is another. With a `=` behind
# it a word is an option whose value has begun with a name.
gather() {
    local word
    for word in ${1:+"-$1"} "--$2"; do
        options+=("$word")
        if [ -n "$3" ]; then if is_path "$3"; then files+=("$word"); else values+=("$word"); fi; fi
    done
    gather_named "$@"
}

# gather_named: the same of an option whose value is a name and a path, and of no other
gather_named() { [ "$3" != "$named" ] || files+=("--$2="); }

# takes_files COMMAND: whether its arguments are paths
takes_files() {
    local words value told
    while IFS=$mark read -r words value told; do ! is_path "$value" || return 0; done < <(items "$1" Arguments)
    return 1
}

# one_of WORD..: a pattern of bash that is any of the words
one_of() { local IFS='|'; printf '%s' "$*"; }

bash_completion() {
    local command options files values
    cat << 'TEXT'
# Completion of royalty_run for bash.
_royalty_run() {
    local word=${COMP_WORDS[COMP_CWORD]} before=${COMP_WORDS[COMP_CWORD - 1]} options=
    # bash takes `--tis=F` for three words, and `--cwr NAME=F` for four: before is then `--cwr=`
    local at=$COMP_CWORD
    if [[ $word == '=' ]]; then word= at=$((COMP_CWORD - 1))
    elif [[ $before == '=' ]] && ((COMP_CWORD > 2)); then at=$((COMP_CWORD - 2)) before=${COMP_WORDS[COMP_CWORD - 2]}
    fi
    if ((at < COMP_CWORD && at > 2)) && [[ $before != -* ]]; then
        before=${COMP_WORDS[at - 1]}=
        [[ $before != '==' ]] || before=${COMP_WORDS[at - 2]}=
    fi
    COMPREPLY=()
TEXT
    options=() files=() values=()
    each_option all gather
    printf '    if ((COMP_CWORD == 1)); then\n        mapfile -t COMPREPLY < <(compgen -W "%s" -- "$word")\n        return\n    fi\n' \
        "$(one_of "${commands[@]}" "${options[@]}" | tr '|' ' ')"
    printf '    case ${COMP_WORDS[1]} in\n'
    for command in "${commands[@]}"; do
        options=() files=() values=()
        each_option "$command" gather
        ! has_works "$command" || each_option "$command --works" gather_named
        printf '    %s)\n        options="%s"\n        case $before in\n' "$command" "${options[*]}"
        [ ${#files[@]} = 0 ] || printf '        %s) mapfile -t COMPREPLY < <(compgen -f -- "$word"); return ;;\n' "$(one_of "${files[@]}")"
        [ ${#values[@]} = 0 ] || printf '        %s) return ;;\n' "$(one_of "${values[@]}")"
        printf '        esac\n'
        ! takes_files "$command" || printf '        [[ $word == -* ]] || mapfile -t COMPREPLY < <(compgen -f -- "$word")\n'
        printf '        ;;\n'
    done
    cat << 'TEXT'
    esac
    [[ $word != -* ]] || mapfile -t COMPREPLY < <(compgen -W "$options" -- "$word")
}
complete -o filenames -F _royalty_run royalty_run
TEXT
}

# quoted TEXT: in single quotes, as a shell reads them
quoted() { printf "'%s'" "${1//\'/\'\\\'\'}"; }

# zsh_text TEXT: as it stands within brackets of a word of _arguments
zsh_text() { sed -e 's/[][\\]/\\&/g' <<< "$1"; }

# is_named COMMAND OPTION: whether its value is a name and a path, in this help of a command or in that with `--works`
is_named() {
    local words value told
    while IFS=$mark read -r words value told; do
        [ "$words $value" != "--$2 $named" ] || return 0
    done < <(items "$1" Options; ! has_works "$1" || items "$1 --works" Options)
    return 1
}

# The command is `command`. An option whose value is a name and a path may stand several times.
zsh_option() {
    local word often= action=
    ! is_path "$3" || action=_files
    if is_named "$command" "$2"; then
        often='*'
        if is_path "$3"; then action='{compset -P 1 "*="; _files}'; else action='{compset -P 1 "*=" && _files}'; fi
    fi
    for word in ${1:+"-$1"} "--$2${3:+=}"; do
        printf ' \\\n            %s' "$(quoted "$often$word[$(zsh_text "$4")]${3:+:$3:$action}")"
    done
}

zsh_completion() {
    local command
    cat << 'TEXT'
#compdef royalty_run
# Completion of royalty_run for zsh.
local curcontext=$curcontext state line
local -A opt_args
local -a commands
commands=(
TEXT
    for command in "${commands[@]}"; do printf '    %s\n' "$(quoted "$command:$(about "$command")")"; done
    command=all
    printf ')\n_arguments -C'
    each_option all zsh_option
    cat << 'TEXT'
 \
    '1: :->command' '*:: :->words'
case $state in
command) _describe command commands ;;
words)
    case $words[1] in
TEXT
    for command in "${commands[@]}"; do
        printf '    %s)\n        _arguments' "$command"
        each_option "$command" zsh_option
        ! takes_files "$command" || printf " \\\\\n            '*:file:_files'"
        printf '\n        ;;\n'
    done
    printf '    esac\n    ;;\nesac\n'
}

fish_option() {
    local value=
    [ -z "$3" ] || { { is_path "$3" || [ "$3" = "$named" ]; } && value=' -r -F' || value=' -x'; }
    printf 'complete -c %s -n %s%s -l %s%s -d %s\n' "$name" "$(quoted "$condition")" "${1:+ -s $1}" "$2" "$value" "$(quoted "$4")"
}

fish_completion() {
    local command condition=__fish_use_subcommand
    printf '# Completion of %s for fish.\ncomplete -c %s -f\n' "$name" "$name"
    for command in "${commands[@]}"; do
        printf 'complete -c %s -n %s -a %s -d %s\n' "$name" "$condition" "$command" "$(quoted "$(about "$command")")"
    done
    each_option all fish_option
    for command in "${commands[@]}"; do
        condition="__fish_seen_subcommand_from $command"
        each_option "$command" fish_option
        ! takes_files "$command" || printf 'complete -c %s -n %s -F\n' "$name" "$(quoted "$condition")"
    done
}

man_page > "$folder/$name.1"
bash_completion > "$folder/$name.bash"
zsh_completion > "$folder/_$name"
fish_completion > "$folder/$name.fish"
