# Completion for bash: source this file, or put it into /usr/share/bash-completion/completions/orlyukan.
# shellcheck shell=bash

_orlyukan() {
    local word=${COMP_WORDS[COMP_CWORD]} before=${COMP_WORDS[COMP_CWORD - 1]} options='' name
    COMPREPLY=()
    if [ "$COMP_CWORD" -eq 1 ]; then
        mapfile -t COMPREPLY < <(compgen -W 'join check salvage split to-office from-office package help --version' -- "$word")
        return
    fi
    case ${COMP_WORDS[1]} in
    join) options='--force --json --profile --timestamp --cells --salvage --list --picture --help --' ;;
    check) options='--json --profile --timestamp --cells --salvage --help --' ;;
    salvage) options='--force --json --profile --timestamp --list --picture --help --' ;;
    to-office) options='--force --json --profile --timestamp --encoding --help --' ;;
    from-office) options='--force --json --profile --timestamp --type --apid --secondary-apid --qualifier --help --' ;;
    split | package) options='--force --help --' ;;
    *) return ;;
    esac
    for name in "${COMP_WORDS[@]:2:COMP_CWORD-2}"; do [ "$name" != -- ] || options=''; done
    case $before in --list | --picture) options='' ;; esac
    if [ -n "$options" ] && [ "$before" = --profile ]; then
        mapfile -t COMPREPLY < <(compgen -W 'varint fixed' -- "$word")
    elif [ -n "$options" ] && [ "$before" = --timestamp ]; then
        mapfile -t COMPREPLY < <(compgen -W '1 2 3 4 5 6 7 8 9 10 11 12 13 14 15 16' -- "$word")
    elif [ -n "$options" ] && [[ $before == --@(cells|encoding|type|apid|secondary-apid|qualifier) ]]; then
        COMPREPLY=()
    elif [ -n "$options" ] && [ "${word:0:1}" = - ]; then
        mapfile -t COMPREPLY < <(compgen -W "$options" -- "$word")
    elif [ "${COMP_WORDS[1]}" = package ]; then
        mapfile -t COMPREPLY < <(compgen -d -- "$word")
    else
        mapfile -t COMPREPLY < <(compgen -f -- "$word")
    fi
}

complete -o filenames -F _orlyukan orlyukan ./orlyukan
