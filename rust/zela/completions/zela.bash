# Completion of zela's words for bash. It needs no other package.

_zela_options() { # COMMAND: its long options
    case $1 in
    check) echo --all --allow-changes --recursive --jobs --format --quiet --help ;;
    fix) echo --all --bad --dry-run --format --quiet --help ;;
    reseal) echo --all --in-place --dry-run --format --quiet --help ;;
    bits) echo --format --help ;;
    esac
}

_zela() { # zela WORD BEFORE, as bash calls it: the word at the cursor, and the one before it
    local word=$2 before=$3 commands='check fix reseal bits help' words=
    # bash takes --format=json for three words.
    [ "$before" != = ] || before=${COMP_WORDS[COMP_CWORD - 2]}
    case $COMP_CWORD:${COMP_WORDS[1]}:$before in
    1:*) words="$commands --help --version" ;;
    2:help:*) words=$commands ;;
    *:help:* | *:-j | *:--jobs) ;;
    *:--format) words='text json jsonl csv' ;;
    *:--bad) words='drop repeat' ;;
    *)
        if [[ $word = -* && " ${COMP_WORDS[*]:0:COMP_CWORD} " != *' -- '* ]]; then
            words=$(_zela_options "${COMP_WORDS[1]}")
        else
            # Only a name is quoted by bash, and ends with a slash where it is a folder's.
            compopt -o filenames 2>/dev/null
            mapfile -t COMPREPLY < <(compgen -f -- "$word")
            return
        fi
        ;;
    esac
    mapfile -t COMPREPLY < <(compgen -W "$words" -- "$word")
}

complete -F _zela zela
