# Made by editors/make of the help texts in crates/command_line/src/texts.rt: change those, and make it again.

# The lines that are read, as what may be meant.
_orca_take() {
    local line
    while IFS= read -r line; do COMPREPLY+=("$line"); done
}

# The words of a list that begin with the word at the cursor.
_orca_words() {
    _orca_take < <(compgen -W "$1" -- "$word")
}

# The files whose names end so and begin with the word at the cursor, and the folders.
_orca_files() {
    compopt -o filenames 2>/dev/null
    _orca_take < <({ compgen -d -- "$word"; compgen -f -- "$word" | grep -- "$1\$"; } | sort -u)
}

_orca() {
    local word=${COMP_WORDS[COMP_CWORD]} before=${COMP_WORDS[COMP_CWORD - 1]} options= before_files=0 only_files= arguments=0 i
    COMPREPLY=()
    if ((COMP_CWORD == 1)); then
        _orca_words 'check run code choice replay make -h --help -V --version'
        return
    fi
    case ${COMP_WORDS[1]} in
        check) options=' -h --help ' before_files=0 ;;
        run) options=' --nodes --resilience --turns --events --script --history --explain -h --help ' before_files=0 ;;
        code) options=' --source -h --help ' before_files=0 ;;
        choice) options=' --nodes -h --help ' before_files=0 ;;
        replay) options=' -h --help ' before_files=1 ;;
        make) options=' --nodes --resilience --lose --source -h --help ' before_files=0 ;;
        *) return ;;
    esac
    # `--nodes=3` comes in three words.
    if [[ $word == '=' ]]; then
        word=
    elif [[ $before == '=' ]]; then
        before=${COMP_WORDS[COMP_CWORD - 2]}
    fi
    for ((i = 2; i < COMP_CWORD; i++)); do
        [[ $only_files ]] || options=${options/ "${COMP_WORDS[i]}" / }
        case ${COMP_WORDS[i]} in
            --) only_files=yes ;;
            --nodes | --resilience | --turns | --events | --script | --lose)
                [[ ${COMP_WORDS[i + 1]} == '=' ]] && ((i++))
                ((i++))
                ;;
            -*) [[ $only_files ]] && ((arguments++)) ;;
            *) ((arguments++)) ;;
        esac
    done
    [[ $only_files ]] || case $before in
        --nodes) _orca_words '1 2 3 4 5 6 7 8 9 10 11 12 13 14 15 16'; return ;;
        --resilience) _orca_words '0 1 2 3 4 5 6 7'; return ;;
        --turns) _orca_words ''; return ;;
        --events) _orca_words ''; return ;;
        --script) _orca_files ''; return ;;
        --lose) _orca_words ''; return ;;
    esac
    if [[ $word == -* && ! $only_files ]]; then
        _orca_words "$options"
    elif ((arguments < before_files)); then
        _orca_files ''
    else
        _orca_files '[.]orca'
    fi
}
complete -F _orca orca
