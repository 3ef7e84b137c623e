# Completes the words of tardorelga in bash. Its commands and their options it asks of the program itself.

# The lines of a help that are set in, which begin with a command or an option.
_tardorelga_list() { # PROGRAM [COMMAND]
    "$@" --help 2>/dev/null </dev/null | sed -n 's/^    \([a-z-]\)/\1/p'
}

# Whether a word is an option with a value that is not the name of a file.
_tardorelga_wants_value() { # PROGRAM COMMAND WORD
    [[ $3 == --* ]] && _tardorelga_list "$1" "$2" | grep -q -- "^$3 [A-Z]" 2>/dev/null
}

# Where nothing is answered, bash completes names of files.
_tardorelga() {
    local program=${1/#\~/$HOME} word=$2 before=$3 words
    COMPREPLY=()
    if ((COMP_CWORD == 1)); then
        words="$(_tardorelga_list "$program" | cut -d ' ' -f 1) --help --version"
    elif _tardorelga_wants_value "$program" "${COMP_WORDS[1]}" "$before"; then
        compopt +o default 2>/dev/null
        return 0
    elif [[ $word == -* && $before != -o && " ${COMP_WORDS[*]:1:COMP_CWORD-1} " != *' -- '* ]]; then
        words="$(_tardorelga_list "$program" "${COMP_WORDS[1]}" | grep '^-' | sed 's/[ ,].*//') --help"
    else
        return 0
    fi
    mapfile -t COMPREPLY < <(compgen -W "$words" -- "$word")
}

complete -o default -F _tardorelga tardorelga
