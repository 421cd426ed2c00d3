# Completions of fc for bash: source this file, or put it as fc into bash-completion's folder.
# Made by tools/pages.

_fc_words() {
    local command= word words= files= at
    # fc is a builtin of bash too, which this is not for
    if [[ $1 != */* && $(type -t "$1") == builtin ]]; then
        return
    fi
    local current=${COMP_WORDS[COMP_CWORD]} before=${COMP_WORDS[COMP_CWORD - 1]}
    case $current in '<' | '>' | '>>') return ;; esac
    case $before in '<' | '>' | '>>') return ;; esac
    # bash cuts --option=value into three words
    if [[ $current == = ]]; then
        current=
    elif [[ $before == = ]]; then
        before=${COMP_WORDS[COMP_CWORD - 2]}
    fi
    for ((at = 1; at < COMP_CWORD; at++)); do
        word=${COMP_WORDS[at]}
        if [[ $word != -* ]]; then
            command=$word
            break
        fi
    done
    case "$command $before" in
        "run --workers")
            compopt +o bashdefault +o default 2>/dev/null
            return ;;
        "gen --devices" | "gen --workers")
            compopt +o bashdefault +o default 2>/dev/null
            return ;;
        "mail --number")
            compopt +o bashdefault +o default 2>/dev/null
            return ;;
    esac
    case $command in
        "") words="check stable trace run gen replay mail format" ;;
        check) words="--facts --settle --from-table --changes" ;;
        stable) words="" ;;
        trace) words="" ;;
        run) words="--workers --log --table" ;;
        gen) words="--devices --workers" ;;
        replay) words="--rounds --table" ;;
        mail) words="--number" ;;
        format) words="" ;;
    esac
    if [[ $files && $current != -* ]]; then
        return
    fi
    compopt +o bashdefault +o default 2>/dev/null
    COMPREPLY=($(compgen -W "$words" -- "$current"))
}

complete -o bashdefault -o default -F _fc_words fc
