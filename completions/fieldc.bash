# Completions of fieldc for bash: source this file, or put it as fieldc into bash-completion's folder.
# Made by tools/pages.

_fieldc_words() {
    local command= word words= files= at
    local current=${COMP_WORDS[COMP_CWORD]} before=${COMP_WORDS[COMP_CWORD - 1]}
    case $current in '<' | '>' | '>>') return ;; esac
    case $before in '<' | '>' | '>>') return ;; esac
    # bash cuts --option=value into three words
    if [[ $current == = ]]; then
        current=
    elif [[ $before == = ]]; then
        before=${COMP_WORDS[COMP_CWORD - 2]}
    fi
    for ((at = 1; at < COMP_CWORD; at++)); do
        word=${COMP_WORDS[at]}
        if [[ $word != -* ]]; then
            command=$word
            break
        fi
    done
    case "$command $before" in
        "check --changes" | "check --names")
            return ;;
        "check --confirm" | "check --period" | "check --lasts" | "check --delivery")
            compopt +o bashdefault +o default 2>/dev/null
            return ;;
        "check --format")
            compopt +o bashdefault +o default 2>/dev/null
            COMPREPLY=($(compgen -W "text gcc" -- "$current"))
            return ;;
        "settle --changes" | "settle --names")
            return ;;
        "settle --confirm" | "settle --period" | "settle --lasts" | "settle --delivery" | "settle --kinds")
            compopt +o bashdefault +o default 2>/dev/null
            return ;;
        "changes --names")
            return ;;
        "stable --names")
            return ;;
        "stable --kinds")
            compopt +o bashdefault +o default 2>/dev/null
            return ;;
        "trace --names")
            return ;;
        "trace --kinds")
            compopt +o bashdefault +o default 2>/dev/null
            return ;;
        "run --names")
            return ;;
        "run --workers" | "run --kinds")
            compopt +o bashdefault +o default 2>/dev/null
            return ;;
        "replay --names")
            return ;;
        "replay --kinds")
            compopt +o bashdefault +o default 2>/dev/null
            return ;;
        "mail --names")
            return ;;
        "mail --number" | "mail --kinds")
            compopt +o bashdefault +o default 2>/dev/null
            return ;;
        "gen --devices" | "gen --workers")
            compopt +o bashdefault +o default 2>/dev/null
            return ;;
        "compose --network" | "compose -o" | "compose --output")
            return ;;
        "compose --library")
            compopt +o bashdefault +o default 2>/dev/null
            return ;;
        "compose --show")
            compopt +o bashdefault +o default 2>/dev/null
            COMPREPLY=($(compgen -W "anywhere away broadcast channel collectAll collectAny collectMax collectMin collectSum colour countDown crowdWarning crowding density dispersal distance distanceAround distanceBetween distanceBy distanceSlow div eccentricity evacuate everywhere fadingMax forecast greatestAlong greatestOf64 heads hops hopsAround leader leaderPacked leastOf1024 leastOf64 majority mean nearest nearestByDistance nearestByHops nextHop onWay parent parentIn recently regionMean regionSum rest ruling rulingOf1024 size sparse sumAlong summariseMax summariseSum timer widest8" -- "$current"))
            return ;;
        "network --points" | "network --edges" | "network --scene" | "network --moves" | "network -o" | "network --output" | "network --changes" | "network --program" | "network --table" | "network --positions" | "network --names")
            return ;;
        "network --line" | "network --ring" | "network --grid" | "network --torus" | "network --disk" | "network --every" | "network --run" | "network --gone-after" | "network --move" | "network --range" | "network --scale" | "network --side" | "network --seed" | "network --weight" | "network --metric" | "network --unit" | "network --max-degree" | "network --set" | "network --inputs")
            compopt +o bashdefault +o default 2>/dev/null
            return ;;
        "picture -o" | "picture --output" | "picture --values" | "picture --positions" | "picture --names")
            return ;;
        "picture --show" | "picture --mark" | "picture --kinds" | "picture --title")
            compopt +o bashdefault +o default 2>/dev/null
            return ;;
        "picture --of")
            compopt +o bashdefault +o default 2>/dev/null
            COMPREPLY=($(compgen -W "stable settle from-table trace run replay mail changes changes-from-table" -- "$current"))
            return ;;
        "rounds -o" | "rounds --output" | "rounds --csv" | "rounds --names")
            return ;;
        "rounds --number" | "rounds --rounds" | "rounds --workers" | "rounds --title")
            compopt +o bashdefault +o default 2>/dev/null
            return ;;
        "sweep --points" | "sweep --edges" | "sweep -o" | "sweep --output" | "sweep --report" | "sweep --positions")
            return ;;
        "sweep --line" | "sweep --ring" | "sweep --grid" | "sweep --torus" | "sweep --disk" | "sweep --range" | "sweep --side" | "sweep --density" | "sweep --jitter" | "sweep --fail" | "sweep --weight" | "sweep --metric" | "sweep --unit" | "sweep --max-degree" | "sweep --set" | "sweep --count" | "sweep --seed" | "sweep --title" | "sweep --workers" | "sweep --scheduler" | "sweep --again")
            compopt +o bashdefault +o default 2>/dev/null
            return ;;
        "firmware --network")
            return ;;
        "firmware --name" | "firmware --neighbours" | "firmware -o" | "firmware --output" | "firmware --library")
            compopt +o bashdefault +o default 2>/dev/null
            return ;;
    esac
    case $command in
        "") words="check settle changes stable trace run replay mail gen format compose network picture rounds sweep firmware -h --help --version" ;;
        check) files=yes words="--facts --settle --from-table --why --changes --confirm --period --lasts --delivery --no-cut-check --format --json --names -h --help" ;;
        settle) files=yes words="--facts --from-table --why --changes --confirm --period --lasts --delivery --no-cut-check --json --csv --names --kinds -h --help" ;;
        changes) files=yes words="--names -h --help" ;;
        stable) files=yes words="--no-cut-check --json --csv --names --kinds -h --help" ;;
        trace) files=yes words="--no-cut-check --json --csv --names --kinds -h --help" ;;
        run) files=yes words="--workers --log --table --no-cut-check --json --csv --names --kinds -h --help" ;;
        replay) files=yes words="--rounds --table --no-cut-check --json --csv --names --kinds -h --help" ;;
        mail) files=yes words="--number --no-cut-check --json --csv --names --kinds -h --help" ;;
        gen) words="--devices --workers --json -h --help" ;;
        format) files=yes words="--json -h --help" ;;
        compose) files=yes words="--network --library --no-cut-check --unjudged -o --output --list --show -h --help" ;;
        network) words="--line --ring --grid --torus --disk --points --edges --scene --moves -o --output --every --run --gone-after --changes --move --range --scale --side --seed --undirected --weight --metric --unit --round --max-degree --set --inputs --program --table --positions --names -h --help" ;;
        picture) files=yes words="-o --output --values --of --show --page --rounds --positions --names --numbers --mark --kinds --arrows --title --no-cut-check -h --help" ;;
        rounds) files=yes words="-o --output --number --rounds --workers --title --csv --names --no-cut-check -h --help" ;;
        sweep) words="--line --ring --grid --torus --disk --points --edges --range --side --density --jitter --fail --weight --metric --unit --max-degree --set --count --seed --values -o --output --report --title --workers --scheduler --no-cut-check --again --positions -h --help" ;;
        firmware) words="--name --neighbours -o --output --cost --layout --network --library --unjudged -h --help" ;;
    esac
    if [[ $files && $current != -* ]]; then
        return
    fi
    compopt +o bashdefault +o default 2>/dev/null
    COMPREPLY=($(compgen -W "$words" -- "$current"))
}

complete -o bashdefault -o default -F _fieldc_words fieldc
