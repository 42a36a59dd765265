# Completion of farm's words in bash.

# Completes the last of several searches that have commas between them.
_farm_searches() {
    local word=$1 before=
    [[ $word == *,* ]] && before=${word%,*},
    compgen -P "$before" -W "all tree rule:lft rule:mts rule:spt sample: improve: prove:" -- "${word##*,}"
}

_farm() {
    local word=${COMP_WORDS[COMP_CWORD]} before=${COMP_WORDS[COMP_CWORD - 1]} words= at
    COMPREPLY=()
    # (bash takes a colon and a sign of equality for words of their own; `at` is where the value begins)
    for ((at = COMP_CWORD; at > 1; at--)); do
        [[ ${COMP_WORDS[at]} == : || ${COMP_WORDS[at - 1]} == : ]] || break
    done
    if [[ ${COMP_WORDS[at]} == = ]]; then
        at=$((at + 1)) before=${COMP_WORDS[at - 2]}
    elif [[ ${COMP_WORDS[at - 1]} == = ]]; then
        before=${COMP_WORDS[at - 2]}
    else
        before=${COMP_WORDS[at - 1]}
    fi
    case $before in
    --search)
        local joined front
        joined=$(printf '%s' "${COMP_WORDS[@]:at:COMP_CWORD - at + 1}")
        front=${joined%"${word#[:=]}"}
        COMPREPLY=($(_farm_searches "$joined"))
        ((at < COMP_CWORD)) && COMPREPLY=("${COMPREPLY[@]#"$front"}")
        [[ ${COMPREPLY[*]} == *: ]] && compopt -o nospace 2>/dev/null
        return
        ;;
    --order)
        COMPREPLY=($(compgen -W "number start" -- "$word"))
        return
        ;;
    --unit)
        COMPREPLY=($(compgen -W "hour shift day week" -- "$word"))
        return
        ;;
    --solver)
        COMPREPLY=($(compgen -W "cadical kissat" -- "$word"))
        return
        ;;
    --port | --sessions | --nodes | --jobs | --seconds | --start | --steps) return ;;
    --config | --from | --keep | --names | --before | --optima)
        mapfile -t COMPREPLY < <(compgen -f -- "$word")
        return
        ;;
    esac
    local commands="check solve verify draw show compare bench prove replay serve config clauses refute certify bound infeasible"
    if [ "$COMP_CWORD" = 1 ]; then
        words="$commands help --help --version"
    elif [[ $word == -* ]]; then
        case ${COMP_WORDS[1]} in
        solve) words="--search --nodes --json --progress --quiet --improvements --help" ;;
        verify) words="--all --help" ;;
        draw) words="--order --prove --no-bound --before --start --unit --names --help" ;;
        show) words="--csv --start --unit --names --help" ;;
        prove) words="--seconds --jobs --memory --conflicts --from --json --improvements --progress --quiet --keep --solver --help" ;;
        bench) words="--search --nodes --jobs --steps --prove --seconds --optima --schedules --resume --join --total --report --progress --quiet --help" ;;
        replay) words="--config --strict --help" ;;
        serve) words="--config --port --sessions --help" ;;
        bound) words="--steps --help" ;;
        refute) words="--conflicts --memory --help" ;;
        *) words=--help ;;
        esac
    elif [ "${COMP_WORDS[1]}" = help ]; then
        words=$commands
    fi
    if [ -n "$words" ]; then
        COMPREPLY=($(compgen -W "$words" -- "$word"))
    else
        mapfile -t COMPREPLY < <(compgen -f -- "$word")
    fi
}
complete -o filenames -F _farm farm
