#compdef farm
# Completion of farm's words in zsh. It is a file _farm in a folder of fpath.

_farm_searches() {
    compset -P '*,'
    local -a whole begun
    whole=(all:'a good list of searches' tree:'the precedence tree, exact' 'rule\:lft:one pass, latest finish first' 'rule\:mts:one pass, most successors first' 'rule\:spt:one pass, shortest first')
    begun=('sample\::passes drawn from a SEED' 'improve\::local search from a SEED' 'prove\::proofs within CONFLICTS')
    _describe -t searches search whole -S '' -- begun -S ''
}

_farm() {
    local -a commands
    commands=(
        check:'read a project and print what it holds'
        solve:'search for a short schedule'
        verify:'tell whether a schedule is feasible'
        draw:'draw a feasible schedule as SVG'
        show:'print a feasible schedule as a table'
        compare:'tell what differs between two schedules'
        bench:'rows of many files'
        prove:'look for a schedule and a proof that none is shorter'
        replay:'replay a script of requests'
        serve:'answer requests over connections'
        config:'print what a configuration means'
        clauses:'write the clauses of a project and a bound'
        refute:'write a proof that no schedule is within a limit'
        certify:'check a schedule and a proof'
        bound:'find a lower bound, or check a proof of one'
        infeasible:'check a proof that no schedule is feasible'
        help:'help on all commands or on one'
    )
    if ((CURRENT == 2)); then
        _describe -t commands command commands
        _arguments '--help[help]' '--version[the version]'
        return
    fi
    local command=$words[2]
    shift words
    ((CURRENT--))
    case $command in
    help) _describe -t commands command commands ;;
    solve)
        _arguments '--search[searches with commas between them]:search:_farm_searches' '--nodes[the most nodes of each search]:nodes:' '--json[print one JSON object]' \
            '--progress[tell how far the search is]' '--quiet[print no progress]' '--improvements[print each better schedule]' '--help[help]' '1:file:_files -g "*.mm"'
        ;;
    verify) _arguments '--all[tell each breach]' '--help[help]' '1:file:_files -g "*.mm"' '2:schedule:_files' ;;
    draw)
        _arguments '--order[the order of the rows]:order:(number start)' '--prove[prove the bound within conflicts]:conflicts:' '--no-bound[leave the bound out]' \
            '--before[an earlier schedule]:schedule:_files' '--start[when period 0 begins]:date:' '--unit[the length of a period]:unit:(hour shift day week)' \
            '--names[lines J,NAME]:file:_files' '--help[help]' '1:file:_files -g "*.mm"' '2:schedule:_files'
        ;;
    show)
        _arguments '--csv[write CSV]' '--start[when period 0 begins]:date:' '--unit[the length of a period]:unit:(hour shift day week)' '--names[lines J,NAME]:file:_files' \
            '--help[help]' '1:file:_files -g "*.mm"' '2:schedule:_files'
        ;;
    compare) _arguments '--help[help]' '1:file:_files -g "*.mm"' '2:before:_files' '3:after:_files' ;;
    bench)
        _arguments '--search[searches]:search:_farm_searches' '--nodes[nodes]:nodes:' '--jobs[processes]:jobs:' '--steps[steps for each bound]:steps:' '--prove[run farm prove]' \
            '--seconds[the most seconds of a file]:seconds:' '--optima[known optima]:file:_files' '--schedules[folder for schedules]:folder:_files -/' \
            '--resume[rows of an earlier run]:file:_files' '--join[rows to put side by side]:file:_files' '--total[the most seconds of all files]:seconds:' '--report[a page of the rows]:file:_files' '--progress[tell progress]' \
            '--quiet[tell nothing]' '--help[help]' '*:file or folder:_files'
        ;;
    prove)
        _arguments '--seconds[the most seconds]:seconds:' '--jobs[workers]:jobs:' '--memory[megabytes]:megabytes:' '--conflicts[the most conflicts]:conflicts:' '--json[print one JSON object]' '--improvements[print each better schedule]' \
            '--progress[tell each better schedule and bound]' '--quiet[tell nothing]' '--from[a schedule to begin with]:schedule:_files' \
            '--keep[keep the proof in a folder]:folder:_files -/' '--solver[the solver]:solver:(cadical kissat)' '--help[help]' '1:file:_files -g "*.mm"'
        ;;
    refute) _arguments '--conflicts[the most conflicts]:conflicts:' '--memory[megabytes]:megabytes:' '--help[help]' '1:file:_files -g "*.mm"' '2:periods:' ;;
    bound) _arguments '--steps[the most steps for each bound]:steps:' '--help[help]' '1:file:_files -g "*.mm"' '2:periods:' '3:proof:_files' ;;
    replay) _arguments '--config[the configuration]:file:_files -g "*.json"' '--strict[end with 1 if a request is refused]' '--help[help]' '1:script:_files' ;;
    serve) _arguments '--config[the configuration]:file:_files -g "*.json"' '--port[the port, or 0]:port:' '--sessions[connections, 1 to 64]:sessions:' '--help[help]' ;;
    *) _arguments '--help[help]' '*:file:_files' ;;
    esac
}

_farm "$@"
