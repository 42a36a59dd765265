# Completion of farm's words in fish.
set -l commands check solve verify draw show compare bench prove replay serve config clauses refute certify bound infeasible

function __farm_searches
    set -l word (commandline -ct)
    set -l before (string replace -rf '^(--search=)?(.*,)?[^,]*$' '$2' -- $word)
    for search in all tree rule:lft rule:mts rule:spt sample: improve: prove:
        echo "$before$search"
    end
end

complete -c farm -n "not __fish_seen_subcommand_from $commands help" -f -a "$commands help"
complete -c farm -n "not __fish_seen_subcommand_from $commands help" -l version -d 'The version'
complete -c farm -l help -d Help
complete -c farm -n "__fish_seen_subcommand_from help" -f -a "$commands"
complete -c farm -n "__fish_seen_subcommand_from solve bench" -l search -x -a '(__farm_searches)' -d 'Searches with commas between them'
complete -c farm -n "__fish_seen_subcommand_from solve bench" -l nodes -x -d 'The most nodes of each search'
complete -c farm -n "__fish_seen_subcommand_from solve prove" -l json -d 'Print one JSON object'
complete -c farm -n "__fish_seen_subcommand_from solve bench prove" -l progress -d 'Tell how far the search is'
complete -c farm -n "__fish_seen_subcommand_from solve bench" -l quiet -d 'Print no progress'
complete -c farm -n "__fish_seen_subcommand_from solve prove" -l improvements -d 'Print each better schedule'
complete -c farm -n "__fish_seen_subcommand_from verify" -l all -d 'Tell each breach of the schedule'
complete -c farm -n "__fish_seen_subcommand_from draw" -l order -x -a 'number start' -d 'The order of the rows'
complete -c farm -n "__fish_seen_subcommand_from draw" -l prove -x -d 'Prove the bound, in at most C conflicts'
complete -c farm -n "__fish_seen_subcommand_from draw" -l no-bound -d 'Leave the bound out of the heading'
complete -c farm -n "__fish_seen_subcommand_from draw" -l before -r -d 'An earlier schedule, as thin bars'
complete -c farm -n "__fish_seen_subcommand_from show" -l csv -d 'Write CSV'
complete -c farm -n "__fish_seen_subcommand_from show draw" -l start -x -d 'When period 0 begins'
complete -c farm -n "__fish_seen_subcommand_from show draw" -l unit -x -a 'hour shift day week' -d 'The length of a period'
complete -c farm -n "__fish_seen_subcommand_from show draw" -l names -r -d 'Lines J,NAME'
complete -c farm -n "__fish_seen_subcommand_from bench prove" -l jobs -x -d 'How many processes'
complete -c farm -n "__fish_seen_subcommand_from bench" -l prove -d 'Run farm prove on each file'
complete -c farm -n "__fish_seen_subcommand_from bench" -l optima -r -d 'Known optima'
complete -c farm -n "__fish_seen_subcommand_from bench" -l schedules -r -d 'A folder for the schedules'
complete -c farm -n "__fish_seen_subcommand_from bench" -l resume -r -d 'Rows of an earlier run'
complete -c farm -n "__fish_seen_subcommand_from bench" -l report -r -d 'A page of the rows'
complete -c farm -n "__fish_seen_subcommand_from bench" -l join -r -d 'Rows to put side by side'
complete -c farm -n "__fish_seen_subcommand_from bench" -l total -x -d 'The most seconds of all files'
complete -c farm -n "__fish_seen_subcommand_from bench prove" -l seconds -x -d 'The most seconds'
complete -c farm -n "__fish_seen_subcommand_from prove refute" -l memory -x -d 'The most megabytes of clauses'
complete -c farm -n "__fish_seen_subcommand_from prove refute" -l conflicts -x -d 'The most conflicts of a search'
complete -c farm -n "__fish_seen_subcommand_from prove" -l quiet -d 'Tell nothing while it runs'
complete -c farm -n "__fish_seen_subcommand_from prove" -l from -r -d 'A schedule to begin with'
complete -c farm -n "__fish_seen_subcommand_from prove" -l keep -r -d 'A folder for the proof'
complete -c farm -n "__fish_seen_subcommand_from prove" -l solver -x -a 'cadical kissat' -d 'The solver'
complete -c farm -n "__fish_seen_subcommand_from bound bench" -l steps -x -d 'The most steps for each bound'
complete -c farm -n "__fish_seen_subcommand_from replay serve" -l config -r -d 'The configuration, a JSON file'
complete -c farm -n "__fish_seen_subcommand_from replay" -l strict -d 'End with status 1 if a request is refused'
complete -c farm -n "__fish_seen_subcommand_from serve" -l port -x -d 'The port, or 0 for a free one'
complete -c farm -n "__fish_seen_subcommand_from serve" -l sessions -x -d 'How many connections are answered, 1 to 64'
