# Completion of zy_bench, zview, zdb, zplay, zsuite and zlogs for fish.
set -l commands run asm dis check threads trace debug search find end order help

complete -c zy_bench -f -n "not __fish_seen_subcommand_from $commands" -a "$commands"
complete -c zy_bench -f -n '__fish_seen_subcommand_from help' -a "$commands"
complete -c zy_bench -l help -s h -d 'Print help'
complete -c zy_bench -l version -s V -d 'Print the version' -n "not __fish_seen_subcommand_from $commands"
complete -c zy_bench -l image -d 'The input is an image' -n '__fish_seen_subcommand_from run threads trace search find end'
complete -c zy_bench -l json -d 'Steps are objects of JSON' -n '__fish_seen_subcommand_from run trace order'
complete -c zy_bench -l every -x -d 'Keep copies at multiples of N' -n '__fish_seen_subcommand_from debug'
complete -c zy_bench -l ring -x -d 'Keep at most N copies' -n '__fish_seen_subcommand_from debug'
complete -c zy_bench -l for -x -d 'What to look for' -n '__fish_seen_subcommand_from search find' \
  -a 'differs aborted own killed badkey missing duplicate frozen nopage gone committed over stuck deadlock'
complete -c zy_bench -l always -x -d 'What every state is to meet' -n '__fish_seen_subcommand_from search find'
complete -c zy_bench -l from -x -d 'Take the first N choices as taken' -n '__fish_seen_subcommand_from search'
complete -c zy_bench -l kill -d 'Transactions may be killed' -n '__fish_seen_subcommand_from search'
complete -c zy_bench -l without -x -d 'Leave out choices of this kind' -n '__fish_seen_subcommand_from search' \
  -a 'start begin kill run take finish push'
complete -c zy_bench -l canon -d 'Write canonical text' -n '__fish_seen_subcommand_from search end order'
complete -c zy_bench -l states -x -d 'Look at N states at most' -n '__fish_seen_subcommand_from search order'
complete -c zy_bench -l gap -x -d 'At most N missing steps for each gap' -n '__fish_seen_subcommand_from order'
complete -c zy_bench -l settled -d 'Ask for an end without a migration or an active transaction' -n '__fish_seen_subcommand_from order'
complete -c zy_bench -l furthest -r -d 'Keep the furthest order' -n '__fish_seen_subcommand_from order'
complete -c zy_bench -l threads -x -d 'Search by N threads' -n '__fish_seen_subcommand_from search'

complete -c zview -l svg -d 'The picture alone'
complete -c zview -l mermaid -d 'A sequenceDiagram'
complete -c zview -l text -d 'Lanes in the terminal'
complete -c zview -l image -d 'The input is an image'
complete -c zview -l steps -x -d 'A part of the run'
complete -c zview -l title -x -d 'The title'
complete -c zview -l fold -x -a 'yes no' -d 'Whether like steps share a row'
complete -c zview -l find -x -d 'Mark the states that meet a goal'
complete -c zview -l help -s h -d 'Print help'

complete -c zdb -l help -s h -d 'Print help'

complete -c zlogs -l help -s h -d 'Print help'

complete -c zplay -l port -x -d 'The port'
complete -c zplay -l no-open -d 'Open no browser'
complete -c zplay -l help -s h -d 'Print help'

complete -c zsuite -l all -x -d 'All shortest schedules, at most N'
complete -c zsuite -l for -x -d 'What to look for' -a 'differs aborted own killed badkey missing duplicate frozen nopage gone committed over stuck deadlock'
complete -c zsuite -l always -x -d 'What every state is to meet'
complete -c zsuite -l image -d 'The input is an image'
complete -c zsuite -l from -x -d 'Take the first N choices as taken'
complete -c zsuite -l kill -d 'Transactions may be killed'
complete -c zsuite -l without -x -d 'Leave out choices of this kind' -a 'start begin kill run take finish push'
complete -c zsuite -l states -x -d 'Give up after N states'
complete -c zsuite -l help -s h -d 'Print help'
