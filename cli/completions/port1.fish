# Completion of port1 for fish.

set -l commands list check show encode help

complete -c port1 -f
complete -c port1 -n "not __fish_seen_subcommand_from $commands" -a list -d 'List what is on the line'
complete -c port1 -n "not __fish_seen_subcommand_from $commands" -a check -d 'Count it; the exit status says whether all was well'
complete -c port1 -n "not __fish_seen_subcommand_from $commands" -a show -d 'Show what one frame is'
complete -c port1 -n "not __fish_seen_subcommand_from $commands" -a encode -d 'Encode frames as bits'
complete -c port1 -n "not __fish_seen_subcommand_from $commands" -a help -d 'Print help'
complete -c port1 -n "not __fish_seen_subcommand_from $commands" -s V -l version -d 'Print the version'
complete -c port1 -n "not __fish_seen_subcommand_from help" -s h -l help -d 'Print help'
complete -c port1 -n "__fish_seen_subcommand_from help" -a "$commands"
complete -c port1 -n "__fish_seen_subcommand_from list check show" -l dict -x -d 'The text of a dictionary'
complete -c port1 -n "__fish_seen_subcommand_from list check" -l origin -x -d 'The place of the first bit'
complete -c port1 -n "__fish_seen_subcommand_from list check" -l bits -d 'The capture is text'
complete -c port1 -n "__fish_seen_subcommand_from list check" -l two -d 'The capture is of two lines'
complete -c port1 -n "__fish_seen_subcommand_from list check" -l arrivals -d 'The bits of two lines as they arrived'
complete -c port1 -n "__fish_seen_subcommand_from list check" -l rest -x -d 'The silence after which the second line rests'
complete -c port1 -n "__fish_seen_subcommand_from list" -l station -x -d 'Only lines of this station'
complete -c port1 -n "__fish_seen_subcommand_from list" -l type -x -d 'Only lines of this frame type'
complete -c port1 -n "__fish_seen_subcommand_from list" -l kind -x -d 'Only lines of this kind' \
    -a 'frame damaged overlong abort idle stray answered missing spoilt late open pending'
complete -c port1 -n "__fish_seen_subcommand_from check" -l depth -x -d 'How many of the last frames are shown'
