# Completions of fc for fish: put this file into a folder of fish_complete_path.
# Made by tools/pages.
complete -c fc -n 'not __fish_seen_subcommand_from check stable trace run gen replay mail format' -f
complete -c fc -n 'not __fish_seen_subcommand_from check stable trace run gen replay mail format' -a check -d 'says whether a program stabilises, and after how many rounds'
complete -c fc -n 'not __fish_seen_subcommand_from check stable trace run gen replay mail format' -a stable -d 'writes the final value of each device, without running the program'
complete -c fc -n 'not __fish_seen_subcommand_from check stable trace run gen replay mail format' -a trace -d 'writes for each device its final value and a cheapest path'
complete -c fc -n 'not __fish_seen_subcommand_from check stable trace run gen replay mail format' -a run -d 'runs a script: rounds on several threads, edits, rubbish, shows'
complete -c fc -n 'not __fish_seen_subcommand_from check stable trace run gen replay mail format' -a gen -d 'runs a scenario made from a number'
complete -c fc -n 'not __fish_seen_subcommand_from check stable trace run gen replay mail format' -a replay -d 'replays a log, and writes what each device then holds'
complete -c fc -n 'not __fish_seen_subcommand_from check stable trace run gen replay mail format' -a mail -d 'replays a log of messages, or makes one from a number'
complete -c fc -n 'not __fish_seen_subcommand_from check stable trace run gen replay mail format' -a format -d 'writes a program in its standard layout'

# check
complete -c fc -n '__fish_seen_subcommand_from check' -f
complete -c fc -n '__fish_seen_subcommand_from check' -l facts -d 'adds the facts of each node of the unfolded main'
complete -c fc -n '__fish_seen_subcommand_from check' -l settle -d 'adds after how many rounds each device holds its value'
complete -c fc -n '__fish_seen_subcommand_from check' -l from-table -d 'with --settle: counts from the network\'s table and pending firings'
complete -c fc -n '__fish_seen_subcommand_from check' -l changes -d 'with --settle: what holds while the network changes as a third section allows'

# stable
complete -c fc -n '__fish_seen_subcommand_from stable' -f

# trace
complete -c fc -n '__fish_seen_subcommand_from trace' -f

# run
complete -c fc -n '__fish_seen_subcommand_from run' -f
complete -c fc -n '__fish_seen_subcommand_from run' -l workers -x -d 'threads that fire devices, 1 to 16 (4)'
complete -c fc -n '__fish_seen_subcommand_from run' -l log -d 'adds the log of all steps'
complete -c fc -n '__fish_seen_subcommand_from run' -l table -d 'adds the table of what the devices have published'

# gen
complete -c fc -n '__fish_seen_subcommand_from gen' -f
complete -c fc -n '__fish_seen_subcommand_from gen' -l devices -x -d 'devices of the ring, 3 to 512 (64)'
complete -c fc -n '__fish_seen_subcommand_from gen' -l workers -x -d 'threads that fire devices, 1 to 16 (4)'

# replay
complete -c fc -n '__fish_seen_subcommand_from replay' -f
complete -c fc -n '__fish_seen_subcommand_from replay' -l rounds -d 'adds how many rounds the log has after its last edit'
complete -c fc -n '__fish_seen_subcommand_from replay' -l table -d 'adds the table of what the devices have published'

# mail
complete -c fc -n '__fish_seen_subcommand_from mail' -f
complete -c fc -n '__fish_seen_subcommand_from mail' -l number -x -d 'makes the log from this number; then the input has no log'

# format
complete -c fc -n '__fish_seen_subcommand_from format' -f
