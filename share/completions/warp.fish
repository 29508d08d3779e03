# Completion of warp for fish: put this file into ~/.config/fish/completions.
set -l commands print format reference run check drive hunt draw explain help
set -l turns reference run drive draw
set -l written reference run drive

# The actions that the automata of a source put out or do inside, by their names.
function __warp_actions
    set -l words (commandline -opc)
    test (count $words) -eq 3; and sed -n 's/^ *\(output\|internal\) *\([A-Za-z][A-Za-z0-9_]*\).*/\2/p' -- $words[3] 2>/dev/null | sort -u
end

complete -c warp -n "not __fish_seen_subcommand_from $commands" -f -a "$commands"
complete -c warp -n "not __fish_seen_subcommand_from $commands" -l version -d "Name, version and toolchain"
complete -c warp -l help -d "How to use the program, or a command"
complete -c warp -n "__fish_seen_subcommand_from $turns" -x -l seed -d "The seed of the turns"
complete -c warp -n "__fish_seen_subcommand_from $turns hunt" -x -l stream -d "The stream of component 0"
complete -c warp -n "__fish_seen_subcommand_from $turns hunt" -x -l gap -d "How many gaps there are"
complete -c warp -n "__fish_seen_subcommand_from $turns hunt" -l from-zero -d "Draw gaps from 0 on"
complete -c warp -n "__fish_seen_subcommand_from $turns hunt" -x -l ticks -d "The last tick"
complete -c warp -n "__fish_seen_subcommand_from $turns explain" -r -l table -d "A table of turns"
complete -c warp -n "__fish_seen_subcommand_from $written" -l trace -d "Only turns with an external action"
complete -c warp -n "__fish_seen_subcommand_from $written" -l head -d "Begin with the line trace 2"
complete -c warp -n "__fish_seen_subcommand_from $written hunt" -l progress -d "Tell once a second how far it is"
complete -c warp -n "__fish_seen_subcommand_from run hunt" -x -l workers -d "How many threads there are at most"
complete -c warp -n "__fish_seen_subcommand_from run" -x -l budget -d "How far a worker runs ahead"
complete -c warp -n "__fish_seen_subcommand_from run" -x -l window -d "How many turns of a component may wait to be committed"
complete -c warp -n "__fish_seen_subcommand_from run" -x -l groups -d "How many groups of components there are"
complete -c warp -n "__fish_seen_subcommand_from run" -l stats -d "Tell what the workers did"
complete -c warp -n "__fish_seen_subcommand_from hunt" -x -l seeds -d "The first and the last seed"
complete -c warp -n "__fish_seen_subcommand_from hunt" -l count -d "How many seeds have the action"
complete -c warp -n "__fish_seen_subcommand_from draw" -x -l from -d "The first tick that is drawn"
complete -c warp -n "__fish_seen_subcommand_from draw" -x -l to -d "The last tick that is drawn"
complete -c warp -n "__fish_seen_subcommand_from explain" -r -l steps -d "A file of steps"
complete -c warp -n "__fish_seen_subcommand_from explain" -r -l actions -d "A file of actions"
complete -c warp -n "__fish_seen_subcommand_from format" -l check -d "Write nothing; the status tells"
complete -c warp -n "__fish_seen_subcommand_from hunt" -f -a "(__warp_actions)" -d "An action"
