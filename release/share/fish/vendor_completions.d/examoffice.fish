# Completion of examoffice for fish.
set -l commands check check-all places compare load serve export explain
complete -c examoffice -n "not __fish_seen_subcommand_from $commands help" -f
complete -c examoffice -s h -l help -d 'Print help'
complete -c examoffice -n __fish_use_subcommand -s V -l version -d 'Print version'
complete -c examoffice -n __fish_use_subcommand -a check -d 'Judge a solution by the rules of ITC 2007'
complete -c examoffice -n __fish_use_subcommand -a check-all -d 'Judge many solutions of one session'
complete -c examoffice -n __fish_use_subcommand -a places -d 'List every place for an exam'
complete -c examoffice -n __fish_use_subcommand -a compare -d 'Say what differs between two solutions'
complete -c examoffice -n __fish_use_subcommand -a load -d 'Load an instance into an office, once'
complete -c examoffice -n __fish_use_subcommand -a serve -d 'Serve an office over HTTP'
complete -c examoffice -n __fish_use_subcommand -a export -d 'Print the published solution'
complete -c examoffice -n __fish_use_subcommand -a explain -d 'Explain the number of a fault'
complete -c examoffice -n '__fish_seen_subcommand_from explain' -f -a 'file store connection'
complete -c examoffice -n __fish_use_subcommand -a help -d 'Print the help of a command'
complete -c examoffice -n '__fish_seen_subcommand_from help' -f -a "$commands"
complete -c examoffice -n '__fish_seen_subcommand_from check' -l why -d 'List each summand of the penalty after the report'
complete -c examoffice -n '__fish_seen_subcommand_from check' -l student -x -d 'With --why: list only the summands of this student'
complete -c examoffice -n '__fish_seen_subcommand_from check' -l json -d 'Print an object of JSON for each solution'
complete -c examoffice -n '__fish_seen_subcommand_from check-all' -l json -d 'Print an object of JSON for each solution'
complete -c examoffice -n '__fish_seen_subcommand_from load serve export' -l db -r -d 'The file of the office\'s database'
complete -c examoffice -n '__fish_seen_subcommand_from serve' -l port -x -d 'The port of 127.0.0.1; 0 takes any'
complete -c examoffice -n '__fish_seen_subcommand_from serve' -l connections -x -d 'How many connections are served'
complete -c examoffice -n '__fish_seen_subcommand_from serve' -l patience -x -d 'Timeout of a message, and of a reply'
