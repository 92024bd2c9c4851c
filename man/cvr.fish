# Made by tools/manual from the help of cvr. Change that.
complete -c cvr -f
complete -c cvr -s h -l help -d 'Print help'
complete -c cvr -n __fish_use_subcommand -s V -l version -d 'Print the version'
complete -c cvr -n __fish_use_subcommand -a currents -d 'Print which snapshot of each cast vote record is current'
complete -c cvr -n __fish_use_subcommand -a conflicts -d 'Print each device, record and snapshot that the files give in two ways or more'
complete -c cvr -n __fish_use_subcommand -a tally -d 'Add up the votes of the current snapshots, by contest, unit and batch'
complete -c cvr -n __fish_use_subcommand -a check -d 'Check each file against the format and the election, and count its cast vote records'
complete -c cvr -n __fish_use_subcommand -a merge -d 'Print a report of all that the files hold, or one volume of it where it takes several'
complete -c cvr -n __fish_use_subcommand -a drill -d 'Try out how several offices take in files and pass on what they hold, and print what each holds at the end'
complete -c cvr -n __fish_use_subcommand -a explain -d 'Print what a code means, and what to do'
complete -c cvr -n __fish_use_subcommand -a help -d 'Print this message or the help of the given subcommand(s)'
complete -c cvr -n '__fish_seen_subcommand_from explain; and test (count (commandline -opc)) -eq 2' -f -a 'E1 E2 E3 rule E4 E5 E6 J2 N1 K1 K2 X1 H1 H2 V1 L1 L2 L3 L4 memory L5 words'
complete -c cvr -n 'not __fish_seen_subcommand_from help; and __fish_seen_subcommand_from currents conflicts tally check merge drill' -F
complete -c cvr -n '__fish_seen_subcommand_from currents conflicts tally check merge' -l files-from -r -F -d 'Take the files from a list'
complete -c cvr -n '__fish_seen_subcommand_from currents conflicts tally check merge' -l null -d 'Each path of the list ends with a NUL byte'
complete -c cvr -n '__fish_seen_subcommand_from help; and not __fish_seen_subcommand_from currents conflicts tally check merge drill' -f -a 'currents conflicts tally check merge drill'
