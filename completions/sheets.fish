# Completions of fish for sheets.
complete -c sheets -n __fish_use_subcommand -f
complete -c sheets -n __fish_use_subcommand -f -a share -d 'Share the limits of a sheet'
complete -c sheets -n __fish_use_subcommand -f -a check -d 'Check grants within the limits of a sheet'
complete -c sheets -n __fish_use_subcommand -f -a help -d 'Print help'
complete -c sheets -n __fish_use_subcommand -s V -l version -d 'Print version'
complete -c sheets -s h -l help -d 'Print help'
complete -c sheets -n '__fish_seen_subcommand_from share' -l svg -d 'Draw the shares as a picture in SVG'
complete -c sheets -n '__fish_seen_subcommand_from share' -l by -x -d 'Depth of the users among whom it is shared first'
complete -c sheets -n '__fish_seen_subcommand_from check' -l by -x -d 'Depth of the users among whom grants are best'
complete -c sheets -n '__fish_seen_subcommand_from help' -f -a 'share check help'
