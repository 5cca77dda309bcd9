# Completion of bpfs for fish. Put this file into ~/.config/fish/completions.

complete -c bpfs -n __fish_use_subcommand -f
complete -c bpfs -n __fish_use_subcommand -a format -d 'Make FILE an empty file system, erasing what it held'
complete -c bpfs -n __fish_use_subcommand -a run -d 'Run the script on standard input against FILE'
complete -c bpfs -n __fish_use_subcommand -a check -d 'Verify FILE (read-only) and print its totals'
complete -c bpfs -n __fish_use_subcommand -a play -d 'Run pseudo-random calls and power cuts over FILE'
complete -c bpfs -n __fish_use_subcommand -a export -d 'Print a script that recreates all files of FILE'
complete -c bpfs -n __fish_use_subcommand -a help -d 'Print help'
complete -c bpfs -s h -l help -f -d 'Print help'
complete -c bpfs -n __fish_use_subcommand -s V -l version -f -d 'Print the version of the program'

complete -c bpfs -n '__fish_seen_subcommand_from format' -l blocks -x -a '8 64 256 1024 4096 16384 65536' \
    -d 'Size in blocks of 4 KiB, 8 to 65536'
complete -c bpfs -n '__fish_seen_subcommand_from format' -l version -x -a '1 2 3' -d 'Version of the format'
complete -c bpfs -n '__fish_seen_subcommand_from play' -l seed -x -d 'Seed of the pseudo-random operations'
complete -c bpfs -n '__fish_seen_subcommand_from play' -l count -x -d 'Number of operations, at most 1000000'
complete -c bpfs -n '__fish_seen_subcommand_from help' -f -a 'format run check play export'
