# This file completes the arguments of ptb-resume in fish, from a folder of $fish_complete_path: a file, --, and the command.

complete -c ptb-resume -n 'not contains -- -- (commandline -opc)' -a '--' -d 'Before the command'
complete -c ptb-resume -n 'contains -- -- (commandline -opc)' -x -a '(__fish_complete_subcommand --fcs-skip=2)'
complete -c ptb-resume -s h -l help -d 'Print help'
complete -c ptb-resume -s V -l version -d 'Print version'
