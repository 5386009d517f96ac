# This file completes the arguments of ptb-shares in fish, from a folder of $fish_complete_path.

complete -c ptb-shares -l steps -x -d 'Begin at most N commands'
complete -c ptb-shares -l memory -x -d 'Give the program N bytes of memory'
complete -c ptb-shares -l choose -x -d 'Where INPUT finds no line, ask for an answer from 1 to N'
complete -c ptb-shares -s h -l help -d 'Print help'
complete -c ptb-shares -s V -l version -d 'Print version'
complete -c ptb-shares -k -a '(__fish_complete_suffix .bas)'
