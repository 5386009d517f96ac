# This file completes the arguments of ptb-adapt in fish, from a folder of $fish_complete_path.

complete -c ptb-adapt -l dialect -x -a 'palo-alto pittman denver microsoft' -d 'The dialect of the listing'
complete -c ptb-adapt -l separator -x -d 'The sign between statements'
complete -c ptb-adapt -l random -x -a 'fraction zero one' -d 'What RND gives'
complete -c ptb-adapt -s q -l quiet -d 'Do not report changes that keep the meaning'
complete -c ptb-adapt -s h -l help -d 'Print help'
complete -c ptb-adapt -s V -l version -d 'Print version'
