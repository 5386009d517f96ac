# This file completes the arguments of ptb-outcomes in fish, from a folder of $fish_complete_path.

complete -c ptb-outcomes -l by -x -a 'outcome ending last-line answer:' -d 'What runs must share'
complete -c ptb-outcomes -l match -x -d 'Runs that show a match, and the rest'
complete -c ptb-outcomes -l top -x -d 'Show only the N likeliest'
complete -c ptb-outcomes -l sampled -d 'The runs were drawn'
complete -c ptb-outcomes -l merge -d 'Add up tables of --json'
complete -c ptb-outcomes -l program -r -F -d "The program's name"
complete -c ptb-outcomes -l options -x -d 'The options of its runs'
complete -c ptb-outcomes -l csv -d 'Write a table for spreadsheets'
complete -c ptb-outcomes -l json -d 'Write a table that can be merged'
complete -c ptb-outcomes -l html -r -F -d 'Write a page for a browser'
complete -c ptb-outcomes -s h -l help -d 'Print help'
complete -c ptb-outcomes -s V -l version -d 'Print version'
