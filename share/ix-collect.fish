# Completions of ix-collect for fish: kinds, options, and files for sources.
set -l kinds folder mbox maildir mh csv jsonl sqlite
complete -c ix-collect -n "not __fish_seen_subcommand_from $kinds" -f -a "$kinds"
complete -c ix-collect -s o -l output -r -F -d 'replace a file once all is collected'
complete -c ix-collect -s v -l verbose -d 'print each document that is left out or doubtful'
complete -c ix-collect -l match -x -d 'folder: only files whose name matches'
complete -c ix-collect -l name -x -d 'csv, jsonl: the field that is the name'
complete -c ix-collect -l text -x -d 'csv, jsonl: a field of the text'
complete -c ix-collect -l query -x -d 'sqlite: the query'
complete -c ix-collect -l path -x -d 'print the path whose name this is'
complete -c ix-collect -s h -l help -d 'print help'
