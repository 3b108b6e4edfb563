# Completions of fish for gorilla and the tools beside it. Put this file into ~/.config/fish/completions, or read it by source.

complete -c gorilla -f
complete -c gorilla -n 'not __fish_seen_subcommand_from run dump' -a run -d 'answer a workload on standard input'
complete -c gorilla -n 'not __fish_seen_subcommand_from run dump' -a dump -d 'write what the folder holds'
complete -c gorilla -n '__fish_seen_subcommand_from run dump' -l shards -x -a 1 -d 'how many shards; one, yet'
complete -c gorilla -n '__fish_seen_subcommand_from run' -l slots -x -a '1024 16384' -d 'room for so many series at a time'

complete -c openmetrics -n 'not __fish_seen_subcommand_from to-workload from-dump' -f -a to-workload -d 'texts of metrics to lines of a workload'
complete -c openmetrics -n 'not __fish_seen_subcommand_from to-workload from-dump' -f -a from-dump -d 'a dump or printed answers to OpenMetrics'
complete -c openmetrics -l help -d 'say how it is used'
complete -c openmetrics -l output -r -d 'the file to write'
complete -c openmetrics -n '__fish_seen_subcommand_from to-workload' -l format -x -a 'auto openmetrics prometheus' -d 'the form of the texts'
complete -c openmetrics -n '__fish_seen_subcommand_from to-workload' -l at -x -d 'the time of samples that have none'
complete -c openmetrics -n '__fish_seen_subcommand_from to-workload' -l lanes -x -a '1 2 3 4 5 6 7 8' -d 'deal the series to so many lanes'
complete -c openmetrics -n '__fish_seen_subcommand_from to-workload' -l join -x -d 'a join behind so many scrapes'
complete -c openmetrics -n '__fish_seen_subcommand_from to-workload' -l split -d 'write parts of at most 16 MiB'
complete -c openmetrics -n '__fish_seen_subcommand_from from-dump' -l workload -r -d 'the workload that the answers answer'

complete -c plot -l help -d 'say how it is used'
complete -c plot -l workload -r -d 'the workload that the answers answer'
complete -c plot -l series -x -d 'show this series, or those that a pattern matches'
complete -c plot -l from -x -d 'show no point before it'
complete -c plot -l to -x -d 'show no point after it'
complete -c plot -l text -d 'a chart of characters'
complete -c plot -l title -x -d 'the title'
complete -c plot -l width -x -d 'pixels, or characters'
complete -c plot -l height -x -d 'pixels, or rows of characters'
complete -c plot -l output -r -d 'the file to write'

complete -c crash -f
complete -c crash -l help -d 'say how it is used'
complete -c crash -l kills -x -d 'how often the program is killed'
complete -c crash -l rounds -x -d 'how many rounds each workload has'
complete -c crash -l seed -x -d 'other workloads and moments'
complete -c crash -l folder -r -d 'where the store is made'
complete -c crash -l program -r -d 'the program to kill'
