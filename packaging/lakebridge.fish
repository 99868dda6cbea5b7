# Completion of lakebridge for fish.
function __lakebridge_wants -d 'Which word comes next'
    set -l words (commandline -opc)
    set -l most 0
    switch "$words[3]"
        case sync full
            set most 6
        case check
            set most 5
        case show sweep
            set most 4
    end
    set -l next (math (count $words) + 1)
    switch $argv[1]
        case folder
            test $next = 2
        case command
            test $next = 3
        case '*'
            test $next -gt 3 -a $next -le $most; and not contains $argv[1] $words[4..]
    end
end

complete -c lakebridge -f
complete -c lakebridge -n '__lakebridge_wants folder' -a '(__fish_complete_directories)'
complete -c lakebridge -n '__lakebridge_wants command' -a sync -d 'bring targets to the head of the source'
complete -c lakebridge -n '__lakebridge_wants command' -a full -d 'publish one commit with all that differs'
complete -c lakebridge -n '__lakebridge_wants command' -a check -d 'compare a target with the source'
complete -c lakebridge -n '__lakebridge_wants command' -a show -d 'print the table at its head'
complete -c lakebridge -n '__lakebridge_wants command' -a sweep -d 'remove what interrupted runs left of a target'
complete -c lakebridge -n '__lakebridge_wants command' -a compact -d 'write the log compactions of a Delta table'
complete -c lakebridge -n '__lakebridge_wants command' -a drill -d 'play a made-up table in memory'
complete -c lakebridge -n '__lakebridge_wants command' -a batch -d 'run a command for each table of a file'
for format in delta hudi iceberg
    complete -c lakebridge -n "__lakebridge_wants $format" -a $format
end
