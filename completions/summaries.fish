# Completions of summaries for fish.

for name in summaries fastbloom-summaries
    set -l none __fish_use_subcommand
    complete -c $name -n $none -f
    complete -c $name -n $none -a build -d 'Reads keys and writes their filter'
    complete -c $name -n $none -a unite -d 'Writes the filter of all keys of some filters'
    complete -c $name -n $none -a ask -d 'Reads keys and writes those that may be in a filter'
    complete -c $name -n $none -a info -d 'Prints what a filter is'
    complete -c $name -n $none -a compare -d 'Prints how many keys two filters have'
    complete -c $name -n $none -a help -d 'Print the help of a command'
    complete -c $name -n $none -s V -l version -d 'Print version'
    complete -c $name -s h -l help -d 'Print help'

    set -l build '__fish_seen_subcommand_from build'
    complete -c $name -n $build -l bits -x -d 'At least this many bits'
    complete -c $name -n $build -l hashes -x -d 'How many bits each key sets'
    complete -c $name -n $build -l items -x -d 'How many keys are expected'
    complete -c $name -n $build -l rate -x -d 'The share of other keys that may be false positives'
    complete -c $name -n $build -l workers -x -d 'How many threads may fill the filter'
    complete -c $name -n $build -l blocked -d 'All bits of a key lie in 64 bytes'

    set -l ask '__fish_seen_subcommand_from ask'
    complete -c $name -n $ask -l absent -d 'Writes the keys that are surely not in'
    complete -c $name -n "$build ask" -s z -l zero -d 'A zero byte ends each key'
    complete -c $name -n "$build unite" -l json -d 'Writes the filter as JSON'
    complete -c $name -n $build -l key -x -d 'The key of the hash'
    complete -c $name -n "$build unite ask" -s o -l output -r -F -d 'Writes this file'
    complete -c $name -n '__fish_seen_subcommand_from info' -l json -d 'Prints one line of JSON'
    complete -c $name -n "$ask unite" -l hashes-up-to -x -d 'Refuses a filter with more hashes'
end
