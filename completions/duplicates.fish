# Completions of duplicates for fish.

for name in duplicates fastbloom-duplicates
    complete -c $name -l items -x -d 'How many different lines are expected'
    complete -c $name -l rate -x -d 'The share of new lines that may be held back by mistake'
    complete -c $name -l longest -x -d 'How many bytes a line may have'
    complete -c $name -l skip-longer -d 'Prints longer lines with the new ones, unsifted'
    complete -c $name -l fixed -d 'Keeps one filter for the expected lines'
    complete -c $name -l blocked -d 'As --fixed, by a blocked filter'
    complete -c $name -l last -x -d 'Prints each line that is not among the last different ones'
    complete -c $name -l held-back -d 'Prints the lines that are held back'
    complete -c $name -l count -d 'Prints how many lines were read and held back'
    complete -c $name -s z -l zero -d 'Lines end in a zero byte'
    complete -c $name -s q -l quiet -d 'Tells nothing of a run that ends well'
    complete -c $name -l key -x -d 'The key of the hash'
    complete -c $name -s o -l output -r -F -d 'Writes this file'
    complete -c $name -s h -l help -d 'Print help'
    complete -c $name -s V -l version -d 'Print version'
end
