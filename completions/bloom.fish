# Completions of bloom for fish.

for name in bloom fastbloom-bloom
    complete -c $name -f
    complete -c $name -s h -l help -d 'Print help'
    complete -c $name -s V -l version -d 'Print version'
end
