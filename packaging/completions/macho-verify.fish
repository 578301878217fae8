# Completion of macho-verify(1) for fish.

set -l none 'test (count (commandline -opc)) -eq 1'

complete -c macho-verify -n $none -f -a 'layout strict linked unambiguous sealed' -d 'The profile'
complete -c macho-verify -n $none -l help -d 'Show the words'
complete -c macho-verify -n $none -l version -d 'Print the version'
