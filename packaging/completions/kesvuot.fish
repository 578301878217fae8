# Completion of kesvuot(1) for fish.

set -l commands check explain show diff map policy
set -l none "not __fish_seen_subcommand_from $commands"

complete -c kesvuot -n $none -a check -d 'Judge files and folders'
complete -c kesvuot -n $none -a explain -d 'Say why a file is refused'
complete -c kesvuot -n $none -a show -d 'Show the layout of a file'
complete -c kesvuot -n $none -a diff -d 'Compare the layouts of two files'
complete -c kesvuot -n $none -a map -d 'Draw a file and its address space'
complete -c kesvuot -n $none -a policy -d 'Write a policy that a file meets'
complete -c kesvuot -n $none -l version -d 'Print the versions'
complete -c kesvuot -s h -l help -d 'Show the words'
complete -c kesvuot -n "__fish_seen_subcommand_from $commands" -l profile -x -a 'layout strict linked unambiguous sealed' -d 'The rules'
complete -c kesvuot -n '__fish_seen_subcommand_from check explain show map' -l rules-url -x -d 'The pages of the rules'

complete -c kesvuot -n '__fish_seen_subcommand_from check' -l format -x -a 'text json jsonl sarif junit github' \
    -d 'How to print what is found'
complete -c kesvuot -n '__fish_seen_subcommand_from check' -l explain -d 'Print what is wrong with each refused file'
complete -c kesvuot -n '__fish_seen_subcommand_from check' -l include -x -d 'Judge only such names'
complete -c kesvuot -n '__fish_seen_subcommand_from check' -l exclude -x -d 'Leave out such names'
complete -c kesvuot -n '__fish_seen_subcommand_from check' -l archives -d 'In folders, judge the members of archives too'
complete -c kesvuot -n '__fish_seen_subcommand_from check' -l expect -x -d 'Fail if fewer files are judged'
complete -c kesvuot -n '__fish_seen_subcommand_from check' -l allow-none -d 'Do not fail if no file is judged'
complete -c kesvuot -n '__fish_seen_subcommand_from check explain show map' -l max-unpacked -x -d 'The most bytes to unpack of an archive'
complete -c kesvuot -n '__fish_seen_subcommand_from check' -l fail-other-kinds \
    -d 'Refuse files of another kind in folders and archives'
complete -c kesvuot -n '__fish_seen_subcommand_from check' -l skip-other-kinds -d 'Skip files of another kind'
complete -c kesvuot -n '__fish_seen_subcommand_from check' -l no-unsupported-slices -d 'Refuse slices that are not judged'
complete -c kesvuot -n '__fish_seen_subcommand_from check' -l policy -r -F -d 'What accepted files have to meet besides'
complete -c kesvuot -n '__fish_seen_subcommand_from check' -l jobs -x -d 'How many processes judge'
complete -c kesvuot -n '__fish_seen_subcommand_from check' -l mmap -d 'Map files to which nobody else can write'
complete -c kesvuot -n '__fish_seen_subcommand_from check' -l files-from -r -F -d 'Judge the files that a list names'
complete -c kesvuot -n '__fish_seen_subcommand_from check' -s 0 -l null -d 'Names in the list end in a zero byte'
complete -c kesvuot -n '__fish_seen_subcommand_from check' -l manifest -r -F -d 'Write the hash and verdict of each file'
complete -c kesvuot -n '__fish_seen_subcommand_from check' -l baseline -r -F -d 'Fail only for refusals not in a manifest'
complete -c kesvuot -n '__fish_seen_subcommand_from check' -l since -r -F -d 'The same, and do not read unchanged files'
complete -c kesvuot -n '__fish_seen_subcommand_from check' -l cluster -x -d 'Judge on the workers of a Dask scheduler'
complete -c kesvuot -n '__fish_seen_subcommand_from check' -s q -l quiet -d 'Print only files that are not accepted'
complete -c kesvuot -n '__fish_seen_subcommand_from check' -l no-progress -d 'Show no bar'

complete -c kesvuot -n '__fish_seen_subcommand_from explain' -l json -d 'Print an object'
complete -c kesvuot -n '__fish_seen_subcommand_from show' -l all -d 'Print the exports, imports and fixups too'
complete -c kesvuot -n '__fish_seen_subcommand_from show' -l json -d 'Print an object with all fields'
complete -c kesvuot -n '__fish_seen_subcommand_from diff' -l json -d 'Print an object with all changes'

complete -c kesvuot -n '__fish_seen_subcommand_from map' -s o -l output -r -F -d 'The file to write'

complete -c kesvuot -n '__fish_seen_subcommand_from policy' -l json -d 'Write JSON'
