# shellcheck shell=bash disable=SC2207 # no word of ours has blanks
# Completion of kesvuot(1) for bash.

_kesvuot() {
    local current=${COMP_WORDS[COMP_CWORD]} previous=${COMP_WORDS[COMP_CWORD - 1]} words=
    # Without words of ours, bash completes the names of files.
    COMPREPLY=()
    case $previous in
        --profile) words="layout strict linked unambiguous sealed" ;;
        --format) words="text json jsonl sarif junit github" ;;
        --include | --exclude | --expect | --jobs | --max-unpacked | --rules-url | --cluster) return ;;
        *)
            if ((COMP_CWORD == 1)) && [[ $current != */* ]]; then
                words="check explain show diff map policy --help --version"
            elif [[ $current == -* ]]; then
                case ${COMP_WORDS[1]} in
                    check) words="--allow-none --archives --baseline --cluster --exclude --expect --explain --fail-other-kinds
                        --files-from --format --help --include --jobs --manifest --max-unpacked --mmap --no-progress
                        --no-unsupported-slices --null --policy --profile --quiet --rules-url --since
                        --skip-other-kinds" ;;
                    explain) words="--help --json --max-unpacked --profile --rules-url" ;;
                    show) words="--all --help --json --max-unpacked --profile --rules-url" ;;
                    diff | policy) words="--help --json --profile" ;;
                    map) words="--help --max-unpacked --output --profile --rules-url" ;;
                esac
            fi
            ;;
    esac
    COMPREPLY=($(compgen -W "$words" -- "$current"))
}

complete -o default -F _kesvuot kesvuot
