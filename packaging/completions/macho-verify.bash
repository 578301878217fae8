# shellcheck shell=bash disable=SC2207 # no word of ours has blanks
# Completion of macho-verify(1) for bash.

_macho_verify() {
    local words=
    # Without words of ours, bash completes the names of files.
    ((COMP_CWORD > 1)) || words="layout strict linked unambiguous sealed --help --version"
    COMPREPLY=($(compgen -W "$words" -- "${COMP_WORDS[COMP_CWORD]}"))
}

complete -o default -F _macho_verify macho-verify
