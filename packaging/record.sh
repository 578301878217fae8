# shellcheck shell=sh disable=SC2034,SC2154 # ./macho-check and ./test read this, and set `top` first
# The record of a built program: the kit, a hash of the sources, a hash of the program, and a stamp of the sources, one
# per line. A program that is not as recorded is not run. The record guards against mistakes, not against someone who
# can write to build/. A built program is copied to build/programs, so that it runs while rt ci has put out/ away.

# take_program NAME: sets the paths of the program of a command, or of the library in both its forms, and of its record;
# where rt ci of the gate leaves the program; the words by which the program judges standard input; and how long it
# takes to prove it on two cores, as docs/dev/building.md has it.
take_program() {
    archive='' linking='' judging=''
    case $1 in
        macho-check) crate=$top/crates/macho_check judging="check -" takes="10 minutes" ;;
        macho-verify) crate=$top/crates/macho_verify judging="layout -" takes="35 minutes" ;;
        libkesvuot) crate=$top/crates/macho_c takes="45 minutes" ;;
    esac
    made=$crate/out/${crate##*/}
    program=$top/build/programs/$1
    kept=$top/build/records/$1
    [ "$1" = libkesvuot ] || return 0
    program=$top/build/lib/libkesvuot.so.2
    archive=$top/build/lib/libkesvuot.a
    linking="packaging/library packaging/kesvuot.map"
}

# say WHAT, refuse_program WHY: of the program `name`, on standard error.
say() {
    printf '%s: %s\n' "$name" "$1" >&2
}
refuse_program() {
    say "cannot build the program${reason:+ ($reason)}: $1"
    exit 126
}

# Prints a hash of the program.
hash_of_program() {
    cat -- "$program" ${archive:+"$archive"} 2>/dev/null | sha256sum
}

# Runs find over the sources of the program: all files of all crates, except the mutants. A superfluous build
# takes seconds, while a missing one would run an old program.
find_in_sources() (
    # shellcheck disable=SC2086 # words
    cd "$top" && find crates.txt $linking crates/*/* -regex 'crates/[^/]*/\(out\|must-fail\)' -prune -o "$@"
)

# Prints a hash of the names and contents of all sources. Only the name of a link counts; rt refuses links.
hash_of_sources() {
    list=$(find_in_sources -type f -exec sha256sum -- {} + -o ! -type d -print) || return
    printf '%s\n' "$list" | LC_ALL=C sort | sha256sum
}

# Prints a hash of the names, sizes and times of change of all sources, in a third of the time. A write sets the time of
# change, which no tool sets back, so sources with the recorded stamp are those that were hashed.
stamp_of_sources() {
    list=$(find_in_sources ! -type d -printf '%p %y %s %C@\n') || return
    printf '%s\n' "$list" | LC_ALL=C sort | sha256sum
}

# What is said where something has to be built, and find_kit finds no kit.
no_kit="the command rt of the Rattle kit is not on the PATH.
The kit has the compiler and the prover, and is not public. The line of \`rt version\` has to end with
\`logic dac8208d650f15bf\`. Without the kit, install a package or an archive from someone who has it:
docs/dev/building.md"

# Finds the kit and its name. `rt version` prints the kit's file KIT-ID too, but takes 0.2 s.
find_kit() {
    rt=$(readlink -f -- "$(command -v rt)") || return
    kit=$(head -n 1 -- "${rt%/bin/*}/KIT-ID" 2>/dev/null || "$rt" version </dev/null)
    [ -n "$kit" ]
}

# Whether all that the program is made of was proved, and is kept.
is_kept() {
    python3 "$top/packaging/prove" --kept "$rt" "${crate##*/}" 2>/dev/null
}

# Decides whether the program may run, and sets the reason if it may not. Without a kit on the PATH the recorded kit
# counts: its proofs still hold.
is_current() {
    reason="no build of it is recorded"
    [ -x "$program" ] && [ -r "$kept/record" ] || return
    { read -r old_kit && read -r old_sources && read -r built && read -r old_stamp && [ -n "$built" ]; } \
        <"$kept/record" || return
    reason="it is not what was built"
    [ "$(hash_of_program)" = "$built" ] || return
    reason="the sources have changed"
    [ "$(stamp_of_sources)" = "$old_stamp" ] || [ "$(hash_of_sources)" = "$old_sources" ] || return
    reason="the kit has changed"
    ! find_kit || [ "$kit" = "$old_kit" ]
}

# Prints the kit and the hash of the current sources.
made_of() {
    find_kit && sources=$(hash_of_sources) && printf '%s\n' "$kit" "$sources"
}

# begin_record FILE: notes the sources before a build. The time of the file is when the build started.
begin_record() {
    started=$1
    touch "$started" && stamp=$(stamp_of_sources) && before=$(made_of)
}

# Whether the sources are still as noted. An edit that was undone during the build shows in the time of its change.
is_unchanged() {
    [ "$(made_of)" = "$before" ] && [ -z "$(find_in_sources -cnewer "$started" -print)" ]
}

# Copies the program from where rt has left it. The last step is atomic.
place_program() {
    mkdir -p "${program%/*}" && cp -- "$made" "$program.new" && mv -f -- "$program.new" "$program"
}

# Records the program after it is built.
write_record() {
    built=$(hash_of_program) && mkdir -p "$kept" && printf '%s\n' "$before" "$built" "$stamp" >"$kept/record"
}
