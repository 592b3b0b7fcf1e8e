# What the launchers at the top of the repository do where their program isn't built: they run an unproved build of the sources. Read in by `.`
# behind tools/launch.sh, after these are set:
#
#     top             the top of the repository
#     build           the line that proves and builds the program
#
# `reads_input` is the launcher's own: whether these words read standard input.

# Of an input with more bytes than this, the bytes after the next one make no difference.
most_bytes=16777216

# Whether a program was built after the last change of the sources.
is_current() {
    [ -x "$1" ] || return 1
    newer=$(find "$top/crates.txt" "$top/crates" -name out -prune -o \
        -type f \( -name '*.rt' -o -name '*.antt' -o -name crates.txt \) -newer "$1" -print) || return 1
    [ -z "$newer" ]
}

give_up() {
    say "$1"
    exit 70
}

# Puts standard input into a file, since the unproved build takes two seconds of silence for its end.
take_input() {
    attend head -c $((most_bytes + 1)) >"$room/input" 2>/dev/null
    [ "$status" -ne 0 ] || return 0
    # Where reading fails again it was the reading that failed.
    head -c 1 >/dev/null 2>&1 || end_with 3
    give_up "standard input can't be put into a file under ${TMPDIR:-/tmp}"
}

run_unproved() {
    say "this build is not proved: the sources are compiled and run anew at each call, which takes one to five minutes"
    say "to have answers at once, prove and build the program, once, in 25 to 60 minutes on four cores: $build"
    command -v rt >/dev/null || give_up "there is no proved program, and the Rattle kit's command rt isn't found"
    are_utf8 "$@" || end_with 6
    room=$(mktemp -d 2>/dev/null) || give_up "no temporary folder can be made under ${TMPDIR:-/tmp}"
    : >"$room/input"
    ! reads_input "$@" || take_input
    cd "$top/crates/$name" || exit 70
    attend setsid rt try -- "$@" <"$room/input" >"$room/output" 2>"$room/log"
    if grep -q '^run=ended' "$room/log"; then
        { cat "$room/output"; } 2>/dev/null || end_with 4
        end_with "$status"
    fi
    if grep -q '^run=no-answer' "$room/log"; then
        reason=$(sed -n 's/^checked: no-answer: //p' "$room/log")
        give_up "the unproved build gives no answer${reason:+, since $reason}; prove and build the program"
    fi
    cat "$room/log" >&2
    give_up "the unproved build failed, as told above"
}
