# Read by the scripts beside it: a room outside the repository for a program of bench/, since the gate takes no sources outside crates/.

# Makes a room with a copy of a program, whose files stand in bench/NAME with `.txt` behind their names, and of the crates that it uses.
room_of() {
    top=$(cd "$(dirname "$0")/.." && pwd) || exit 1
    room=$(mktemp -d) || exit 1
    trap 'rm -rf "$room"' EXIT
    program=$1
    shift
    mkdir -p "$room/crates/$program/src" && cp "$top/HANDLES" "$room/" || exit 1
    for crate in "$@"; do
        copy_crate "$crate"
    done
    echo "$program: $*" >>"$room/crates.txt"
    for file in "$top/bench/$program"/*.rt.txt; do
        cp "$file" "$room/crates/$program/src/$(basename "$file" .txt)" || exit 1
    done
    cd "$room/crates/$program" || exit 1
}

# Copies a crate and those that it uses.
copy_crate() {
    [ -d "$top/crates/$1" ] && [ ! -d "$room/crates/$1" ] || return 0
    mkdir "$room/crates/$1" && cp -R "$top/crates/$1/src" "$top/crates/$1/specs" "$room/crates/$1/" || exit 1
    [ ! -d "$top/crates/$1/proofs" ] || cp -R "$top/crates/$1/proofs" "$room/crates/$1/" || exit 1
    grep "^$1:" "$top/crates.txt" >>"$room/crates.txt"
    for below in $(sed -n "s/^$1: *//p" "$top/crates.txt"); do
        copy_crate "$below"
    done
}
