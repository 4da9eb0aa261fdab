# shellcheck shell=sh
# What the scripts share. They find the repository's folder by their own place, as root, read this file,
# make whole paths of what they are given, and then go to root.
# A missing kit, compiler, folder or argument is one line on standard error and status 2.

stop() {
    echo "$1" >&2
    exit 2
}

# needs COMMAND: stops where COMMAND is not on the path.
needs() {
    command -v "$1" >/dev/null || stop "this needs $1, which is not on the path"
}

# folder PATH: the whole path of a folder, wherever the caller stands.
folder() {
    (cd "$1" 2>/dev/null && pwd) || stop "there is no folder $1"
}

# Sees that the kit is there, and that this machine is one that it builds for.
find_kit() {
    command -v rt >/dev/null ||
        stop "no Rattle kit: put its folder bin on the path, so that 'rt version' answers"
    [ "$(uname -m)" = x86_64 ] || stop "the kit builds for x86-64 alone, and this is $(uname -m)"
}

# older FILE: whether FILE, which is made of the crates, is not there or older than something that it is made of.
older() {
    [ ! -f "$1" ] || [ -n "$(find "$root/crates" "$root/crates.txt" -name out -prune -o -type f -newer "$1" -print | head -n 1)" ]
}

# proved CRATE COMMAND...: runs a command of rt in the folder of a crate. What it says goes to target/log, and to
# standard error a line for each crate that is proved; where it fails, all of it.
proved() {
    crate=$1
    shift
    mkdir -p "$root/target/log"
    log=$root/target/log/$(echo "$crate $*" | tr -c 'A-Za-z0-9\n' _).out
    { (cd "$root/crates/$crate" && "$@") </dev/null 2>&1 || echo "$* ended with status $?"; } | tee "$log" |
        sed -n -e 's/^logic=proved functions=\([0-9]*\).*/one crate more is proved: \1 functions/p' >&2
    case $(tail -n 1 "$log") in
    "$* ended with status "*)
        cat "$log" >&2
        exit 1
        ;;
    esac
}
