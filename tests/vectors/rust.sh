# shellcheck shell=sh
# Builds the Rust that the stored answers, the comparison and the benchmark ask. A script that reads this
# file has read tools/kit.sh, and stands in the repository's folder when it calls
#
#   build_rust FOLDER OUT [FILE]
#
# FOLDER is the folder src of a checkout of u-analytics at commit 4f64bede7f; of its detection/pelt.rs,
# cusum.rs and ewma.rs FILE is built alone if it is given. OUT has the libraries afterwards: the files as
# they are (pelt, cusum, ewma), pelt.rs with functions appended that open its private ones (pelt_opened),
# and copies in which what Rust leaves open is as docs/RULES.md has it (pelt_ruled, ewma_ruled). The Rust has
# the first edition of the EWMA chart alone: copies that count finite readings have the second (ewma_counted,
# ewma_counted_ruled).
#
# RUSTC is the compiler, by default rustc, and RUSTFLAGS has more words for it, such as a target.

# compile WORDS...: calls the compiler.
compile() {
    # shellcheck disable=SC2086
    "${RUSTC:-rustc}" --edition 2021 -C opt-level=3 ${RUSTFLAGS:-} "$@"
}

# rust NAME FILE: compiles FILE as the library NAME.
rust() {
    compile --crate-type rlib --crate-name "$1" -o "$out/lib$1.rlib" "$2"
}

# copied NAME COPY LINES APPENDED EDIT...: a copy of the file NAME.rs of the Rust, as the library COPY, by the
# edits of sed, which have to change LINES lines, with the file APPENDED behind it.
copied() {
    name=$1
    copy=$2
    lines=$3
    appended=$4
    shift 4
    sed "$@" "$detection/$name.rs" | cat - "$appended" |
        sed "s|RULES_RS|$root/tests/vectors/rules.rs|" >"$out/$copy.rs"
    [ "$(diff "$detection/$name.rs" "$out/$copy.rs" | grep -c '^<')" -eq "$lines" ] ||
        stop "the copy $copy of $name.rs does not differ in the $lines lines that it should"
    rust "$copy" "$out/$copy.rs"
}

# The logarithm is the rule's, and a NaN radius is ranked above every number; the copy counts the
# candidates that live at once.
build_pelt() {
    rust pelt "$detection/pelt.rs"
    copied pelt pelt_ruled 6 tests/vectors/pelt_ruled.rs \
        -e 's/\.ln()/.rule_ln()/' \
        -e 's/x\.1 \.1\.total_cmp(&y\.1 \.1)/rank(x.1 .1).total_cmp(\&rank(y.1 .1))/' \
        -e 's/let mut centre = vec!.*/& note_living(alive.len());/' \
        -e 's/alive\.push(born);/& note_living(alive.len());/'
    cat "$detection/pelt.rs" tests/vectors/pelt_opened.rs >"$out/pelt_opened.rs"
    rust pelt_opened "$out/pelt_opened.rs"
}

build_cusum() { rust cusum "$detection/cusum.rs"; }

# The power is the rule's, whatever the name of the one that the file takes.
rule_power='s/\.[a-z_]*powi(/.rule_powi(/'

# counted COPY LINES APPENDED EDIT...: a copy of ewma.rs in which the place of a reading is the number of finite
# readings up to and with it, and not its index and 1.
counted() {
    copied ewma "$@" \
        -e 's/let mut z = .*;/& let mut place = 0;/' \
        -e 's/^ *z = .*;/& place += 1;/' \
        -e 's/control_limit_half_width(i[^)]*)/control_limit_half_width(place)/'
}

build_ewma() {
    rust ewma "$detection/ewma.rs"
    copied ewma ewma_ruled 1 tests/vectors/ewma_ruled.rs -e "$rule_power"
    counted ewma_counted 4 /dev/null
    counted ewma_counted_ruled 5 tests/vectors/ewma_ruled.rs -e "$rule_power"
}

build_rust() {
    needs "${RUSTC:-rustc}"
    detection=$1/detection
    out=$2
    [ -f "$detection/pelt.rs" ] ||
        stop "no detection/pelt.rs in $1: give the folder src of a checkout of u-analytics"
    mkdir -p "$out"
    case ${3:-all} in
    all) build_pelt && build_cusum && build_ewma ;;
    pelt.rs) build_pelt ;;
    cusum.rs) build_cusum ;;
    ewma.rs) build_ewma ;;
    *) stop "the Rust has no file $3" ;;
    esac
}
