# For every shell script here, which sources this file first: its help, its arguments, and the archive or program that it works on.
# shellcheck shell=bash

repository=$(cd "$(dirname "${BASH_SOURCE[0]}")/.." && pwd)
self_path=$(realpath "$0")
self=${self_path#"$repository"/}

# What the caller names is named from the caller's folder. The scripts work in the repository's.
[ -z "${HANKBOULDER_LIB_DIR:-}" ] || HANKBOULDER_LIB_DIR=$(realpath -m "$HANKBOULDER_LIB_DIR")
[ -z "${HANKBOULDER_JUDGE:-}" ] || HANKBOULDER_JUDGE=$(realpath -m "$HANKBOULDER_JUDGE")

# print_help: print the head comment of the script
print_help() {
    sed -n -e 1d -e '/^#/!q' -e 's/^# \{0,1\}//p' "$self_path"
}

# refuse WHY: end the script for arguments that it cannot use
refuse() {
    echo "$self: $1; $self --help says what it takes" >&2
    exit 2
}

# takes COUNT ARGUMENT..: print the help where an argument asks for it, and refuse empty ones and more than COUNT
takes() {
    local most=$1 argument
    shift
    for argument in "$@"; do
        if [ "$argument" = --help ]; then
            print_help
            exit 0
        fi
        [ -n "$argument" ] || refuse "an argument is empty"
    done
    [ $# -le "$most" ] || refuse "'${*:most+1:1}' is one argument too many"
}

# whole NAME TEXT LEAST: refuse a text that is not a whole number from LEAST to 999999999, in decimal
whole() {
    [[ $2 =~ ^(0|[1-9][0-9]{0,8})$ && $2 -ge $3 ]] || refuse "$1 is '$2', and has to be a whole number from $3 to 999999999"
}

# fail WHY: end the script for something that is missing
fail() {
    echo "$self: $1" >&2
    exit 1
}

# prove CRATE [anew]: prove a crate and those that it stands on, lowest first, and build them: a static library as
# target/staticlib/libCRATE.a, a program as target/bin/CRATE. Each crate gets a line on standard error as it is done. What rt says of one is
# target/log/CRATE.say, which stays as it was where rt has nothing to check, or target/log/CRATE.failed where it fails. Where rt cannot use
# what earlier runs on this machine kept, all is proved once more from nothing; after that, which the second argument says, such a failure
# is one.
prove() {
    local anew=${2:-} crate verb log failed start made
    command -v rt >/dev/null || fail "rt of the Rattle kit is not on the path, and it has to prove $1"
    mkdir -p target/log target/bin target/staticlib
    echo "$self: a line for each crate as it is proved; what rt says of it is target/log/CRATE.say" >&2
    for crate in $(crates_of "$1"); do
        verb=lib
        [ ! -f "crates/$crate/src/main.rt" ] || verb=run
        log=target/log/$crate.say
        failed=target/log/$crate.failed
        start=$SECONDS
        if ! (cd "crates/$crate" && rt "$verb" </dev/null) >"$failed" 2>&1; then
            if [ -z "$anew" ] && grep -q 'cannot be used' "$failed"; then
                prove_from_nothing "$1"
                prove "$1" anew
                return
            fi
            grep -A 3 ': error: ' "$failed" | head -n 20 >&2
            fail "'rt $verb' in crates/$crate failed, and $failed says why"
        fi
        if [ ! -f "$log" ] || grep -q '^logic=' "$failed"; then
            echo "rt: $crate proved ($((SECONDS - start)) s)" >>"$failed"
            mv "$failed" "$log"
        else
            rm "$failed"
        fi
        echo "  $crate proved ($((SECONDS - start)) s)" >&2
    done
    for made in "bin/$1" "staticlib/lib$1.a"; do
        [ ! -f "crates/$1/out/${made#*/}" ] || cp "crates/$1/out/${made#*/}" "target/$made"
    done
}

# prove_from_nothing CRATE: prove a crate and those that it stands on with nothing that earlier runs kept, here or in another checkout
prove_from_nothing() {
    local crate
    echo "$self: rt cannot use what earlier runs kept, so $1 is proved from nothing, which takes half an hour or more" >&2
    for crate in $(crates_of "$1"); do
        rm -rf "crates/$crate/out" "target/log/$crate.say"
    done
    (cd "crates/$1" && rt verdict </dev/null) >"target/log/$1.verdict" 2>&1 ||
        fail "'rt verdict' in crates/$1 failed, and target/log/$1.verdict says why"
}

# crates_of CRATE: print the crates of this repository that a crate depends on, and itself, a line each, in the order of crates.txt
crates_of() {
    awk -v asked="$1" '
        function take(crate, other) {
            if (!(crate in named) || crate in taken) return
            taken[crate]
            for (other in named) if ((crate, other) in uses) take(other)
        }
        { sub(/#.*/, ""); sub(/:/, " ") }
        NF { named[$1]; line[++lines] = $1; for (k = 2; k <= NF; k++) uses[$1, $k] }
        END { take(asked); for (k = 1; k <= lines; k++) if (line[k] in taken) print line[k] }' crates.txt
}

# need_archive CRATE: the archive of a crate has to be there. Leaves its path in library.
need_archive() {
    library=${HANKBOULDER_LIB_DIR:-target/staticlib}/lib$1.a
    [ -f "$library" ] ||
        fail "the archive $library is missing: 'make' writes target/staticlib/libhankboulder.a; HANKBOULDER_LIB_DIR names another folder"
}

# make_archive CRATE: the same, but where HANKBOULDER_LIB_DIR names no folder the archive is made here
make_archive() {
    [ -n "${HANKBOULDER_LIB_DIR:-}" ] || prove "$1"
    need_archive "$1"
}

# need_judge: the program has to be there: the one that HANKBOULDER_JUDGE names, or else target/bin/judge. Leaves its path in judge.
need_judge() {
    judge=${HANKBOULDER_JUDGE:-target/bin/judge}
    [ -x "$judge" ] || fail "the program $judge is missing: 'make judge' writes target/bin/judge; HANKBOULDER_JUDGE names another"
}

# make_judge: the same, but where HANKBOULDER_JUDGE names no program it is made here
make_judge() {
    [ -n "${HANKBOULDER_JUDGE:-}" ] || prove judge
    need_judge
}

# need COMMAND PACKAGE: install a Debian package where its command is missing, which needs root and the network
need() {
    command -v "$1" >/dev/null && return
    echo "$self: installing Debian's package $2" >&2
    apt-get -q update >&2 && apt-get -q install -y --no-install-recommends "$2" >&2
}
