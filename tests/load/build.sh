# For the scripts beside this file, which have sourced tests/script.sh and run from the repository's folder.
# shellcheck shell=bash

# build NAME PROGRAM FLAG..: build a program from NAME.c with the library and the second implementation
build() {
    local name=$1 program=$2
    shift 2
    make_archive hankboulder
    echo "$self: building the second implementation and the program" >&2
    cargo build --quiet --release --offline --manifest-path tests/load/Cargo.toml --target-dir target/load/cargo
    rm -f "$program"
    "${CC:-gcc}" -std=c11 -O1 -g -Wall -Wextra -Werror -Iinclude "$@" "tests/load/$name.c" "$library" target/load/cargo/release/libhankboulder_load.a \
        -lpthread -ldl -lm -lgcc_s -o "$program"
}
