# For tests/bench, tests/search and tests/ways: programs over proved calls, and the x86-64 instructions that they execute.
# Sourced in the root of the tree, after tests/x86-64.sh; `at` is a folder below target/ that is made anew.
command -v qemu-x86_64 >/dev/null || quietly install_packages qemu-user
# glibc copies by one repeated instruction, which an emulator does byte by byte: let it copy by steps there
by_steps=GLIBC_TUNABLES=glibc.cpu.x86_rep_movsb_threshold=100000000:glibc.cpu.x86_rep_stosb_threshold=100000000

# prove REPOSITORY CRATE: its static library, of which each call is proved
prove() {
    (cd "$1/crates/$2" && rt lib --cpu x86-64) # as hosts/library does
}

# program REPOSITORY CRATE NAME WORD..: NAME, of these sources, by these flags, over that static library
program() {
    local repository=$1 crate=$2 name=$3
    shift 3
    quietly prove "$repository" "$crate"
    # shellcheck disable=SC2086
    gcc $flags "$@" "$repository/crates/$crate/out/lib$crate.a" -static -o "$name"
}

# count NAME WORD..: the instructions that it executes, handed these words
count() {
    local said
    said=$(env "$by_steps" qemu-x86_64 -plugin "$at/instructions.so" "$@" 2>&1)
    case $said in *[!0-9]*) echo "$said" >&2 && return 1 ;; esac
    echo "$said"
}

rm -rf "$at"
mkdir -p "$at"
gcc -O2 -shared -fPIC tests/instructions.c -o "$at/instructions.so"
