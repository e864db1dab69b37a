# Compiling C and Rust over the desk's library, which is for Linux on x86-64, with that machine's own gcc and rustc. Read by the
# scripts beside it.
flags="-O3 -std=c11 -Wall -Wextra -Werror -Ihosts/c"

# What a command says is shown only where it fails. The scripts may run side by side: one such command at a time.
quietly() {
    mkdir -p target/tests
    local status=0 log=target/tests/quiet-$$.log
    (flock 9 && "$@" 9>&-) >"$log" 2>&1 9>target/tests/quiet.lock || status=$?
    if [ $status -ne 0 ]; then
        tail -n 30 "$log" >&2
        echo "$* failed" >&2
    fi
    rm -f "$log"
    return $status
}

# install_packages PACKAGE..: Debian's packages
install_packages() {
    apt-get update -q && apt-get install -y -q --no-install-recommends "$@"
}

command -v gcc >/dev/null || quietly install_packages gcc libc6-dev

# The library, of proved calls.
library() {
    quietly bash hosts/library
}

# build NAME SOURCE..: target/tests/NAME over the library
build() {
    local name=$1
    shift
    # shellcheck disable=SC2086
    gcc $flags "$@" target/library/libdesk.a -o "target/tests/$name"
}

# build_rust NAME SOURCE [FLAG..]: target/tests/NAME over the library
build_rust() {
    local name=$1
    shift
    command -v rustc >/dev/null || quietly install_packages rustc
    rustc --edition 2021 -O -D warnings -L target/library "$@" -o "target/tests/$name"
}
