# shellcheck shell=bash
# What a test needs is looked for before anything is built. A test that lacks something says what and where it comes from in one line,
# and exits with 77, which ctest takes as skipped.

lacks() {
    echo "$0: $1" >&2
    exit 77
}

# need COMMAND WHERE IT COMES FROM
need() { command -v "$1" > /dev/null || lacks "no $1 on the PATH: $2"; }

need_rt() { need rt "it comes with Rattle's kit, in its bin/ (README.md, Two commands)"; }
need_rustc() { need rustc 'https://rustup.rs installs it, with no root; 1.95 is what was used'; }
need_cxx() { need g++ 'Debian has it in g++'; }

# need_library NAME PACKAGE: a program can be linked with it.
need_library() {
    local program
    need cc 'Debian has it in gcc'
    program=$(mktemp)
    if ! echo 'int main(void) { return 0; }' | cc -x c - -o "$program" "-l$1" 2> /dev/null; then
        rm -f "$program"
        lacks "no library $1: Debian has it in $2"
    fi
    rm -f "$program"
}
