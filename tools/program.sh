# shellcheck shell=bash
# For tools/walksheet and tools/opcodes: a program of crates/, proved and built where it is not there yet.

# program NAME: the path of the program.
program() {
    local crate program
    crate=$(cd "$(dirname "${BASH_SOURCE[0]}")/../crates/$1" && pwd) || return
    program=$crate/out/$1
    # rt has no command that only builds a program: what this run of it prints, and its status, are of no use here.
    [ -x "$program" ] || (cd "$crate" && rt run < /dev/null > /dev/null) || [ -x "$program" ] || return
    echo "$program"
}
