# shellcheck shell=bash
# For tools/test and tools/quick: a line a step, the rest in a log.

# step NAME COMMAND...: runs the command and prints its name with its seconds; its output goes to target/test/NAME.log, and the end of that is printed where it fails.
# A program, not a function: set -e would be off in one.
step() {
    local name=$1 log=target/test/$1.log began=$SECONDS
    shift
    mkdir -p target/test
    if "$@" > "$log" 2>&1 < /dev/null; then
        echo "$name ($((SECONDS - began)) s)"
    else
        tail -n 40 "$log"
        echo "$name FAILED ($((SECONDS - began)) s), all of it in $log"
        exit 1
    fi
}
