#!/bin/bash
# A replica, a sequencer and a controller that ran out of memory: once a step answered so, each later one has to, whatever it is given.
# (Of a world the contract of `step` says so.) Runs the test that says so once for each allocation that it makes, with that one refused;
# each run has to pass. Prints how many runs there were, and in how many a step failed. Ends with status 1 where a run did not pass or
# none failed.
#
#   bench/failed-world.sh        it proves and builds the test first (rt test), where it is not built
#
# The allocator that refuses is that of refused-memory.sh. Needs a C compiler. It takes some seconds after the build.
set -u
cd "$(dirname "$0")/.." || exit 2
folder=$(mktemp -d) || exit 2
trap 'rm -rf "$folder"' EXIT
cc -O1 -Wall -shared -fPIC -o "$folder/refuse.so" bench/refused-memory/refuse.c || exit 2
wrong=0

# sweep CRATE TEST: one test of a crate.
sweep() {
    local program=crates/$1/out/$1_tests number=0 failed=0 other=0
    [ -x "$program" ] || (cd "crates/$1" && rt test > /dev/null 2>&1)
    [ -x "$program" ] || { echo "there is no program file $program"; exit 2; }
    while :; do
        number=$((number + 1))
        rm -f "$folder/refused"
        timeout 20 env REFUSE="$number" REFUSED="$folder/refused" LD_PRELOAD="$folder/refuse.so" "$program" "$2" \
            > "$folder/out" 2> "$folder/err"
        local status=$?
        if [ "$status" != 0 ] || ! grep -qx 'test result: ok' "$folder/out"; then
            echo "$1 $2, allocation $number: status $status, on standard error '$(head -c 300 "$folder/err")'"
            other=$((other + 1))
        elif grep -qx failed "$folder/out"; then
            failed=$((failed + 1))
        fi
        [ -e "$folder/refused" ] || break
    done
    printf '%-12s %-36s runs %4d, failed for good %4d, otherwise %d\n' "$1" "$2" "$number" "$failed" "$other"
    if [ "$other" != 0 ] || [ "$failed" = 0 ]; then
        wrong=1
    fi
}

sweep core_tests failing::cores_fail_for_good
exit "$wrong"
