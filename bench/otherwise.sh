#!/bin/bash
# Tries rules that are other than those of the protocol, in code and in the definition alike: a core with such a rule is proved, as it
# does what its table says, and a theorem above has to refuse it. So it is with a definition that code does not meet, but theorems speak
# of. Each is a patch of bench/otherwise; this table says which crates have to be proved with it, and which one to be refused.
#
#   bench/otherwise.sh            it works in a clone of what is committed, in a temporary folder
#
# Prints a line for each patch, and ends with status 1 where one went otherwise. A patch takes some minutes.
set -u
cd "$(dirname "$0")/.." || exit 2
folder=$(mktemp -d) || exit 2
trap 'rm -rf "$folder"' EXIT
wrong=0

# rule PATCH REFUSED PROVED..: each crate PROVED is proved, the crate REFUSED is not.
rule() {
    local patch=$1 refused=$2 crate
    shift 2
    rm -rf "$folder/tree"
    git clone -q . "$folder/tree" || exit 2
    git -C "$folder/tree" apply "$PWD/bench/otherwise/$patch.patch" || { echo "$patch: it does not fit"; wrong=1; return; }
    for crate in "$@"; do
        (cd "$folder/tree/crates/$crate" && rt check > "$folder/out" 2>&1) || { echo "$patch: $crate is not proved"; wrong=1; return; }
    done
    if (cd "$folder/tree/crates/$refused" && rt check > "$folder/out" 2>&1); then
        echo "$patch: $refused is proved"
        wrong=1
    else
        echo "$patch: refused by $refused"
    fi
}

# an observer executes a log as soon as a leader tells it, before anything of that is committed: then what it executed need not be
# anchored (RowsAreWatched)
rule what_is_told_is_executed observer_laws observer

# an id that is a window behind the greatest one is not stale yet: then a request that is not stale need not have a result, since none is
# kept with that id (has_result_where_served)
rule an_id_a_window_behind_is_not_stale execution_laws nop_types lemmas
exit "$wrong"
