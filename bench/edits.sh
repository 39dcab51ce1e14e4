#!/bin/bash
# Tries the wrong bodies that the gate leaves out for their cost: those of crates/NAME/edits, in the form of crates/NAME/must-fail. Each has to
# be refused by a contract. `rt must-fail` tries them over a clone of what is committed, in a temporary folder.
#
#   bench/edits.sh [NAME..]       all crates that have such a folder, or these
set -eu
cd "$(dirname "$0")/.."
names=("$@")
[ $# -gt 0 ] || mapfile -t names < <(cd crates && ls -d */edits | cut -d/ -f1)
folder=$(mktemp -d)
trap 'rm -rf "$folder"' EXIT
git clone -q . "$folder/tree"
cd "$folder/tree"
for name in "${names[@]}"; do
    rm -rf "crates/$name/must-fail"
    mv "crates/$name/edits" "crates/$name/must-fail"
done
rt must-fail "${names[@]}"
