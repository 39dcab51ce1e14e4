# shellcheck shell=sh
# What the scripts share that measure a crate by itself, beside the same work in plain Rust: each sources it first. It names the folder of
# bench/ ($here) and makes the folder $folder, which is removed in the end.
set -eu
here=$(cd "$(dirname "$0")" && pwd)
folder=$(mktemp -d)
trap 'rm -rf "$folder"' EXIT

# copies CRATE..: copies of these crates.
copies() {
    for crate in "$@"; do
        mkdir -p "$folder/crates/$crate"
        for part in src specs proofs; do
            [ ! -d "$here/../crates/$crate/$part" ] || cp -R "$here/../crates/$crate/$part" "$folder/crates/$crate/"
        done
    done
}

# measures NAME PROGRAM HEAD: proves and builds the program of bench/NAME over the copies, as crates.txt on standard input says; then runs it,
# and what plain Rust there does where rustc is there. HEAD is the first line.
measures() {
    mkdir -p "$folder/crates/$2/src"
    cp "$here/$1/main.rt.txt" "$folder/crates/$2/src/main.rt"
    cat > "$folder/crates.txt"
    if ! (cd "$folder/crates/$2" && rt run) > "$folder/log" 2>&1; then
        cat "$folder/log" >&2
        exit 1
    fi
    echo "$3"
    "$folder/crates/$2/out/$2"
    if command -v rustc > /dev/null; then
        rustc -O --edition 2024 -o "$folder/plain" "$here/$1/plain.rs" 2> "$folder/log" || {
            cat "$folder/log" >&2
            exit 1
        }
        "$folder/plain"
    fi
}
