# What the scripts of this folder share: each sources it first. It goes to the top of the tree, makes the folder $folder, which is removed in
# the end, and counts what was looked at (made) and what differs (wrong).
set -u
check=$(basename "$0" .sh)
cd "$(dirname "$0")/.." || exit 2
folder=$(mktemp -d) || exit 2
trap 'rm -rf "$folder"' EXIT
made=0
wrong=0

# needs FILE CRATE WORDS..: the program is FILE, or that of the crate where FILE is empty. One that is not there is proved and built, by a run
# with these words.
needs() {
    program=${1:-crates/$2/out/$2}
    if [ ! -x "$program" ]; then
        (cd "crates/$2" && rt run "${@:3}" < stdin > /dev/null 2>&1)
    fi
    [ -x "$program" ] || { echo "$check: there is no program file $program"; exit 1; }
}

# awaits COMMAND..: runs it until it succeeds, for a minute at most. Whether it did.
awaits() {
    local tries
    for ((tries = 0; tries < 1200; tries++)); do
        "$@" && return
        sleep 0.05
    done
    return 1
}

# is_taken PORT COUNT: somebody has one of so many UDP ports from this one on, at any address.
is_taken() {
    local address port
    while read -r _ address _; do
        port=${address##*:}
        if [[ $port =~ ^[0-9A-F]{4}$ ]] && ((16#$port >= $1 && 16#$port < $1 + $2)); then return 0; fi
    done < <(cat /proc/net/udp /proc/net/udp6 2> /dev/null)
    return 1
}

# finds_ports: $base is the first of 128 ports that nobody has. They are below 32768: from there on the system gives ports to programs that
# ask for any.
finds_ports() {
    local tries
    for ((tries = 0; tries < 176; tries++)); do
        base=$((10240 + ($$ + tries) % 176 * 128))
        is_taken "$base" 128 || return 0
    done
    echo "$check: there are no free ports"
    exit 1
}

# differs WORDS..: one more difference.
differs() {
    echo "$check: $*"
    wrong=$((wrong + 1))
}

# same NAME STATUS WANTED_STATUS WANTED [err]: what a process wrote lies in out, and on standard error in err; it is WANTED in the one, or with
# a last word in that one, and nothing in the other.
same() {
    local has=${5:-out} other=err
    [ "$has" = out ] || other=out
    made=$((made + 1))
    if [ "$2" != "$3" ]; then
        differs "$1: status $2 and not $3"
    elif [ "$(cat "$folder/$has")" != "$4" ]; then
        differs "$1: in $has '$(head -c 300 "$folder/$has")' and not '$4'"
    elif [ -s "$folder/$other" ]; then
        differs "$1: in $other '$(head -c 300 "$folder/$other")'"
    fi
    : > "$folder/out"
    : > "$folder/err"
}

# rows FILE COMMAND..: runs the command once for each row of a file, with two more words: what stands above the row's line => and what stands
# below it. Lines ---- stand between rows.
rows() {
    local text row
    IFS= read -r -d '' text < "$1"
    [ -n "$text" ] || differs "$1 has no rows"
    while [ -n "$text" ]; do
        row=${text%%----$'\n'*}
        text=${text#"$row"}
        text=${text#----$'\n'}
        "${@:2}" "${row%%=>*}" "${row#*=>}"
    done
}

# concludes: says how many were looked at, and ends with status 1 where one differs.
concludes() {
    if [ "$wrong" != 0 ]; then
        echo "$check: $wrong of $made differ"
        exit 1
    fi
    echo "$check: $made as they must be"
}
