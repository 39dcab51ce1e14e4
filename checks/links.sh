#!/bin/bash
# Looks whether each link of each document leads to a file of the repository, and to a heading of it where it names one. Links
# to other sites are not followed. It takes a second or two, and ends with status 1 at any that leads nowhere.
. "$(dirname "$0")/common.bash" || exit 2

# headings FILE: the anchors of its headings, one a line.
headings() {
    awk '
        /^ *```/ { code = !code }
        !code && /^#+ / {
            text = tolower($0)
            sub(/^#+ +/, "", text)
            gsub(/\]\([^)]*\)/, "", text)
            gsub(/[^a-z0-9 _-]/, "", text)
            gsub(/ /, "-", text)
            print text (count[text] ? "-" count[text] : "")
            count[text]++
        }' "$1"
}

# links FILE: its links, each with the number of its line in front.
links() {
    awk '
        /^ *```/ { code = !code }
        !code {
            rest = $0
            gsub(/`[^`]*`/, "", rest)
            while (match(rest, /\]\([^)]*\)/)) {
                print FNR, substr(rest, RSTART + 2, RLENGTH - 3)
                rest = substr(rest, RSTART + RLENGTH)
            }
        }' "$1"
}

# leads FILE TARGET: whether a link of the file leads somewhere.
leads() {
    local file=${2%%#*} anchor=
    case $2 in
    *'#'*) anchor=${2#*#} ;;
    esac
    if [ -z "$file" ]; then file=$1; else file=$(dirname "$1")/$file; fi
    [ -e "$file" ] || return 1
    [ -z "$anchor" ] && return 0
    headings "$file" | grep -qxF -- "$anchor"
}

find . -name '*.md' -not -path './.git/*' -not -path './crates/*/out/*' | sort > "$folder/documents"
while read -r document; do
    links "$document" > "$folder/links"
    while read -r line target; do
        case $target in
        http://* | https://*) continue ;;
        esac
        made=$((made + 1))
        if ! leads "$document" "$target"; then
            differs "${document#./}, line $line: '$target' leads nowhere"
        fi
    done < "$folder/links"
done < "$folder/documents"

concludes
