#!/bin/bash
# Controllers that take over, as real processes. Each time the sequencer in use is killed, and with it the controller that installed it or
# would have replaced it; then clients come, and each is answered, and others read what they and all before them put. First the next
# controller finds out by its probes. Then a new one is ordered to install a sequencer. Then one goes on whose own sessions were all smaller:
# it was told the one in use. It takes some five seconds, leaves nothing behind, and ends with status 1 at any difference.
#
#   checks/controllers.sh        the program is crates/nopaxos/out/nopaxos, or the file that NOPAXOS names
. "$(dirname "$0")/common.bash" || exit 2
needs "${NOPAXOS:-}" nopaxos -- replay

. checks/nodes.bash
finds_ports
nodes_of "$program" --replicas 3 --sequencers 4 --base "$base"
running=()
keys=()

# op put|get NUMBER: the op by which a client of this number puts it at a key of its own, or anyone gets it.
op() {
    local number
    printf -v number %02x "$2"
    if [ "$1" = put ]; then echo "500001${number}0001$number"; else echo "470001$number"; fi
}

# result NUMBER: what such a get answers, once the put was answered.
result() {
    printf '3d%02x' "$1"
}

# begins NUMBER OP..: a new client. Up to eight of its ops are open at once; which of them is stamped first is not promised.
begins() {
    # shellcheck disable=SC2086
    timeout 60 "$program" client --id "$1" $site "${@:2}" > "$folder/c$1" 2>&1 &
    running[$1]=$!
}

# ends NUMBER LINE..: the client is answered, and has written these lines, in any order, and a last one. Each of them is a pattern.
ends() {
    local lines wanted
    made=$((made + 1))
    wait "${running[$1]}" || differs "$when, client $1: status $?, '$(cat "$folder/c$1")'"
    lines=$(sed '$d' "$folder/c$1" | LC_ALL=C sort)
    wanted=$(printf '%s\n' "${@:2}" | LC_ALL=C sort)
    # shellcheck disable=SC2053
    [[ $lines == $wanted ]] || differs "$when, client $1 wrote '$lines' and not '$wanted'"
}

# answered WHEN FIRST: three new clients at once put, each at a key of its own, and get it; such a get may be stamped before the put. Once
# they are answered, three others at once get what all clients put so far.
answered() {
    local when=$1 first=$2 number id gets=() lines
    for number in $(seq "$first" $((first + 2))); do
        begins "$number" "$(op put "$number")" "$(op get "$number")"
        keys+=("$number")
    done
    for number in $(seq "$first" $((first + 2))); do
        ends "$number" "submit c$number 1 $(op put "$number")" "submit c$number 2 $(op get "$number")" \
            "accept c$number 1 6e6f6e65" "accept c$number 2 @(6e6f6e65|$(result "$number"))"
    done
    for number in "${keys[@]}"; do gets+=("$(op get "$number")"); done
    for number in $(seq $((first + 3)) $((first + 5))); do begins "$number" "${gets[@]}"; done
    for number in $(seq $((first + 3)) $((first + 5))); do
        lines=()
        for id in "${!keys[@]}"; do
            lines+=("submit c$number $((id + 1)) ${gets[id]}" "accept c$number $((id + 1)) $(result "${keys[id]}")")
        done
        ends "$number" "${lines[@]}"
    done
}

for i in 0 1 2 3; do start "s$i" sequencer --id $i; done
for i in 0 1 2; do start "r$i" node --id $i; done
for i in 0 1; do start "ctl$i" controller --id $i; done
are_up s0 s1 s2 s3 r0 r1 r2 ctl0 ctl1
answered 'at the start' 0
kills s0 ctl0
answered 'after sequencer 0' 6
# Nobody is left who could replace sequencer 1, and sequencer 2 has no session.
kills s1 ctl1
start ctl3 controller --id 3 --install 2
answered 'after an order' 12
# A controller of a smaller session than that of sequencer 2, which stays in its own, and tells it.
start ctl2 controller --id 2 --install 2 --trace
awaits grep -q '^in ctl2 packet 4e4f0305' "$folder/ctl2" || differs 'controller 2 was not told'
answered 'after an order that comes too late' 18
kills s2 ctl3
answered 'after sequencer 2' 24

concludes
