#!/bin/bash
# Runs clusters whose nodes are on several hosts, by a list of hosts, and cuts hosts off, ends nodes and starts them again, has networks lose,
# and forges datagrams, while clients put and get. It tells how soon they were answered, and ends with status 1 where an op was not
# answered, a history has no order, or something else is not as it has to be.
#
#   bench/hosts.sh [TRIAL..]     HOSTS  the program file of nopaxos_hosts;  LINEARIZE  that of kv_linearize;  NOPAXOS  that of nopaxos
#                                COUNT  clusters of each kind (20);  WITHIN  seconds until the others have to answer (4)
#                                SEED  what pauses are drawn from;  FIRST  the first number of loopback networks (0), another for each
#                                script that runs at the same time
#
# Hosts are network namespaces with a bridge between them, for which it has to be root (iproute2), or else addresses of the loopback
# interface. Of the first three two have a sequencer and a controller as well: r0 s0 ctl, r1 s1 ctl1, r2; the clients are on another one. Each
# trial begins a cluster anew. Clients are those of bench/hosts/load.rs (rustc), some 400 ops a second, and the program's own: all
# ops and answers become a transcript, in which kv_linearize has to find an order that check calls legal. So no answered put is lost, and
# no read is too old. In the end each key is read.
#
#   cuts        each host is cut off for 4.5 s, both ways, by the bridge, COUNT clusters each; the others have to answer within WITHIN
#   cables      the same where the host sees that its interface has no other end, and where its interface is down, so that it can't send
#   each        the same with each node on a host of its own, three and five replicas: the hosts of leader, sequencer and controller
#   returns     the leader's host is cut off for 1.5, 2 and 3 s; up to a second after it is back, one follower of three, or two of five, are killed
#   one-way     what a host sends is lost, or what is sent to it: RUNNING says why nobody may be answered meanwhile
#   turns       one cluster, whose hosts are cut off in turn, COUNT times each; RUNNING says which cuts end the service for their time
#   turns-apart the same, where the second controller is on host 3: it has to be answered in each cut
#   flapping    a host is cut off for 100 ms and back for 100 ms, for FLAPPING (10) seconds, also one with a replica alone; COUNT / 5
#               clusters for each host
#   chaos       hosts and single ways are cut and nodes stand still, drawn anew each half second, for SECONDS_EACH (15); then as many replicas are
#               killed as may be; three and five replicas, without loss and with 1 % lost; KEYS (20) with values of VALUE (8) bytes, RATE (400)
#               ops a second
#   lossy       five replicas, 1, 3 and 10 % of all datagrams lost, and the leader's host cut off
#   checkpoint  the leader's host is cut off while the state, of 0.3 MB, is sent around ten times a second
#   restarts    each node is killed under load, and started again three times: it has to end with 5; without marks, and with marks
#   starts      nodes start in a random order with random pauses; then without one of the seven
#   puts        PUTS (100000) puts of 15 clients, as soon as they are answered, while LOST (0 1 5 10) of 1,000 datagrams are lost,
#               and all are delayed by MILLIS (0)
#   forged      FORGED (250000) greetings and acknowledgements of each kind, from strangers, clients and nodes (bench/hosts/forged.py)
#
# Loss and delay are made where datagrams are sent (bench/delayed/delay.c, gcc). Without words: all. That takes two hours; COUNT=1 some eight minutes.
set -u
cd "$(dirname "$0")/.." || exit 2
folder=$(mktemp -d) || exit 2
trap 'rm -rf "$folder"' EXIT
trap 'exit 130' INT TERM
# file NAME: the absolute name of a program file.
file() {
    [ -x "$1" ] || { echo "hosts: there is no program file $1" >&2; return 1; }
    realpath "$1"
}

HOSTS=$(file "${HOSTS:-crates/nopaxos_hosts/out/nopaxos_hosts}") || exit 2
LINEARIZE=$(file "${LINEARIZE:-crates/kv_linearize/out/kv_linearize}") || exit 2
NOPAXOS=$(file "${NOPAXOS:-crates/nopaxos/out/nopaxos}") || exit 2
LOAD=$folder/load
DELAY=$folder/delay.so
export HOSTS LINEARIZE NOPAXOS LOAD DELAY
rustc --edition 2021 -O -o "$LOAD" bench/hosts/load.rs || exit 2
gcc -O2 -shared -fPIC -o "$DELAY" bench/delayed/delay.c -lpthread || exit 2
[ $# -gt 0 ] || set -- cuts cables each returns one-way turns turns-apart flapping chaos lossy checkpoint restarts starts puts forged
python3 -B bench/hosts/hosts.py "$@"
