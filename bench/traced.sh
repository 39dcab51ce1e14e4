#!/bin/bash
# How long a put waits in a cluster of real processes all of which write traces to files, beside the same without traces.
#
#   bench/traced.sh [REPLICAS]    (3);  NOPAXOS  the program file;  BASE  the port of replica 0 (43000)
#                                 ROUNDS  (9);  PUTS  of a round, one after the other, by a client that is not traced (20000)
#                                 CLIENTS  of a round, of the program, one after the other (20), with OPS puts each (64), up to eight open
#
# Both kinds of puts are made in one cluster, whose nodes write traces and write none in turn. The first are those of bench/long/client.rs, which
# counts the replies. The others are timed from the line of the submission to that of the acceptance, as they come through a pipe
# (bench/delayed/times.rs; both rustc), also where the client writes a trace itself, which is four writes for a put in place of two. Of
# each the median wait is told, the median of all rounds. The status is 1 where a put was not answered rightly, and where the first
# median with traces is more than 1.3 times that without.
. "$(dirname "$0")/program.bash" || exit 2
replicas=${1:-3}
base=${BASE:-43000}
place="--replicas $replicas --sequencers 1 --base $base"
folder=$(mktemp -d) || exit 2
. checks/nodes.bash
rustc --edition 2021 -O -o "$folder/puts" bench/long/client.rs || exit 2
rustc --edition 2021 -O -o "$folder/times" bench/delayed/times.rs || exit 2

# times FILE WORDS..: clients of the program, with these words; the first number of one was used before. The median goes to the file.
times() {
    cat > "$folder/client" << END
#!/bin/bash
number=\$3
shift 3
exec "$program" client --id \$((number + $taken)) "\$@"
END
    chmod +x "$folder/client"
    # shellcheck disable=SC2086
    "$folder/times" "$folder/client" "${CLIENTS:-20}" "${OPS:-64}" $place "${@:2}" > "$folder/told" || failed=1
    sed -n 's/^.* wait_us_median \([0-9]*\) .*/\1/p' "$folder/told" >> "$1"
    taken=$((taken + ${CLIENTS:-20}))
}

# round NAME WORDS..: a cluster of its own, with these words at each node; the medians go to the files of this name.
round() {
    # shellcheck disable=SC2086
    nodes_of "$program" $place "${@:2}"
    start s0 sequencer --id 0
    for ((i = 0; i < replicas; i++)); do start "r$i" node --id $i; done
    start ctl controller --id 0
    sleep 0.5
    "$folder/puts" "$base" "$replicas" 1 1 "${PUTS:-20000}" 10 16 0 > "$folder/told" || failed=1
    sed -n 's/^all .* median_wait_us //p' "$folder/told" >> "$folder/$1.alone"
    taken=1
    times "$folder/$1.open"
    [ "$1" = plain ] || times "$folder/$1.own" --trace
    bytes=$(cat "$folder"/[rsc][0-9t]* | wc -c)
    stop
}

# median FILE: of its numbers.
median() { sort -n "$1" | awk '{ all[NR] = $1 } END { print all[int((NR + 1) / 2)] }'; }

failed=0
for ((k = 0; k < ${ROUNDS:-9}; k++)); do
    round plain
    round traced --trace
done
# says WORDS PLAIN TRACED: two medians.
says() {
    awk -v what="$1" -v a="$(median "$folder/plain.$2")" -v b="$(median "$folder/traced.$3")" \
        'BEGIN { printf "%s: median wait %d us, with traces %d us: %.2f\n", what, a, b, b / a }'
}
says 'one put at a time' alone alone
says 'eight open' open open
says 'eight open, of a client that writes a trace too' open own
echo "the traces of a round's nodes have $bytes bytes"
awk -v a="$(median "$folder/plain.alone")" -v b="$(median "$folder/traced.alone")" 'BEGIN { exit !(b <= 1.3 * a) }' || failed=1
exit $failed
