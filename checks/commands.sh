#!/bin/bash
# Runs the commands that README.md, examples/README.md and docs/OWN-SERVICE.md show, as they are written there, each at the top of the tree,
# and looks at what they print. A command that this script does not know is a difference, and so is one that it knows and no document shows;
# .ci/run is known and not run here, since it runs this, nor is .ci/quick. `rt try` makes its program anew each time: it takes some
# minutes. It leaves nothing behind but what `rt run` keeps, and ends with status 1 at any difference.
. "$(dirname "$0")/common.bash" || exit 2
# The top of the tree, in a folder that can be written to.
for it in "$PWD"/* "$PWD"/.ci; do ln -s "$it" "$folder"; done

# shows DOCUMENT COMMAND: the document shows the command, as a line of its own or between backquotes.
shows() {
    grep -qxF "    $2" "$1" || grep -qF "\`$2\`" "$1"
}

# are_free PORT COUNT: nobody has one of so many ports.
are_free() {
    ! is_taken "$@"
}

# runs DOCUMENT COMMAND: runs it. What it prints goes to the file out of the folder. Where it takes the ports that are taken without a word,
# it waits until they are free.
runs() {
    local status
    made=$((made + 1))
    shows "$1" "$2" || differs "$1 does not show '$2'"
    echo "$2" >> "$folder/known"
    [[ $2 != *' cluster '* ]] || awaits are_free 41000 36
    (cd "$folder" && bash -c "$2") > "$folder/out" 2> "$folder/err" < /dev/null
    status=$?
    [ "$status" = 0 ] || differs "'$2' ends with status $status: $(tail -n 3 "$folder/err")"
}

# is_picture: my.svg is a whole picture of the put.
is_picture() {
    head -n 1 "$folder/my.svg" | grep -q '^<svg ' && tail -n 1 "$folder/my.svg" | grep -q '</svg>$' \
        && grep -q 'submit c0' "$folder/my.svg" || differs "my.svg is no picture of the schedule"
    rm -f "$folder/my.svg"
}

# Both examples are run, below and by checks/hosts.sh, at ports that nobody has.
printf '%s\n' .ci/quick .ci/run examples/cluster.sh examples/hosts.sh > "$folder/known"
runs README.md '(cd crates/nopaxos && rt try -- replay) < examples/one-put.schedule'
cmp -s "$folder/out" examples/one-put.transcript || differs "the one put has another transcript"

runs README.md '(cat examples/one-put.schedule; echo "deliver 1 r2") > my.schedule'
runs README.md '(cd crates/spacetime && rt try) < my.schedule > my.svg'
is_picture
runs README.md 'crates/nopaxos/out/nopaxos cluster --replicas 3 --sequencers 1 --clients 1 5000016b000176'
grep -qx 'accept c0 1 6e6f6e65' "$folder/out" || differs "the cluster accepts no put"
tail -n 1 "$folder/out" | grep -qx 'served [0-9]* lost 0 stray [0-9]*' || differs "the cluster has another last line"
# Its schedule is drawn, and its transcript judged, below.
sed '/^transcript /,$d' "$folder/out" > "$folder/my.schedule"
sed '1,/^transcript /{/^transcript /!d}; /^served /d' "$folder/out" > "$folder/my.transcript"
"$folder/crates/nopaxos/out/nopaxos" check < "$folder/my.transcript" > "$folder/out"
grep -qx 'legal 1 1 1' "$folder/out" || differs "the transcript of the cluster is judged '$(cat "$folder/out")'"
runs README.md 'crates/nopaxos/out/nopaxos check < examples/one-put.transcript'
grep -qx 'legal 1 1 1' "$folder/out" || differs "the put is judged '$(cat "$folder/out")'"
runs README.md 'crates/kv_linearize/out/kv_linearize < examples/one-put.transcript'
grep -qx 'history 1 c0 1 5000016b000176' "$folder/out" || differs "the order that is found of the put is '$(cat "$folder/out")'"
runs README.md 'crates/kv/out/kv words < examples/one-put.transcript'
grep -qx 'submit c0 1 put k v' "$folder/out" && grep -qx 'accept c0 1 none' "$folder/out" || differs "the put in words is '$(cat "$folder/out")'"
# `rt run` proves on its own what `rt ci` has proved, which takes long: it is run only where its program is not there.
if [ -x crates/spacetime/out/spacetime ]; then
    echo '(cd crates/spacetime && rt run < stdin > /dev/null)' >> "$folder/known"
else
    runs examples/README.md '(cd crates/spacetime && rt run < stdin > /dev/null)'
fi
runs examples/README.md 'crates/spacetime/out/spacetime < my.schedule > my.svg'
is_picture

# The lock service, which checks/locks.sh looks at closely.
runs docs/OWN-SERVICE.md 'crates/lock_service/out/lock_service replay < crates/lock_service/stdin'
cmp -s "$folder/out" crates/lock_service/stdout || differs "the story of the lock has another transcript"
runs docs/OWN-SERVICE.md 'crates/lock_service/out/lock_service check < crates/lock_service/stdout'
grep -qx 'legal 6 6 6' "$folder/out" || differs "the story of the lock is judged '$(cat "$folder/out")'"
runs docs/OWN-SERVICE.md 'crates/lock_service/out/lock_service cluster --replicas 3 --sequencers 1 --clients 1 4102646203616e6e'
grep -qx 'accept c0 1 6772616e7465640000000000000001' "$folder/out" || differs "the cluster grants no lock"
runs docs/OWN-SERVICE.md 'crates/lock_spacetime/out/lock_spacetime < crates/lock_service/stdin > my.svg'
is_picture

# A cluster of processes, of three replicas and of five, whose leader is killed, and then its sequencer and a controller: five clients put
# and get, and the last reads what the one before it put; an observer is read before and after the leader's end.
for replicas in 3 5; do
    made=$((made + 1))
    finds_ports
    cluster="examples/cluster.sh $replicas"
    if BASE=$base examples/cluster.sh "$replicas" > "$folder/out" 2> "$folder/err"; then
        [ "$(grep -c '^status 0$' "$folder/out")" = 7 ] || differs "not each client of $cluster ends with status 0"
        grep -qE '^answer c[0-9]+ 1 o0 [1-9][0-9]* 3d77$' "$folder/out" && grep -qE '^answer c[0-9]+ 1 o0 [1-9][0-9]* 3d78$' "$folder/out" ||
            differs "the observer of $cluster is behind"
        grep -qx 'accept c1 1 3d76' "$folder/out" && grep -qx 'accept c1 2 3d77' "$folder/out" ||
            differs "the second client of $cluster reads other values"
        grep -qx 'accept c6 1 3d79' "$folder/out" && grep -qx 'answer: =y' "$folder/out" ||
            differs "the last client of $cluster reads another value"
    else
        differs "$cluster ends with status $?: $(tail -n 3 "$folder/err")"
    fi
done
# With an argument that is not taken it starts nothing.
made=$((made + 1))
examples/cluster.sh 4 > "$folder/out" 2> "$folder/err"
[ $? = 2 ] && [ ! -s "$folder/out" ] || differs "examples/cluster.sh takes 4 replicas"

for document in README.md examples/README.md docs/OWN-SERVICE.md; do
    while IFS= read -r command; do
        grep -qxF "$command" "$folder/known" || differs "$document shows '$command', which is not run"
    done < <(grep -E '^    (\(c|\.ci/|(crates|checks|bench|examples)/)' "$document" | cut -c5-)
done

# Scripts that documents name are there, and can be read as what they are.
while IFS= read -r script; do
    made=$((made + 1))
    { [ -x "$script" ] && bash -n "$script"; } || differs "a document names $script, which cannot be run"
done < <(grep -ohE '\b(bench|checks)/[a-z-]+\.sh' README.md docs/*.md examples/*.md | sort -u)

concludes
