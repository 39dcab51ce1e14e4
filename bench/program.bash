# shellcheck shell=bash
# What the scripts share that measure nodes of the program: each sources it first. It goes to the top of the repository, and names the
# program file ($program), which NOPAXOS may name.
set -u
cd "$(dirname "$0")/.." || exit 2
program=$(realpath "${NOPAXOS:-crates/nopaxos/out/nopaxos}") || exit 2
[ -x "$program" ] || { echo "no program file $program"; exit 2; }
