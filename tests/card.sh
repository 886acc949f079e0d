#!/usr/bin/env bash
# The bench card's cases, run by two programs that share no code: bench_card over the proved calls, and
# model's card over the model. Their lines must be the same and, but for the cases that are ours, those
# of tests/card.txt, which has what the document states. Every line of both comparisons counts.
set -u
exec </dev/null
. "$(dirname "$(readlink -f "${BASH_SOURCE[0]}")")/tally.bash" || exit

cd "$top" || { wrong "there is no folder $top"; finish; }
host/setup 2>&1 || { wrong "host/setup: exit status $?"; finish; }
. host/env.sh

# what the program prints, which its file 'stdout' must say too; it is proved and built anew only where something changed
log=$(mktemp)
trap 'rm -f "$log"' EXIT
came=$(cd crates/bench_card && rt run 2>"$log") || { cat "$log"; wrong "bench_card: rt run: exit status $?"; finish; }
mapfile -t bench_card <<<"$came"
mapfile -t stdout <crates/bench_card/stdout

came=$(cd host && cargo run --release --offline --locked -q -p model --bin card) \
    || { wrong "model's card: exit status $?"; finish; }
mapfile -t card <<<"$came"

# What the document states, and what bench_card has of it: without our own cases, and without the bytes
# EE that a lent buffer still holds behind an answer.
mapfile -t document < <(grep -v -e '^#' -e '^$' tests/card.txt)
mapfile -t stated < <(printf '%s\n' "${bench_card[@]}" | grep -v '^ours, ' | sed -E 's/( EE(x[0-9]+)?)+$//')

same_lines bench_card stdout
same_lines bench_card card
same_lines stated document
finish
