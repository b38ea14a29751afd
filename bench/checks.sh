#!/usr/bin/env bash
# Prints the nanoseconds that a check of a contract takes for each unit of its cost, the time as a ratio to that of the plain
# evaluator (crates/cs_test_eval) on the same check, and how it compares with that of a check of half the cost; for
# the part of a check that takes the least time for its units, comparing bytes, and for the one that takes the most, putting a list
# of 8,000 bytes into another, which copies it. So the last line says what the dearest check costs a node: its cost is near the most
# that a check may cost. The time of making and accepting the text is taken off. Then it compares what judging a claim takes by the rule
# `hashlock`, which is written in Rust, and by a contract text that says the same. Proves and builds crates/cs_bench_checks first.
. "$(dirname "${BASH_SOURCE[0]}")/common.sh"
(cd "$top/crates/cs_bench_checks" && rt run -- check compare 1 1 >/dev/null 2>&1)
program=$top/crates/cs_bench_checks/out/cs_bench_checks
say_where

ours_empty() { "$program" check "$part" "$turns" 0; }
ours_half() { "$program" check "$part" "$half" "$rounds"; }
ours_full() { "$program" check "$part" "$turns" "$rounds"; }
plain_full() { "$program" plain "$part" "$turns" "$rounds"; }

# A part, how many times 100 turns of a loop come to a cost of about 1,000,000, and how often the check runs.
while read -r part turns rounds; do
  half=$((turns / 2))
  cost=$("$program" check "$part" "$turns" 0)
  times=$(least_times ours_empty ours_half ours_full plain_full)
  awk -v part="$part" -v cost="$cost" -v rounds="$rounds" "$shared"'{
    half = less($2, $1) / rounds
    full = less($3, $1) / rounds
    plain = less($4, $1) / rounds
    printf "%s: a check of cost %d takes %.3f s, %.1f ns a unit, %.2f times the time of the plain evaluator; twice the cost takes %.2f times the time\n", part, cost, full, full * 1000000000 / cost, full / plain, full / half
  }' <<<"$times"
done <<'PARTS'
compare 474 200
copy 454 1
PARTS

# A claim of the rule `hashlock`: a transaction of one trace, judged whole.
claims=100000
by_none() { "$program" claim rule 0; }
by_rule() { "$program" claim rule "$claims"; }
by_text() { "$program" claim text "$claims"; }
times=$(least_times by_none by_rule by_text)
awk -v claims="$claims" "$shared"'{
  rule = less($2, $1) / claims
  text = less($3, $1) / claims
  printf "a claim of hashlock: %.2f us by the rule, %.2f us by a contract that says the same, %.2f times that\n", rule * 1000000, text * 1000000, text / rule
}' <<<"$times"
