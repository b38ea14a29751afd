#!/usr/bin/env bash
# Prints what liars can make a slot cost: of 16 members five lie, and have filled 64 and then all 1,024 views of the open slot
# and of the 15 above with messages of differing digests. A message of a liar, and the slots that are chosen afterwards, as
# ratios to the same among silent liars; and what 16 times the messages cost, all in the same run. Proves and builds
# crates/cs_bench first; run it with nothing beside it, since it takes times from the clock.
. "$(dirname "${BASH_SOURCE[0]}")/common.sh"
build_bench

# 11 slots among 11 members that speak: each of them takes a proposal, and the echo and confirm of each other one.
honest=$((11 * (10 + 2 * 11 * 10)))

# Messages of liars, and the nanoseconds for them, for the slots chosen then, and for the same slots among silent liars: the
# least of five runs.
least() {
  local round
  for round in 1 2 3 4 5; do
    "$program" hostile "$1" || { echo "bench: 'hostile $1' failed" >&2; exit 1; }
  done | awk '
    NR == 1 || $2 < filling { filling = $2 }
    NR == 1 || $3 < filled { filled = $3 }
    NR == 1 || $4 < silent { silent = $4 }
    END { printf "%d %d %d %d\n", $1, filling, filled, silent }'
}

{ least 64; least 1024; } | awk -v honest="$honest" '
  {
    printf "%d messages of liars: one costs %.2f times one between honest members; ", $1, ($2 / $1) / ($4 / honest)
    printf "choosing the slots then costs %.0f ns more for each of them\n", ($3 - $4) / $1
    messages[NR] = $1; cost[NR] = $2 + $3
  }
  END { printf "%.1f times the messages cost %.1f times as much, with the slots\n", messages[2] / messages[1], cost[2] / cost[1] }'
