#!/usr/bin/env bash
# Prints what a checkpoint costs over a table of 1,000, 10,000 and 100,000 records.
#
# First the processor time of the root from scratch, which a node pays at its first checkpoint alone, as a ratio to that of
# `openssl dgst -sha256` over as many bytes as are hashed, and as a ratio to the cost at 1,000 records. Hashed are for each record
# its leaf with a byte before it, and for each inner node a byte and two hashes. The time of making the table is taken off.
#
# Then that of a checkpoint behind the first, the mean of 60, or of 600 over the larger tables: with old keys, where each of its
# 16 slots prepares a coin, and with new ones, where 8 coins are prepared and decided, each of which leaves a new coin. As ratios
# to the cost at 1,000 records and to the root from scratch, with the share of the leaves that aren't hashed. The time of executing
# the same slots is taken off.
# Proves and builds crates/cs_bench first; it takes openssl.
. "$(dirname "${BASH_SOURCE[0]}")/common.sh"
build_bench

# Of a coin: its key, its state and an empty book.
record=$(((1 + 32) + (1 + 47) + 2))
empty() { "$program" root "$records" 0; }
full() { "$program" root "$records" "$rounds"; }
other() { openssl dgst -sha256 "$work/bytes"; }

declare -A scratch=()
first=
for records in 1000 10000 100000; do
  rounds=$((500000 / records))
  bytes=$((records * (1 + record) + (records - 1) * (1 + 32 + 32)))
  head -c "$((rounds * bytes))" /dev/zero >"$work/bytes"
  times=$(least_times empty full other)
  read -r one line < <(awk -v records="$records" -v rounds="$rounds" -v bytes="$bytes" -v first="${first:-0}" "$shared"'{
    root = less($2, $1)
    one = root / rounds
    printf "%.9f %d records: %.5f s a root for %d hashed bytes, %.1f times openssl dgst -sha256", one, records, one, bytes, ratio(root, $3)
    if (first > 0) printf ", %.1f times the cost at 1000 records", one / first
    print ""
  }' <<<"$times")
  first=${first:-$one}
  scratch[$records]=$one
  echo "$line"
done

# So many times, since one run over a small table is over in milliseconds.
often() {
  local time
  for ((time = 0; time < times_over; time++)); do "$program" "$@"; done
}
begun() { often checkpoints "$records" 16 "$keys"; }
closed() { often checkpoints "$records" $((16 + 16 * checkpoints)) "$keys"; }
begun_alone() { often executions "$records" 16 "$keys"; }
executed() { often executions "$records" $((16 + 16 * checkpoints)) "$keys"; }

for keys in old new; do
  first=
  for records in 1000 10000 100000; do
    times_over=$((10000 / records > 0 ? 10000 / records : 1))
    checkpoints=$((records < 10000 ? 60 : 600))
    times=$(least_times begun closed begun_alone executed)
    read -r one line < <(awk -v records="$records" -v keys="$keys" -v over="$times_over" -v checkpoints="$checkpoints" -v first="${first:-0}" \
      -v root="${scratch[$records]}" "$shared"'{
      one = less($2 - $1, $4 - $3) / checkpoints / over
      printf "%.9f %d records, %s keys: %.6f s a checkpoint, %.3f of a root from scratch, %.2f %% of the leaves spared", \
        one, records, keys, one, one / root, 100 * (1 - 16 / records)
      if (first > 0) printf ", %.1f times the cost at 1000 records", one / first
      print ""
    }' <<<"$times")
    first=${first:-$one}
    echo "$line"
  done
done
