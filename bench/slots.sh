#!/usr/bin/env bash
# Prints how many slots a second of processor time shards of 4 and of 16 members choose, all members on one processor and
# all messages delivered, the cost of a slot as a ratio to that in a plain C program that sends the same messages (bench/plain.c),
# and its growth where ten times as many are chosen.
#
# Then what a slot costs at the end of 100,000 and what is kept of it, for the order of a shard of 4 members and for the chain of
# its checkpoints over 1,000 coins: the processor time of the second half as a ratio to the first, and by how many bytes a slot
# the most memory grows from 10,000 slots on, as a ratio to the bytes of what is cut, an entry or a leaf. A chain keeps all heads,
# which are 2 bytes a slot.
# Proves and builds crates/cs_bench first; it takes cc.
. "$(dirname "${BASH_SOURCE[0]}")/common.sh"
build_bench
build_plain

ours_few() { "$program" slots "$liars" "$slots"; }
ours_many() { "$program" slots "$liars" $((10 * slots)); }
plain_many() { "$plain" slots "$liars" $((10 * slots)); }

for row in "1 10000" "5 500"; do
  read -r liars slots <<<"$row"
  times=$(least_times ours_few ours_many plain_many)
  awk -v members=$((3 * liars + 1)) -v slots="$slots" "$shared"'{
    printf "%d members: %.0f slots a second, %.1f times the cost of one in the plain program; ", members, 10 * slots / least($2), ratio($2, $3)
    printf "a slot costs %.2f times as much where ten times as many are chosen\n", ratio($2, 10 * $1)
  }' <<<"$times"
done

# The least processor time of five runs with each number of slots in seconds, and the most memory of the last of them in KiB: they
# take turns.
measure() {
  local count round used
  local -A least=() most=()
  for round in 1 2 3 4 5; do
    for count in "$@"; do
      read -r used most[$count] < <("$plain" run "$program" "$part" "$size" "$count") || return 1
      least[$count]=$(awk -v a="${least[$count]:-$used}" -v b="$used" 'BEGIN { print (b < a ? b : a) }')
    done
  done
  for count in "$@"; do printf '%s %s ' "${least[$count]}" "${most[$count]}"; done
  echo
}

# The entry of 100 bytes is kept by each of 4 members. A leaf is that of a session with one coin.
for row in "slots 1 400 order" "leaves 1000 197 chain"; do
  read -r part size bytes name <<<"$row"
  measured=$(measure 0 10000 50000 100000)
  awk -v name="$name" -v bytes="$bytes" "$shared"'{
    grown = ($8 - $4) * 1024 / 90000
    printf "100000 slots of the %s: %.1f us a slot, of the second half %.2f times that of the first; ", name, (less($7, $1)) * 10, ratio($7 - $5, $5 - $1)
    printf "%.2f bytes a slot more from 10000 slots on, %.3f of the %d that are cut; %d KiB more than at none\n", grown, grown / bytes, bytes, $8 - $2
  }' <<<"$measured"
done
