#!/usr/bin/env bash
# Prints how many prepares and decides a second of processor time a table of 1,000, 10,000 and 100,000 objects makes, the cost of
# one as a ratio to that in a plain C program with a hash table (bench/plain.c), and to that at 1,000 objects. The time of
# making the table is taken off. Proves and builds crates/cs_bench first; it takes cc.
. "$(dirname "${BASH_SOURCE[0]}")/common.sh"
build_bench
build_plain

sessions=1000
rounds=99
ours_empty() { "$program" table "$objects" 0 0; }
ours_full() { "$program" table "$objects" "$sessions" "$rounds"; }
plain_empty() { "$plain" table "$objects" 0 0; }
plain_full() { "$plain" table "$objects" "$sessions" "$rounds"; }

first=
for objects in 1000 10000 100000; do
  times=$(least_times ours_empty plain_empty ours_full plain_full)
  read -r one line < <(awk -v objects="$objects" -v calls=$((sessions * (rounds + 1))) -v first="${first:-0}" "$shared"'{
    one = less($3, $1) / calls
    other = less($4, $2) / calls
    printf "%.9f %d objects: %.0f calls a second, %.1f times the cost of one in the plain program", one, objects, 1 / one, one / other
    if (first > 0) printf ", %.2f times the cost at 1000 objects", one / first
    print ""
  }' <<<"$times")
  first=${first:-$one}
  echo "$line"
done
