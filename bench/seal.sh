#!/usr/bin/env bash
# Prints how many bytes of datagrams are sealed, and opened, in a second of processor time, for short and long ones, and the
# ratio of that time to the time of `openssl dgst -sha256` over as many bytes. The time of starting is taken off. Proves and
# builds crates/cs_bench first; it takes openssl.
. "$(dirname "${BASH_SOURCE[0]}")/common.sh"
build_bench

empty() { "$program" "$word" "$text" 0; }
full() { "$program" "$word" "$text" "$count"; }
other() { openssl dgst -sha256 "$work/bytes"; }

# A datagram has 49 bytes about its body, a session without texts 50, and a text of at most 256 bytes has 3 more.
for row in "0 200000" "512 50000" "4096 10000"; do
  read -r text count <<<"$row"
  datagram=$((49 + 50 + text + 3 * ((text + 255) / 256)))
  bytes=$((datagram * count))
  head -c "$bytes" /dev/zero >"$work/bytes"
  for word in seal open; do
    times=$(least_times empty full other)
    awk -v word="$word" -v datagram="$datagram" -v bytes="$bytes" "$shared"'{
      one = less($2, $1)
      printf "%s, datagrams of %d bytes: %.0f bytes a second, %.1f times openssl dgst -sha256\n", word, datagram, bytes / one, ratio(one, $3)
    }' <<<"$times"
  done
done
