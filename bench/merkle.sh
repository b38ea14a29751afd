#!/usr/bin/env bash
# Prints the processor time of the root over 65,536 leaves of 100 bytes, as a ratio to that of `openssl dgst -sha256` over
# as many bytes as are hashed: each leaf with a byte before it, and for each inner node a byte and two hashes. The time of
# making the leaves is taken off. Proves and builds crates/cs_bench first; it takes openssl.
. "$(dirname "${BASH_SOURCE[0]}")/common.sh"
build_bench

leaves=65536
rounds=10
bytes=$((leaves * (1 + 100) + (leaves - 1) * (1 + 32 + 32)))
head -c "$bytes" /dev/zero >"$work/bytes"
empty() { "$program" merkle "$leaves" 0; }
full() { "$program" merkle "$leaves" "$rounds"; }
other() { openssl dgst -sha256 "$work/bytes"; }

times=$(least_times empty full other)
awk -v rounds="$rounds" -v leaves="$leaves" -v bytes="$bytes" "$shared"'{
  root = less($2, $1) / rounds
  printf "root over %d leaves: %.3f s for %d hashed bytes, %.1f times openssl dgst -sha256\n", leaves, root, bytes, ratio(root, $3)
}' <<<"$times"
