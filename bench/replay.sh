#!/usr/bin/env bash
# Prints how many events and how many sealed bytes a second a replay of 100,000 Asks makes, the ratio of its processor time
# to that of `openssl dgst -sha256` over the same bytes (each Ask and each answer, whole), the ratio to that of the hashes that
# it can't spare, by the same sha2, and the growth of the time from 10,000 to 100,000 events. Proves and builds
# crates/chainspace and crates/cs_bench first; it takes openssl.
. "$(dirname "${BASH_SOURCE[0]}")/common.sh"
prepare_bench
build_chainspace

# An empty Ask has 49 bytes. It is answered by Told of the dummy 0 of shard 0: 49 bytes, a key of 11 and a state of 40.
asked=49
told=100

schedule() {
  printf 'shards 1\nfaulty 0\ndummies 1\nmaster %064d\nrun\n' 0
  yes 'say c.0 0.0 10 -' | head -n "$1"
  printf 'end\n'
}

schedule 10000 >"$work/small"
schedule 100000 >"$work/large"
bytes=$((100000 * (asked + told)))
head -c "$bytes" /dev/zero >"$work/bytes"
small() { "$program" replay <"$work/small"; }
large() { "$program" replay <"$work/large"; }
other() { openssl dgst -sha256 "$work/bytes"; }

# Each Ask is sealed and opened, and its answer sealed: so many tags, each of all bytes before it.
hashes() { "$bench" hash tag $((asked - 32)) 200000 tag $((told - 32)) 100000; }

times=$(least_times small large other hashes)
awk -v bytes="$bytes" "$shared"'{
  printf "100,000 Asks: %.2f s, %d events and %d sealed bytes a second\n", $2, 100000 / least($2), bytes / least($2)
  printf "ratio to openssl dgst -sha256 over %d bytes: %.1f\n", bytes, ratio($2, $3)
  printf "ratio to the hashes that can\047t be spared: %.2f\n", ratio($2, $4)
  printf "time of 100,000 events to that of 10,000: %.1f\n", ratio($2, $1)
}' <<<"$times"
