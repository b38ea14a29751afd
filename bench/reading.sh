#!/usr/bin/env bash
# Prints how long a replay takes to read a schedule of 8 MiB, as a ratio to `wc -l` and to `sha256sum` on the same file,
# and how the time grows from 2 MiB on. Most of the text is genesis objects; comments fill it up. Proves and builds
# crates/chainspace first.
. "$(dirname "${BASH_SOURCE[0]}")/common.sh"
zeros=$(printf '0%.0s' {1..64})
coin=3c469e9d6c5875d37a43f353d4f88e61fcf812c66eee3457465a40b0da4153e004636f696e0100

# A schedule of about so many bytes: coins of 1, 2, 3 .., at most 65,536 of them, then comments.
schedule() {
  printf 'shards 1\nfaulty 0\ndummies 0\nmaster %s\n' "$zeros"
  awk -v bytes="$1" -v coin="$coin" 'BEGIN {
    for (n = 1; n <= 65536 && n * 103 < bytes; n++) printf "genesis %s%016x\n", coin, n
    for (left = bytes - n * 103; left > 0; left -= 64) print "# a comment of sixty-four bytes, of which the reader makes nothing.."
  }'
  printf 'run\nend\n'
}

build_chainspace
for size in 2097152 4194304 8388608; do schedule "$size" >"$work/$size"; done
two() { "$program" replay <"$work/2097152"; }
four() { "$program" replay <"$work/4194304"; }
eight() { "$program" replay <"$work/8388608"; }
count() { wc -l <"$work/8388608"; }
hash() { sha256sum <"$work/8388608"; }

times=$(least_times two four eight count hash)
awk "$shared"'{
  printf "2, 4 and 8 MiB: %.2f, %.2f and %.2f s; 8 MiB take %.0f times wc -l and %.1f times sha256sum\n", $1, $2, $3, ratio($3, $4), ratio($3, $5)
}' <<<"$times"
