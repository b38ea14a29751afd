#!/usr/bin/env bash
# Prints how many of 1,000 sessions are accepted that read one object, and how long a replay of them takes, beside the same sessions
# that read nothing. Two shards have one node each; each session makes a coin of shard 0 into two, of which one is of shard 1, and 64
# are said before one of them is decided, so that they read the object at once. With a second word, the path of a program of an earlier
# tree, that program plays the same schedules in turns. Proves and builds crates/chainspace first; it takes python3.
. "$(dirname "${BASH_SOURCE[0]}")/common.sh"
build_chainspace

# The text of a schedule of so many sessions, which read the object, or nothing.
cat >"$work/schedule.py" <<'PYTHON'
import hashlib, sys

size, reads = int(sys.argv[1]), sys.argv[2] == "read"
token = hashlib.sha256(b"token").digest()


def coin(worth):
    return token + b"\x04coin\x01\x00" + worth.to_bytes(8, "big")


def tagged(letter, text):
    return hashlib.sha256(letter + text).digest()


def shard_of(name):
    return int.from_bytes(name[28:], "big") % 2


def genesis_name(place, worth):
    return tagged(b"G", place.to_bytes(4, "big") + coin(worth))


def worth_of(place, least):
    return next(worth for worth in range(least, least + 1000) if shard_of(genesis_name(place, worth)) == 0)


def session(place, serial):
    """The session of the coin of this place that makes one of shard 1."""
    name = genesis_name(place, worths[place])
    keyed = genesis_name(0, worths[0]) + coin(worths[0])
    references = b"\x01" + keyed if reads else b"\x00"
    for first in range(worths[place]):
        outputs = coin(first) + coin(worths[place] - first)
        tx = b"\x01" + token + b"\x08transfer\x01" + name + coin(worths[place]) + references + b"\x00\x02" + outputs + b"\x00\x00"
        made = [tagged(b"O", tagged(b"T", tx) + bytes([0, 0, 0, output])) for output in range(2)]
        if {shard_of(it) for it in made} == {0, 1}:
            return tx + place.to_bytes(8, "big") + b"\x01\x00\x01" + serial.to_bytes(8, "big")


worths = [worth_of(place, 100 + place) for place in range(size + 1)]
print("shards 2\nfaulty 0\ndummies 64\nmaster " + 64 * "0")
for worth in worths:
    print("genesis " + coin(worth).hex())
print("run")
for place in range(size):
    print("say c.0 0.0 1 " + session(place + 1, place).hex())
    if place % 64 == 63 or place == size - 1:
        print("drain 100000")
print("end")
PYTHON

# How many are accepted.
accepted() {
  "$1" replay <"$2" | sed -n 's/^history //p'
}

for what in read nothing; do python3 "$work/schedule.py" 1000 "$what" >"$work/$what"; done
for played in "$program" "${1:-}"; do
  [ -n "$played" ] || continue
  reading() { "$played" replay <"$work/read"; }
  plain() { "$played" replay <"$work/nothing"; }
  read -r with without < <(least_times reading plain)
  label=$([ "$played" = "$program" ] && echo now || echo "$played")
  awk -v label="$label" -v some="$(accepted "$played" "$work/read")" -v all="$(accepted "$played" "$work/nothing")" -v with="$with" -v without="$without" 'BEGIN {
    printf "%s: %d of 1000 sessions that read one object are accepted in %.2f s, and %d that read nothing in %.2f s: %.2f times the time\n", label, some, with, all, without, with / without
  }'
done
