#!/usr/bin/env bash
# Prints how many slots a second `audit` executes of the dump of 1,000 sessions over three shards, and of 10,000: its processor time
# and memory, the ratios of these to those of the replay that made the dump, and the growth for ten times as many sessions. Each
# shard has one node, and each session splits a coin of its own. That yes is answered, with the history that the replay printed,
# is compared first. Proves and builds crates/chainspace first; it takes python3.
. "$(dirname "${BASH_SOURCE[0]}")/common.sh"
build_chainspace

# The text of a schedule of so many sessions, each said to all shards that it concerns.
cat >"$work/schedule.py" <<'PYTHON'
import hashlib, sys

size = int(sys.argv[1])
token = hashlib.sha256(b"token").digest()


def coin(worth):
    return token + b"\x04coin\x01\x00" + worth.to_bytes(8, "big")


def tagged(letter, text):
    return hashlib.sha256(letter + text).digest()


def shard_of(name):
    return int.from_bytes(name[28:], "big") % 3


print("shards 3\nfaulty 0\ndummies 8\nmaster " + 64 * "0")
for place in range(size):
    print("genesis " + coin(100 + place).hex())
print("run")
serials = [0, 0, 0]
for place in range(size):
    name = tagged(b"G", place.to_bytes(4, "big") + coin(100 + place))
    outputs = coin(100) + coin(place)
    tx = b"\x01" + token + b"\x08transfer\x01" + name + coin(100 + place) + b"\x00\x00\x02" + outputs + b"\x00\x00"
    made = [tagged(b"O", tagged(b"T", tx) + bytes([0, 0, 0, output])) for output in range(2)]
    shards = sorted({shard_of(used) for used in [name] + made})
    wanting = [shard for shard in shards if shard != shard_of(name)]
    dummies = b"".join(shard.to_bytes(2, "big") + serials[shard].to_bytes(8, "big") for shard in wanting)
    for shard in wanting:
        serials[shard] += 1
    session = tx + place.to_bytes(8, "big") + bytes([len(wanting)]) + dummies
    for shard in shards:
        print("say c.0 %d.0 1 %s" % (shard, session.hex()))
    print("drain 1000")
print("end")
PYTHON

# The least processor time of three runs in seconds and the most memory in KiB of the replay and of the audit, in turns.
cat >"$work/measure.py" <<'PYTHON'
import os, sys

program, schedule, dump = sys.argv[1:]


def measured(words, source):
    child = os.fork()
    if child == 0:
        os.dup2(os.open(source, os.O_RDONLY), 0)
        os.dup2(os.open(os.devnull, os.O_WRONLY), 1)
        os.execvp(words[0], words)
    _, status, used = os.wait4(child, 0)
    if status != 0:
        sys.exit("%s ended with status %d" % (words, os.waitstatus_to_exitcode(status)))
    return used.ru_utime + used.ru_stime, used.ru_maxrss


rows = [([program, "replay", "--dumps"], schedule), ([program, "audit"], dump)]
runs = [[measured(*row) for row in rows] for _ in range(3)]
replays, audits = zip(*runs)
print(min(replays)[0], max(size for _, size in replays), min(audits)[0], max(size for _, size in audits))
PYTHON

before=
for size in 1000 10000; do
  python3 "$work/schedule.py" "$size" >"$work/schedule"
  "$program" replay --dumps <"$work/schedule" >"$work/printed"
  sed -n '/^dump$/,$p' "$work/printed" >"$work/dump"
  sed -e '/^dump$/,$d' -e '/^node/d' -e 's/^history/yes/' "$work/printed" >"$work/expected"
  "$program" audit <"$work/dump" >"$work/answer"
  if [ "$(head -1 "$work/answer")" != "yes $size" ] || ! cmp -s "$work/expected" "$work/answer"; then
    echo "bench/audit.sh: $size sessions: the auditor answers $(head -1 "$work/answer")" >&2
    exit 1
  fi
  slots=$(awk '$1 == "log" { slots += $3 } END { print slots }' "$work/dump")
  measured=$(python3 "$work/measure.py" "$program" "$work/schedule" "$work/dump")
  awk -v size="$size" -v slots="$slots" -v before="$before" -v bytes="$(wc -c <"$work/dump")" "$shared"'{
    printf "%d sessions: %.2f s, %d slots, %d a second, %d MiB of memory; %.2f times the time and %.2f times the memory of the replay; a dump of %d bytes", size, $3, slots, slots / least($3), $4 / 1024, ratio($3, $1), $4 / $2, bytes
    split(before, was)
    if (before != "") printf "; %.1f times the time and %.1f times the memory of a tenth of the sessions", ratio($3, was[3]), $4 / was[4]
    printf "\n"
  }' <<<"$measured"
  before=$measured
done
