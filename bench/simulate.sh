#!/usr/bin/env bash
# Prints the processor time and the memory of `simulate 1 SIZE` for the sizes 10, 100 and 1,000, how many events a second that is,
# the ratio of the time to that of the hashes that can't be spared, by the same sha2, and the growth from each size to the next.
# What is simulated is compared first with a replay of the same schedule, whose text a Python program makes. Proves and builds
# crates/chainspace and crates/cs_bench first; it takes python3.
. "$(dirname "${BASH_SOURCE[0]}")/common.sh"
prepare_bench
build_chainspace
readonly NUMBER=1

# The text of the schedule of a number and a size: docs/FORMATS.md has the rule.
cat >"$work/schedule.py" <<'PYTHON'
import hashlib, sys

number, size = map(int, sys.argv[1:])
token = hashlib.sha256(b"token").digest()
state = number


def advance():
    global state
    state = (state * 6364136223846793005 + 1442695040888963407) % 2**64
    return state


def draw():
    return advance() >> 33


def coin(worth):
    return token + b"\x04coin\x01\x00" + worth.to_bytes(8, "big")


def tagged(letter, text):
    return hashlib.sha256(letter + text).digest()


def shard_of(name):
    return int.from_bytes(name[28:], "big") % 3


print("shards 3\nfaulty 1\ndummies 8")
print("master " + b"".join(advance().to_bytes(8, "big") for _ in range(4)).hex())
worths = [100 + draw() % 900 for _ in range(size)]
for worth in worths:
    print("genesis " + coin(worth).hex())
print("run")
serials = [0, 0, 0]
for place, worth in enumerate(worths):
    share = draw() % (worth + 1)
    numbers = [place, size + place] if draw() % 4 == 0 else [place]
    name = tagged(b"G", place.to_bytes(4, "big") + coin(worth))
    outputs = coin(share) + coin(worth - share)
    tx = b"\x01" + token + b"\x08transfer\x01" + name + coin(worth) + b"\x00\x00\x02" + outputs + b"\x00\x00"
    made = [tagged(b"O", tagged(b"T", tx) + bytes([0, 0, 0, output])) for output in range(2)]
    shards = sorted({shard_of(used) for used in [name] + made})
    wanting = [shard for shard in shards if shard != shard_of(name)]
    dummies = b"".join(shard.to_bytes(2, "big") + serials[shard].to_bytes(8, "big") for shard in wanting)
    for shard in wanting:
        serials[shard] += 1
    for number in numbers:
        session = tx + number.to_bytes(8, "big") + bytes([len(wanting)]) + dummies
        for shard in shards:
            for index in range(4):
                print("say c.0 %d.%d 1 %s" % (shard, index, session.hex()))
    print("drain 100000")
print("end")
PYTHON

# Of a schedule and its trace: the four numbers that a simulation tells, and the words by which cs_bench takes the hashes that can't
# be spared. Each datagram that nodes or the client send is sealed and opened, one to a client is sealed alone: its tag is over all
# bytes before it. A session's digest is taken once for each datagram with that session, Submits and votes; the digest of the
# transaction (the session without its number and its dummies) and those of its two outputs, of 36 bytes, once for each node that
# the session is said to; that of an entry, of 1 or 2 bytes before the session, once for each node that executes it.
cat >"$work/counts.py" <<'PYTHON'
import collections, hashlib, sys

TX = 221
rows, lengths = collections.Counter(), {}
for line in open(sys.argv[1]):
    if line.startswith("say"):
        session = bytes.fromhex(line.split()[4])
        lengths[hashlib.sha256(b"S" + session).hexdigest()] = len(session)
        rows["tag", 17 + len(session)] += 2
        rows["digest", len(session)] += 1
        rows["digest", TX] += 1
        rows["digest", 36] += 2
aborted, accepted, events, sent = set(), 0, 0, 0
for line in sys.stdin:
    words = line.split()
    if words[0] == "at":
        events += 1
    elif words[0] == "history":
        accepted = int(words[1])
    elif words[0] == "sent":
        length = len(words[5]) // 2
        sent += length
        rows["tag", length - 32] += 1 if words[3].startswith("c.") else 2
        if words[4] == "6":
            rows["digest", length - 49 - 2] += 1
    elif words[0] == "node" and words[4] == "prepare":
        rows["digest", 1 + lengths[words[5]]] += 1
        if words[6] == "abort":
            aborted.add(words[5])
    elif words[0] == "node" and words[4] == "decide":
        rows["digest", 2 + lengths[words[5]]] += 1
        if words[6] == "aborted":
            aborted.add(words[5])
print("accepted %d\naborted %d\nevents %d\nsent %d" % (accepted, len(aborted), events, sent), file=open(sys.argv[2], "w"))
print(*("%s %d %d" % (kind, length, count) for (kind, length), count in sorted(rows.items())))
PYTHON

# The least processor time of five runs in seconds and the most memory in KiB of a simulation, and the least time of the hashes,
# in turns.
cat >"$work/measure.py" <<'PYTHON'
import os, sys

program, number, size, bench, *strings = sys.argv[1:]


def measured(words):
    child = os.fork()
    if child == 0:
        os.dup2(os.open(os.devnull, os.O_WRONLY), 1)
        os.execvp(words[0], words)
    _, status, used = os.wait4(child, 0)
    if status != 0:
        sys.exit("%s ended with status %d" % (words[0], os.waitstatus_to_exitcode(status)))
    return used.ru_utime + used.ru_stime, used.ru_maxrss


words = [[program, "simulate", number, size], [bench, "hash"] + strings]
runs = [[measured(row) for row in words] for _ in range(5)]
ours, hashes = zip(*runs)
print(min(ours)[0], max(size for _, size in ours), min(hashes)[0])
PYTHON

before=
for size in 10 100 1000; do
  python3 "$work/schedule.py" $NUMBER "$size" >"$work/schedule"
  read -ra strings < <("$program" replay --trace <"$work/schedule" | python3 "$work/counts.py" "$work/schedule" "$work/numbers")
  { echo "simulated $NUMBER $size"; cat "$work/numbers"; } >"$work/expected"
  "$program" simulate $NUMBER "$size" >"$work/printed"
  if ! cmp -s "$work/expected" "$work/printed"; then
    echo "bench/simulate.sh: size $size: the simulation tells other numbers than the replay of the same schedule" >&2
    exit 1
  fi
  events=$(awk '$1 == "events" { print $2 }' "$work/printed")
  measured=$(python3 "$work/measure.py" "$program" $NUMBER "$size" "$bench" "${strings[@]}")
  awk -v size="$size" -v events="$events" -v text="$(wc -c <"$work/schedule")" -v before="$before" "$shared"'{
    printf "size %d: %.2f s, %d events, %d a second, %d MiB, %.2f times the hashes that can\047t be spared; a text of %d bytes", size, $1, events, events / least($1), $2 / 1024, ratio($1, $3), text
    split(before, was)
    if (before != "") printf "; %.1f times the time and %.1f times the memory of a tenth of the size", ratio($1, was[1]), $2 / was[2]
    printf "\n"
  }' <<<"$measured"
  before=$measured
done
