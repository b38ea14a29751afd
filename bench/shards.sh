#!/usr/bin/env bash
# Prints how many events a second of processor time a replay of 3 shards of one node each makes, with 1,000 and with 10,000
# sessions that each concern all three, of which 10 or 4,000 wait for votes at once; the ratio of that time to the one in which a
# plain Python program decides the same sessions, with the tags of all datagrams made and tested by its library; the ratio to the
# time of the hashes that can't be spared, by the same sha2; and the growth of time and memory for ten times as many sessions.
# Proves and builds crates/chainspace and crates/cs_bench first; it takes python3.
. "$(dirname "${BASH_SOURCE[0]}")/common.sh"
prepare_bench
build_chainspace

# A session uses up a coin of each shard, so it needs no dummy, and makes one coin of them. It is said to one node, whose vote
# brings it to the others: 7 events, of which 6 are votes that come. A drain stands behind so many sessions.
cat >"$work/schedule.py" <<'PYTHON'
import hashlib, struct, sys

sessions, at_once = int(sys.argv[1]), int(sys.argv[2])
token = hashlib.sha256(b"token").digest()


def coin(value):
    return token + b"\x04coin\x01\x00" + struct.pack(">q", value)


def trace(inputs, output):
    used = bytes([len(inputs)]) + b"".join(name + coin(1) for name in inputs)
    return token + b"\x08transfer" + used + b"\x00\x00\x01" + output + b"\x00\x00"


shards, place = [[], [], []], 0
while min(map(len, shards)) < sessions:
    name = hashlib.sha256(b"G" + struct.pack(">I", place) + coin(1)).digest()
    shards[int.from_bytes(name[28:], "big") % 3].append(name)
    place += 1
print("shards 3\nfaulty 0\ndummies 0\nmaster " + "0" * 64)
print(("genesis " + coin(1).hex() + "\n") * place + "run")
for number, inputs in enumerate(zip(*(names[:sessions] for names in shards))):
    session = b"\x01" + trace(inputs, coin(3)) + struct.pack(">QB", 1, 0)
    print("say c.0 %d.0 1 %s" % (number % 3, session.hex()))
    if (number + 1) % at_once == 0 or number + 1 == sessions:
        print("drain 1000000")
print("end")
PYTHON

# The plain program. It reads the schedule, seals and opens each datagram that nodes send one another, and keeps the coins of
# each shard and the votes on each session in dictionaries. It prints the number of sessions that were accepted.
cat >"$work/plain.py" <<'PYTHON'
import hashlib, hmac, sys

COIN = 47


def tagged(letter, text):
    return hashlib.sha256(letter + text).digest()


def name_of(shard):
    return shard.to_bytes(2, "big") + b"\0\0"


master, coins, place = bytes(32), [{}, {}, {}], 0
keys = {(a, b): hmac.digest(master, b"key" + name_of(a) + name_of(b), "sha256") for a in [0, 1, 2, 0xFFFF] for b in range(3)}
pools, accepted = [{}, {}, {}], 0


def sealed(a, b, kind, body):
    text = b"CSP1" + bytes([kind]) + name_of(a) + name_of(b) + len(body).to_bytes(4, "big") + body
    return text + hmac.digest(keys[a, b], text, "sha256")


def opened(a, b, datagram):
    if not hmac.compare_digest(hmac.digest(keys[a, b], datagram[:-32], "sha256"), datagram[-32:]):
        sys.exit("a wrong tag")
    return datagram[17:-32]


def inputs_of(session):
    at = 1 + 32 + 9 + 1
    return [(session[k:k + 32], session[k + 32:k + 32 + COIN]) for k in range(at, at + 3 * (32 + COIN), 32 + COIN)]


def decide(shard, session, digest):
    global accepted
    for name, _ in inputs_of(session):
        if int.from_bytes(name[28:], "big") % 3 == shard:
            coins[shard][name] = None
    key = tagged(b"O", tagged(b"T", session[:-9]) + bytes(4))
    if int.from_bytes(key[28:], "big") % 3 == shard:
        coins[shard][key] = session[-58:-11]
    accepted += shard == 0


# A node gets a session, with a vote or without: it votes on a new one, and decides one that has all votes.
def take(shard, session, voters, waiting):
    digest = tagged(b"S", session)
    votes = pools[shard].setdefault(digest, set())
    if shard not in votes:
        for name, coin in inputs_of(session):
            if int.from_bytes(name[28:], "big") % 3 == shard and coins[shard].get(name) != coin:
                sys.exit("a coin that isn't free")
        votes.add(shard)
        for other in range(3):
            if other != shard:
                waiting.append((shard, other, sealed(shard, other, 6, b"\1\1" + session)))
    before = len(votes)
    votes |= voters
    if before < 3 and len(votes) == 3:
        decide(shard, session, digest)


waiting = []
for line in open(sys.argv[1]):
    words = line.split()
    if words[0] == "genesis":
        coin = bytes.fromhex(words[1])
        name = tagged(b"G", place.to_bytes(4, "big") + coin)
        coins[int.from_bytes(name[28:], "big") % 3][name] = coin
        place += 1
    elif words[0] == "say":
        shard = int(words[2].split(".")[0])
        datagram = sealed(0xFFFF, shard, 1, bytes.fromhex(words[4]))
        take(shard, opened(0xFFFF, shard, datagram), set(), waiting)
    elif words[0] == "drain":
        for a, b, datagram in waiting:
            take(b, opened(a, b, datagram)[2:], {a}, waiting)
        waiting = []
print(accepted)
PYTHON

# The words by which cs_bench takes the hashes that a schedule of these sessions can't spare. Each session has as many bytes as the
# first. It is submitted to one node, and each of the three nodes votes to two others, so there are 7 datagrams, each sealed and
# opened: a tag has 17 bytes before the body, and a vote 2 before the session. The session's digest is taken once for each datagram;
# the transaction's (the session without the 9 bytes at its end) and its output's, of 36 bytes, once for each node; and those of its
# two entries, of 1 and 2 bytes before the session, once for each node.
cat >"$work/hashes.py" <<'PYTHON'
import sys

sessions = int(sys.argv[1])
length = next(len(line.split()[4]) // 2 for line in sys.stdin if line.startswith("say"))
rows = [
    ("tag", 17 + length, 2),
    ("tag", 17 + 2 + length, 12),
    ("digest", length, 7),
    ("digest", length - 9, 3),
    ("digest", 36, 3),
    ("digest", 1 + length, 3),
    ("digest", 2 + length, 3),
]
print(*("%s %d %d" % (kind, size, times * sessions) for kind, size, times in rows))
PYTHON

# The least processor time of three runs in seconds and the most memory in KiB of the program, and the least times of the plain
# one and of the hashes alone, in turns.
cat >"$work/measure.py" <<'PYTHON'
import os, sys

program, plain, schedule, bench, *strings = sys.argv[1:]


def measured(words):
    child = os.fork()
    if child == 0:
        os.dup2(os.open(schedule, os.O_RDONLY), 0)
        os.dup2(os.open(os.devnull, os.O_WRONLY), 1)
        os.execvp(words[0], words)
    _, status, used = os.wait4(child, 0)
    if status != 0:
        sys.exit("%s ended with status %d" % (words[0], os.waitstatus_to_exitcode(status)))
    return used.ru_utime + used.ru_stime, used.ru_maxrss


words = [[program, "replay"], ["python3", plain, schedule], [bench, "hash"] + strings]
runs = [[measured(row) for row in words] for _ in range(3)]
ours, other, hashes = zip(*runs)
print(min(ours)[0], max(size for _, size in ours), min(other)[0], min(hashes)[0])
PYTHON

for at_once in 10 4000; do
  for sessions in 1000 10000; do
    python3 "$work/schedule.py" "$sessions" "$at_once" >"$work/schedule"
    if [ "$("$program" replay <"$work/schedule" | grep -c '^tx ')" != "$sessions" ] ||
      [ "$(python3 "$work/plain.py" "$work/schedule")" != "$sessions" ]; then
      echo "bench/shards.sh: not every session was accepted" >&2
      exit 1
    fi
    read -ra strings < <(python3 "$work/hashes.py" "$sessions" <"$work/schedule")
    measured=$(python3 "$work/measure.py" "$program" "$work/plain.py" "$work/schedule" "$bench" "${strings[@]}")
    read -r seconds size _ <<<"$measured"
    awk -v at_once="$at_once" -v sessions="$sessions" "$shared"'{
      printf "%d sessions, %d at once: %.2f s, %d events a second, %d MiB, %.1f times the time of the plain program, %.2f times that of the hashes that can\047t be spared\n", sessions, at_once, $1, 7 * sessions / least($1), $2 / 1024, ratio($1, $3), ratio($1, $4)
    }' <<<"$measured"
    if [ "$sessions" = 1000 ]; then
      first_seconds=$seconds first_size=$size
    else
      awk -v at_once="$at_once" -v a="$first_seconds" -v b="$seconds" -v c="$first_size" -v d="$size" "$shared"'BEGIN {
        printf "%d at once: ten times as many sessions take %.1f times the time and %.1f times the memory\n", at_once, ratio(b, a), d / c
      }'
    fi
  done
done
