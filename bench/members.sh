#!/usr/bin/env bash
# Prints how many events a second of processor time a replay makes of 3 shards of four nodes with 100 and with 1,000 sessions, and
# of one shard of sixteen nodes with 10 and with 100, each session said to all nodes that it concerns; its memory; the ratio to
# OpenSSL's hash over as many bytes as the tags of all datagrams take, which are made once and tested once; and the growth of time
# and memory for ten times as many sessions. Proves and builds crates/chainspace first; it takes python3 and openssl.
. "$(dirname "${BASH_SOURCE[0]}")/common.sh"
build_chainspace

# A session uses up a coin of each shard, so it needs no dummy, and makes one coin of them.
cat >"$work/schedule.py" <<'PYTHON'
import hashlib, struct, sys

shards, f, sessions = map(int, sys.argv[1:])
token = hashlib.sha256(b"token").digest()


def coin(value):
    return token + b"\x04coin\x01\x00" + struct.pack(">q", value)


names, place = [[] for _ in range(shards)], 0
while min(map(len, names)) < sessions:
    name = hashlib.sha256(b"G" + struct.pack(">I", place) + coin(1)).digest()
    names[int.from_bytes(name[28:], "big") % shards].append(name)
    place += 1
print("shards %d\nfaulty %d\ndummies 0\nmaster %s" % (shards, f, "0" * 64))
print(("genesis " + coin(1).hex() + "\n") * place + "run")
for inputs in zip(*(those[:sessions] for those in names)):
    used = bytes([shards]) + b"".join(name + coin(1) for name in inputs)
    session = b"\x01" + token + b"\x08transfer" + used + b"\x00\x00\x01" + coin(shards) + b"\x00\x00" + struct.pack(">QB", 1, 0)
    for shard in range(shards):
        for index in range(3 * f + 1):
            print("say c.0 %d.%d 1 %s" % (shard, index, session.hex()))
    print("drain 100000")
print("end")
PYTHON

# The number of events of a trace, and the bytes of all datagrams that were sent.
cat >"$work/count.py" <<'PYTHON'
import sys

events = sent = 0
for line in sys.stdin:
    words = line.split()
    events += words[0] == "at"
    if words[0] == "sent":
        sent += len(words[5]) // 2
print(events, sent)
PYTHON

# The most memory of a run in KiB.
cat >"$work/memory.py" <<'PYTHON'
import os, sys

program, schedule = sys.argv[1:]
child = os.fork()
if child == 0:
    os.dup2(os.open(schedule, os.O_RDONLY), 0)
    os.dup2(os.open(os.devnull, os.O_WRONLY), 1)
    os.execvp(program, [program, "replay"])
print(os.wait4(child, 0)[2].ru_maxrss)
PYTHON

ours() { "$program" replay <"$work/schedule"; }
hashes() { openssl dgst -sha256 "$work/bytes"; }

measure() {
  local shards=$1 f=$2 sessions=$3 events sent size a b
  python3 "$work/schedule.py" "$shards" "$f" "$sessions" >"$work/schedule"
  if [ "$("$program" replay <"$work/schedule" | grep -c '^tx ')" != "$sessions" ]; then
    echo "bench/members.sh: not every session was accepted" >&2
    exit 1
  fi
  read -r events sent < <("$program" replay --trace <"$work/schedule" | python3 "$work/count.py")
  head -c $((2 * sent)) /dev/zero >"$work/bytes"
  size=$(python3 "$work/memory.py" "$program" "$work/schedule")
  read -r a b < <(least_times ours hashes)
  awk -v shards="$shards" -v f="$f" -v sessions="$sessions" -v events="$events" -v size="$size" -v a="$a" -v b="$b" "$shared"'BEGIN {
    printf "%d shards, f = %d, %d sessions: %.2f s, %d events a second, %d MiB, %.1f times the time of the hashes\n", shards, f, sessions, a, events / least(a), size / 1024, ratio(a, b)
  }'
  seconds=$a memory=$size
}

for setting in "3 1 100 1000" "1 5 10 100"; do
  read -r shards f few many <<<"$setting"
  measure "$shards" "$f" "$few"
  first_seconds=$seconds first_memory=$memory
  measure "$shards" "$f" "$many"
  awk -v a="$first_seconds" -v b="$seconds" -v c="$first_memory" -v d="$memory" "$shared"'BEGIN {
    printf "ten times as many sessions take %.1f times the time and %.1f times the memory\n", ratio(b, a), d / c
  }'
done
