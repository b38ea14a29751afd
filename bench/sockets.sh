#!/usr/bin/env bash
# Prints how many sessions a second a running shard of one node and of four decides for a client over the sockets of this computer,
# each node a process; the processor time that the nodes take for it, and the system's share of that; and the same while another
# process sends them 100,000 datagrams of each of four wrong kinds: cut short, changed, of another deployment, and repeated; with
# the ratio of the two rates and what the first node's memory grows by. Then, of a shard of four, sessions a second before and after one
# of its nodes is killed, beside the rate with all four. Every session has to be accepted by f+1 nodes.
# The client is a plain Python program, which has up to 16 sessions under way and says all again until they are answered.
# Proves and builds crates/chainspace first; it takes python3 and the 261 ports from the first argument on (20000).
. "$(dirname "${BASH_SOURCE[0]}")/common.sh"
build_chainspace
base_port=${1:-20000}

# What a client has to know: coins and their names, sessions that each use up one of them, and sealed datagrams.
cat >"$work/ledger.py" <<'PYTHON'
import hashlib, hmac, struct

token = hashlib.sha256(b"token").digest()
master = bytes(32)
CLIENT = 0xFFFF


def coin(value):
    return token + b"\x04coin\x01\x00" + struct.pack(">q", value)


def session(place):
    name = hashlib.sha256(b"G" + struct.pack(">I", place) + coin(5)).digest()
    trace = token + b"\x08transfer\x01" + name + coin(5) + b"\x00\x00\x02" + coin(2) + coin(3) + b"\x00\x00"
    return b"\x01" + trace + struct.pack(">QB", 1, 0)


def name_of(place):
    return struct.pack(">HH", *place)


def key_of(secret, a, b):
    return hmac.digest(secret, b"key" + name_of(a) + name_of(b), "sha256")


def sealed(key, a, b, kind, body):
    text = b"CSP1" + bytes([kind]) + name_of(a) + name_of(b) + struct.pack(">I", len(body)) + body
    return text + hmac.digest(key, text, "sha256")
PYTHON

# Sends datagrams that no node should mind, so many of each kind, to all nodes in turn.
cat >"$work/flood.py" <<'PYTHON'
import socket, sys
from ledger import *

base_port, nodes, count = map(int, sys.argv[1:])
me = (CLIENT, 1)
rows = []
for index in range(nodes):
    to, body = (0, index), session(0)
    good = sealed(key_of(master, me, to), me, to, 1, body)
    changed = good[:100] + bytes([good[100] ^ 1]) + good[101:]
    foreign = sealed(key_of(b"\x01" * 32, me, to), me, to, 1, body)
    rows.append((base_port + index, [good[:-1], changed, foreign, good]))
out = socket.socket(socket.AF_INET, socket.SOCK_DGRAM)
for number in range(count):
    port, datagrams = rows[number % nodes]
    for datagram in datagrams:
        out.sendto(datagram, ("127.0.0.1", port))
PYTHON

# Runs the nodes, the client and, where asked for, the flood. Prints sessions a second, the nodes' seconds of processor time, the
# system's share, and the first node's memory in KiB before the first and after the last session. Where sessions without the last node
# are asked for, it is killed then, and their rate is printed too, of those that are accepted within a minute.
cat >"$work/run.py" <<'PYTHON'
import os, select, socket, subprocess, sys, time
from ledger import *

program, base_port, f, sessions, flood, without = sys.argv[1], *map(int, sys.argv[2:])
nodes, me, at_once = 3 * f + 1, (CLIENT, 0), 16
with open("site.toml", "w") as site:
    coins = ", ".join('"%s"' % coin(5).hex() for _ in range(1 + sessions + without))
    site.write("shards = 1\nfaulty = %d\ndummies = 0\nbase_port = %d\ncontracts = []\ngenesis = [%s]\n" % (f, base_port, coins))
subprocess.run([program, "keys", "site.toml", master.hex()], check=True)
started = [
    subprocess.Popen([program, "node", "site.toml", "keys-0.%d.toml" % index, "--ticks", "9" * 18], stdout=subprocess.DEVNULL)
    for index in range(nodes)
]


def used(process):
    fields = open("/proc/%d/stat" % process.pid).read().rsplit(")", 1)[1].split()
    return int(fields[11]), int(fields[12])


def memory(process):
    return next(int(line.split()[1]) for line in open("/proc/%d/status" % process.pid) if line.startswith("VmRSS"))


try:
    link = socket.socket(socket.AF_INET, socket.SOCK_DGRAM)
    link.bind(("127.0.0.1", base_port + 256))
    link.setblocking(False)
    keys = [(key_of(master, me, (0, index)), key_of(master, (0, index), me)) for index in range(nodes)]
    under_way, said, accepted = {}, {}, {}
    following = 0

    def say(place):
        for index, (ours, _) in enumerate(keys):
            link.sendto(sealed(ours, me, (0, index), 1, said[place]), ("127.0.0.1", base_port + index))

    def begin(place):
        said[place] = session(place)
        under_way[hashlib.sha256(b"S" + said[place]).digest()] = place
        accepted[place] = set()
        say(place)

    def hear(datagram):
        index = struct.unpack(">H", datagram[7:9])[0]
        if hmac.compare_digest(hmac.digest(keys[index][1], datagram[:-32], "sha256"), datagram[-32:]) and datagram[4] == 7:
            digest, yes = datagram[17:49], datagram[49]
            place = under_way.get(digest)
            if place is not None and yes == 1:
                accepted[place].add(index)
                if len(accepted[place]) > f:
                    del under_way[digest], said[place]
                    return True
        return False

    # Has these sessions decided, and tells how many are, within so many seconds.
    def decide(first, last, most=3600):
        done, following, again, pause = 0, first, time.monotonic(), 0.002
        end = again + most
        while done < last - first and time.monotonic() < end:
            while len(under_way) < at_once and following < last:
                begin(following)
                following += 1
            if select.select([link], [], [], 0.002)[0]:
                try:
                    while True:
                        if hear(link.recv(65536)):
                            done, pause = done + 1, 0.002
                except BlockingIOError:
                    pass
            # Rarer and rarer while nothing is heard: a node has what it was told once, and says its own again at its ticks.
            if time.monotonic() - again > pause:
                for place in list(under_way.values()):
                    say(place)
                again, pause = time.monotonic(), min(2 * pause, 0.256)
        return done

    decide(0, 1)  # all nodes stand
    flooding = []
    if flood:
        words = ["python3", os.path.join(os.path.dirname(sys.argv[0]), "flood.py"), str(base_port), str(nodes), str(flood)]
        flooding.append(subprocess.Popen(words))
    before, size, start = [used(process) for process in started], memory(started[0]), time.monotonic()
    decide(1, sessions + 1)
    seconds = time.monotonic() - start
    for process in flooding:
        process.wait()
    after = [used(process) for process in started]
    own = sum(b[0] - a[0] for a, b in zip(before, after))
    system = sum(b[1] - a[1] for a, b in zip(before, after))
    if any(process.poll() is not None for process in started):
        sys.exit("a node ended")
    size = [size, memory(started[0])]
    rest = 0
    if without:
        started[-1].kill()
        start = time.monotonic()
        rest = decide(sessions + 1, sessions + 1 + without, 60) / (time.monotonic() - start)
    print(sessions / seconds, (own + system) / os.sysconf("SC_CLK_TCK"), system / max(1, own + system), *size, rest)
finally:
    for process in started:
        process.kill()
        process.wait()
PYTHON

run() {
  local folder
  folder=$(mktemp -d "$work/XXXXXX")
  (cd "$folder" && PYTHONPATH=$work python3 "$work/run.py" "$program" "$base_port" "$@")
}

measure() {
  local f=$1 sessions=$2 alone among
  alone=$(run "$f" "$sessions" 0 0)
  among=$(run "$f" "$sessions" 100000 0)
  awk -v f="$f" -v sessions="$sessions" -v alone="$alone" -v among="$among" "$shared"'BEGIN {
    split(alone, a, " "); split(among, b, " ")
    printf "one shard of %d, %d sessions: %d a second, %.1f s of the nodes, %d %% of it the system\047s\n", 3 * f + 1, sessions, a[1], a[2], 100 * a[3]
    printf "among 400,000 datagrams that are wrong: %d a second, %.2f of that; %.1f s of the nodes; the first grew from %.1f to %.1f MiB, alone from %.1f to %.1f\n", b[1], b[1] / a[1], b[2], b[4] / 1024, b[5] / 1024, a[4] / 1024, a[5] / 1024
  }'
}

# A node of four is killed after so many sessions, and so many are to be decided without it; `all` is the rate with all four.
measure_killed() {
  local all
  all=$(run 1 "$1" 0 0)
  awk -v all="$all" -v killed="$(run 1 "$1" 0 "$2")" 'BEGIN {
    split(all, a, " "); split(killed, b, " ")
    printf "one shard of 4, of which one is killed: %d a second before, %.1f after; %d with all four\n", b[1], b[6], a[1]
  }'
}

measure 0 5000
measure 1 2000
measure_killed 500 200
