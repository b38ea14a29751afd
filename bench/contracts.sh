#!/usr/bin/env bash
# Prints how many sessions a second of processor time a replay makes of 2,000 sessions in one shard of one node whose contract
# spends 1,000 units a check, beside the same sessions with `token`, and the ratio of the two: the schedules differ in the id of
# the contract alone, and in the line that brings its text. The time of the schedule without sessions is taken off. Proves
# and builds crates/chainspace first; it takes python3.
. "$(dirname "${BASH_SOURCE[0]}")/common.sh"
build_chainspace

# A session moves one coin. The check spends 1 unit on its loop, 3 on each turn (the turn, the statement and its number), and 6
# on its answer (the statement, the comparison, and two on each of its sides): 1 + 331 * 3 + 6 = 1000.
cat >"$work/schedule.py" <<'PYTHON'
import hashlib, struct, sys

kind, coins, sessions = sys.argv[1], int(sys.argv[2]), int(sys.argv[3])
text = b"""type coin(value: int);
method transfer consumes a: coin creates b: coin {
  procedure { make b = coin(a.value); }
  check { for turn to 331 { let number = 1; } answer a.value == b.value; }
}
"""
contract = hashlib.sha256(b"token" if kind == "token" else text).digest()
coin = contract + b"\x04coin\x01\x00" + struct.pack(">q", 5)
print("shards 1\nfaulty 0\ndummies 0\nmaster " + "0" * 64)
if kind != "token":
    print("contract " + text.hex())
print(("genesis " + coin.hex() + "\n") * coins + "run")
for place in range(sessions):
    name = hashlib.sha256(b"G" + struct.pack(">I", place) + coin).digest()
    session = b"\x01" + contract + b"\x08transfer\x01" + name + coin + b"\x00\x00\x01" + coin + b"\x00\x00" + struct.pack(">QB", 1, 0)
    print("say c.0 0.0 1 " + session.hex())
    print("drain 1000")
print("end")
PYTHON

sessions=2000
for kind in token contract; do
  python3 "$work/schedule.py" "$kind" "$sessions" 0 >"$work/$kind.empty"
  python3 "$work/schedule.py" "$kind" "$sessions" "$sessions" >"$work/$kind.full"
  if [ "$("$program" replay <"$work/$kind.full" | grep -c '^tx ')" != "$sessions" ]; then
    echo "bench/contracts.sh: not every session with '$kind' was accepted" >&2
    exit 1
  fi
done
token_empty() { "$program" replay <"$work/token.empty"; }
token_full() { "$program" replay <"$work/token.full"; }
contract_empty() { "$program" replay <"$work/contract.empty"; }
contract_full() { "$program" replay <"$work/contract.full"; }

times=$(least_times token_empty token_full contract_empty contract_full)
awk -v sessions="$sessions" "$shared"'{
  token = less($2, $1)
  contract = less($4, $3)
  printf "with token: %.0f sessions a second; with a contract of 1,000 units a check: %.0f; %.1f times the time\n", sessions / token, sessions / contract, ratio(contract, token)
}' <<<"$times"
