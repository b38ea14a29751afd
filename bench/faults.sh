#!/usr/bin/env bash
# Prints what a running shard of four nodes, of which one may fail, accepts while something is wrong with it: each second where a node is
# killed or paused for a second, and how soon where the leader of slot 0 never was there. Each client is the program's, and makes one
# payment after the other. Nothing outside is compared with; the first three seconds of a row have all four nodes.
# Proves and builds crates/chainspace first, takes python3 and some three minutes at most.
. "$(dirname "${BASH_SOURCE[0]}")/common.sh"
build_chainspace

cat >"$work/run.py" <<'PYTHON'
import signal, sys, tempfile, time
from payments import Ledger

program = sys.argv[1]


def each_second(what, clients, fault, seconds=14):
    """What is accepted in each second, where this fault comes after the third."""
    with tempfile.TemporaryDirectory() as folder, Ledger(program, folder) as ledger:
        ledger.start_nodes()
        time.sleep(0.5)
        ledger.start_payers(clients)
        start = time.monotonic()
        time.sleep(3)
        fault(ledger)
        time.sleep(max(0, start + seconds - time.monotonic()))
        counts = [sum(start + second <= at < start + second + 1 for at in ledger.accepted) for second in range(seconds)]
        print(f"{what}, {clients} clients: {' '.join(map(str, counts))}; {len(ledger.others)} not accepted", flush=True)


def kill(ledger):
    ledger.signal(3, signal.SIGKILL)


def pause(ledger):
    ledger.signal(3, signal.SIGSTOP)
    time.sleep(1)
    ledger.signal(3, signal.SIGCONT)


def without_leader(clients, seconds=24):
    """When the first payment is accepted, and how many are within five seconds from then, where 0.0 is never started."""
    with tempfile.TemporaryDirectory() as folder, Ledger(program, folder) as ledger:
        ledger.start_nodes(without=[0])
        start = time.monotonic()
        ledger.start_payers(clients)
        if ledger.wait_for(1, seconds):
            first = ledger.accepted[0]
            time.sleep(max(0, first + 5 - time.monotonic()))
            more = sum(at < first + 5 for at in ledger.accepted)
            print(f"0.0 never there, {clients} clients: the first accepted after {first - start:.2f} s, {more} within 5 s from then", flush=True)
        else:
            print(f"0.0 never there, {clients} clients: none accepted within {seconds} s", flush=True)


# So that what was started is ended too where this script is told to end.
signal.signal(signal.SIGTERM, lambda *_: sys.exit(1))
print("accepted each second:")
for clients in 1, 4, 8:
    each_second("kill of 0.3 at 3 s", clients, kill)
each_second("pause of 0.3 at 3 s, for 1 s", 16, pause)
for clients in 1, 2, 4, 8:
    without_leader(clients)
PYTHON
PYTHONDONTWRITEBYTECODE=1 PYTHONPATH=$top/examples python3 "$work/run.py" "$program"
