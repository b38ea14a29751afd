"""A shard that runs on this computer and clients of the program that pay all the time, for scripts that look at what happens while
something is wrong with it: examples/check-deployment and bench/faults.sh. Every process is one that this module has started, ends by
itself after some minutes, and is ended with its ledger."""
import hashlib
import os
import signal
import socket
import struct
import subprocess
import threading
import time
from pathlib import Path

TOKEN = hashlib.sha256(b"token").digest()
COIN = TOKEN + b"\x04coin\x01\x00" + struct.pack(">q", 5)
MASTER = bytes(32)
# How long a node runs, and how long a client waits for what it wants to know: four minutes, and one. 50 ticks are a second.
NODE_ENDS = ["--ticks", "12000"]
CLIENT_ENDS = ["--ticks", "3000"]
# A deployment uses the 272 ports from its base port on. Those of the system's own choice begin above these.
PORTS = 272
BASES = range(10000, 31000, 300)
# Above them, for a script that runs beside another one.
BASES_ABOVE = range(61000, 65000, 300)
# The port of the last node that a deployment could have is kept, so that no other script takes this base meanwhile.
KEPT, kept = 255, []


def free_base(among=BASES):
    """A base port of which no port is taken. Where it looks first hangs on the number of this process."""
    for number in range(len(among)):
        base = among[(os.getpid() + number) % len(among)]
        taken = []
        try:
            for port in range(base, base + PORTS):
                taken.append(socket.socket(socket.AF_INET, socket.SOCK_DGRAM))
                taken[-1].bind(("127.0.0.1", port))
            kept.append(taken.pop(KEPT))
            return base
        except OSError:
            pass
        finally:
            for each in taken:
                each.close()
    raise OSError("no base port is free")


def coin_key(place):
    """The name of the genesis coin at this place."""
    return hashlib.sha256(b"G" + struct.pack(">I", place) + COIN).hexdigest()


def hosts_text(addresses, tick=None):
    """The hosts file of these addresses, each under its name, with a tick or without."""
    hosts = "".join(f'{{name = "{name}", address = "{address}"}}, ' for name, address in addresses.items())
    return f"hosts = [{hosts}]\n" + (f"tick = {tick}\n" if tick is not None else "")


def end_with(process):
    """Ends a process that has a session of its own, with all that it started there, unless it has ended."""
    if process.poll() is None:
        os.killpg(process.pid, signal.SIGKILL)
        process.wait()


class Ledger:
    """One shard of 3f+1 nodes in a folder of its own, whose coins are used up one after the other. Where addresses are given, the nodes
    are there, as a hosts file says, and the clients at their own, if they have one."""

    def __init__(self, program, folder, faulty=1, coins=4000, addresses=(), clients_at=None):
        self.program, self.folder, self.base_port = Path(program).resolve(), Path(folder), free_base()
        self.nodes, self.clients, self.coins = {}, set(), iter(range(coins))
        self.accepted, self.others = [], []
        self.lock, self.stopping, self.payers = threading.Lock(), threading.Event(), []
        self.size, self.addresses, self.hosts = 3 * faulty + 1, addresses, ["--hosts", "hosts.toml"] if addresses else []
        if addresses:
            clients = {f"c.{client}": clients_at for client in range(16)} if clients_at else {}
            nodes = {f"0.{index}": address for index, address in enumerate(addresses)}
            (self.folder / "hosts.toml").write_text(hosts_text(nodes | clients))
        # A client looks at no genesis object: it is told the state of its coin.
        for name, genesis in ("site.toml", [COIN.hex()] * coins), ("of-clients.toml", []):
            site = {"shards": 1, "faulty": faulty, "dummies": 0, "base_port": self.base_port, "contracts": [], "genesis": genesis}
            (self.folder / name).write_text("".join(f"{field} = {value}\n" for field, value in site.items()))
        subprocess.run([self.program, "keys", "site.toml", MASTER.hex()], cwd=self.folder, check=True, timeout=60)

    def __enter__(self):
        return self

    def __exit__(self, *_):
        self.stopping.set()
        with self.lock:
            running = [*self.clients, *self.nodes.values()]
        for process in running:
            end_with(process)
        for payer in self.payers:
            payer.join()

    def enter(self, host):
        """What stands before the program's words where the node of this number runs, or, of none, the clients; and in which folder."""
        return [], self.folder

    def start(self, host, *words, **outputs):
        before, folder = self.enter(host)
        return subprocess.Popen([*before, self.program, *words], cwd=folder, stdin=subprocess.DEVNULL, stderr=subprocess.DEVNULL,
                                start_new_session=True, **outputs)

    def start_nodes(self, without=()):
        for index in range(self.size):
            if index not in without:
                words = ["node", "site.toml", f"keys-0.{index}.toml", *self.hosts, *NODE_ENDS]
                self.nodes[index] = self.start(index, *words, stdout=subprocess.DEVNULL)

    def address(self, index):
        return self.addresses[index] if self.addresses else "127.0.0.1", self.base_port + index

    def signal(self, index, number):
        self.nodes[index].send_signal(number)

    def ended(self):
        """The nodes that were started and don't run."""
        return [index for index, process in self.nodes.items() if process.poll() is not None]

    def pay(self, client):
        """One payment by this client, of the next coin: whether it was accepted."""
        with self.lock:
            place = next(self.coins, None)
            if place is None or self.stopping.is_set():
                return False
            call = {"contract": '"token"', "method": '"transfer"', "inputs": [coin_key(place)], "reads": [], "args": [2, 3], "number": 1}
            (self.enter(None)[1] / f"call-{client}.toml").write_text("".join(f"{field} = {value}\n" for field, value in call.items()))
            words = ["client", "of-clients.toml", f"keys-c.{client}.toml", f"call-{client}.toml", *self.hosts, *CLIENT_ENDS]
            process = self.start(None, *words, stdout=subprocess.PIPE)
            self.clients.add(process)
        line = process.communicate()[0].decode()
        with self.lock:
            self.clients.remove(process)
            if process.returncode == 0 and line.startswith("accepted "):
                self.accepted.append(time.monotonic())
                return True
            if not self.stopping.is_set():
                self.others.append((process.returncode, line))
            return False

    def pay_on(self, client):
        while not self.stopping.is_set():
            if not self.pay(client):
                return

    def start_payers(self, count):
        """So many clients, each with one payment after the other until the end, or until one isn't accepted."""
        for client in range(count):
            payer = threading.Thread(target=self.pay_on, args=(client,), daemon=True)
            self.payers.append(payer)
            payer.start()

    def wait_for(self, more, seconds):
        """Waits until so many more payments were accepted: whether they were within this time."""
        wanted, end = len(self.accepted) + more, time.monotonic() + seconds
        while len(self.accepted) < wanted and time.monotonic() < end and any(payer.is_alive() for payer in self.payers):
            time.sleep(0.01)
        return len(self.accepted) >= wanted


class Flood:
    """Wrong datagrams to each node of a ledger, at each interval, as long as the block runs; at full rate where it is 0."""

    def __init__(self, ledger, interval):
        self.ledger, self.interval, self.sent = ledger, interval, 0
        self.stopping, self.thread = threading.Event(), threading.Thread(target=self.send, daemon=True)

    def __enter__(self):
        self.thread.start()
        return self

    def __exit__(self, *_):
        self.stopping.set()
        self.thread.join()

    def send(self):
        rows = [(self.ledger.address(index), wrong_datagrams(index)) for index in range(self.ledger.size)]
        with socket.socket(socket.AF_INET, socket.SOCK_DGRAM) as out:
            out.setblocking(False)
            while not self.stopping.is_set():
                for address, datagrams in rows:
                    try:
                        out.sendto(datagrams[self.sent % len(datagrams)], address)
                    except OSError:
                        pass
                self.sent += 1
                if self.interval:
                    time.sleep(self.interval)


def wrong_datagrams(index):
    """One byte; a vote of a node and a session of a client, both with a wrong tag; and a head alone."""
    def wrong(kind, sender):
        body = bytes(200)
        return b"CSP1" + bytes([kind]) + struct.pack(">HHHHI", *sender, 0, index, len(body)) + body + bytes(32)
    return [b"\x00", wrong(6, (0, (index + 1) % 4)), wrong(1, (0xFFFF, 9)), b"CSP1"]
