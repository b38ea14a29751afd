"""Machines for examples/check-deployment: network namespaces of this computer, each with one address and a folder of its own, joined by a
bridge in one more. They want Debian's iproute2 and a user who may make them; `missing` says what isn't there."""
import os
import shutil
import subprocess

from payments import Ledger

NAME = f"chainspace-{os.getpid()}"
HUB = f"{NAME}-hub"


def ip(*words):
    return subprocess.run(["ip", *words], capture_output=True, text=True)


def missing():
    """Why there can be no machines here, or None."""
    if shutil.which("ip") is None:
        return "there is no `ip`"
    made = ip("netns", "add", HUB)
    if made.returncode:
        return f"`ip netns add` says {made.stderr.strip()!r}"
    ip("netns", "del", HUB)
    return None


class Machines:
    """So many machines. The number 0 has the address 10.77.0.1."""

    def __init__(self, count):
        self.names = [f"{NAME}-{number}" for number in range(count)]

    def __enter__(self):
        ip("netns", "add", HUB)
        ip("-n", HUB, "link", "add", "bridge", "type", "bridge")
        ip("-n", HUB, "link", "set", "bridge", "up")
        for number, name in enumerate(self.names):
            ip("netns", "add", name)
            ip("-n", HUB, "link", "add", f"to{number}", "type", "veth", "peer", "name", "net", "netns", name)
            ip("-n", HUB, "link", "set", f"to{number}", "master", "bridge", "up")
            ip("-n", name, "addr", "add", f"{self.address(number)}/24", "dev", "net")
            ip("-n", name, "link", "set", "net", "up")
        return self

    def __exit__(self, *_):
        for name in [*self.names, HUB]:
            ip("netns", "del", name)

    def address(self, number):
        return f"10.77.0.{number + 1}"

    def set_link(self, number, state):
        """`up`, or `down`: nothing goes in or out."""
        ip("-n", HUB, "link", "set", f"to{number}", state)

    def lose(self, percent):
        """Of all that goes to each machine so many percent are lost: whether the system can do that."""
        done = [subprocess.run(["ip", "netns", "exec", HUB, "tc", "qdisc", "add", "dev", f"to{number}", "root", "netem", "loss", f"{percent}%"],
                               capture_output=True).returncode == 0 for number in range(len(self.names))]
        return all(done)


class FarLedger(Ledger):
    """A ledger whose nodes are on a machine each, and its clients on one more."""

    def __init__(self, program, folder, machines):
        self.machines, self.clients_at = machines, len(machines.names) - 1
        self.folders = {}
        super().__init__(program, folder, addresses=[machines.address(index) for index in range(self.clients_at)],
                         clients_at=machines.address(self.clients_at))
        for number in range(self.clients_at + 1):
            self.folders[number] = self.folder / f"machine-{number}"
            self.folders[number].mkdir()
            own = [f"keys-0.{number}.toml"] if number < self.clients_at else [path.name for path in self.folder.glob("keys-c.*.toml")]
            for name in ["site.toml", "of-clients.toml", "hosts.toml", *own]:
                shutil.copy(self.folder / name, self.folders[number])

    def enter(self, host):
        number = self.clients_at if host is None else host
        return ["ip", "netns", "exec", self.machines.names[number]], self.folders[number]
