"""Namespaces of the network on one machine: one for each place, and one in which all of them meet, where this process goes itself."""
import ctypes
import os
import subprocess

CLONE_NEWNET = 0x40000000


def ip(*words):
    subprocess.run(["ip", *words], check=True, capture_output=True)


def may():
    """Whether namespaces may be made here."""
    return os.geteuid() == 0 and subprocess.run(["unshare", "-n", "ip", "link"], capture_output=True).returncode == 0


class Apart:
    """`net` is how the addresses of the places begin, which end with 1, 2, .."""

    def __init__(self, count, net="10.99.0."):
        self.net = net
        self.hub = f"pz{os.getpid()}"
        self.names = [f"{self.hub}-{place}" for place in range(count)]
        for name in [self.hub, *self.names]:
            ip("netns", "add", name)
            ip("-n", name, "link", "set", "lo", "up")
        ip("-n", self.hub, "link", "add", "hub", "type", "bridge")
        ip("-n", self.hub, "addr", "add", f"{net}100/24", "dev", "hub")
        ip("-n", self.hub, "link", "set", "hub", "up")
        for place, name in enumerate(self.names):
            ip("-n", self.hub, "link", "add", f"p{place}", "type", "veth", "peer", "name", "out", "netns", name)
            ip("-n", self.hub, "link", "set", f"p{place}", "master", "hub", "up")
            ip("-n", name, "addr", "add", f"{self.host(place)}/24", "dev", "out")
            ip("-n", name, "link", "set", "out", "up")
        self.home = os.open("/proc/self/ns/net", os.O_RDONLY)
        self.enter(os.open(f"/run/netns/{self.hub}", os.O_RDONLY))

    @staticmethod
    def enter(namespace):
        if ctypes.CDLL(None, use_errno=True).setns(namespace, CLONE_NEWNET):
            raise OSError(ctypes.get_errno(), "setns")

    def host(self, place):
        return f"{self.net}{place + 1}"

    def words(self, place):
        return ["ip", "netns", "exec", self.names[place]]

    def cut(self, place):
        """Nothing goes from this place or to it."""
        ip("-n", self.hub, "link", "set", f"p{place}", "down")

    def join(self, place):
        ip("-n", self.hub, "link", "set", f"p{place}", "up")

    def end(self):
        self.enter(self.home)
        for name in [*self.names, self.hub]:
            subprocess.run(["ip", "netns", "del", name], capture_output=True)
