#!/usr/bin/env python3
"""The network between hosts of a field trial, in user space: wire.py SEED NAMESPACE=ADDRESS..

It makes a TUN device eth0 in each network namespace, and carries IP packets between them. Each way from one host to another may be cut,
and may delay, lose, double and reorder packets, by the seed: what `tc netem` does where the kernel has it. A command is a line of JSON on
standard input, answered by a line with counts; it ends where standard input ends.

    {"cut": [[FROM, TO]..]}     cuts these ways, in place of those that were cut; a host is the last number of its address
    {"shape": {..}}             for all ways: delay and jitter in milliseconds; loss, double and reorder from 0 to 1
"""
import ctypes
import fcntl
import heapq
import json
import os
import random
import select
import struct
import sys
import time

TUNSETIFF, IFF_TUN, IFF_NO_PI = 0x400454CA, 0x1, 0x1000  # linux/if_tun.h
CLONE_NEWNET = 0x40000000  # linux/sched.h
MOST_UNDER_WAY = 50_000  # packets; what is more is lost
LONGEST_PACKET = 65_536
libc = ctypes.CDLL(None, use_errno=True)


def device_in(namespace):
    """A TUN device in a network namespace, into which this process goes for it."""
    with open(f"/run/netns/{namespace}") as file:
        if libc.setns(file.fileno(), CLONE_NEWNET):
            raise OSError(ctypes.get_errno(), f"setns {namespace}")
    device = os.open("/dev/net/tun", os.O_RDWR | os.O_NONBLOCK)
    fcntl.ioctl(device, TUNSETIFF, struct.pack("16sH22x", b"eth0", IFF_TUN | IFF_NO_PI))
    return device


class Wire:
    def __init__(self, seed, hosts):
        self.chance = random.Random(seed).random
        self.devices = {int(address.rpartition(".")[2]): device_in(name) for name, address in hosts}
        self.cut, self.shape = set(), {}
        self.under_way = []  # a heap of when a packet is due, its number, its target, and itself
        self.last_due = {}  # of each way: without `reorder` no packet overtakes another
        self.count = dict.fromkeys(("carried", "cut", "lost", "doubled", "reordered"), 0)
        self.number = 0

    def obey(self, command):
        if "cut" in command:
            self.cut = {tuple(way) for way in command["cut"]}
        if "shape" in command:
            self.shape = command["shape"]
        print(json.dumps(self.count), flush=True)

    def take(self, packet, now):
        """Sends a packet of IPv4 on its way, whose last bytes of addresses say from where to where."""
        if len(packet) < 20 or packet[0] >> 4 != 4:
            return
        way = packet[15], packet[19]
        if way in self.cut or way[1] not in self.devices:
            self.count["cut"] += 1
        elif not self.shape:
            self.give(way[1], packet)
        elif self.chance() < self.shape.get("loss", 0) or len(self.under_way) > MOST_UNDER_WAY:
            self.count["lost"] += 1
        else:
            is_double = self.chance() < self.shape.get("double", 0)
            self.count["doubled"] += is_double
            for _ in range(1 + is_double):
                self.delay(way, packet, now)

    def delay(self, way, packet, now):
        due = now + (self.shape.get("delay", 0) + self.chance() * self.shape.get("jitter", 0)) / 1000
        if self.chance() < self.shape.get("reorder", 0):
            due = now
            self.count["reordered"] += 1
        else:
            due = self.last_due[way] = max(due, self.last_due.get(way, 0))
        self.number += 1
        heapq.heappush(self.under_way, (due, self.number, way[1], packet))

    def give(self, target, packet):
        try:
            os.write(self.devices[target], packet)
            self.count["carried"] += 1
        except OSError:
            self.count["lost"] += 1

    def carry(self, device):
        """What came at a device; not for ever, since others wait."""
        now = time.monotonic()
        for _ in range(64):
            try:
                self.take(os.read(device, LONGEST_PACKET), now)
            except BlockingIOError:
                return

    def deliver(self):
        while self.under_way and self.under_way[0][0] <= time.monotonic():
            _, _, target, packet = heapq.heappop(self.under_way)
            self.give(target, packet)

    def run(self):
        poll, said = select.epoll(), b""
        for descriptor in (0, *self.devices.values()):
            poll.register(descriptor, select.EPOLLIN)
        while True:
            wait = max(0, self.under_way[0][0] - time.monotonic()) if self.under_way else 1
            for ready, _ in poll.poll(wait):
                if ready:
                    self.carry(ready)
                    continue
                piece = os.read(0, LONGEST_PACKET)
                if not piece:
                    return
                *lines, said = (said + piece).split(b"\n")
                for line in lines:
                    self.obey(json.loads(line))
            self.deliver()


if __name__ == "__main__":
    wire = Wire(int(sys.argv[1]), [word.split("=") for word in sys.argv[2:]])
    print("carrying", flush=True)
    wire.run()
