#!/usr/bin/env python3
"""Clients of a field trial, which set and get: clients.py FOLDER OUT SECONDS GRACE SEED THREADS PAUSE

They ask until SECONDS are over, and wait GRACE more for what is open. Each believes a quorum of what was set; half of them are weak, and
believe a third of what they get; the others are strong, and ask for a quorum there too (README.md of the ledger). OUT gets a line of JSON
for each operation: who, kind, what, key, value, name, began and ended, by the monotonic clock; ended is null where it never did.
"""
import json
import os
import random
import sys
import threading
import time

sys.dont_write_bytecode = True
sys.path.insert(0, os.path.join(os.path.dirname(os.path.abspath(__file__)), "../../examples/ledger"))

import client
import plain  # for figures without TLS
from blocks import Committee

KEYS, PATIENCE, LAST_GRACE = 3, 3, 8


class Clients:
    def __init__(self, folder, out, seconds, grace, seed, pause):
        self.folder, self.seed, self.pause = folder, seed, float(pause)
        self.committee = Committee.read(f"{folder}/committee.hsc")
        self.end = time.monotonic() + float(seconds)
        self.last = self.end + float(grace)
        self.lock, self.out = threading.Lock(), open(out, "w", buffering=1)

    def agreed(self, message, weight):
        """Asks until it is answered, or until the last moment."""
        while time.monotonic() < self.last:
            answer = client.agreed(self.folder, self.committee, message, PATIENCE, weight)
            if answer is not None:
                return answer
            time.sleep(0.1)
        return None

    def operate(self, who, count, chance):
        kind = ("weak", "strong")[who % 2]
        key, value = f"{kind} {chance.randrange(KEYS)}", f"{who}.{count}"
        name = f"{self.seed} {value}"
        began = time.monotonic()
        if chance.random() < 0.5:
            what = "set"
            answer = self.agreed({"say": "set", "command": [name, key, value]}, self.committee.quorum)
        else:
            what = "get"
            answer = self.agreed({"say": "get", "key": key}, self.committee.third if kind == "weak" else self.committee.quorum)
            value = answer and answer["value"]
        ended = time.monotonic() if answer else None
        said = {"who": who, "kind": kind, "what": what, "key": key, "value": value, "name": name, "began": began, "ended": ended}
        with self.lock:
            self.out.write(json.dumps(said) + "\n")

    def go_on(self, who):
        chance, count = random.Random(f"{self.seed} {who}"), 0
        while time.monotonic() < self.end:
            count += 1
            self.operate(who, count, chance)
            time.sleep(chance.random() * 2 * self.pause)


def main(folder, out, seconds, grace, seed, threads, pause):
    clients = Clients(folder, out, seconds, grace, seed, pause)
    running = [threading.Thread(target=clients.go_on, args=(who,), daemon=True) for who in range(int(threads))]
    for thread in running:
        thread.start()
    for thread in running:
        thread.join(max(0, clients.last + LAST_GRACE - time.monotonic()))


main(*sys.argv[1:])
