"""Lineages that are made in Python, of any length, and what may be wrong with one.

Of a key's tree only the leaves that sign are computed, and all else of it is drawn: RFC 8554 can't tell. So a committee costs tenths of a
second, where `hs_tool keygen` takes seconds a key. Formats are those of docs/FORMATS.md.
"""

import os
import shutil
import sys
from hashlib import sha256

sys.path.append(os.path.join(os.path.dirname(os.path.abspath(__file__)), "../../examples/python"))
from second_check import CHAINS, D_INTR, D_LEAF, D_MESG, D_PBLC, LAST_STEP, LEAVES, LEVELS, OTS_TYPE, TREE_TYPE, coefficients, prefixed_hash

REPLICAS = 4
QUORUM = 3
PIECES = ("hsc", "hsr", "hsh")  # in the order of the numbers by which a server is asked for them
DOUBLE_VOTE = 1


def u(value, size):
    return value.to_bytes(size, "big")


class Key:
    """A key whose first `uses` one-time keys sign, one after the other."""

    def __init__(self, key_id, seed, uses):
        self.id, self.seed, self.used, self.uses = key_id, seed, 0, uses
        ends = [[self.value(leaf, chain, LAST_STEP) for chain in range(CHAINS)] for leaf in range(uses)]
        keys = [prefixed_hash(key_id, leaf, D_PBLC, *values) for leaf, values in enumerate(ends)]
        self.nodes = {LEAVES + leaf: prefixed_hash(key_id, LEAVES + leaf, D_LEAF, key) for leaf, key in enumerate(keys)}
        level = range(LEAVES, LEAVES + uses)
        while 1 not in self.nodes:
            level = sorted({node // 2 for node in level})
            self.nodes |= {node: prefixed_hash(key_id, node, D_INTR, self.node(2 * node), self.node(2 * node + 1)) for node in level}
        self.public = u(TREE_TYPE, 4) + u(OTS_TYPE, 4) + key_id + self.nodes[1]

    def value(self, leaf, chain, steps):
        value = sha256(self.id + u(leaf, 4) + u(chain, 2) + b"\xff" + self.seed).digest()
        head = self.id + u(leaf, 4) + u(chain, 2)
        for step in range(steps):
            value = sha256(head + bytes([step]) + value).digest()
        return value

    def node(self, number):
        return self.nodes.get(number) or sha256(b"drawn" + self.id + u(number, 4)).digest()

    def sign(self, message):
        leaf, self.used = self.used, self.used + 1
        if leaf >= self.uses:
            raise ValueError(f"a key that signs {self.uses} times is to sign once more")
        randomizer = sha256(b"randomizer" + self.seed + u(leaf, 4)).digest()
        digest = prefixed_hash(self.id, leaf, D_MESG, randomizer, message)
        values = [self.value(leaf, chain, steps) for chain, steps in enumerate(coefficients(digest))]
        path = [self.node((LEAVES + leaf >> level) ^ 1) for level in range(LEVELS)]
        return u(leaf, 4) + u(OTS_TYPE, 4) + randomizer + b"".join(values) + u(TREE_TYPE, 4) + b"".join(path)


def bound_id(chain, slot):
    return sha256(b"HSI1" + chain + u(slot, 2) + b"\0").digest()[:16]


class Committee:
    """Four replicas of a key each, and its chain."""

    def __init__(self, keys):
        self.keys = keys
        self.file = b"HSC1" + u(1, 2) + u(REPLICAS, 2) + b"".join(key.public for key in keys)
        self.genesis = b"HSB1" + bytes(8 + 8 + 32) + sha256(self.file).digest()
        self.chain = sha256(self.genesis).digest()

    @classmethod
    def first(cls, draw, uses=16):
        return cls([Key(sha256(b"id" + draw + bytes([r])).digest()[:16], sha256(b"seed" + draw + bytes([r])).digest(), uses) for r in range(REPLICAS)])

    def vote(self, r, view, block_id):
        return self.keys[r].sign(b"HSV1" + self.chain + u(view, 8) + block_id)

    def certificate(self, header, voters=range(QUORUM)):
        view, block_id = header[4:12], sha256(header).digest()
        votes = [u(r, 2) + b"\0" + self.vote(r, int.from_bytes(view, "big"), block_id) for r in voters]
        return view + block_id + u(len(votes), 2) + b"".join(votes)

    def next(self, draw, kept=(), uses=16):
        """The committee after this one: slots that are kept have the same keys."""
        seeds = [sha256(b"next" + draw + self.chain + bytes([r])).digest() for r in range(REPLICAS)]
        return Committee([key if r in kept else Key(bound_id(self.chain, r), seeds[r], uses) for r, key in enumerate(self.keys)])

    def endorse(self, r, after, key=None):
        """Replica r's signature for its next keys, or one by another key."""
        return (key or self.keys[r]).sign(b"HSE1" + self.chain + u(r, 2) + b"\1" + after.keys[r].public)

    def renewal(self, after, kept=(), signers=None):
        signed = [u(r, 2) + b"\0" + self.endorse(r, after, (signers or {}).get(r)) for r in range(REPLICAS) if r not in kept]
        return b"HSR1" + self.chain + u(1, 8) + sha256(after.file).digest() + u(len(signed), 2) + b"".join(signed)

    def light_proof(self, file, between=0):
        """That the block of view 2 hands over to this file and is committed: so many blocks on it before the three that are certified."""
        payloads = [b"HSN1" + sha256(file).digest()[:28], *[bytes(32)] * (between + 2)]
        view, parent, headers = 1, sha256(b"first" + self.chain).digest(), []
        for payload in payloads:
            headers.append(b"HSB1" + u(view + 1, 8) + u(view, 8) + parent + payload)
            view, parent = view + 1, sha256(headers[-1]).digest()
        return b"HSH1" + u(len(headers) - 1, 4) + b"".join(headers) + b"".join(map(self.certificate, headers[-3:]))

    def double_vote(self, r):
        """A verdict on replica r, which votes for two blocks of view 9."""
        votes = [b"\0" + u(9, 8) + block_id + self.vote(r, 9, block_id) for block_id in (b"\1" * 32, b"\2" * 32)]
        return b"HSX2" + self.chain + u(r, 2) + bytes([DOUBLE_VOTE]) + b"".join(votes)


class Step:
    """From one committee to the next: its three pieces."""

    def __init__(self, before, after, kept=(), by_hand=False):
        self.before, self.after = before, after
        self.hsc, self.hsh = after.file, before.light_proof(after.file)
        self.hsr = None if by_hand else before.renewal(after, kept)

    def pieces(self):
        return {it: getattr(self, it) for it in PIECES if getattr(self, it) is not None}


def lineage(count, draw=b"0", kept=None, by_hand=(), uses=16):
    """The first committee and so many steps. `kept` has the slots that step N keeps; those of `by_hand` have no renewal."""
    committee = first = Committee.first(draw, uses)
    steps = []
    for n in range(1, count + 1):
        slots = (kept or {}).get(n, ())
        after = committee.next(draw, slots, uses)
        steps.append(Step(committee, after, slots, n in by_hand))
        committee = after
    return first, steps


def store(folder, first, steps):
    """The folder of a lineage, DIR, and C0 in it."""
    shutil.rmtree(folder, ignore_errors=True)
    os.makedirs(folder)
    with open(f"{folder}/c0", "wb") as it:
        it.write(first.file)
    for n, pieces in enumerate(steps, 1):
        store_step(folder, n, pieces)
    return folder


def store_step(folder, n, pieces):
    for name, data in pieces.items():
        with open(f"{folder}/{n}.{name}", "wb") as it:
            it.write(data)
