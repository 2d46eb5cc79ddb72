#!/usr/bin/env python3
"""A second opinion on a verdict: second_check.py COMMITTEE VERDICT

The judgement of hs_check, written anew from docs/FORMATS.md, docs/REFUSALS.md and RFC 8554, and from nothing else: it shares no
line with the proved checker, and needs hashlib alone. It is short so that an expert can read all of it. It is slow: a signature
takes some 4,400 hashes, some milliseconds.

It prints what hs_check prints, and ends with status 0 where the verdict is accepted, 1 where it is refused, and 2 where the
committee is none or a file can't be read.
"""

import sys
from dataclasses import dataclass
from hashlib import sha256

# RFC 8554, sections 4.1 and 5.1: LMOTS_SHA256_N32_W8 and LMS_SHA256_M32_H10.
OTS_TYPE, TREE_TYPE = 4, 6
CHAINS, LAST_STEP, LEVELS = 34, 255, 10
LEAVES = 2**LEVELS
D_PBLC, D_MESG, D_LEAF, D_INTR = 0x8080, 0x8181, 0x8282, 0x8383

PUBLIC_KEY, SIGNATURE, HEADER = 56, 1452, 84
VOTE = 1 + 8 + 32 + SIGNATURE
DOUBLE_VOTE, LOCK_VIOLATION = 1, 2
VOTES_AT = 39
HEADERS_AT = VOTES_AT + 2 * VOTE
LENGTHS = {DOUBLE_VOTE: HEADERS_AT, LOCK_VIOLATION: HEADERS_AT + 3 * HEADER}


class NoCommittee(Exception):
    """The committee's bytes are refused."""


class Refused(Exception):
    """The verdict is refused."""


def number(text, at, size):
    return int.from_bytes(text[at : at + size], "big")


# ---- signatures: RFC 8554


def prefixed_hash(key_id, q, use, *parts):
    """Each hash begins with the key's id, the number of a one-time key or node, and what it is for."""
    return sha256(key_id + q.to_bytes(4, "big") + use.to_bytes(2, "big") + b"".join(parts)).digest()


def coefficients(digest):
    """The bytes of the digest, and two of the checksum (section 4.4)."""
    checksum = sum(LAST_STEP - byte for byte in digest)
    return digest + checksum.to_bytes(2, "big")


def one_time_key(key_id, q, message, signature):
    """The one-time public key that a one-time signature leads to (section 4.6, algorithm 4b)."""
    randomizer = signature[4:36]
    digest = prefixed_hash(key_id, q, D_MESG, randomizer, message)
    ends = []
    for chain, done in enumerate(coefficients(digest)):
        value = signature[36 + 32 * chain : 68 + 32 * chain]
        for step in range(done, LAST_STEP):
            value = prefixed_hash(key_id, q, chain, bytes([step]), value)
        ends.append(value)
    return prefixed_hash(key_id, q, D_PBLC, *ends)


def verifies(public_key, message, signature):
    """Whether the signature is one of the message under the key (section 5.4.2)."""
    key_id, root = public_key[8:24], public_key[24:56]
    q = number(signature, 0, 4)
    tree_at = 8 + 32 * (1 + CHAINS)
    if q >= LEAVES or number(signature, 4, 4) != OTS_TYPE or number(signature, tree_at, 4) != TREE_TYPE:
        return False
    node = LEAVES + q
    value = prefixed_hash(key_id, node, D_LEAF, one_time_key(key_id, q, message, signature[4:tree_at]))
    for level in range(LEVELS):
        at = tree_at + 4 + 32 * level
        other = signature[at : at + 32]
        pair = (other, value) if node % 2 else (value, other)
        node //= 2
        value = prefixed_hash(key_id, node, D_INTR, *pair)
    return value == root


# ---- committees: FORMATS.md, "Committee"


@dataclass(frozen=True)
class Committee:
    keys: list  # of each replica a list of its public keys
    chain: bytes

    @classmethod
    def read(cls, text):
        magic = text[:4]
        replicas = number(text, 6, 2)
        size = {b"HSC2": 4 + PUBLIC_KEY, b"HSC3": 8 + 4 * PUBLIC_KEY}.get(magic, PUBLIC_KEY)
        if len(text) < 8 or len(text) != 8 + size * replicas:
            raise NoCommittee("1 Length")
        if magic not in (b"HSC1", b"HSC2", b"HSC3"):
            raise NoCommittee("2 Magic")
        faulty = number(text, 4, 2)
        if magic == b"HSC1":
            fits = 1 <= faulty <= 10 and replicas == 3 * faulty + 1
        else:
            fits = faulty == 0 and 4 <= replicas <= 31
        if not fits:
            raise NoCommittee("3 Size")
        records = [text[8 + size * r : 8 + size * (r + 1)] for r in range(replicas)]
        keys = keys_of(magic, records)
        all_keys = [key for some in keys for key in some]
        if any(number(key, 0, 4) != TREE_TYPE or number(key, 4, 4) != OTS_TYPE for key in all_keys):
            raise NoCommittee("4 Key")
        if len(set(all_keys)) != len(all_keys):
            raise NoCommittee("5 SameKey")
        if magic != b"HSC1" and any(number(record, 0, 4) == 0 for record in records):
            raise NoCommittee("6 Weight")
        genesis = b"HSB1" + bytes(8 + 8 + 32) + sha256(text).digest()
        return cls(keys, sha256(genesis).digest())


def keys_of(magic, records):
    """The keys of each replica."""
    if magic == b"HSC1":
        return [[record] for record in records]
    if magic == b"HSC2":
        return [[record[4:]] for record in records]
    keys = []
    for record in records:
        count, places = number(record, 4, 4), record[8:]
        if not 1 <= count <= 4 or any(places[PUBLIC_KEY * count :]):
            raise NoCommittee("7 KeyCount")
        keys.append([places[PUBLIC_KEY * k : PUBLIC_KEY * (k + 1)] for k in range(count)])
    return keys


# ---- headers and votes: FORMATS.md, "Header", "Statement", "Verdict"


@dataclass(frozen=True)
class Header:
    id: bytes
    view: int
    parent: bytes
    parent_view: int

    @classmethod
    def read(cls, text):
        view, parent_view = number(text, 4, 8), number(text, 12, 8)
        in_order = parent_view < view or view == parent_view == 0
        if text[:4] != b"HSB1" or not in_order:
            raise Refused("7 HeaderMismatch")
        return cls(sha256(text).digest(), view, text[20:52], parent_view)


@dataclass(frozen=True)
class Vote:
    key: int
    view: int
    id: bytes
    signature: bytes

    @classmethod
    def read(cls, text):
        return cls(text[0], number(text, 1, 8), text[9:41], text[41:])

    def is_signed(self, committee, replica):
        statement = b"HSV1" + committee.chain + self.view.to_bytes(8, "big") + self.id
        return verifies(committee.keys[replica][self.key], statement, self.signature)

    def is_on(self, header):
        return (self.view, self.id) == (header.view, header.id)


# ---- verdicts: REFUSALS.md, "verdict_checker", in that order


def breaks_rule(kind, first, second, headers):
    """Whether no correct replica casts both votes."""
    if kind == DOUBLE_VOTE:
        return first.view == second.view and first.id != second.id
    earlier, parent, later = (Header.read(text) for text in headers)
    are_theirs = first.is_on(earlier) and second.is_on(later)
    if not are_theirs or (earlier.parent, earlier.parent_view) != (parent.id, parent.view):
        raise Refused("7 HeaderMismatch")
    return first.view < second.view and later.parent_view < parent.parent_view


def judge(committee, verdict):
    """The accused replica, the rule and the view of the later vote; Refused where the verdict proves nothing."""
    if len(verdict) < VOTES_AT:
        raise Refused("1 Short")
    if verdict[:4] != b"HSX2":
        raise Refused("2 Magic")
    kind = verdict[38]
    if kind not in LENGTHS:
        raise Refused("3 Kind")
    if len(verdict) != LENGTHS[kind]:
        raise Refused("4 Length")
    if verdict[4:36] != committee.chain:
        raise Refused("5 Chain")
    replica = number(verdict, 36, 2)
    if replica >= len(committee.keys):
        raise Refused("6 Replica")
    first, second = (Vote.read(verdict[at : at + VOTE]) for at in (VOTES_AT, VOTES_AT + VOTE))
    if max(first.key, second.key) >= len(committee.keys[replica]):
        raise Refused("11 KeyNumber")
    headers = [verdict[at : at + HEADER] for at in range(HEADERS_AT, len(verdict), HEADER)]
    if not breaks_rule(kind, first, second, headers):
        raise Refused("8 NoRuleBroken")
    if not first.is_signed(committee, replica):
        raise Refused("9 SignatureE")
    if not second.is_signed(committee, replica):
        raise Refused("10 SignatureW")
    return replica, kind, second.view


def main(words):
    if len(words) != 2:
        return "usage: second_check.py COMMITTEE VERDICT", 2
    texts = []
    for path in words:
        try:
            with open(path, "rb") as file:
                texts.append(file.read())
        except OSError:
            return f"fault file {path}", 2
    try:
        replica, rule, view = judge(Committee.read(texts[0]), texts[1])
    except NoCommittee as why:
        return f"fault committee {why}", 2
    except Refused as why:
        return f"refused {why}", 1
    return f"accepted replica {replica} rule {rule} view {view}", 0


if __name__ == "__main__":
    line, status = main(sys.argv[1:])
    print(line, file=sys.stderr if status == 2 else sys.stdout)
    sys.exit(status)
