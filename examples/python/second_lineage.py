#!/usr/bin/env python3
"""A second opinion on a lineage: second_lineage.py COMMITTEE DIR [VERDICT]

The judgement of `hs_follow COMMITTEE --lineage DIR`, written anew from docs/FORMATS.md, docs/DEFINITIONS.md, docs/REFUSALS.md and
RFC 8554. It shares no line with the proved programs. COMMITTEE is the first committee's file, your own copy. Step N, from 1, is three files
of DIR: N.hsc, the committee's file that followed; N.hsr, its renewal, which may be missing; N.hsh, the light proof.

It prints a line for each step, and ends with status 0 if all are good, 1 if one is refused, and 2 if a file can't be read. With VERDICT,
which may be of any committee of the lineage, it then judges it, and says by which steps the accused replica came to its keys.
"""

import os
import sys
from hashlib import sha256

import second_check
from second_check import HEADER, PUBLIC_KEY, SIGNATURE, Committee, NoCommittee, number, verifies

ENTRY = 2 + 1 + SIGNATURE
CERTIFICATE_HEAD = 42
RENEWAL_HEAD = 36
MOST_HEADERS = 4096


class Refused(Exception):
    """The step is refused: number and name, as in REFUSALS.md, "handover_steps"."""


# ---- committees, with the weights that second_check has no use for


class Weighted:
    """A committee with the weights of its replicas and the bytes of its file."""

    def __init__(self, text):
        plain = Committee.read(text)
        self.text, self.keys, self.chain, self.form = text, plain.keys, plain.chain, text[:4]
        size = {b"HSC2": 4 + PUBLIC_KEY, b"HSC3": 8 + 4 * PUBLIC_KEY}.get(self.form)
        self.weights = [number(text, 8 + size * r, 4) if size else 1 for r in range(len(self.keys))]

    def quorum(self):
        return 2 * sum(self.weights) // 3 + 1

    def weight(self, replicas):
        return sum(self.weights[r] for r in set(replicas))


def kept(old, new, slot):
    """Whether the slot has the same keys in both committees."""
    return slot < min(len(old.keys), len(new.keys)) and old.keys[slot] == new.keys[slot]


def check_keys(old, new):
    """No key of the old committee, but in slots that are kept while the others weigh a quorum."""
    changed = [r for r in range(len(old.keys)) if not kept(old, new, r)]
    may_keep = old.weight(changed) >= old.quorum()
    taken = {key for keys in old.keys for key in keys}
    for slot, keys in enumerate(new.keys):
        if not (may_keep and kept(old, new, slot)) and taken.intersection(keys):
            raise Refused("3 OldKey")


# ---- light proofs: FORMATS.md, "Light proof"; DEFINITIONS.md, "Light proofs"


def read_header(text):
    view, parent_view = number(text, 4, 8), number(text, 12, 8)
    if text[:4] != b"HSB1" or not (parent_view < view or view == parent_view == 0):
        raise Refused("4 ProofForm")
    return {"id": sha256(text).digest(), "view": view, "parent": (parent_view, text[20:52]), "payload": text[52:84]}


def read_certificate(text, at, why):
    """The certificate at this place, and where it ends."""
    if at + CERTIFICATE_HEAD > len(text):
        raise Refused(why)
    view, count = number(text, at, 8), number(text, at + 40, 2)
    end = at + CERTIFICATE_HEAD + ENTRY * count
    if end > len(text):
        raise Refused(why)
    entries = [text[k : k + ENTRY] for k in range(at + CERTIFICATE_HEAD, end, ENTRY)]
    replicas = [number(entry, 0, 2) for entry in entries]
    rises = all(a < b for a, b in zip(replicas, replicas[1:]))
    if not rises or not (1 <= count <= 31 and view > 0 or count == 0 and view == 0):
        raise Refused(why)
    votes = [(number(entry, 0, 2), entry[2], entry[3:]) for entry in entries]
    return {"view": view, "id": text[at + 8 : at + 40], "votes": votes}, end


def read_proof(text):
    """The headers and the three certificates."""
    above = number(text, 4, 4) if len(text) >= 8 else 0
    if text[:4] != b"HSH1" or not 2 <= above <= MOST_HEADERS or len(text) < 8 + HEADER * (above + 1):
        raise Refused("4 ProofForm")
    headers = [read_header(text[at : at + HEADER]) for at in range(8, 8 + HEADER * (above + 1), HEADER)]
    certificates, at = [], 8 + HEADER * (above + 1)
    for _ in range(3):
        certificate, at = read_certificate(text, at, "4 ProofForm")
        certificates.append(certificate)
    if at != len(text):
        raise Refused("4 ProofForm")
    return headers, certificates


def is_good(old, certificate, header):
    """Whether the certificate has good votes by a quorum on the header."""
    if (certificate["view"], certificate["id"]) != (header["view"], header["id"]):
        return False
    votes = certificate["votes"]
    if any(r >= len(old.keys) or key >= len(old.keys[r]) for r, key, _ in votes):
        return False
    if old.weight([r for r, _, _ in votes]) < old.quorum():
        return False
    statement = b"HSV1" + old.chain + header["view"].to_bytes(8, "big") + header["id"]
    return all(verifies(old.keys[r][key], statement, signature) for r, key, signature in votes)


def check_proof(old, new, text):
    """The block by which the old committee handed over to the new one."""
    headers, certificates = read_proof(text)
    first, last = headers[0], headers[-3:]
    views = [header["view"] for header in last]
    on_one_another = all(above["parent"] == (below["view"], below["id"]) for below, above in zip(headers, headers[1:]))
    good = (
        first["view"] > 0
        and first["payload"][:4] == b"HSN1"
        and views == [views[0], views[0] + 1, views[0] + 2]
        and on_one_another
        and all(is_good(old, certificate, header) for certificate, header in zip(certificates, last))
    )
    if not good:
        raise Refused("5 Proof")
    if first["payload"][4:] != sha256(new.text).digest()[:28]:
        raise Refused("6 OtherFile")
    return first


# ---- renewals: FORMATS.md, "Renewal", "Bound key ids"; DEFINITIONS.md, "Renewals"


def read_renewal(text):
    """The chain that it names, the file's digest, and of each replica its key's number and signature."""
    if len(text) < RENEWAL_HEAD + CERTIFICATE_HEAD or text[:4] != b"HSR1":
        raise Refused("7 RenewalForm")
    certificate, end = read_certificate(text, RENEWAL_HEAD, "7 RenewalForm")
    if end != len(text) or certificate["view"] != 1:
        raise Refused("7 RenewalForm")
    signed = {r: (key, signature) for r, key, signature in certificate["votes"]}
    return text[4:36], certificate["id"], signed


def is_bound(old, new, slot):
    """Whether the ids of the slot's keys are bound to the old chain and to this place."""
    ids = [key[8:24] for key in new.keys[slot]]
    text = b"HSI1" + old.chain + slot.to_bytes(2, "big")
    return ids == [sha256(text + bytes([k])).digest()[:16] for k in range(len(ids))]


def is_signed_for(old, new, slot, signed):
    """Whether a key of the slot signed for its next keys."""
    if slot not in signed or signed[slot][0] >= len(old.keys[slot]):
        return False
    key, signature = signed[slot]
    keys = new.keys[slot]
    statement = b"HSE1" + old.chain + slot.to_bytes(2, "big") + bytes([len(keys)]) + b"".join(keys)
    return verifies(old.keys[slot][key], statement, signature)


def check_renewal(old, new, text):
    """Of each slot whether it is kept, new or by hand; Refused if the new committee does not renew the old one."""
    chain, digest, signed = read_renewal(text)
    shape = lambda it: (it.form, it.weights, [len(keys) for keys in it.keys])
    new_slots = [r for r in range(len(new.keys)) if not kept(old, new, r)]
    renews = (
        chain == old.chain
        and digest == sha256(new.text).digest()
        and shape(old) == shape(new)
        and all(is_bound(old, new, r) and is_signed_for(old, new, r, signed) for r in new_slots)
        and old.weight(new_slots) >= old.quorum()
    )
    if not renews:
        raise Refused("8 Renewal")
    return new_slots


# ---- steps


class Step:
    """A good step: the committee that follows, what each slot is, and how much the new slots weigh, if there is a renewal."""

    def __init__(self, old, file, renewal, proof):
        try:
            self.committee = Weighted(file)
        except NoCommittee:
            raise Refused("2 Committee")
        new = self.committee
        check_keys(old, new)
        check_proof(old, new, proof)
        new_slots = None if renewal is None else check_renewal(old, new, renewal)
        self.total, self.new = sum(old.weights), None if new_slots is None else old.weight(new_slots)
        way = lambda r: "kept" if kept(old, new, r) else "by hand" if renewal is None else "new"
        self.ways = [way(r) for r in range(len(new.keys))]

    def line(self, n):
        tail = "by hand" if self.new is None else f"new {self.new} of {self.total}"
        return f"step {n} chain {self.committee.chain.hex()} {tail}"


def read(path):
    with open(path, "rb") as file:
        return file.read()


def read_if_there(path):
    return read(path) if os.path.exists(path) else None


def judge_lineage(first, folder):
    """The good steps, and why the one after them is refused, if it is."""
    steps, committee = [], first
    while os.path.exists(f"{folder}/{len(steps) + 1}.hsc"):
        at = f"{folder}/{len(steps) + 1}"
        try:
            step = Step(committee, read(f"{at}.hsc"), read_if_there(f"{at}.hsr"), read_if_there(f"{at}.hsh") or b"")
        except Refused as why:
            return steps, str(why)
        steps.append(step)
        committee = step.committee
    return steps, None


def tell_verdict(committees, steps, verdict):
    """Judges a verdict under the committee that it names, and says how its replica came to its keys."""
    chains = [it.chain for it in committees]
    if verdict[4:36] not in chains:
        return "no committee of this lineage", 1
    number_of = chains.index(verdict[4:36])
    try:
        replica, rule, view = second_check.judge(committees[number_of], verdict)
    except second_check.Refused as why:
        return f"refused {why}", 1
    ways = [f"step {n} {step.ways[replica]}" for n, step in enumerate(steps[:number_of], 1)]
    return "\n".join([f"accepted replica {replica} rule {rule} view {view} committee {number_of}", *ways]), 0


def main(words):
    if len(words) not in (2, 3):
        return "usage: second_lineage.py COMMITTEE DIR [VERDICT]", 2
    try:
        first = Weighted(read(words[0]))
        verdict = read(words[2]) if len(words) == 3 else None
        steps, why = judge_lineage(first, words[1])
    except NoCommittee as refused:
        return f"fault committee {refused}", 2
    except OSError as fault:
        return f"fault file {fault.filename}", 2
    lines = [step.line(n) for n, step in enumerate(steps, 1)]
    if why:
        return "\n".join([*lines, f"step {len(steps) + 1} refused {why}"]), 1
    lines.append(f"followed {len(steps)}")
    if verdict is None:
        return "\n".join(lines), 0
    told, status = tell_verdict([first, *(step.committee for step in steps)], steps, verdict)
    return "\n".join([*lines, told]), status


if __name__ == "__main__":
    text, status = main(sys.argv[1:])
    print(text, file=sys.stderr if status == 2 else sys.stdout)
    sys.exit(status)
