#!/usr/bin/env python3
"""Reads examples/vectors.json and makes each vector anew: read_vectors.py VECTORS

It is written from docs/FORMATS.md and needs hashlib and second_check.py alone. It prints each vector that is another here, and then
how many there were.
"""

import json
import sys
from hashlib import sha256
from pathlib import Path

import second_check
from second_check import HEADER, SIGNATURE, Committee, Header, Vote, number

ENDORSEMENT = 2 + 1 + SIGNATURE
VOTED, RAISED = 3, 4
MOST_FRAMES, LONGEST_FRAME = 4096, 65536


class Refused(Exception):
    """The bytes are refused, by a number and a name of docs/REFUSALS.md."""


def header(text):
    if len(text) != HEADER:
        raise Refused("1 Length")
    if text[:4] != b"HSB1":
        raise Refused("2 Magic")
    view, parent_view = number(text, 4, 8), number(text, 12, 8)
    if parent_view >= view and (parent_view, view) != (0, 0):
        raise Refused("3 ViewOrder")
    return {
        "view": view,
        "parent_view": parent_view,
        "parent": text[20:52].hex(),
        "payload": text[52:].hex(),
        "id": sha256(text).hexdigest(),
    }


def statement(chain, view, block):
    return b"HSV1" + chain + view.to_bytes(8, "big") + block


def certificate(text):
    if len(text) < 42 or len(text) != 42 + ENDORSEMENT * number(text, 40, 2):
        raise Refused("2 Length")
    votes = range(42, len(text), ENDORSEMENT)
    replicas = [number(text, at, 2) for at in votes]
    if replicas != sorted(set(replicas)):
        raise Refused("3 Order")
    view = number(text, 0, 8)
    if (view == 0) != (not replicas) or len(replicas) > 31:
        raise Refused("4 Count")
    return {"view": view, "id": text[8:40].hex(), "replicas": replicas}


def entry(text):
    """The parts of an entry; of the refusals those of its length and kind alone."""
    if not text:
        raise Refused("2 Length")
    if text[0] not in (VOTED, RAISED):
        raise Refused("3 Kind")
    at = 1 + 2 * HEADER + (1 + 8 + 32 + SIGNATURE if text[0] == VOTED else 0)
    if len(text) < at + 42 or len(text) != at + 42 + ENDORSEMENT * number(text, at + 40, 2):
        raise Refused("2 Length")
    parts = {"kind": text[0], "header": text[1:85].hex(), "parent": text[85:169].hex(), "certificate_at": at}
    return parts | ({"key": text[169]} if text[0] == VOTED else {})


def request(first, most):
    return b"HSL1" + first.to_bytes(4, "big") + most.to_bytes(4, "big")


def export(text):
    """How a stream ends, and how many whole frames it has."""
    if len(text) < 4:
        return "Cut", 0
    if text[:4] != b"HSL1":
        return "Broken", 0
    at, frames = 4, 0
    while len(text) >= at + 4:
        size = number(text, at, 4)
        if size == 0:
            if len(text) < at + 8:
                return "Cut", frames
            return ("Whole" if number(text, at + 4, 4) == frames else "Broken"), frames
        if size > LONGEST_FRAME:
            return "Broken", frames
        if frames == MOST_FRAMES:
            return "TooLong", frames
        if len(text) < at + 4 + size:
            return "Cut", frames
        at, frames = at + 4 + size, frames + 1
    return "Cut", frames


def vote(committee, text):
    replica = number(text, 0, 2)
    if replica >= len(committee.keys):
        raise Refused("1 UnknownReplica")
    if text[2] >= len(committee.keys[replica]):
        raise Refused("3 UnknownKey")
    if not Vote.read(text[2:]).is_signed(committee, replica):
        raise Refused("2 Signature")
    return {"replica": replica, "key": text[2], "view": number(text, 3, 8), "id": text[11:43].hex()}


def verdict(committee, text):
    replica, rule, view = second_check.judge(committee, text)
    return {"replica": replica, "rule": rule, "view": view}


def refusal_of(read, *what):
    """What refuses this, or None."""
    try:
        read(*what)
    except (Refused, second_check.Refused, second_check.NoCommittee) as why:
        return str(why)
    return None


def main(path):
    vectors = json.loads(Path(path).read_text())
    committees = {it["name"]: bytes.fromhex(it["committee"]) for it in vectors["committees"]}
    judging = {name: Committee.read(text) for name, text in committees.items()}
    differ = []

    def same(kind, it, found):
        if any(it.get(name) != value for name, value in found.items()):
            differ.append((kind, it, found))

    def bytes_of(it, name):
        return bytes.fromhex(it[name])

    def refused(kind, read):
        for it in vectors[f"refused_{kind}s"]:
            said = refusal_of(read, it)
            same(kind, it | {"said": said}, {"said": f"{it['refused']} {it['name']}"})

    for it in vectors["committees"]:
        found = judging[it["name"]]
        same("committee", it, {"chain": found.chain.hex(), "replicas": len(found.keys)})
    for it in vectors["headers"]:
        same("header", it, header(bytes_of(it, "header")))
        Header.read(bytes_of(it, "header"))
    for it in vectors["statements"]:
        same("statement", it, {"statement": statement(bytes_of(it, "chain"), it["view"], bytes_of(it, "id")).hex()})
    for it in vectors["votes"]:
        said = refusal_of(vote, judging[it["committee"]], bytes_of(it, "vote"))
        if "refused" in it:
            same("vote", it | {"said": said}, {"said": f"{it['refused']} {it['name']}"})
        else:
            same("vote", it, vote(judging[it["committee"]], bytes_of(it, "vote")))
    for it in vectors["certificates"]:
        same("certificate", it, certificate(bytes_of(it, "certificate")))
    for it in vectors["entries"]:
        same("entry", it, entry(bytes_of(it, "entry")))
    for it in vectors["requests"]:
        same("request", it, {"request": request(it["first"], it["most"]).hex()})
    for it in vectors["exports"]:
        status, frames = export(bytes_of(it, "export"))
        same("export", it, {"status": status, "frames": frames})
    for it in vectors["verdicts"]:
        same("verdict", it, verdict(judging[it["committee"]], bytes_of(it, "verdict")))
    refused("committee", lambda it: Committee.read(bytes_of(it, "committee")))
    refused("header", lambda it: header(bytes_of(it, "header")))
    refused("certificate", lambda it: certificate(bytes_of(it, "certificate")))
    refused("verdict", lambda it: verdict(judging[it["committee"]], bytes_of(it, "verdict")))
    for it in vectors["refused_entries"]:
        said = refusal_of(entry, bytes_of(it, "entry"))
        same("entry", it | {"said": said}, {"said": f"{it['refused']} {it['name']}"})
    for kind, it, found in differ:
        print(f"FAILED: {kind} {it.get('name', '')}: {found}")
    count = sum(len(items) for items in vectors.values() if isinstance(items, list))
    print(f"{count} vectors, {len(differ)} differ")
    return 1 if differ or not count else 0


if __name__ == "__main__":
    sys.exit(main(sys.argv[1]))
