"""What is looked at after a run: the clients' operations, the stores, and the votes."""
import contextlib
import hashlib
import json
import math
import sqlite3
import struct

FOREVER = math.inf

# An entry of a log (docs/FORMATS.md): its kind, two headers, of a vote what it has, and a certificate.
VOTED, HEADERS, OWN_VOTE, IN_CERTIFICATE = 3, 1 + 2 * 84, 1493, 1455
CERTIFICATE = 42  # bytes before its votes: view, id, how many


def operations(path):
    with open(path) as file:
        return [json.loads(line) for line in file if line.endswith("\n")]


def by_key(operations):
    keys = {}
    for each in operations:
        keys.setdefault(each["key"], []).append(each)
    return keys


def zones(operations):
    """Of each value of a key the times of its set and of its gets, from the first end to the last begin; or what is wrong with a get."""
    times, begun = {None: [(-FOREVER, -FOREVER)]}, {None: -FOREVER}
    for each in operations:
        if each["what"] == "set":
            begun[each["value"]] = each["began"]
            if each["ended"] is not None:
                times.setdefault(each["value"], []).append((each["began"], each["ended"]))
    for each in operations:
        if each["what"] == "get" and each["ended"] is not None:
            if each["value"] not in begun:
                return None, f"{each} was never set"
            if each["ended"] < begun[each["value"]]:
                return None, f"{each} ended before its value was set"
            times.setdefault(each["value"], [(begun[each["value"]], FOREVER)]).append((each["began"], each["ended"]))
    return [(min(end for _, end in of), max(begin for begin, _ in of), value) for value, of in times.items()], None


def why_not_linearizable(operations):
    """Why operations on one key, whose sets all have different values, can't be put in one order; None where they can. By Gibbons and Korach
    (1997): two zones that go forward may not overlap, and none that goes backward may lie within one that goes forward."""
    of_values, wrong = zones(operations)
    if wrong:
        return wrong
    forward = sorted(zone for zone in of_values if zone[0] < zone[1])
    for one, other in zip(forward, forward[1:]):
        if other[0] < one[1]:
            return f"values {one[2]} and {other[2]} each come after the other"
    for end, begin, value in of_values:
        for first, last, around in forward:
            if end >= begin and first < begin and end < last:
                return f"value {value} lies within {around}"
    return None


def committed_of(path, genesis):
    """The blocks that a replica's database commits, in their order, as the ledger wrote them."""
    with contextlib.closing(sqlite3.connect(f"file:{path}?mode=ro", uri=True)) as base:
        rows = base.execute("SELECT said FROM blocks WHERE chain = ? AND number NOT NULL ORDER BY number", (genesis,))
        return [json.loads(said) for (said,) in rows]


def count_committed(path):
    """How many blocks a replica's database commits, in whichever chains; 0 before there is one."""
    try:
        with contextlib.closing(sqlite3.connect(f"file:{path}?mode=ro", uri=True)) as base:
            return base.execute("SELECT count(*) FROM blocks WHERE number > 0").fetchone()[0]
    except sqlite3.Error:
        return 0


def commands_of(blocks):
    """Their commands, name, key and value, each once: one that two blocks have is applied once."""
    told = {}
    for block in blocks:
        for words in block["commands"]:
            told.setdefault(words[0], words)
    return list(told.values())


def wrong_sets(operations, commands):
    """Acknowledged sets that are lost, commands that nobody asked for, and sets that stand before one that had ended when they began."""
    sets = {each["name"]: each for each in operations if each["what"] == "set"}
    names = {words[0] for words in commands}
    yield from (f"lost: {each}" for each in sets.values() if each["ended"] is not None and each["name"] not in names)
    latest = -FOREVER  # of the begins of the sets so far
    for words in commands:
        each = sets.get(words[0])
        if each is None or words[1:] != [each["key"], each["value"]]:
            yield f"nobody asked for {words}"
            continue
        if each["ended"] is not None and each["ended"] < latest:
            yield f"out of order: {each}"
        latest = max(latest, each["began"])


def staleness(operations, commands):
    """How many weak gets there are, and how many gave a value that an acknowledged set had replaced before they began; and values that were
    never committed, which no promise allows."""
    place = {words[2]: at for at, words in enumerate(commands)} | {None: -1}
    gets = [each for each in operations if each["what"] == "get" and each["ended"] is not None]
    wrong = [f"never committed: {each}" for each in gets if each["value"] not in place]
    ends = {}
    for each in operations:
        if each["what"] == "set" and each["ended"] is not None and each["value"] in place:
            ends.setdefault(each["key"], []).append((place[each["value"]], each["ended"]))
    is_stale = lambda get: any(at > place[get["value"]] and end < get["began"] for at, end in ends.get(get["key"], []))
    return len(gets), sum(is_stale(each) for each in gets if each["value"] in place), wrong


def digest(replica, key, head, tail):
    """SHA-256 of a vote: replica, key, view and id, signature."""
    return hashlib.sha256(struct.pack(">H", replica) + key + head + tail).hexdigest()


def votes_in(certificate):
    """Replica and SHA-256 of each vote of a certificate."""
    for at in range(CERTIFICATE, len(certificate), IN_CERTIFICATE):
        vote = certificate[at : at + IN_CERTIFICATE]
        replica = int.from_bytes(vote[:2], "big")
        yield replica, digest(replica, vote[2:3], certificate[:40], vote[3:])


def votes_in_log(path, replica):
    """SHA-256 of each own vote of a replica in the export of its log, and of each vote in its certificates, by replica."""
    own, others = set(), {}
    with open(path, "rb") as file:
        data = file.read()
    at = 4
    while length := int.from_bytes(data[at : at + 4], "big"):
        entry = data[at + 4 : at + 4 + length]
        if len(entry) < length:
            break
        behind = HEADERS
        if entry[0] == VOTED:
            vote = entry[HEADERS : HEADERS + OWN_VOTE]
            own.add(digest(replica, vote[:1], vote[1:41], vote[41:]))
            behind += OWN_VOTE
        for voter, vote in votes_in(entry[behind:]):
            others.setdefault(voter, set()).add(vote)
        at += 4 + length
    return own, others


def votes_told(path):
    """SHA-256 of each vote that a signer answered, by its ledger's trace."""
    with open(path) as file:
        return {line.strip() for line in file if line.endswith("\n")}
