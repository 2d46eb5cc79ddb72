#!/usr/bin/env python3
"""Compares what two watches saw: examples/watch/compare.py ONE TWO, each a file with a /report.json, or the address of one.

A source that gave the same number of frames to both, and other frames, shows different logs to different readers. Sources are told
apart by their replica; where their frames are not as many, standard error says so, and they are not compared. Status 1 where the two saw
other things, 2 where one can't be read, else 0.
"""
import json, sys, urllib.request

MEMBERS = {"chain", "sources", "culprits", "conflict"}


def report(place):
    """The report at a place."""
    if place.startswith("http"):
        with urllib.request.urlopen(place, timeout=10) as answer:
            text = answer.read()
    else:
        with open(place, "rb") as file:
            text = file.read()
    found = json.loads(text)
    if not isinstance(found, dict) or found.get("format") != "wezhgula-report-1" or MEMBERS - found.keys():
        raise ValueError(f"{place} has no report of a watch")
    return found


def digests(source, other):
    """What the frames of a source digest to, of its first log and of all; a watch of before says nothing of all."""
    return source["digest"], source.get("digest_all") if "digest_all" in other else None


def compare(one, two):
    """What differs, in lines."""
    if one["chain"] != two["chain"]:
        yield "the two watch different chains"
        return
    of_one, of_two = ({source["replica"]: source for source in found["sources"]} for found in (one, two))
    for replica in sorted(of_two.keys() - of_one.keys()):
        yield f"replica {replica}: the first does not watch it"
    for source in one["sources"]:
        other = of_two.get(source["replica"])
        if other is None:
            yield f"replica {source['replica']}: the second does not watch it"
        elif source["frames"] == other["frames"] and digests(source, other) != digests(other, source):
            yield f"replica {source['replica']}: {source['frames']} frames each, and they differ: it shows two logs"
        elif source["frames"] != other["frames"]:
            print(f"replica {source['replica']}: {source['frames']} and {other['frames']} frames: compare again once both have the same", file=sys.stderr)
    names = lambda found: sorted(culprit["replica"] for culprit in found["culprits"])
    if names(one) != names(two):
        yield f"culprits {names(one)} and {names(two)}"
    if one["conflict"] != two["conflict"]:
        yield "one knows of a conflict that the other does not know"


if __name__ == "__main__":
    if len(sys.argv) != 3:
        raise SystemExit(__doc__)
    try:
        both = [report(place) for place in sys.argv[1:]]
    except (OSError, ValueError) as error:
        print(error, file=sys.stderr)
        raise SystemExit(2)
    lines = list(compare(*both))
    print("\n".join(lines) if lines else "the two saw nothing that differs")
    raise SystemExit(1 if lines else 0)
