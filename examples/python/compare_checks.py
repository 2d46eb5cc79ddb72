#!/usr/bin/env python3
"""Compares the library's answers with second_check.py's: compare_checks.py COUNT SEED

Verdicts and committees of examples/ are changed at random places, cut, and made longer, so many of them from a seed; both judge
each. It prints each that they answer differently, and how many there were. HS_CHECK_LIBRARY names the library, as check.py says.
"""

import os
import random
import sys
from pathlib import Path

import check
import second_check

EXAMPLES = Path(__file__).resolve().parent.parent
PAIRS = [
    ("committee.hsc", "double_vote.hsx"),
    ("committee.hsc", "lock_violation.hsx"),
    ("weighted/committee.hsc", "double_vote.hsx"),
    ("weighted/committee.hsc", "weighted/lock_violation.hsx"),
    ("multikey/committee.hsc", "multikey/double_vote.hsx"),
]
# Where a change tells most: heads, kinds, numbers of keys, views, ids and headers.
TELLING = [*range(0, 90), *range(1530, 1580), *range(3025, 3277)]


def changed(chance, text):
    """The text with one to three bytes changed, or cut, or longer; at times as it is."""
    kind = chance.random()
    if kind < 0.1:
        return text
    if kind < 0.15:
        return text[: chance.randrange(len(text))]
    if kind < 0.2:
        return text + chance.randbytes(chance.randint(1, 60))
    bytes_of = bytearray(text)
    for _ in range(chance.randint(1, 3)):
        places = [at for at in TELLING if at < len(text)] if chance.random() < 0.7 else range(len(text))
        bytes_of[chance.choice(places)] = chance.choice([0, 1, 2, 3, 4, 255, chance.randrange(256)])
    return bytes(bytes_of)


def told(judge, *texts):
    try:
        return judge(*texts)
    except (check.Refused, check.CommitteeRefused) as refused:
        return str(refused)
    except second_check.Refused as why:
        return f"refused {why}"
    except second_check.NoCommittee as why:
        return f"fault committee {why}"


def second(committee, verdict):
    replica, rule, view = second_check.judge(second_check.Committee.read(committee), verdict)
    return f"accepted replica {replica} rule {rule} view {view}"


def main(count, seed):
    chance = random.Random(seed)
    checker = check.Checker(os.environ.get("HS_CHECK_LIBRARY", "libhs_check.so"))
    differ = 0
    for _ in range(count):
        committee, verdict = ((EXAMPLES / name).read_bytes() for name in chance.choice(PAIRS))
        if chance.random() < 0.25:
            committee = changed(chance, committee)
        else:
            verdict = changed(chance, verdict)
        one, two = told(lambda *texts: str(checker.check(*texts)), committee, verdict), told(second, committee, verdict)
        if one != two:
            differ += 1
            print(f"FAILED: the library says {one}, second_check.py {two}")
    print(f"{count} compared, {differ} differ")
    return 1 if differ or not count else 0


if __name__ == "__main__":
    sys.exit(main(int(sys.argv[1]), int(sys.argv[2])))
