"""What a client does: it asks all replicas, and believes what more than a third of the weight say, of which one follows the rules.

A command is done once a quorum has applied it. So a client that believes only what a quorum says reads all that was done before it asked:
each quorum that applied a command and each quorum that answers share a replica that follows the rules."""
import json
import queue
import threading
import time

from links import CLIENT, connect, line_of


def ask(folder, number, message, patience):
    """The answer of one replica, or None."""
    try:
        with connect(folder, number, patience) as link:
            link.sendall(line_of({"from": CLIENT}) + line_of(message))
            return json.loads(link.makefile("rb").readline())
    except (OSError, ValueError):
        return None


def ask_all(folder, committee, message, patience):
    """The answers of all replicas, as they come: a number and an answer, or None."""
    answers, count = queue.Queue(), len(committee.weights)

    def ask_one(number):
        answers.put((number, ask(folder, number, message, patience)))

    for number in range(count):
        threading.Thread(target=ask_one, args=(number,), daemon=True).start()
    return (answers.get() for _ in range(count))


def agreed(folder, committee, message, patience, weight):
    """The answer that replicas of this weight gave, or None."""
    weights = {}
    for number, answer in ask_all(folder, committee, message, patience):
        if answer is not None:
            said = json.dumps(answer)
            weights[said] = weights.get(said, 0) + committee.weights[number]
            if weights[said] >= weight:
                return answer
    return None


def set_key(folder, committee, name, key, value, retry=10):
    """Says it again under the same name until a quorum applied it: so it is applied once."""
    while agreed(folder, committee, {"say": "set", "command": [name, key, value]}, retry, committee.quorum) is None:
        pass


def get_key(folder, committee, key, is_fresh=False):
    """The value, or None where the key is not set. It may be behind what another client did, but for one that is asked for fresh."""
    weight = committee.quorum if is_fresh else committee.third
    while (answer := agreed(folder, committee, {"say": "get", "key": key}, 10, weight)) is None:
        time.sleep(0.1)  # the replicas are not all at the same block
    return answer["value"]


HEAD = ["replica", "state", "chain", "view", "vote view", "lock", "entries left", "keys left", "next", "committed", "applied", "store", "handover"]


def row_of(number, answer):
    if answer is None:
        return [number, "does not answer"]
    signer = answer["signer"] or {"state": "signer away", "lock": {}}
    stands = [signer["state"], answer["chain"][:8], answer["view"], signer.get("vote_view", ""), signer["lock"].get("view", "")]
    left = [signer.get("entries_left", ""), signer.get("indices_left", ""), signer.get("next", "")]
    return [number, *stands, *left, answer["committed"], answer["applied"], answer["store"][:8], answer["handover"][:8]]


def print_status(folder, committee):
    answers = sorted(ask_all(folder, committee, {"say": "status"}, 10), key=lambda each: each[0])
    for row in [HEAD] + [row_of(*each) for each in answers]:
        print("".join(f"{cell!s:<14}" for cell in row).rstrip())
