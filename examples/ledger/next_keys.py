"""How a committee gets its next one with nobody's help. Each signer makes next keys and endorses them, which is to sign them with the present
ones. The replicas show each other what was endorsed, and a leader makes the next committee's file of all that its own signer finds good."""
import struct
import time
from dataclasses import dataclass

from blocks import PUBLIC_KEY, Certificate, Step, Vote, sha256
from links import message_of

STATEMENT = ">4s32sHB"  # HSE1, chain, replica, how many keys; and behind it the keys
SEAL = ">B1452s"  # which key signed the statement, and its signature
ENTRIES, SIGNATURES = 4096, 1024  # of a log, and of a key
FEW_ENTRIES, FEW_INDICES = 820, 640  # a signer keeps its last 512 of each for what hands over
LONG = 900  # seconds in a chain: sooner nobody is made to endorse, or one liar could have a handover every few seconds
AGAIN = 10  # first timeouts of a view: how often what others lack is said again
HEARING = 2  # the same, in which the others may say what this replica endorsed, before it endorses


@dataclass(frozen=True)
class Endorsement:
    """A replica's statement of its next keys, which one of its present keys signed."""

    replica: int
    keys: bytes
    key: int
    signature: bytes
    data: bytes

    @classmethod
    def read(cls, data, committee):
        """One that has the form that a replica of this committee gives it. Whether it is good the signer says."""
        head, seal = struct.calcsize(STATEMENT), struct.calcsize(SEAL)
        magic, chain, replica, count = struct.unpack(STATEMENT, data[:head])
        if magic != b"HSE1" or chain != committee.genesis or replica >= len(committee.weights):
            raise ValueError("no statement of next keys behind this committee")
        keys, present = data[head:-seal], committee.keys(replica)
        # The present ones would pass the signer's judgement, which looks at no signature of a slot that keeps them.
        if not PUBLIC_KEY * count == len(keys) == len(present) or keys == present:
            raise ValueError("as many next keys as present ones, and others")
        return cls(replica, keys, *struct.unpack(SEAL, data[-seal:]), data)


def step_by(committee, endorsements):
    """To the committee in which these replicas have the keys that they endorsed, and the others those that they have."""
    file = committee.with_keys({each.replica: each.keys for each in endorsements})
    signed = [Vote(each.replica, each.key, 1, sha256(file), each.signature) for each in endorsements]
    return Step(file, b"HSR1" + committee.genesis + Certificate(1, sha256(file), signed).data)


class NextKeys:
    """What a replica knows of the next keys behind one chain, and what is left of its present ones."""

    def __init__(self, number, chain, signer, links, pause, tell):
        self.number, self.chain, self.committee = number, chain, chain.committee
        self.signer, self.links, self.tell = signer, links, tell
        self.pause = pause  # seconds: how long a view lasts in which all goes well, or longer
        self.held = {}  # the first good endorsement of each replica
        self.own_as_told = None  # what others say that this replica endorsed
        self.is_robbed = False  # it endorsed other keys than its signer has: that one's folder was put back, or somebody has its keys
        self.unjudged = {}  # endorsements that came, the last of each sender for each replica
        self.known = {}  # whose endorsements each replica holds, as it says
        self.low = set()  # who says that little is left
        self.liars = set()  # who sent an endorsement that is not good
        self.status, self.reserved_in = {}, None  # what the signer is at, and the view in which it was first in its reserve
        self.looked, self.begun, self.shared, self.said_low = (0, 0), time.monotonic(), 0, False

    @property
    def in_reserve(self):
        """Whether its signer keeps what is left for what hands over, and votes for no ordinary block."""
        return self.status.get("reserve", "none") != "none"

    @property
    def is_low(self):
        return self.has_fewer(FEW_ENTRIES, FEW_INDICES)

    def has_fewer(self, entries, indices):
        return self.status.get("entries_left", ENTRIES) < entries or self.status.get("indices_left", indices) < indices

    def look(self, view, renews):
        """Once a view, and now and then in a long one: what is left, and what is to be done for the next keys."""
        now = time.monotonic()
        if view == self.looked[0] and now < self.looked[1] + self.pause:
            return
        self.looked = view, now
        self.status = self.signer.status()
        self.reserved_in = self.reserved_in or (view if self.in_reserve else None)
        if renews:
            self.judge_one()
            if self.is_due(now):
                self.endorse()
            if self.is_low != self.said_low:
                self.share()
            self.share_if_lacking(AGAIN * self.pause)

    # Sharing

    def is_due(self, now):
        """Whether the signer is to endorse: a quarter is used, or somebody did it in a chain that is not new, or a handover may come soon."""
        if self.number in self.held or self.is_robbed or now < self.begun + HEARING * self.pause:
            return False
        somebody_did = any(replica in held for replica, held in self.known.items())
        is_used = self.has_fewer(ENTRIES * 3 // 4, len(self.committee.keys(self.number)) // PUBLIC_KEY * SIGNATURES * 3 // 4)
        is_soon = self.is_low or self.committee.weigh(self.held) >= self.committee.quorum
        return is_soon or is_used or (somebody_did and time.time() >= self.chain.begun + LONG)

    def endorse(self):
        status, said = self.signer.endorse()
        if status == 200:
            self.held[self.number] = Endorsement.read(said, self.committee)
            self.compare()
            self.share()
        elif status != 503:  # which is: it makes the keys, or hears the others first
            self.tell(f"its signer endorses no keys ({said})")

    def compare(self, is_mine=True):
        """Whether the others have an endorsement of this replica that is not its signer's. Then it says no other, and keeps its slot."""
        own, told = self.held.get(self.number), self.own_as_told
        if not is_mine or (own and told and own.keys != told.keys):
            self.is_robbed = True
            self.held.pop(self.number, None)
            self.tell("it endorsed keys that its signer has not: the signer's folder was put back, or somebody else has its keys")

    def share(self):
        """Tells all what this replica holds, and what it endorsed: who lacks some of it, or holds more, is known then."""
        self.shared, self.said_low = time.monotonic(), self.is_low
        self.links.broadcast(self.message([each for each in self.held.values() if each.replica == self.number]))

    def share_if_lacking(self, pause=0):
        count = len(self.committee.weights)
        held = [self.known.get(other, ()) for other in range(count) if other != self.number] + [self.held]
        if time.monotonic() >= self.shared + pause and min(map(len, held)) < count:
            self.share()

    def message(self, endorsements, is_answer=False):
        said = [each.data.hex() for each in endorsements]
        return message_of(self.chain, "next keys", held=sorted(self.held), low=self.is_low, endorsements=said, answer=is_answer)

    def take(self, message, sender):
        """What another replica holds, and endorsements to be judged. It gets those that it lacks; but no answer to an answer."""
        everybody = set(range(len(self.committee.weights)))
        held = everybody & {each for each in message["held"] if type(each) is int}
        said = [Endorsement.read(bytes.fromhex(each), self.committee) for each in message["endorsements"][: len(everybody)]]
        (self.low.add if message["low"] is True else self.low.discard)(sender)
        self.known[sender] = held
        for each in said:
            self.unjudged[sender, each.replica] = each
        lacking = [each for replica, each in self.held.items() if replica not in held]
        if lacking and not message.get("answer"):
            self.links.send(sender, self.message(lacking, True))

    # Judging

    def judge_one(self):
        """Judges the first endorsement that is new here, and no more at a time, since that takes as long as a vote. Who sent one that
        is not good is not heard again: who follows the rules hands on what it found good."""
        for (sender, replica), said in list(self.unjudged.items()):
            if replica == self.number and self.status.get("next") == "making":
                continue  # its signer may have endorsed: it still looks for its keys
            del self.unjudged[sender, replica]
            known = self.own_as_told if replica == self.number else self.held.get(replica)
            if known is None and sender not in self.liars:
                return self.judge(said, sender)

    def judge(self, said, sender):
        """A good one is too little by itself to renew the committee, and nothing else is wrong with it."""
        answer = self.signer.judge(step_by(self.committee, [said]))
        is_good = answer.status == 200 or answer.line.endswith(" TooFew")
        if said.replica == self.number and (is_good or "NotMine" in answer.line):
            self.own_as_told = said
            self.compare(is_good and self.status.get("next") != "made")  # which is: its signer has not endorsed yet
        elif is_good:
            self.held[said.replica] = said
        elif answer.status == 422 and not answer.line.endswith(" Memory"):
            self.liars.add(sender)
            self.tell(f"replica {sender} sent an endorsement that is not good ({answer.line})")

    # Handing over

    def is_time(self, failures):
        """Whether a leader is to hand over: little is left to it or to any that says so, or no block gets a quorum."""
        return self.is_low or bool(self.low) or self.in_reserve or failures > 2 * len(self.committee.weights)

    def step(self):
        """To the committee with all keys that are endorsed, as far as they are known here; None where they weigh too little. A slot that
        the signer refuses is left out."""
        while self.committee.weigh(self.held) >= self.committee.quorum:
            step = step_by(self.committee, self.held.values())
            answer = self.signer.judge(step)
            if answer.status == 200:
                return step
            self.tell(f"its signer refuses a next committee ({answer.line})")
            if self.held.pop(answer.slot, None) is None:
                return None
        return None

    def may_hand_in(self, step, view, leader):
        """Whether a block that hands over by this step may be handed to the signer, which is shown the step first: it votes for no other. Where
        the file keeps keys though others are endorsed, the leader is told these instead: else it could shut replicas out. But there is no
        time for that where the signer has long been in its reserve."""
        keys = self.committee.keys
        kept = [each for each in self.held.values() if keys(each.replica, step.file) == keys(each.replica)]
        is_long = self.in_reserve and view > self.reserved_in + len(self.committee.weights)
        if kept and not is_long:
            self.links.send(leader, self.message(kept, True))
            return False
        return not step.renewal or self.signer.may_follow(step)
