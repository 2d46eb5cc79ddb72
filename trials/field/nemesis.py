"""What befalls the hosts of a field trial: a plan that a seed makes, and what each fault does. One fault of the network and one of processes
go on at a time. Of processes at most f replicas are hit, but by a power cut and by the end of all ledger processes."""
import random
from dataclasses import dataclass

CUTS = ["halves", "one", "ring", "one way", "a third of the ways", "flapping"]
NETWORK = [*CUTS, "bad links"]
AT_ONCE = ["kill all ledgers", "power cut"]  # these are started again at once
KILLS = ["kill signer", "kill ledger", "kill both"]
PAUSES = ["pause signer", "pause ledger", "pause both"]
PROCESSES = [*KILLS, *PAUSES, *AT_ONCE, "full disk", "clock", "kill stunnel"]

LASTS = 5, 20  # seconds
PAUSE = 3, 10  # seconds between two faults
PROCESSES_OF = {"signer": ["signer"], "ledger": ["ledger"], "both": ["ledger", "signer"], "stunnel": ["stunnel"]}


@dataclass(frozen=True, eq=False)
class Fault:
    """Of some kind, from a second to a second of a run; its words say whom it hits, or how."""

    begin: float
    end: float
    kind: str
    words: object

    def __str__(self):
        return f"{self.kind} {self.words}"


def plan(seed, seconds, count, faulty, pause=PAUSE):
    """The faults of a seed, by their times from the start. Each kind comes once before one comes again."""
    chance, faults = random.Random(f"plan {seed}"), []
    for kinds in (NETWORK, PROCESSES):
        at, left = chance.uniform(*pause), []
        while True:
            left = left or chance.sample(kinds, len(kinds))
            kind, last = left.pop(), chance.uniform(*LASTS)
            if at + last > seconds:
                break
            faults.append(Fault(at, at + last, kind, words_of(chance, kind, count, faulty)))
            at += last + chance.uniform(*pause)
    return sorted(faults, key=lambda fault: fault.begin)


def words_of(chance, kind, count, faulty):
    numbers = chance.sample(range(count), count)
    if kind in ("halves", "flapping"):
        return numbers[: count // 2]
    if kind == "one":
        return numbers[:1]
    if kind == "ring":
        return numbers
    if kind == "one way":
        return numbers[0], chance.choice(["deaf", "mute"])
    if kind == "a third of the ways":
        ways = [(a, b) for a in range(count) for b in range(count) if a != b]
        return chance.sample(ways, len(ways) // 3)
    if kind == "bad links":
        choices = {"delay": [5, 20, 60], "jitter": [0, 20, 60], "loss": [0, 0.02, 0.1], "double": [0, 0.05], "reorder": [0, 0.1]}
        return {word: chance.choice(values) for word, values in choices.items()}
    if kind == "clock":
        return numbers[: chance.randint(1, count)], chance.choice([-1, 1]) * chance.choice([5, 3600, 30 * 86400, 500 * 86400])
    return numbers[: chance.randint(1, faulty)]


class Nemesis:
    def __init__(self, field):
        self.field, self.replicas = field, field.replicas

    def steps(self, faults):
        """When, what to do, of which fault, and whether that begins or ends it: by time."""
        steps = []
        for fault in faults:
            steps.append((fault.begin, self.begin, fault, "begin"))
            steps.append((fault.end, self.end, fault, "end"))
            if fault.kind == "flapping":
                turns = range(int(fault.begin) + 2, int(fault.end), 2)
                steps += [(at, self.mend if number % 2 == 0 else self.begin, fault, None) for number, at in enumerate(turns)]
        return sorted(steps, key=lambda step: step[0])

    def ways(self, fault):
        """Which ways are cut. The watch and the clients reach all."""
        replicas, kind, words = self.replicas, fault.kind, fault.words
        if kind == "ring":
            near = {frozenset((words[at], words[at - 1])) for at in range(len(words))}
            return [(a, b) for a in replicas for b in replicas if a is not b and frozenset((a.number, b.number)) not in near]
        if kind == "one way":
            one = replicas[words[0]]
            ways = [(other, one) for other in replicas if other is not one]
            return ways if words[1] == "deaf" else [way[::-1] for way in ways]
        if kind == "a third of the ways":
            return [(replicas[a], replicas[b]) for a, b in words]
        return self.field.between([replicas[number] for number in words], [host for host in replicas if host.number not in words])

    def hit(self, fault):
        return [self.replicas[number] for number in fault.words]

    def begin(self, fault):
        kind = fault.kind
        if kind in CUTS:
            self.field.cut(self.ways(fault))
        elif kind == "bad links":
            self.field.shape(**fault.words)
        elif kind == "clock":
            for number in fault.words[0]:
                self.replicas[number].set_clock(fault.words[1])
        elif kind in AT_ONCE:
            parts = ["ledger"] if kind == "kill all ledgers" else ["ledger", "signer", "stunnel"]
            for host in self.replicas:
                host.kill(*parts)
            for host in self.replicas:
                host.start(*reversed(parts))
        elif kind == "full disk":
            for host in self.hit(fault):
                host.fill_disk()
        else:
            does, what = kind.split()
            for host in self.hit(fault):
                (host.kill if does == "kill" else host.pause)(*PROCESSES_OF[what])

    def mend(self, fault):
        self.field.cut([])

    def end(self, fault):
        kind = fault.kind
        if kind in CUTS:
            self.mend(fault)
        elif kind == "bad links":
            self.field.shape()
        elif kind == "clock":
            for number in fault.words[0]:
                self.replicas[number].set_clock(0)
        elif kind == "full disk":
            for host in self.hit(fault):
                host.mend_disk()
        elif kind not in AT_ONCE:
            does, what = kind.split()
            for host in self.hit(fault):
                (host.start if does == "kill" else host.go_on)(*reversed(PROCESSES_OF[what]))
