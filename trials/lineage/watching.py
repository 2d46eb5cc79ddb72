"""A watch that goes over beside a ledger, and a source that hands out what a replica signed again."""

import glob
import hashlib
import os
import socket
import subprocess
import threading
import time
import urllib.request

from lineages import REPLICAS, cluster, notes_of, wait_for
from blocks import PUBLIC_KEY
from ledger import Failed, payloads_of, vote_of
from one_time import sign_again

LIAR = 3
FORKERS = (1, 2, 3)
REQUEST, FIRST_AT = 44, 36  # bytes of a request for a log that names its chain; where the first entry that is wanted stands
NOT_THERE = b"HSL0" + bytes(4)
VOTED, RAISED = b"\3", b"\4"
SOON = 5  # seconds: so soon after a commit the watch is to go over


def u(value, size):
    return value.to_bytes(size, "big")


class Forger:
    """Serves entries by chain as the log of a replica. What stands in them the replicas' own keys signed, each under a one-time key that signed before."""

    def __init__(self, lineage):
        self.lineage, self.logs = lineage, {}
        self.listener = socket.create_server(("127.0.0.1", 0), backlog=64)
        self.source = f"{LIAR}=tcp:127.0.0.1:{self.listener.getsockname()[1]}"
        threading.Thread(target=self.serve, daemon=True).start()

    def serve(self):
        while True:
            try:
                link, _ = self.listener.accept()
            except OSError:
                return
            with link:
                try:
                    self.answer(link)
                except OSError:
                    pass

    def answer(self, link):
        link.settimeout(5)
        request = b""
        while len(request) < REQUEST and (more := link.recv(REQUEST - len(request))):
            request += more
            if request[:4] == b"HSL3" and len(request) == 37:
                break
        log = self.logs.get(request[4:FIRST_AT]) if request[:4] == b"HSL2" else None
        if log is None:
            return link.sendall(NOT_THERE)
        entries = log[int.from_bytes(request[FIRST_AT : FIRST_AT + 4], "big") :]
        link.sendall(b"HSL1" + b"".join(u(len(it), 4) + it for it in entries) + bytes(4) + u(len(entries), 4))

    def close(self):
        self.listener.close()

    # What it serves

    def sign(self, number, committee, view, block_id):
        """A vote of this replica: under the one-time key of one that stands in its log."""
        home, chain = self.lineage.hosts[number].home, committee.genesis
        own = committee.keys(number)[:PUBLIC_KEY]
        (keys,) = [path for path in glob.glob(f"{home}/key.pub") + glob.glob(f"{home}/next-*/key.pub") if open(path, "rb").read() == own]
        with open(keys.replace("key.pub", "key.seed"), "rb") as file:
            seed = file.read()
        with open(f"{home}/chain-{chain.hex()}/log.hsj", "rb") as file:
            votes = [vote for vote in map(vote_of, payloads_of(file.read())) if vote and vote[0] == 0]
        statement = b"HSV1" + chain + u(view, 8) + block_id
        return b"\0", sign_again(seed[:16], seed[16:], votes[0][41:], statement, os.urandom(16))

    def vote_twice(self, committee):
        """The liar votes for a block on genesis in a view in which it voted."""
        home, genesis = self.lineage.hosts[LIAR].home, genesis_of(committee)
        with open(f"{home}/chain-{committee.genesis.hex()}/log.hsj", "rb") as file:
            view = int.from_bytes(next(filter(None, map(vote_of, payloads_of(file.read()))))[1:9], "big")
        block = header(view, 0, committee.genesis)
        key, signature = self.sign(LIAR, committee, view, sha256(block))
        vote = key + u(view, 8) + sha256(block) + signature
        self.logs[committee.genesis] = [VOTED + block + genesis + vote + certificate(genesis, {})]

    def fork(self, committee, view):
        """A quorum of forkers commits a block on genesis, in these views."""
        blocks, entries = [genesis_of(committee)], []
        for each in range(4):
            below = blocks[-1]
            blocks.append(header(view + each, int.from_bytes(below[4:12], "big"), sha256(below)))
            votes = {number: self.sign(number, committee, view + each - 1, sha256(below)) for number in FORKERS} if each else {}
            entries.append(RAISED + blocks[-1] + below + certificate(below, votes))
        self.logs[committee.genesis] = entries


def sha256(data):
    return hashlib.sha256(data).digest()


def genesis_of(committee):
    return b"HSB1" + bytes(8 + 8 + 32) + sha256(committee.file)


def header(view, parent_view, parent):
    return b"HSB1" + u(view, 8) + u(parent_view, 8) + parent + os.urandom(32)


def certificate(block, votes):
    return block[4:12] + sha256(block) + u(len(votes), 2) + b"".join(u(number, 2) + key + signature for number, (key, signature) in sorted(votes.items()))


class Watch:
    """hs_watch --lineage over all replicas of a ledger, and over a forger."""

    def __init__(self, lineage):
        self.lineage, self.forger, self.lines = lineage, Forger(lineage), []
        self.named = set()  # whom it is to have named, each with the committee
        self.found = f"{lineage.folder}/watched"
        os.mkdir(self.found)
        self.place = None  # where it tells over HTTP
        words = [cluster.program("hs_watch"), lineage.paths[0], self.found, "--lineage", "--until-input-ends", "--listen", "127.0.0.1:0"]
        words += ["--state", f"{lineage.folder}/watch-state", *cluster.sources(lineage.places), self.forger.source]
        self.process = subprocess.Popen(words, stdin=subprocess.PIPE, stdout=subprocess.PIPE, text=True, start_new_session=True)
        threading.Thread(target=self.read, daemon=True).start()

    def read(self):
        """Each line is TIME round N committee M and what is new."""
        for line in self.process.stdout:
            words = line.split()
            if words[0] == "listening":
                self.place = words[1]
            if words[1:2] == ["round"] and words[3:4] == ["committee"]:
                self.lines.append((time.monotonic(), int(words[4]), words[5:]))

    def told(self, *what):
        """When, in which committee, and the words behind these."""
        return [(at, committee, words[len(what) :]) for at, committee, words in self.lines if words[: len(what)] == list(what)]

    def culprits(self):
        return {(committee, int(words[0])) for _, committee, words in self.told("culprit")}

    def delays(self):
        """Of each going over how many seconds after the first replica was told the commit of the handover the watch told it, rising."""
        notes = [note for number in REPLICAS for note in notes_of(self.lineage.folder, number) if "told" in note]
        committed = {}
        for note in notes:
            committed[note["told"]] = min(note["at"], committed.get(note["told"], note["at"]))
        ends = {}
        for number in REPLICAS:
            for place, (told,) in enumerate(self.lineage.rows(number, "SELECT told FROM lineage ORDER BY number")):
                if told and told.hex() in committed:
                    ends[place] = min(committed[told.hex()], ends.get(place, committed[told.hex()]))
        over = {int(words[0]): at for at, _, words in self.told("goes-over")}
        return sorted(over[place + 1] - at for place, at in ends.items() if place + 1 in over)

    def see_double_vote(self, place):
        """The liar votes twice in the committee of this place, from 0, and is named there, by a verdict that the checker accepts."""
        committee = self.lineage.committees[place]
        self.forger.vote_twice(committee)
        wait_for(lambda: (place, LIAR) in self.culprits(), f"the watch to name replica {LIAR} in committee {place}")
        name = f"verdict-{place}-{LIAR}.hsx" if place else f"verdict-{LIAR}.hsx"
        ran = subprocess.run([cluster.program("hs_check"), self.lineage.paths[place], f"{self.found}/{name}"], capture_output=True, text=True)
        if not ran.stdout.startswith(f"accepted replica {LIAR} rule 1 "):
            raise Failed(f"hs_check of {name} says {ran.stdout or ran.stderr}")

    def see_metrics(self, place):
        """What it shows is of the committee of this place, and says how many culprits those before have."""
        with urllib.request.urlopen(f"http://{self.place}/metrics", timeout=10) as answer:
            lines = answer.read().decode().splitlines()
        chain, earlier = self.lineage.committees[place].genesis.hex(), sum(committee < place for committee, _ in self.culprits())
        for wanted in (f'hs_watch_committee{{chain="{chain}"}} {place}', f"hs_watch_earlier_culprits {earlier}"):
            if wanted not in lines:
                raise Failed(f"the metrics of the watch in committee {place} lack {wanted}")

    def see_fork(self, place, view):
        self.forger.fork(self.lineage.committees[place], view)
        wanted = {(place, number) for number in FORKERS}
        wait_for(lambda: wanted <= self.culprits() and self.told("conflict"), f"the watch to name {FORKERS} in committee {place}")
        self.see_metrics(place)

    def end(self, named):
        """It ends in order, has named these, each by its committee, and nobody else."""
        self.process.stdin.close()
        status = self.process.wait(90)
        self.forger.close()
        if self.culprits() != named or status != (3 if named else 0):
            raise Failed(f"the watch ends with {status}, and named {sorted(self.culprits())} in place of {sorted(named)}")

    def kill(self):
        self.process.kill()
        self.process.wait()
        self.forger.close()
