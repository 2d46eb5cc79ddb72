#!/usr/bin/env python3
"""What the trials of ledgers that go over from committee to committee share: their replicas, clients, kills, and what is looked at
at the end. As a program it is a ledger process: lineages.py FOLDER NUMBER OPTIONS, the options being those of `ledger replica`."""
import sys

sys.dont_write_bytecode = True

import contextlib
import hashlib
import http.client
import itertools
import json
import os
import runpy
import shutil
import signal
import sqlite3
import subprocess
import tempfile
import threading
import time

TOP = os.path.dirname(os.path.dirname(os.path.dirname(os.path.abspath(__file__))))
sys.path[:0] = [f"{TOP}/examples/ledger", f"{TOP}/trials/signer"]

import client
import cluster
import replica
import signer as signers
from blocks import PUBLIC_KEY, Block, Committee
from chain import digest_of
from ledger import Failed, payloads_of, vote_of

REPLICAS = range(4)
CLIENTS = 2
ENDORSED = 6  # the first byte of a signer's word that it endorsed its next keys


# A ledger process, in a process of its own


def run_replica(folder, number, options):
    """That of examples/ledger, which notes what its signer tells. It does not call /over while there is a file that holds it, and kills
    itself behind an answer that a file names."""
    trace = open(f"{folder}/trace-{number}", "a", buffering=1)
    call_untraced, ask_untraced = signers.Signer.call, signers.Signer.ask
    commit_always, go_over_at_once = replica.Replica.commit, replica.Replica.go_over

    def note(chain, **what):
        trace.write(json.dumps({"at": time.monotonic(), "chain": chain, **what}) + "\n")

    def end_behind(what):
        if os.path.exists(path := f"{folder}/end-{number}-{what}"):
            os.remove(path)
            os.kill(os.getpid(), signal.SIGKILL)

    def ask(self, method, path, body=None):
        try:
            return ask_untraced(self, method, path, body)
        except (OSError, http.client.HTTPException):
            if path == "/over":
                note("", broken=True)
            raise

    def call(self, method, path, body=None):
        status, line = call_untraced(self, method, path, body)
        words, chain = line.split(), self.query.removeprefix("chain=")
        if words[:1] == ["voted"]:
            note(chain, entry=int(words[1]), vote=hashlib.sha256(bytes.fromhex(words[2])).hexdigest())
        if path == "/block" and " committed " in line:
            note(chain, told=hashlib.sha256(body[:84]).hexdigest())
        if words[:1] == ["over"]:
            end_behind("over")
        return status, line

    def commit(self, block, told):
        if self.chain.number_of(block) is None and any(each.hands_over for each in self.chain.uncommitted(block)):
            end_behind("told")
        commit_always(self, block, told)

    def go_over(self):
        if not os.path.exists(f"{folder}/hold-{number}"):
            go_over_at_once(self)

    signers.Signer.call, signers.Signer.ask = call, ask
    replica.Replica.commit, replica.Replica.go_over = commit, go_over
    sys.argv = [f"{TOP}/examples/ledger/ledger", "replica", str(number), "--folder", folder, "--while-input", *options]
    runpy.run_path(sys.argv[0], run_name="__main__")


def notes_of(folder, number):
    with open(f"{folder}/trace-{number}") as file:
        return [json.loads(line) for line in file if line.endswith("\n")]


# The replicas


class Host:
    """A replica: its signer and its ledger process, each of which can be killed and started again."""

    def __init__(self, folder, number, signer_options, ledger_options):
        self.folder, self.number = folder, number
        self.signer_options, self.ledger_options = signer_options, ledger_options
        self.program = os.path.abspath(__file__)  # of the ledger process
        self.first = f"{folder}/committee.hsc"  # the committee with which the folder of its signer began
        self.home = self.keys = f"{folder}/signer-{number}"  # and where the keys are that it has in the last committee
        self.signer = self.ledger = None
        self.lock = threading.Lock()

    def start_signer(self, **meddling):
        """Answers whether it takes calls: one that is meddled with may be killed before."""
        env = os.environ | {f"MEDDLE_{name.upper()}": word for name, word in meddling.items()}
        if meddling:
            env["LD_PRELOAD"] = f"{self.folder}/meddle.so"
        words = [cluster.program("hs_signer"), self.first, str(self.number), self.home, "--sessions", "8"]
        words += ["--while-input", "--successor", cluster.successor_of(self.folder, self.number), *self.signer_options]
        with open(f"{self.folder}/faults-{self.number}", "a") as faults:
            pipes = {"stdin": subprocess.PIPE, "stdout": subprocess.PIPE, "stderr": faults}
            self.signer = subprocess.Popen(words, env=env, text=True, start_new_session=True, **pipes)
        return self.signer.stdout.readline().startswith("listening calls ")

    def must_start_signer(self):
        if not self.start_signer():
            raise Failed(f"signer {self.number} does not start: {self.faults()}")

    def faults(self):
        with open(f"{self.folder}/faults-{self.number}") as file:
            return file.read()[-500:]

    def start_ledger(self):
        words = [sys.executable, self.program, self.folder, str(self.number), *self.ledger_options]
        with open(f"{self.folder}/told-{self.number}", "a") as told:
            self.ledger = subprocess.Popen(words, stdin=subprocess.PIPE, stdout=told, stderr=told, start_new_session=True)

    def kill(self, *parts):
        for part in parts:
            process = getattr(self, part)
            if process is not None:
                process.kill()
                process.wait()
                for pipe in (process.stdin, process.stdout):
                    if pipe:
                        pipe.close()
                setattr(self, part, None)

    def status(self):
        return client.ask(self.folder, self.number, {"say": "status"}, 5) or {}

    @property
    def hold(self):
        return f"{self.folder}/hold-{self.number}"

    def call(self, method, path, body=None):
        """A call of its signer, on a connection of its own: the status and the line of the answer."""
        link = signers.UnixConnection(f"{self.home}/signer.sock")
        try:
            link.request(method, path, body)
            answer = link.getresponse()
            return answer.status, answer.read().decode().rstrip("\n")
        finally:
            link.close()


def touch(path):
    with open(path, "w"):
        pass


def wait_for(is_so, what, patience=120):
    end = time.monotonic() + patience
    while not is_so():
        if time.monotonic() > end:
            raise Failed(f"waited in vain for {what}")
        time.sleep(0.05)


class Lineage:
    """A ledger, the files of its committees in their order, and clients that set keys."""

    def __init__(self, room, chance, keys=1, ledger_options=()):
        self.folder, self.chance = f"{room}/ledger", chance
        cluster.make(self.folder, len(REPLICAS), keys)
        self.paths = [f"{self.folder}/committee.hsc"]
        self.committees = [Committee.read(self.paths[0])]
        self.places = cluster.addresses(self.folder, len(REPLICAS))
        self.hosts = [Host(self.folder, number, cluster.logs_of(number, self.places), ledger_options) for number in REPLICAS]
        self.kills = {"ledger": 0, "signer": 0}
        self.away = set()  # hosts that do not go over for now
        self.names, self.acknowledged, self.values, self.is_over = itertools.count(), [], {}, False
        self.clients = [threading.Thread(target=self.go_on, args=(f"key {each}",), daemon=True) for each in range(CLIENTS)]

    def go_on(self, key):
        """One client: it sets its key again and again."""
        while not self.is_over:
            name = f"command {next(self.names)}"
            client.set_key(self.folder, self.committees[0], name, key, name, retry=2)
            self.acknowledged.append(name)
            self.values[key] = name
            time.sleep(0.05)

    def start(self):
        there = [host for host in self.hosts if host not in self.away]
        for host in there:
            host.must_start_signer()
        for host in there:
            host.start_ledger()
        for each in self.clients:
            each.start()
        self.await_commits(there, 3)

    def end(self):
        self.is_over = True
        for host in self.hosts:
            host.kill("ledger", "signer")

    @property
    def chain(self):
        return self.committees[-1].genesis.hex()

    def await_commits(self, hosts, count):
        """Waits until these stand in the last chain, and have committed so many blocks of it."""

        def are_there():
            said = [host.status() for host in hosts]
            return all(each.get("chain") == self.chain and each["committed"] >= count for each in said)

        wait_for(are_there, f"{count} commits of chain {len(self.committees)} at {[host.number for host in hosts]}")

    def stands(self, host):
        return host.status().get("chain") == self.chain

    # What is done to them

    def kill_some(self, *whom):
        """The ledger process or the signer of each of these in turn is killed at a random moment, and started again."""
        for host, part in itertools.product(whom, ("ledger", "signer")):
            time.sleep(self.chance.random() * 0.3)
            host.kill(part)
            self.kills[part] += 1
            yield
            time.sleep(self.chance.random() * 0.3)
            if part == "signer":
                host.must_start_signer()
            else:
                host.start_ledger()

    def leave(self, host):
        self.away.add(host)
        host.kill("ledger", "signer")
        yield

    def come_back(self, host):
        self.away.remove(host)
        host.must_start_signer()
        host.start_ledger()
        self.await_commits([host], 1)

    # What is looked at at the end

    def rows(self, number, query, *words):
        """What the database of a ledger process has, read beside it."""
        path = f"file:{self.folder}/ledger-{number}/ledger.db?mode=ro"
        with contextlib.closing(sqlite3.connect(path, uri=True, timeout=20)) as base:
            return base.execute(query, words).fetchall()

    def blocks_of(self, number, chain):
        """The committed blocks of a chain, in their order."""
        query = "SELECT said FROM blocks WHERE chain = ? AND number > 0 ORDER BY number"
        return [Block.from_json(json.loads(said)) for (said,) in self.rows(number, query, chain)]

    def await_equal(self, numbers=REPLICAS):
        """Stops the clients, and waits until all stores have what they set."""
        self.is_over = True
        for each in self.clients:
            each.join(60)
        wanted, hosts = len(self.acknowledged), [self.hosts[number] for number in numbers]
        wait_for(lambda: all(host.status().get("applied", 0) >= wanted for host in hosts), f"{wanted} commands at all replicas")

    def see_history(self, numbers=REPLICAS, least=None):
        """One history of commands over all chains, or so many at least, that leaves what the stores have. Answers how many commands it has."""
        least, histories = least or len(self.committees), []
        for number in numbers:
            chains = [chain for (chain,) in self.rows(number, "SELECT genesis FROM lineage ORDER BY number")]
            if chains != [committee.genesis for committee in self.committees][: max(len(chains), least)]:
                raise Failed(f"replica {number} went over {len(chains)} chains: {[chain.hex()[:8] for chain in chains]}")
            histories.append(self.history(number, chains))
        commands, digests = zip(*histories)
        if any(each != commands[0] for each in commands) or len(set(digests)) != 1:
            raise Failed(f"the histories have {[len(each) for each in commands]} commands and leave {digests}")
        if missing := set(self.acknowledged) - set(commands[0]):
            raise Failed(f"acknowledged, and in no history: {sorted(missing)[:5]}")
        return len(commands[0])

    def see_values(self):
        """A client gets what was set last."""
        for key, value in self.values.items():
            said = client.get_key(self.folder, self.committees[0], key, True)
            if said != value:
                raise Failed(f"{key} is {said}, and not {value}")

    def history(self, number, chains):
        """The names of the commands, each where it was first, and the digest of what they leave."""
        names, pairs = {}, {}
        for block in (block for chain in chains for block in self.counting(number, chain)):
            for command in block.commands:
                if command.name not in names:
                    names[command.name], pairs[command.key] = None, command.value
        ((digest,),) = self.rows(number, "SELECT digest FROM totals")
        if sum(digest_of(*pair) for pair in pairs.items()) % 2**256 != int.from_bytes(digest, "big"):
            raise Failed(f"the blocks of replica {number} leave another store than it has")
        return list(names), digest.hex()

    def counting(self, number, chain):
        """The committed blocks of a chain that count: up to its handover."""
        for block in self.blocks_of(number, chain):
            yield block
            if block.hands_over:
                return

    def see_audits(self, paths, least=len(REPLICAS)):
        """An audit of the chain of each of these files, from the same addresses, in which so many logs at least are whole: it names nobody."""
        for place, path in enumerate(paths):
            found = f"{self.folder}/found-{place}"
            os.mkdir(found)
            words = [cluster.program("hs_tool"), "audit", path, found, *cluster.sources(self.places), "--why"]
            ran = subprocess.run(words, capture_output=True, text=True, timeout=120)
            lines = ran.stdout.splitlines()
            whole = [line for line in lines if line.startswith("source ") and " Whole " in line]
            if ran.returncode or len(whole) < least or not any(line.startswith("culprits 0") for line in lines):
                raise Failed(f"the audit of chain {place + 1} ends with {ran.returncode}: {lines[-8:]} {ran.stderr[-300:]}")

    def see_votes(self, numbers=REPLICAS):
        """Each vote that was told is in the log of its chain, and no one-time key signed two texts, of votes and endorsements. Answers how
        many votes were told."""
        told = 0
        for number in numbers:
            votes, used = {}, {}
            for committee in self.committees:
                chain = committee.genesis.hex()
                votes[chain] = own = [vote_of(entry) for entry in self.stored(number, chain, "log.hsj")]
                said = [word[1:] for word in self.stored(number, chain, "words.hsj") if word[0] == ENDORSED]
                signed = [(vote[0], vote[41:]) for vote in own if vote] + [(word[-1453], word[-1452:]) for word in said]
                for key, signature in signed:
                    # The key itself, whichever chains it stands in, and which of its one-time keys.
                    one_time = (committee.keys(number)[PUBLIC_KEY * key : PUBLIC_KEY * (key + 1)], signature[:4])
                    used.setdefault(one_time, set()).add(signature)
            if twice := [signatures for signatures in used.values() if len(signatures) > 1]:
                raise Failed(f"replica {number} signed {len(twice)} times under a one-time key that had signed")
            told += self.see_told(number, votes)
        return told

    def see_told(self, number, votes):
        """Each vote that a signer told is the entry of its log that it said."""
        notes = [note for note in notes_of(self.folder, number) if "vote" in note]
        for note in notes:
            own, entry = votes[note["chain"]], note["entry"]
            vote = own[entry] if entry < len(own) else None
            if vote is None or hashlib.sha256(number.to_bytes(2, "big") + vote).hexdigest() != note["vote"]:
                raise Failed(f"a vote that signer {number} told is not entry {entry} of its log of {note['chain']}")
        return len(notes)

    def stored(self, number, chain, name):
        """The entries of a journal in the folder of a chain; none where the replica was never in it."""
        path = f"{self.hosts[number].home}/chain-{chain}/{name}"
        if not os.path.exists(path):
            return []
        with open(path, "rb") as held:
            return payloads_of(held.read())


@contextlib.contextmanager
def trial(name, most):
    """A new folder for a trial, which goes with it, and may take so many seconds. What must not be is told in a line, with status 1."""
    room = tempfile.mkdtemp(prefix="lineage-")
    signal.signal(signal.SIGALRM, lambda *_: (_ for _ in ()).throw(Failed("it takes too long")))
    signal.alarm(most)
    try:
        yield room
    except Failed as failed:
        raise SystemExit(f"trials/lineage/{name}: {failed}")
    finally:
        shutil.rmtree(room, ignore_errors=True)


if __name__ == "__main__":
    run_replica(sys.argv[1], int(sys.argv[2]), sys.argv[3:])
