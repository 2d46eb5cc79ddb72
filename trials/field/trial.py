"""What the field trials share: a field, what is told of it, and what is looked at when it was healed."""
import contextlib
import os
import shutil
import sys
import tempfile
import time

import checker
import nemesis
from hosts import Failed, Field, cluster

PROGRAMS = ["hs_signer", "hs_tool", "hs_watch", "hs_check"]
NEEDED = ["ip", "stunnel", "openssl", "mount"]
HEALED = 60  # seconds: so soon after the end of all faults the stores are equal and commits go on
# What a watch says while nobody breaks a rule. "unnamed" may come of a tunnel whose signer is down: that closes without a byte, too.
INNOCENT = ("commit", "commits", "source", "unnamed", "stands", "handover", "goes-over", "stays", "no-log")


def missing():
    """Why no field trial can run here, or None."""
    if os.geteuid():
        return "no root"
    for word in NEEDED:
        if not shutil.which(word):
            return f"no {word}"
    return None if os.path.exists("/dev/net/tun") else "no /dev/net/tun"


def part(values, share):
    values = sorted(values)
    return f"{values[min(len(values) - 1, int(len(values) * share))]:.2f}" if values else "none"


class Trial:
    """A field in a new folder. `wrong` has what must not be; the folder is kept if there is any."""

    def __init__(self, name, seed, **field):
        if why := missing():
            raise SystemExit(f"{why}: no field trial can run")
        for program in PROGRAMS:
            cluster.program(program)
        self.name, self.wrong, self.began = name, [], time.monotonic()
        self.room = tempfile.mkdtemp(prefix=f"field-{name}-")
        self.field = Field(f"{self.room}/{name}", seed, **field)

    def tell(self, said):
        print(f"{time.monotonic() - self.began:7.1f} {said}", flush=True)

    def note(self, wrong):
        self.wrong.append(wrong)
        self.tell(f"WRONG {str(wrong)[:400]}")

    @contextlib.contextmanager
    def running(self):
        try:
            yield self.field
        except Failed as failed:
            self.note(failed)
        finally:
            self.field.close()
            if not self.wrong:
                shutil.rmtree(self.room)
            self.tell(f"{len(self.wrong)} wrong" + (f": {self.room}" if self.wrong else ""))

    def counts(self):
        """How many blocks each replica has committed."""
        return [checker.count_committed(f"{host.home}/ledger-{host.number}/ledger.db") for host in self.field.replicas]

    def await_equal(self, patience):
        """Until all have committed more than any had when this began, and all stores are equal. Answers how long that took, or None."""
        began = time.monotonic()
        wanted = max(self.counts()) + 3
        while time.monotonic() < began + patience:
            stores = [answer.get("store") for answer in self.field.statuses()]
            counts = self.counts()
            if min(counts) >= wanted and stores[0] and len(set(stores)) == 1:
                return time.monotonic() - began
            time.sleep(0.5)
        self.note(f"after {patience} s not equal, or not at {wanted} commits: {counts}, {stores}")
        return None

    def go(self, faults, seconds, clients=8, pause=0.3):
        """All hosts from their start, with clients, under these faults, until what was broken is healed. Answers what the clients did."""
        field = self.field
        field.start()
        field.watch.start("stunnel", "watch")
        self.await_equal(HEALED)
        self.tell(f"seed {field.seed}: {len(field.replicas)} replicas, {seconds} s")
        field.start_clients(seconds, HEALED, clients, pause)
        spans = self.carry_out(nemesis.Nemesis(field).steps(faults), seconds)
        self.heal()
        took = self.await_equal(HEALED)
        operations = self.operations()
        self.tell(f"{len(faults)} faults, {len(operations)} operations; equal {took and round(took, 1)} s after the end")
        self.tell_recoveries(spans)
        self.figures(operations, seconds)
        if still_open := [each for each in operations if each["ended"] is None]:
            self.note(f"{len(still_open)} operations never ended, the first {still_open[0]}")
        return operations

    def operations(self, seconds=0):
        """What the clients did, once they have ended, which they do in so many seconds."""
        clients = self.field.client
        clients.processes["clients"].process.wait(seconds + HEALED + 20)
        return checker.operations(f"{clients.home}/operations")

    def carry_out(self, steps, seconds):
        """The steps of faults, at their times. Answers each fault, with when it began and ended."""
        start, began, spans = time.monotonic(), {}, []
        for when, do, fault, word in steps:
            time.sleep(max(0, start + when - time.monotonic()))
            do(fault)
            if word:
                self.tell(f"{word} {fault}")
            if word == "begin":
                began[fault] = time.monotonic()
            elif word == "end":
                spans.append((fault, began[fault], time.monotonic()))
        time.sleep(max(0, start + seconds - time.monotonic()))
        return spans

    def heal(self):
        field = self.field
        field.cut([])
        field.shape()
        for host in field.replicas:
            host.set_clock(0)
            host.go_on(*list(host.paused))
            for what in ("stunnel", "signer", "ledger"):
                if what not in host.processes or not host.processes[what].runs():
                    self.tell(f"{host.name}: {what} did not run")
                    host.start(what)

    # What is looked at

    def commits(self, host):
        """When its ledger told the commit of which block, over all of its starts."""
        with open(f"{host.home}/ledger.out") as file:
            rows = [line.split() for line in file]
        return [(float(row[0]), row[5]) for row in rows if row[1:2] == ["commit"] and len(row) > 5]

    def check(self, operations):
        """Operations, stores, and votes. What was answered is read before the logs are, since the replicas go on."""
        field = self.field
        told = {host.number: checker.votes_told(f"{host.home}/trace") for host in field.replicas}
        chains = [checker.committed_of(f"{host.home}/ledger-{host.number}/ledger.db", field.committee.genesis) for host in field.replicas]
        self.check_commands(operations, [checker.commands_of(blocks) for blocks in chains])
        self.check_logs(told, chains)
        self.check_watch()

    def check_commands(self, operations, lines):
        """What the clients were answered, beside the commands that each replica committed."""
        commands = max(lines, key=len)
        for line in lines:
            if line != commands[: len(line)]:
                self.note("two chains commit different commands")
        for wrong in checker.wrong_sets(operations, commands):
            self.note(wrong)
        self.check_reads(operations, commands)

    def check_reads(self, operations, commands):
        strong, weak = ([each for each in operations if each["kind"] == kind] for kind in ("strong", "weak"))
        for key, of_key in checker.by_key(strong).items():
            if why := checker.why_not_linearizable(of_key):
                self.note(f"{key} is not linearizable: {why}")
        gets, stale, wrong = checker.staleness(weak, commands)
        for each in wrong:
            self.note(each)
        self.tell(f"{len(commands)} commands; {len(strong)} operations of strong clients, linearizable by key; of {gets} weak gets {stale} were behind")

    def check_logs(self, told, chains):
        """Nobody is named, and each vote that a signer answered or that stands in a certificate is in its log."""
        field, home = self.field, self.field.watch.home
        os.mkdir(f"{home}/found")
        words = [f"{home}/committee.hsc", f"{home}/found", *field.sources(), "--strict-all", "--why", "--keep", f"{home}/kept"]
        audit = field.watch.inside(cluster.program("hs_tool"), "audit", *words)
        if audit.returncode or "no conflict" not in audit.stdout or "culprits 0" not in audit.stdout or os.listdir(f"{home}/found"):
            self.note(f"the audit ends with {audit.returncode}: {audit.stdout[-300:]} {audit.stderr[-300:]}")
        named = {}
        for block in (block for blocks in chains for block in blocks):
            for replica, vote in checker.votes_in(bytes.fromhex(block["certificate"])):
                named.setdefault(replica, set()).add(vote)
        logs = 0
        for host in field.replicas:
            own, others = checker.votes_in_log(f"{home}/kept/{host.number}-{host.number}.hsl", host.number)
            logs += len(own)
            if lost := (told[host.number] | named.get(host.number, set())) - own:
                self.note(f"{len(lost)} votes of replica {host.number} are not in its log")
        self.tell(f"{logs} votes in logs; {sum(map(len, told.values()))} answered, {sum(map(len, named.values()))} in certificates of the chain: all there")

    def watched(self):
        """What the watch told, without the time, the round and the committee."""
        lines = [line.split(" ", 3)[3] for _, line in self.field.watch.processes["watch"].lines if line.count(" ") > 2]
        return [line.split(" ", 2)[2] if line.startswith("committee ") else line for line in lines]

    def check_watch(self):
        watch = self.field.watch
        for line in self.watched():
            if line.split()[0] not in INNOCENT:
                self.note(f"the watch: {line}")
        if verdicts := [name for name in os.listdir(f"{watch.home}/verdicts") if name.endswith(".hsx")]:
            self.note(f"the watch has {verdicts}")

    def tell_recoveries(self, spans):
        """Of each fault: how long it took, the commits meanwhile, and how long after it the next commit came anywhere."""
        firsts = {}
        for host in self.field.replicas:
            for at, block in self.commits(host):
                firsts[block] = min(at, firsts.get(block, at))
        times = sorted(firsts.values())
        for fault, began, end in spans:
            commits = sum(began <= at < end for at in times)
            after = next((f"{at - end:.1f} s" for at in times if at >= end), "never")
            self.tell(f"{fault.kind} of {end - began:.1f} s: {commits} commits meanwhile, the next after {after}")

    def figures(self, operations, seconds):
        done = [each for each in operations if each["ended"] is not None]
        blocks = len({block for host in self.field.replicas for _, block in self.commits(host)})
        for what in ("set", "get"):
            took = [each["ended"] - each["began"] for each in done if each["what"] == what]
            self.tell(f"{len(took)} {what}s: half within {part(took, 0.5)} s, 95 of 100 within {part(took, 0.95)}, all within {part(took, 1)}")
        self.tell(f"{len(done) / seconds:.1f} operations a second, {blocks / (time.monotonic() - self.began):.1f} blocks a second")


def ended(trial):
    sys.exit(1 if trial.wrong else 0)
