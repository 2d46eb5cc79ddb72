"""The hosts of a field trial: network namespaces on one wire (wire.py). Each replica's host runs what docs/HOSTS.md has on its machine: stunnel,
hs_signer, and a ledger process. One more runs a watch, and one clients. What is started ends with the process that started it."""
import contextlib
import ctypes
import json
import os
import shutil
import signal
import subprocess
import sys
import threading
import time
from concurrent.futures import ThreadPoolExecutor

HERE = os.path.dirname(os.path.abspath(__file__))
EXAMPLES = os.path.normpath(f"{HERE}/../../examples")
sys.path.insert(0, f"{EXAMPLES}/ledger")

import client
import cluster
from blocks import Committee

NAME, NETWORK = "field", "10.77.0"
FIRST, WATCH, CLIENT = 10, 100, 101  # the last numbers of addresses: of replica 0, of the watch, of the clients
LINKS, INSIDE, READ = 7100, 7201, 7300  # ports: of the ledger, of a signer's log, and of the logs of the others
PAGE = "127.0.0.1:7190"  # of the watch, on its host
RENEW = f"{HERE}/../lineage/renew"
FOLLOWS = "follows the rules"  # what it is told of a replica that does
DISK = "64m"  # of a signer
FAKETIME = "/usr/lib/x86_64-linux-gnu/faketime/libfaketime.so.1"
PR_SET_PDEATHSIG, CLONE_NEWNET = 1, 0x40000000
libc = ctypes.CDLL(None)


class Failed(Exception):
    """The trial itself could not go on."""


def run(*words):
    subprocess.run(words, check=True, stdout=subprocess.DEVNULL)


def end_with_parent():
    libc.prctl(PR_SET_PDEATHSIG, signal.SIGKILL)


def side_by_side(work, items):
    """Does the work for each item in a thread of its own, and answers what came of it, in order."""
    answers = [None] * len(items)

    def work_on(at):
        answers[at] = work(items[at])

    threads = [threading.Thread(target=work_on, args=(at,)) for at in range(len(items))]
    for thread in threads:
        thread.start()
    for thread in threads:
        thread.join()
    return answers


class Process:
    """A process in a namespace. Its lines are kept with the time at which they came, here and in a file."""

    def __init__(self, namespace, words, log, env=None):
        self.name, self.lines, self.log = words[0], [], open(log, "a", buffering=1)
        self.process = subprocess.Popen(
            ["ip", "netns", "exec", namespace, *words],
            stdin=subprocess.PIPE,
            stdout=subprocess.PIPE,
            stderr=subprocess.STDOUT,
            text=True,
            preexec_fn=end_with_parent,
            start_new_session=True,
            env=os.environ | (env or {}),
        )
        self.reader = threading.Thread(target=self.read, daemon=True)
        self.reader.start()

    def read(self):
        for line in self.process.stdout:
            now = time.monotonic()
            self.log.write(f"{now:.3f} {line}")
            self.lines.append((now, line.rstrip("\n")))

    def runs(self):
        return self.process.poll() is None

    def wait_for(self, start, patience=60):
        end = time.monotonic() + patience
        while not any(line.startswith(start) for _, line in self.lines):
            if not self.runs() or time.monotonic() > end:
                raise Failed(f"{self.name} did not say {start}: {[line for _, line in self.lines][-5:]}")
            time.sleep(0.1)

    def signal(self, number):
        if self.runs():
            self.process.send_signal(number)

    def kill(self):
        self.signal(signal.SIGKILL)
        self.process.wait()
        self.reader.join(5)


class Host:
    """A namespace on the wire, and a folder with what that machine would have. `number` is the replica's; the watch and the clients have none."""

    def __init__(self, field, name, last, number=None):
        self.field, self.name, self.number = field, name, number
        self.address, self.namespace = f"{NETWORK}.{last}", f"{NAME}-{os.getpid()}-{name}"
        self.home = f"{field.room}/{name}"
        self.processes, self.paused = {}, set()
        self.is_asking = True
        os.makedirs(f"{self.home}/tls", 0o700)

    @property
    def last(self):
        return int(self.address.rpartition(".")[2])

    @property
    def certificate(self):
        return "client" if self.number is None else f"replica-{self.number}"

    @property
    def signer_folder(self):
        return f"{self.home}/signer-{self.number}"

    def start(self, *parts):
        for part in parts:
            self.kill(part)
            self.processes[part] = getattr(self, f"start_{part}")()

    def start_program(self, part, *words, env=None):
        return Process(self.namespace, words, f"{self.home}/{part}.out", env)

    def start_stunnel(self):
        own = "watch" if self.number is None else str(self.number)
        with open(f"{self.home}/stunnel.conf", "w") as file:
            words = [f"{EXAMPLES}/hosts/stunnel", own, f"{self.home}/hosts", "--tls", f"{self.home}/tls"]
            subprocess.run(words, check=True, stdout=file)
        return self.start_program("stunnel", "stunnel", f"{self.home}/stunnel.conf")

    def start_signer(self):
        words = [f"{self.home}/committee.hsc", str(self.number), self.signer_folder, "--sessions", "4", "--while-input"]
        words += ["--serve", f"127.0.0.1:{INSIDE}"]
        if self.field.renews:
            words.append("--renew")
        if self.is_asking:
            words += [word for source in self.field.sources(self) for word in ("--ask", source)]
        return self.start_program("signer", cluster.program("hs_signer"), *words)

    def start_ledger(self):
        times = ["--slow", str(self.field.slow), "--patience", str(self.field.patience)]
        words = [f"{HERE}/traced", "replica", str(self.number), "--folder", self.home, "--while-input", *times]
        if self.field.renews:
            words = [RENEW, self.home, str(self.number), FOLLOWS, *times, "--renew"]
        env = {"TRACE": f"{self.home}/trace"}
        if os.path.exists(FAKETIME):
            env |= {"LD_PRELOAD": FAKETIME, "FAKETIME_TIMESTAMP_FILE": f"{self.home}/clock"}
            env |= {"FAKETIME_CACHE_DURATION": "1", "FAKETIME_DONT_FAKE_MONOTONIC": "1"}
        return self.start_program("ledger", sys.executable, *words, env=env)

    def start_watch(self):
        folders = [f"{self.home}/{name}" for name in ("verdicts", "state")]
        for folder in folders:
            os.makedirs(folder, exist_ok=True)
        words = [f"{self.home}/committee.hsc", folders[0], *self.field.sources(), "--state", folders[1], "--every", "1", "--listen", PAGE]
        words += ["--lineage"] if self.field.renews else []
        return self.start_program("watch", cluster.program("hs_watch"), *words)

    def kill(self, *parts):
        for part in parts:
            self.paused.discard(part)
            if part in self.processes:
                self.processes.pop(part).kill()

    def pause(self, *parts):
        for part in parts:
            if part in self.processes:
                self.paused.add(part)
                self.processes[part].signal(signal.SIGSTOP)

    def go_on(self, *parts):
        for part in parts:
            if part in self.processes:
                self.paused.discard(part)
                self.processes[part].signal(signal.SIGCONT)

    def set_clock(self, seconds):
        """By how much the ledger's clock is wrong, if there is libfaketime."""
        with open(f"{self.home}/clock.new", "w") as file:
            file.write(f"{seconds:+d}\n")
        os.rename(f"{self.home}/clock.new", f"{self.home}/clock")

    def fill_disk(self):
        with open(f"{self.signer_folder}/filler", "wb", buffering=0) as filler, contextlib.suppress(OSError):
            while filler.write(bytes(4096)):
                pass

    def mend_disk(self):
        """What an operator does: there is room again, the word of the signer that its disk failed is removed, and it is started."""
        for name in ("filler", "disk-failed"):
            with contextlib.suppress(FileNotFoundError):
                os.remove(f"{self.signer_folder}/{name}")
        self.start("signer")

    def lay_out(self, room):
        """What its machine would have: the committee's file, the hosts, certificates, and of a replica its keys on a disk of their own."""
        for name in ("committee.hsc", "hosts"):
            shutil.copyfile(f"{room}/{name}", f"{self.home}/{name}")
        shutil.copyfile(f"{room}/authority/{self.certificate}.pem", f"{self.home}/tls/own.pem")
        shutil.copyfile(f"{room}/authority/ca.pem", f"{self.home}/tls/ca.pem")
        if self.number is not None:
            self.set_clock(0)
            os.makedirs(f"{self.home}/ledger-{self.number}")
            if self.field.renews:
                with open(f"{self.home}/early", "w") as file:
                    file.write(str(self.field.keys))
            os.mkdir(self.signer_folder, 0o700)
            run("mount", "-t", "tmpfs", "-o", f"size={DISK},mode=700", NAME, self.signer_folder)
            shutil.copytree(f"{room}/keys/signer-{self.number}", self.signer_folder, dirs_exist_ok=True)

    def inside(self, *words):
        """Runs a program to its end on this host."""
        words = ["ip", "netns", "exec", self.namespace, *words]
        return subprocess.run(words, capture_output=True, text=True, timeout=300)

    def visit(self, work):
        """Does the work in a thread that goes to this host, and answers its result."""

        def go_and_work():
            with open(f"/run/netns/{self.namespace}") as file:
                if libc.setns(file.fileno(), CLONE_NEWNET):
                    raise OSError(f"setns {self.namespace}")
            return work()

        with ThreadPoolExecutor(1) as pool:
            return pool.submit(go_and_work).result()

    def take_down(self):
        self.kill(*list(self.processes))
        subprocess.run(["ip", "netns", "del", self.namespace], stderr=subprocess.DEVNULL)
        if self.number is not None and os.path.ismount(self.signer_folder):
            subprocess.run(["umount", self.signer_folder])


class Field:
    """All hosts, and the wire between them. `slow` and `patience` are the ledger's, in milliseconds. With `renews` it goes over from committee
    to committee, each of which uses few of its keys."""

    def __init__(self, room, seed, count=4, keys=1, slow=100, patience=1000, renews=False):
        self.room, self.seed, self.keys, self.slow, self.patience, self.renews = room, seed, keys, slow, patience, renews
        os.makedirs(room)
        self.replicas = []
        self.replicas += [Host(self, f"host-{number}", FIRST + number, number) for number in range(count)]
        self.watch, self.client = Host(self, "watch", WATCH), Host(self, "client", CLIENT)
        self.hosts, self.wire = [*self.replicas, self.watch, self.client], None
        self.wire_lock = threading.Lock()
        try:
            self.make_files(count, keys)
            self.make_network()
        except BaseException:
            self.close()
            raise

    def make_files(self, count, keys):
        os.mkdir(f"{self.room}/keys")
        side_by_side(lambda number: self.make_keys(number, keys), list(range(count)))
        names = ["key.pub", *(f"key-{key}.pub" for key in range(1, keys))]
        members = ["1=" + ",".join(f"{self.room}/keys/signer-{number}/{name}" for name in names) for number in range(count)]
        run(cluster.program("hs_tool"), "weighted", f"{self.room}/committee.hsc", *members)
        with open(f"{self.room}/hosts", "w") as file:
            file.writelines(f"{host.address}:{LINKS}\n" for host in self.replicas)
        run(f"{EXAMPLES}/hosts/certificates", f"{self.room}/authority", *(host.certificate for host in self.hosts[:-1]))
        for host in self.hosts:
            host.lay_out(self.room)
        self.committee = Committee.read(f"{self.room}/committee.hsc")

    def make_keys(self, number, keys):
        folder = f"{self.room}/keys/signer-{number}"
        os.mkdir(folder, 0o700)
        for key in range(keys):
            run(cluster.program("hs_tool"), "keygen", "--random", folder, *(["--key", str(key)] if key else []))

    def make_network(self):
        for host in self.hosts:
            run("ip", "netns", "add", host.namespace)
        words = [f"{HERE}/wire.py", str(self.seed), *(f"{host.namespace}={host.address}" for host in self.hosts)]
        pipes = {"stdin": subprocess.PIPE, "stdout": subprocess.PIPE, "text": True}
        self.wire = subprocess.Popen(words, preexec_fn=end_with_parent, start_new_session=True, **pipes)
        self.wire.stdout.readline()
        for host in self.hosts:
            for words in ("link set lo up", f"address add {host.address}/24 dev eth0", "link set eth0 up txqueuelen 2000"):
                run("ip", "-n", host.namespace, *words.split())
            # As docs/HOSTS.md says: TCP is otherwise silent for long after a partition.
            host.inside("sysctl", "-qw", "net.ipv4.tcp_retries2=4")

    def to_wire(self, **command):
        with self.wire_lock:
            self.wire.stdin.write(json.dumps(command) + "\n")
            self.wire.stdin.flush()
            return json.loads(self.wire.stdout.readline())

    def cut(self, ways):
        """Cuts these ways, each from a host to a host, and no others."""
        return self.to_wire(cut=[[host.last for host in way] for way in ways])

    def shape(self, **shape):
        return self.to_wire(shape={word: value for word, value in shape.items() if value})

    def between(self, *sides):
        """All ways from one of these sides to another one."""
        return [(a, b) for one in sides for other in sides if one is not other for a in one for b in other]

    def sources(self, own=None):
        """The logs of all replicas, but of this host's, as each host reaches them."""
        return [f"{host.number}=tcp:127.0.0.1:{READ + host.number}" for host in self.replicas if host is not own]

    def start(self, whom=None):
        whom = whom or self.replicas
        for host in whom:
            host.start("stunnel", "signer")
        for host in whom:
            host.processes["signer"].wait_for("listening calls")
        for host in whom:
            host.start("ledger")

    def start_clients(self, seconds, grace, threads, pause):
        words = [self.client.home, f"{self.client.home}/operations", *map(str, (seconds, grace, self.seed, threads, pause))]
        self.client.processes["clients"] = self.client.start_program("clients", f"{HERE}/clients.py", *words)

    def ask(self, number, message, patience=5):
        """The answer of a ledger process to the clients' host; nothing if there is none."""
        return self.client.visit(lambda: client.ask(self.client.home, number, message, patience)) or {}

    def statuses(self):
        return side_by_side(lambda host: self.ask(host.number, {"say": "status"}), self.replicas)

    def close(self):
        for host in self.hosts:
            host.take_down()
        if self.wire:
            self.wire.kill()
            self.wire.wait()
