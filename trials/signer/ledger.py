"""What the trials of hs_signer share: four replicas on new folders, signers over them, calls, the ledger's side of votes, and what
is stored.

The replicas are those of examples/committee.hsc, whose seeds everybody knows, so that no key is computed for a trial.
"""
import contextlib, hashlib, http.client, os, random, shutil, socket, struct, subprocess, sys, tempfile, threading

HERE = os.path.dirname(os.path.abspath(__file__))
TOP = os.path.dirname(os.path.dirname(HERE))
COMMITTEE = f"{TOP}/examples/committee.hsc"
TOOL, SIGNER = (f"{TOP}/crates/{name}/out/{name}" for name in ("hs_tool", "hs_signer"))
REPLICAS, QUORUM = 4, 3
EMPTY_JOURNAL = b"HSJ1" + bytes(5)
VOTE = 1495


class Failed(Exception):
    """A trial found what must not be."""


def numbers(*defaults):
    """The words of a trial, which are numbers; where there are fewer, the defaults stand for those behind."""
    words = sys.argv[1:]
    return [int(word) for word in words + list(map(str, defaults))[len(words) :]]


@contextlib.contextmanager
def trial():
    """A new folder for a trial, which goes with it. What must not be is told in a line, with status 1."""
    for program in (TOOL, SIGNER):
        if not os.path.exists(program):
            raise SystemExit(f"{program} is not built")
    room = tempfile.mkdtemp(prefix="signer-")
    try:
        yield room
    except Failed as failed:
        raise SystemExit(f"FAILED: {failed}")
    finally:
        shutil.rmtree(room, ignore_errors=True)


def library(room, source="meddle.c"):
    """A library to be loaded before the signer's own, built."""
    made = f"{room}/{source[:-2]}.so"
    subprocess.run(["cc", "-O2", "-shared", "-fPIC", "-pthread", "-o", made, f"{HERE}/{source}"], check=True)
    return made


class AtSocket(http.client.HTTPConnection):
    """HTTP over a Unix socket."""

    def __init__(self, path, timeout=20):
        super().__init__("localhost", timeout=timeout)
        self.path = path

    def connect(self):
        self.sock = socket.socket(socket.AF_UNIX)
        self.sock.settimeout(self.timeout)
        self.sock.connect(self.path)


def folder_of(room, number):
    """A new folder of a replica: its seed and two empty journals, as keygen leaves them."""
    folder = tempfile.mkdtemp(prefix=f"replica-{number}-", dir=room)
    for name, held in (("key.seed", bytes([number]) * 16 + bytes([16 + number]) * 32), ("index.hsj", EMPTY_JOURNAL), ("log.hsj", EMPTY_JOURNAL)):
        with open(f"{folder}/{name}", "wb") as out:
            out.write(held)
    return folder


class Signer:
    """A signer over a folder. `meddling` is what is set for the library in it, by names of meddle.c."""

    def __init__(self, room, number, *words, folder=None, committee=COMMITTEE):
        self.number, self.words, self.committee = number, words, committee
        self.folder = folder or folder_of(room, number)
        self.process, self.places, self.faults = None, {}, b""

    def start(self, loaded=None, **meddling):
        """Waits until it takes calls. Answers whether it does: it may have been killed before, or have told a fault."""
        set_too = {f"MEDDLE_{name.upper()}": str(value) for name, value in meddling.items()}
        if loaded:
            set_too["LD_PRELOAD"] = loaded
        words = [SIGNER, self.committee, str(self.number), self.folder, *self.words]
        pipes = {name: subprocess.PIPE for name in ("stdout", "stderr")}
        self.process = subprocess.Popen(words, stdin=subprocess.DEVNULL, env={**os.environ, **set_too}, **pipes)
        self.places, self.faults = {}, b""
        for _ in range(1 + ("--read" in self.words) + ("--serve" in self.words)):
            said = self.process.stdout.readline().split()
            if said[:1] != [b"listening"]:
                self.process.wait()
                return False
            self.places[said[1].decode()] = said[2].decode()
        return True

    def must_start(self, loaded=None, **meddling):
        if not self.start(loaded, **meddling):
            raise Failed(f"signer {self.number} did not start: {self.ended()}")
        return self

    def is_alive(self):
        return self.process is not None and self.process.poll() is None

    def kill(self):
        """Kills it, and waits for its end."""
        if self.process is not None:
            self.process.kill()
            self.ended()

    def ended(self):
        """Waits for its end. What it wrote on standard error."""
        if self.process is not None:
            _, self.faults = self.process.communicate()
            self.process = None
        return self.faults

    def link(self, timeout=20):
        return AtSocket(f"{self.folder}/signer.sock", timeout)

    def call(self, method, path, body=None, timeout=20):
        """The status and the body of the answer; None where the connection broke off."""
        link = self.link(timeout)
        try:
            link.request(method, path, body)
            answer = link.getresponse()
            return answer.status, answer.read()
        except (OSError, http.client.HTTPException):
            return None
        finally:
            link.close()

    def deliver(self, header, certificate):
        return self.call("POST", "/block", header + certificate)


def stop(signers):
    for signer in signers:
        signer.kill()


def genesis(committee=COMMITTEE):
    """The id of the committee's genesis, which is its chain id."""
    with open(committee, "rb") as held:
        payload = hashlib.sha256(held.read()).digest()
    return id_of(b"HSB1" + bytes(48) + payload)


def id_of(header):
    return hashlib.sha256(header).digest()


def header_of(view, parent_view, parent, payload):
    return b"HSB1" + struct.pack(">QQ", view, parent_view) + parent + payload


def view_of(header):
    return int.from_bytes(header[4:12], "big")


class Vote:
    """A vote as it was given out: the number of its entry in the log, and its bytes."""

    def __init__(self, line):
        words = line.split()
        self.entry, self.bytes = int(words[1]), bytes.fromhex(words[2].decode())
        if len(self.bytes) != VOTE:
            raise Failed(f"a vote of {len(self.bytes)} bytes")
        self.view, self.block = int.from_bytes(self.bytes[3:11], "big"), self.bytes[11:43]


def certificate_of(view, block, votes):
    votes = sorted(votes)
    return struct.pack(">Q", view) + block + struct.pack(">H", len(votes)) + b"".join(vote[:3] + vote[43:] for vote in votes)


class Tip:
    """A block, with the certificate by which the next one stands on it, and behind it how it was delivered itself."""

    def __init__(self, view=0, block=None, certificate=None, delivered=()):
        self.view, self.block, self.delivered = view, block or genesis(), delivered
        self.certificate = certificate or struct.pack(">Q", 0) + self.block + bytes(2)

    def child(self, view, commands=b""):
        return header_of(view, self.view, self.block, hashlib.sha256(b"commands of view %d" % view + commands).digest())

    def after(self, header, votes):
        """The tip that this block is, by these votes, which are a quorum or more."""
        certificate = certificate_of(view_of(header), id_of(header), votes)
        return Tip(view_of(header), id_of(header), certificate, (*self.delivered, (header, self.certificate)))


def make_chain(signers, blocks, tip=None):
    """So many blocks, each with its parent's certificate, as these signers vote for them, who are a quorum. Stops them."""
    made, tip = [], tip or Tip()
    try:
        for signer in signers:
            signer.must_start()
        for view in range(tip.view + 1, tip.view + blocks + 1):
            header = tip.child(view)
            votes = [Vote(signer.deliver(header, tip.certificate)[1]).bytes for signer in signers]
            made.append((header, tip.certificate))
            tip = tip.after(header, votes)
    finally:
        stop(signers)
    return made, tip


def quorum_of(room):
    return [Signer(room, number) for number in range(QUORUM)]


def payloads_of(journal):
    """What a journal stands for: the payloads behind its open gates."""
    if journal[:8] != b"HSJ1" + bytes(4):
        raise Failed("no journal")
    at, payloads = 8, []
    while journal[at] == 1:
        length = int.from_bytes(journal[at + 1 : at + 5], "big")
        payloads.append(journal[at + 5 : at + 5 + length])
        at += 5 + length
    return payloads


def notes_in(path):
    """The notes of meddle.c: kind, part, time in nanoseconds, place and bytes of each."""
    with open(path, "rb") as held:
        text = held.read()
    at = 0
    while at < len(text):
        kind, part = text[at : at + 1], text[at + 1 : at + 2]
        moment, place, count = struct.unpack(">QQI", text[at + 2 : at + 22])
        yield kind, part, moment, place, text[at + 22 : at + 22 + count]
        at += 22 + count


def vote_of(entry):
    """The replica's own vote in an entry, without the number of the replica: None where it only raised its lock."""
    return entry[169:1662] if entry[0] == 3 else None


def stored(folder):
    """The entries of a replica's log."""
    with open(f"{folder}/log.hsj", "rb") as held:
        return payloads_of(held.read())


def flipped(text, at):
    """The bytes with a bit of one changed."""
    return text[:at] + bytes([text[at] ^ 1]) + text[at + 1 :]


def renamed(entry):
    """An entry whose own vote is on the view and id of its header, whatever it was on."""
    header = entry[1:85]
    return entry[:170] + header[4:12] + id_of(header) + entry[210:]


def rewrite(folder, number, change):
    """Puts other bytes, just as many, in the place of an entry that a log has."""
    with open(f"{folder}/log.hsj", "r+b") as held:
        text = held.read()
        entry = payloads_of(text)[number]
        held.seek(text.index(entry))
        held.write(change(entry))


def spoil(folder, number):
    """Changes a byte of the signature of a vote that a log has."""
    rewrite(folder, number, lambda entry: flipped(entry, 169 + 1400))


def taken(folder):
    """The boundary of a replica's index store: each one-time index below it is taken."""
    with open(f"{folder}/index.hsj", "rb") as held:
        return max([int.from_bytes(payload, "big") for payload in payloads_of(held.read())], default=0)


def judge(folder, given):
    """What a log has, beside the votes that were given out of it."""
    entries = stored(folder)
    votes = [vote for vote in map(vote_of, entries) if vote]
    if len({vote[1:9] for vote in votes}) != len(votes):
        raise Failed(f"{folder}: two votes in a view")
    indices = [int.from_bytes(vote[41:45], "big") for vote in votes]
    if len(set(indices)) != len(indices):
        raise Failed(f"{folder}: a one-time index twice")
    if indices and max(indices) >= taken(folder):
        raise Failed(f"{folder}: an index was used that is not taken")
    for vote in given:
        if vote.entry >= len(entries) or vote_of(entries[vote.entry]) != vote.bytes[2:]:
            raise Failed(f"{folder}: the vote in view {vote.view} was given out, and is not its log's entry {vote.entry}")


def export_of(entries):
    """The stream in which a log goes out."""
    return b"HSL1" + b"".join(struct.pack(">I", len(entry)) + entry for entry in entries) + bytes(4) + struct.pack(">I", len(entries))


def audit(room, sources):
    """What an audit of these sources prints, its status, and the verdicts that it writes."""
    folder = tempfile.mkdtemp(prefix="verdicts-", dir=room)
    ran = subprocess.run([TOOL, "audit", COMMITTEE, folder, *sources], capture_output=True, timeout=120)
    verdicts = {}
    for name in os.listdir(folder):
        with open(f"{folder}/{name}", "rb") as held:
            verdicts[name] = held.read()
    return ran.stdout, ran.returncode, verdicts


def audit_files(room, logs):
    """An audit of these entries, by replica."""
    sources = []
    for number, entries in logs:
        path = f"{tempfile.mkdtemp(prefix='log-', dir=room)}/log.hsl"
        with open(path, "wb") as out:
            out.write(export_of(entries))
        sources.append(f"{number}=file:{path}")
    return audit(room, sources)


VOTES_OF_A_KEY = 1024


def make_committee(room, replicas, blocks):
    """A committee of so many replicas, with keys enough for so many votes each: its file, and the folder of each."""
    words, folders = [], []
    keys = -(-blocks // VOTES_OF_A_KEY)
    for number in range(replicas):
        folder = f"{room}/replica-{number}"
        os.mkdir(folder, 0o700)
        for key in range(keys):
            seed = bytes([number, key]) * 24
            subprocess.run([TOOL, "keygen", seed.hex(), folder, *(["--key", str(key)] if key else [])], check=True, stdout=subprocess.DEVNULL)
        words.append("1=" + ",".join(f"{folder}/key-{key}.pub" if key else f"{folder}/key.pub" for key in range(keys)))
        folders.append(folder)
    committee = f"{room}/committee.hsc"
    subprocess.run([TOOL, "weighted", committee, *words], check=True, stdout=subprocess.DEVNULL)
    return committee, folders


def vote_all(pool, signers, tip, view, most=None):
    """The block of a view on a tip, by the votes of these signers, who are asked at once; its certificate has so many of them at most."""
    header = tip.child(view)
    answers = list(pool.map(lambda signer: signer.deliver(header, tip.certificate), signers))
    if not all(answer and answer[1].startswith(b"voted ") for answer in answers):
        raise Failed(f"the block of view {view} is answered {answers}")
    return tip.after(header, [Vote(answer[1]).bytes for answer in answers[:most]])
