"""What the trials share of a signer that goes over from committee to committee."""
import concurrent.futures, json, time
from ledger import *

CHAIN = genesis()
OTHER = flipped(CHAIN, 31)
BLOCKS = 6
VOTERS = (1, 2, 3)
OCTETS = {"content-type": "application/octet-stream"}
NO_RENEWAL = bytes(4)
NO_COMMIT = (412, b"refused over 1 NoCommit\n")
NOT_MINE = (422, b"refused over 3 NotMine\n")
NO_CHAIN = (409, b"refused call 12 Chain\n")
NO_CALL = (404, b"refused call 1 NoSuchCall\n")
LENGTH = (400, b"refused call 11 Length\n")
PATIENCE = 15  # seconds


def must_be(found, wanted, what):
    if found != wanted:
        raise Failed(f"{what}: {found}, and not {wanted}")


def written(path, held):
    with open(path, "wb") as out:
        out.write(held)
    return path


def read(path):
    with open(path, "rb") as held:
        return held.read()


def over_line(chain):
    return 200, b"over " + chain.hex().encode() + b"\n"


def payload_of(file):
    return b"HSN1" + hashlib.sha256(file).digest()[:28]


def other_file_line(payload):
    return 422, b"refused over 2 OtherFile " + payload.hex().encode() + b"\n"


def in_parallel(calls):
    """What these calls answer, which are made at once."""
    with concurrent.futures.ThreadPoolExecutor(len(calls)) as pool:
        return [each.result() for each in [pool.submit(call) for call in calls]]


def committee_of(keys):
    return b"HSC1" + struct.pack(">HH", (REPLICAS - 1) // 3, REPLICAS) + b"".join(keys)


class Renewing(Signer):
    """A signer whose calls name a chain."""

    def link(self, timeout=20):
        if self.places["calls"].startswith("tcp:"):
            return http.client.HTTPConnection(self.places["calls"].removeprefix("tcp:"), timeout=timeout)
        return super().link(timeout)

    def call(self, method, path, body=None, timeout=20):
        """Over TCP, too."""
        link = self.link(timeout)
        try:
            link.request(method, path, body, OCTETS if method == "POST" else {})
            answer = link.getresponse()
            return answer.status, answer.read()
        except (OSError, http.client.HTTPException):
            return None
        finally:
            link.close()

    def status(self):
        """None where the connection broke off, as one does that is made amid a going over."""
        answer = self.call("GET", "/status")
        return json.loads(answer[1]) if answer else None

    def deliver_in(self, chain, header, certificate):
        return self.call("POST", f"/block?chain={chain.hex()}", header + certificate)

    def go_over(self, file, chain=CHAIN, timeout=20):
        return self.call("POST", f"/over?chain={chain.hex()}", NO_RENEWAL + file, timeout)

    def wait_for(self, chain, state="voting"):
        end = time.monotonic() + PATIENCE
        while time.monotonic() < end:
            found = self.status()
            if found and (found["chain"], found["state"]) == (chain.hex(), state):
                return found
            time.sleep(0.02)
        raise Failed(f"waited for {state} in {chain.hex()}, and it is {found}")

    def commit(self, road, first=0):
        """Delivers the blocks up to the one that commits the handover. The numbers of the entries of its votes."""
        self.wait_for(CHAIN)
        lines = [self.deliver_in(CHAIN, *block)[1] for block in road.blocks[first:5]]
        if not lines[-1].endswith(b" committed " + road.handover.hex().encode() + b"\n"):
            raise Failed(f"the block that commits the handover is answered {lines[-1][-100:]}")
        return lines


def folder_in(folder, chain):
    return f"{folder}/chain-{chain.hex()}"


def entries_in(folder, chain):
    return payloads_of(read(f"{folder_in(folder, chain)}/log.hsj"))


# What the cases stand on


def next_keys(room, number):
    """A folder of next keys of a replica behind the chain, as keygen makes it beside a log."""
    folder = folder_of(room, number)
    subprocess.run([TOOL, "keygen", "--random", folder, "--behind", COMMITTEE, str(number)], check=True, stdout=subprocess.DEVNULL)
    return f"{folder}/next-{CHAIN.hex()}"


class Road:
    """A chain whose second block hands over to the committee of a file: its blocks, each with its parent's certificate."""

    def __init__(self, path):
        self.path, self.file, self.blocks, self.chain = path, read(path), [], genesis(path)
        self.payload = payload_of(self.file)

    def header(self, tip):
        return header_of(2, tip.view, tip.block, self.payload) if tip.view == 1 else tip.child(tip.view + 1)

    @property
    def handover(self):
        return id_of(self.blocks[1][0])

    def first_block(self, view=1):
        """A block on genesis of the next chain, of which the payload is that of its handover."""
        start = Tip(block=self.chain)
        return header_of(view, 0, self.chain, b"HSO1" + self.handover[:28]), start.certificate

    def make(self, room):
        """By signers of the replicas 1, 2 and 3, which are stopped."""
        self.go_on([Signer(room, number, "--successor", self.path) for number in VOTERS], BLOCKS)
        return self

    def make_unapproved(self, room):
        """By signers, too, but for the handover block, for which they would not vote: that is voted for by `hs_tool replica`, which does not
        look at what a block hands over to, and answers once its input ended."""
        signers = [Signer(room, number) for number in VOTERS]
        tip = self.go_on(signers, 1)
        header = self.header(tip)
        self.blocks.append((header, tip.certificate))
        lines = b"".join(b"block " + b"".join(block).hex().encode() + b"\n" for block in self.blocks)
        words = [[TOOL, "replica", COMMITTEE, str(signer.number), signer.folder] for signer in signers]
        said = in_parallel([lambda word=word: subprocess.run(word, input=lines, capture_output=True, timeout=60).stdout for word in words])
        self.go_on(signers, BLOCKS, tip.after(header, [Vote(text.splitlines()[-2]).bytes for text in said]))
        return self

    def go_on(self, signers, count, tip=None):
        """Blocks up to so many, of which the first were made before. Answers the last one's tip."""
        tip = tip or Tip()
        try:
            in_parallel([signer.must_start for signer in signers])
            for signer in signers:
                for block in self.blocks:
                    signer.deliver(*block)
            while len(self.blocks) < count:
                header = self.header(tip)
                self.blocks.append((header, tip.certificate))
                tip = tip.after(header, [Vote(signer.deliver(header, tip.certificate)[1]).bytes for signer in signers])
        finally:
            stop(signers)
        return tip


class Ground:
    """What all cases stand on. `new` hands over to a committee of which all keys are new, `kept` to one in which replica 0 keeps its own,
    and `none` to a file that is no committee's."""

    def __init__(self, room):
        self.room = room
        keys = in_parallel([lambda number=number: next_keys(room, number) for number in (0, 1, 2, 3, 0)])
        self.keys, self.strange_keys = keys[0], keys[4]
        public = [read(f"{folder}/key.pub") for folder in keys[:REPLICAS]]
        own = read(COMMITTEE)[8 : 8 + len(public[0])]
        files = {"new": committee_of(public), "kept": committee_of([own, *public[1:]]), "none": b"HSC1" + bytes(100)}
        paths = {name: written(f"{room}/{name}.hsc", file) for name, file in files.items()}
        self.new, self.kept, self.none = (Road(paths[name]) for name in ("new", "kept", "none"))
        in_parallel([lambda: self.new.make(room), lambda: self.kept.make(room), lambda: self.none.make_unapproved(room)])
        self.heard = written(f"{room}/heard.hsl", export_of([]))

    def folder(self, keys=None):
        """A new folder of replica 0, with these next keys."""
        folder = folder_of(self.room, 0)
        if keys:
            give_keys(folder, keys)
        return folder

    def signer(self, road, *words, folder=None, heard=None, committee=COMMITTEE):
        """A signer of replica 0 that goes over, and hears replicas 1 and 2."""
        sources = [word for number in (1, 2) for word in ("--ask", f"{number}=file:{heard or self.heard}")]
        return Renewing(self.room, 0, "--renew", *sources, "--successor", road.path, *words, folder=folder or self.folder(self.keys), committee=committee)


def give_keys(folder, keys):
    place = f"{folder}/next-{CHAIN.hex()}"
    shutil.rmtree(place, ignore_errors=True)
    shutil.copytree(keys, place)


def faults_of(words):
    """What a start says that must fail."""
    ran = subprocess.run([SIGNER, *words], capture_output=True, stdin=subprocess.DEVNULL, timeout=60)
    return ran.returncode, ran.stdout, ran.stderr.decode()


def run_cases(cases):
    """Runs cases, each with its name, on one ground. How many answers were compared, and how many cases failed."""
    with trial() as room:
        ground, asked, failed = Ground(room), 0, 0
        for name, case in cases:
            at = time.time()
            try:
                count = case(ground)
                asked += count
                print(f"{name}: {count} answers in {time.time() - at:.1f} s", flush=True)
            except Failed as fault:
                failed += 1
                print(f"{name}: FAILED: {fault}", flush=True)
    return asked, failed
