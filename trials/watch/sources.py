"""What the trials of hs_watch share: servers that hand out given frames, honest or not, and watches over them."""
import contextlib, hashlib, http.client, os, shutil, socket, struct, subprocess, tempfile, threading, time

HERE = os.path.dirname(os.path.abspath(__file__))
TOP = os.path.dirname(os.path.dirname(HERE))
COMMITTEE = f"{TOP}/examples/committee.hsc"
WATCH = f"{TOP}/crates/hs_watch/out/hs_watch"
# Where the own vote's signature begins in an entry of kind 3.
SIGNATURE_AT = 169 + 41
# From how many parts of a source on some are joined, how many at a time, and how many bytes the file of a part has at most.
MANY, JOINED, MOST_OF_A_PART = 192, 8, 1 << 26
# How many files a source has at most.
MOST_FILES = 200


class Failed(Exception):
    """A trial found what must not be."""


@contextlib.contextmanager
def trial():
    """A new folder for a trial, which goes with it. What must not be is told in a line, with status 1."""
    if not os.path.exists(WATCH):
        raise SystemExit(f"{WATCH} is not built")
    room = tempfile.mkdtemp(prefix="watch-")
    try:
        yield room
    except Failed as failed:
        raise SystemExit(f"FAILED: {failed}")
    finally:
        shutil.rmtree(room, ignore_errors=True)


def frames_of(path):
    """The frames of an export."""
    text, at, frames = open(path, "rb").read(), 4, []
    while (length := struct.unpack(">I", text[at : at + 4])[0]) > 0:
        frames.append(text[at + 4 : at + 4 + length])
        at += 4 + length
    return frames


def fork():
    """The logs of the fork's replicas 0 and 3."""
    return frames_of(f"{TOP}/examples/fork/log0.hsl"), frames_of(f"{TOP}/examples/fork/log3.hsl")


def bad_votes(frame, count):
    """Entries that differ in the own vote's signature, which is wrong in each."""
    return [frame[: SIGNATURE_AT + k] + bytes([frame[SIGNATURE_AT + k] ^ 1]) + frame[SIGNATURE_AT + k + 1 :] for k in range(count)]


def export_of(frames):
    """The stream in which frames are handed out."""
    return b"HSL1" + b"".join(struct.pack(">I", len(frame)) + frame for frame in frames) + struct.pack(">II", 0, len(frames))


def digest_then(digest, frame):
    """What frames digest to that digest to this, with one more behind them."""
    return hashlib.sha256(digest + hashlib.sha256(frame).digest()).digest()


def digest_of(frames):
    """What frames digest to."""
    digest = bytes(32)
    for frame in frames:
        digest = digest_then(digest, frame)
    return digest


def part_name(replica, source, log, count, digest):
    """The name of the part that stands behind so many frames, which digest to this."""
    return f"{replica}-{source}-{log}-{count}-{digest.hex()}.hsl"


def name_of(replica, source, log, front):
    """The name of the part that stands behind these frames."""
    return part_name(replica, source, log, len(front), digest_of(front))


def joined(parts):
    """What a watch makes of parts of one log, each the frames that it has, in their order: while there are too many the eight that
    follow one another with the fewest bytes become one."""
    parts = list(parts)
    while len(parts) >= MANY:
        sizes = [len(export_of(frames)) for frames in parts]
        runs = [(sum(sizes[at : at + JOINED]), at) for at in range(len(parts) - JOINED + 1)]
        _, at = min(run for run in runs if run[0] <= MOST_OF_A_PART)
        parts[at : at + JOINED] = [[frame for frames in parts[at : at + JOINED] for frame in frames]]
    return parts


def files_of(replica, parts):
    """The files of these parts of the first log of a replica's first source: the bytes of each by its name."""
    files, count, digest = {}, 0, bytes(32)
    for frames in parts:
        files[part_name(replica, 0, 0, count, digest)] = export_of(frames)
        count += len(frames)
        for frame in frames:
            digest = digest_then(digest, frame)
    return files


def keep_singly(state, chain, replica, frames):
    """Makes a folder in which a watch of this chain kept each of these frames as a part of its own."""
    os.mkdir(state, 0o700)
    with open(f"{state}/chain", "w") as file:
        file.write(chain)
    for name, text in files_of(replica, [[frame] for frame in frames]).items():
        with open(f"{state}/{name}", "wb") as file:
            file.write(text)


def chain_of(room):
    """What a watch writes down in its folder of the chain of the fork."""
    folder, state = f"{room}/chain-out", f"{room}/chain-state"
    os.mkdir(folder)
    Watch(folder, [(0, Server())], "--state", state, "--until-input-ends").end(0)
    return open(f"{state}/chain").read()


class Server:
    """Hands out frames, which may be changed, in a manner that may be changed: whole, cut, flip (whole and cut in turn), hang, drip, reset, endless or silent (the connection ends, with no byte);
    or as an earlier version does, which closes at a request that names a chain, or as one that has no log of that chain (other)."""

    def __init__(self, frames=(), manner="whole"):
        self.frames, self.manner, self.asked = list(frames), manner, []
        self.listener = socket.create_server(("127.0.0.1", 0), backlog=64)
        self.address = "127.0.0.1:%d" % self.listener.getsockname()[1]
        threading.Thread(target=self.serve, daemon=True).start()

    def serve(self):
        while True:
            stream, _ = self.listener.accept()
            threading.Thread(target=self.answer, args=(stream,), daemon=True).start()

    def answer(self, stream):
        with contextlib.suppress(OSError), stream:
            request = b""
            while (wanted := (44 if request[:4] == b"HSL2" else 12) if len(request) >= 4 else 4) > len(request):
                piece = stream.recv(wanted - len(request))
                if not piece:
                    return
                request += piece
                if self.manner == "earlier" and request[:4] == b"HSL2":
                    return
            if self.manner == "other" and request[:4] == b"HSL2":
                return stream.sendall(b"HSL0" + bytes(4))
            first, most = struct.unpack(">II", request[-8:])
            self.asked.append((first, most))
            self.give(stream, export_of(self.frames[first : first + most]))

    def give(self, stream, text):
        if self.manner in ("whole", "earlier"):
            stream.sendall(text)
        elif self.manner == "cut" or (self.manner == "flip" and len(self.asked) % 2):
            stream.sendall(text[:-3])
        elif self.manner == "flip":
            stream.sendall(text)
        elif self.manner == "hang":
            threading.Event().wait(600)
        elif self.manner == "reset":
            stream.setsockopt(socket.SOL_SOCKET, socket.SO_LINGER, struct.pack("ii", 1, 0))
        elif self.manner == "drip":
            for byte in text:
                stream.sendall(bytes([byte]))
                time.sleep(0.2)
        elif self.manner == "endless":
            stream.sendall(b"HSL1")
            while True:
                stream.sendall(struct.pack(">I", 65536) + bytes(65536))


class Watch:
    """A watch over some servers: words are replicas beside servers, or as they are."""

    def __init__(self, folder, sources, *words, every="0.1", committee=COMMITTEE, **environment):
        named = [f"{replica}=tcp:{server.address}" for replica, server in sources]
        pipes = {name: subprocess.PIPE for name in ("stdin", "stdout", "stderr")}
        self.process = subprocess.Popen([WATCH, committee, folder, *named, *words, "--every", every], text=True, env={**os.environ, **environment}, **pipes)
        self.lines, self.begun = [], time.monotonic()
        self.begin()
        threading.Thread(target=self.read, daemon=True).start()

    def begin(self):
        """What its first lines say."""

    def read(self):
        for line in self.process.stdout:
            stamp, _, body = line.rstrip("\n").partition(" round ")
            time.strptime(stamp, "%Y-%m-%dT%H:%M:%SZ")
            self.lines.append(body.partition(" ")[2])

    def see(self, line, seconds=20):
        """Waits for a line."""
        until = time.monotonic() + seconds
        while line not in self.lines:
            if time.monotonic() > until:
                raise Failed(f"no line {line!r} within {seconds} s, only {self.lines}, and the watch ended with {self.process.poll()}")
            time.sleep(0.02)

    def end(self, status, seconds=60):
        """Ends its input, and waits for its end."""
        if self.process.stdin:
            self.process.stdin.close()
        try:
            ended = self.process.wait(seconds)
        except subprocess.TimeoutExpired:
            self.process.kill()
            raise Failed(f"it did not end within {seconds} s: {self.lines}")
        if ended != status:
            raise Failed(f"it ended with {ended}, not {status}: {self.lines}, {self.process.stderr.read()}")


class Listening(Watch):
    """A watch that is asked over HTTP, too."""

    def __init__(self, folder, words, sources, **environment):
        super().__init__(folder, sources, *words, "--until-input-ends", "--listen", "127.0.0.1:0", **environment)

    def begin(self):
        first = self.process.stdout.readline()
        if not first.startswith("listening 127.0.0.1:"):
            raise Failed(f"the first line is {first!r}")
        self.port = int(first.rstrip("\n").rpartition(":")[2])

    def ask(self, path):
        """The status and the body of an answer."""
        connection = http.client.HTTPConnection("127.0.0.1", self.port, timeout=20)
        connection.request("GET", path)
        answer = connection.getresponse()
        return answer.status, answer.read()
