"""Links between the processes, and to clients: JSON, a message a line. Where the file FOLDER/hosts names a host and a port for each
replica they go over TCP and TLS, and else over a Unix socket for each process.

Over TLS both ends show a certificate of the authority FOLDER/tls/ca.pem, and the sender is the one that its certificate names. In one
folder, which only its owner can open, a link stands for an authenticated one: its first line says who sends, and is believed.
"""
import json
import os
import queue
import socket
import ssl
import sys
import threading
import time

MOST_WAITING = 1_000  # messages at either end; what is more is lost, and timeouts mend that
CLIENT = -1
LONGEST_ANSWER = 20  # seconds: a client whose command takes longer says it again
LONGEST_CONNECT = 3  # seconds, to another replica
LONGEST_GREETING = 10  # seconds, until a TLS connection that somebody made has shown who that is
UNACKNOWLEDGED = 4_000  # milliseconds
TICK = 0.1  # seconds, after an accept that failed
MINUTE = 60  # seconds, from one line about refused links to the next


def socket_of(folder, number):
    return f"{folder}/ledger-{number}/ledger.sock"


def hosts_of(folder):
    """Host and port of each replica, a line each in the order of their numbers; none if all run on one host."""
    if not os.path.exists(f"{folder}/hosts"):
        return []
    with open(f"{folder}/hosts") as file:
        return [(host, int(port)) for host, port in (line.strip().rsplit(":", 1) for line in file)]


def tls_of(folder, side):
    """The certificate of this host, its key in the same file, and the one authority that is believed."""
    context = ssl.SSLContext(side)
    context.minimum_version = ssl.TLSVersion.TLSv1_3
    context.verify_mode = ssl.CERT_REQUIRED
    context.load_cert_chain(f"{folder}/tls/own.pem")
    context.load_verify_locations(f"{folder}/tls/ca.pem")
    return context


def sender_of(link):
    """Whom the certificate of the other end names: replica-R, or somebody else, who is a client."""
    names = [value for part in link.getpeercert()["subject"] for word, value in part if word == "commonName"]
    return int(names[0].removeprefix("replica-")) if names[0].startswith("replica-") else CLIENT


def connect(folder, number, patience):
    hosts = hosts_of(folder)
    link = socket.create_connection(hosts[number], patience) if hosts else socket.socket(socket.AF_UNIX)
    try:
        if hosts:
            # TCP waits twice as long each time that it sends again. Without a limit it is still waiting, after a partition has healed,
            # for up to as long as that lasted.
            link.setsockopt(socket.IPPROTO_TCP, socket.TCP_USER_TIMEOUT, UNACKNOWLEDGED)
            link.setsockopt(socket.IPPROTO_TCP, socket.TCP_NODELAY, 1)
            return tls_of(folder, ssl.PROTOCOL_TLS_CLIENT).wrap_socket(link, server_hostname=f"replica-{number}")
        link.settimeout(patience)
        link.connect(socket_of(folder, number))
        return link
    except BaseException:
        link.close()
        raise


def keep_alive(link):
    """Ends a connection whose other end has gone without a word, so that no thread waits for it for ever."""
    link.setsockopt(socket.SOL_SOCKET, socket.SO_KEEPALIVE, 1)
    for option, value in ((socket.TCP_KEEPIDLE, 10), (socket.TCP_KEEPINTVL, 5), (socket.TCP_KEEPCNT, 3)):
        link.setsockopt(socket.IPPROTO_TCP, option, value)


def listen(folder, number):
    hosts = hosts_of(folder)
    if hosts:
        return socket.create_server(hosts[number], backlog=64)
    path = socket_of(folder, number)
    if os.path.exists(path):
        os.remove(path)
    listener = socket.socket(socket.AF_UNIX)
    listener.bind(path)
    listener.listen(64)
    return listener


def message_of(chain, say, **words):
    """A message between replicas. It names its chain."""
    return {"say": say, "chain": chain.genesis.hex(), **words}


def line_of(message):
    return json.dumps(message).encode() + b"\n"


def why_refused(error):
    """What is wrong with the other end of a link, or None if that has just gone."""
    if isinstance(error, ssl.SSLError) and not isinstance(error, ssl.SSLEOFError):
        return getattr(error, "verify_message", None) or error.reason
    return "it sent what is no message" if isinstance(error, (ValueError, KeyError, TypeError)) else None


class Refusals:
    """Prints why a link was refused: the first time at once, and then once a minute, with how many there were since."""

    def __init__(self, number):
        self.number, self.count, self.next, self.lock = number, 0, 0, threading.Lock()

    def note(self, other, why):
        with self.lock:
            self.count += 1
            if time.monotonic() >= self.next:
                print(f"replica {self.number}: links refused: {self.count}, the last one with {other}: {why}", file=sys.stderr, flush=True)
                self.count, self.next = 0, time.monotonic() + MINUTE


class Links:
    """Messages that come are put into one queue, so that one thread can do all that they ask for."""

    def __init__(self, folder, number, count):
        self.folder, self.number, self.count = folder, number, count
        self.tls = tls_of(folder, ssl.PROTOCOL_TLS_SERVER) if hosts_of(folder) else None
        self.inbox, self.refusals = queue.Queue(MOST_WAITING), Refusals(number)
        self.outboxes = {}
        for other in range(count):
            if other != number:
                self.outboxes[other] = queue.Queue(MOST_WAITING)
                self.start(self.send_all, other, self.outboxes[other])
        self.listener = listen(folder, number)
        self.start(self.accept_all)

    def start(self, work, *words):
        threading.Thread(target=work, args=words, daemon=True).start()

    def accept_all(self):
        while True:
            try:
                link, place = self.listener.accept()
                self.start(self.read_all, link, place[0] if place else "a process of this host")
            except (OSError, RuntimeError):  # too many files are open, or threads run: it goes on once there are fewer
                time.sleep(TICK)

    def greet(self, link):
        """The connection over TLS, if that is what goes here."""
        if self.tls:
            link.settimeout(LONGEST_GREETING)
            link = self.tls.wrap_socket(link, server_side=True)
            link.settimeout(None)
            keep_alive(link)
        return link

    def read_all(self, link, place):
        """Hands on what comes over a connection, each message with its sender and a way to answer. This thread sends the answer to a
        client: a TLS connection is not for two threads, and the thread that does everything is to wait for no client."""
        try:
            link = self.greet(link)
            with link, link.makefile("rb") as lines:
                sender = json.loads(next(lines))["from"]
                if sender not in range(CLIENT, self.count) or (self.tls and sender != sender_of(link)):
                    return self.refusals.note(place, f"it says that it is {sender!r:.40}, and is not")
                for line in lines:
                    answers = queue.SimpleQueue()
                    self.inbox.put((sender, json.loads(line), answers.put))
                    if sender == CLIENT:
                        link.sendall(line_of(answers.get(timeout=LONGEST_ANSWER)))
        except (OSError, ValueError, KeyError, TypeError, StopIteration, queue.Empty) as error:
            if why := why_refused(error):
                self.refusals.note(place, why)
        finally:
            link.close()

    def send_all(self, other, outbox):
        """Sends what stands in the outbox, over a connection that is made anew where it broke. What can't be sent is lost."""
        link = None
        while True:
            line = outbox.get()
            for _ in range(2):
                try:
                    if link is None:
                        link = connect(self.folder, other, LONGEST_CONNECT)
                        link.sendall(line_of({"from": self.number}))
                    link.sendall(line)
                    break
                except OSError as error:
                    if why := why_refused(error):
                        self.refusals.note(f"replica {other}", why)
                    if link:
                        link.close()
                    link = None

    def send(self, other, message):
        try:
            if other == self.number:
                self.inbox.put_nowait((other, message, None))
            else:
                self.outboxes[other].put_nowait(line_of(message))
        except queue.Full:
            pass

    def broadcast(self, message):
        for other in [self.number, *self.outboxes]:
            self.send(other, message)
