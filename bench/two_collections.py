"""Reads of two collections of one server while files arrive in both; bench/two_collections.sh says how."""
import os
import random
import socket
import subprocess
import sys
import threading
import time

from local_server import free_port, wait_for
from serve_replies import APART, HOUR, OFFSETS, file_of, name_of, reply_of, target_of

WORKERS = int(os.environ.get("WORKERS", "4"))
# How many files come to each collection, how many seconds apart, and how many clients read meanwhile.
FILES, PAUSE, CLIENTS = 100, 0.15, 12
# The collections, and which of all runs each gets: no run of one is of the other.
COLLECTIONS = {"gfs": 0, "wave": 1}
# How many requests a connection takes. Its last reply says that it ends.
MOST = 10_000
# How long a reply or a verdict may take, and the end of the server.
PATIENCE = 15.0

failures = []


def fail(text):
    """Notes what differed; the first three are shown."""
    failures.append(text)


class Collection:
    """A collection of the server, and what was published in it: the runs in the order of their revisions."""

    def __init__(self, folder, name, first):
        self.name = name
        self.inbox = os.path.join(folder, name)
        self.proto = os.path.join(folder, name + ".nc")
        os.makedirs(self.inbox)
        with open(self.proto, "wb") as file:
            file.write(file_of(0))
        self.runs = [APART * (2 * number + first) for number in range(FILES)]
        random.Random(first).shuffle(self.runs)

    def word(self):
        """The collection as a word of the command."""
        return "%s=%s=%s" % (self.name, self.proto, self.inbox)

    def arrive(self, run):
        """Lets the file of a run arrive by a rename, and waits for its verdict."""
        name = name_of(run, self.name)
        part = os.path.join(self.inbox, "arriving.part")
        with open(part, "wb") as file:
            file.write(file_of(run))
        os.rename(part, os.path.join(self.inbox, name))
        until = time.monotonic() + PATIENCE
        while not os.path.exists(os.path.join(self.inbox, "done", name)):
            if time.monotonic() > until:
                raise OSError("%s wasn't moved to done" % name)
            time.sleep(0.005)

    def arrive_all(self):
        """Lets all files arrive, one after the other."""
        for run in self.runs:
            self.arrive(run)
            time.sleep(PAUSE)

    def line(self):
        """What the server says of it at its end."""
        told = (self.name, FILES, FILES, FILES * len(OFFSETS), FILES)
        return "%s published %d retracted 0 expired 0 held %d rows %d revision %d\n" % told


def ask(link, target):
    """The revision and the bytes of one reply."""
    link.sendall(("GET %s HTTP/1.1\r\nHost: localhost\r\n\r\n" % target).encode())
    reply, end = b"", -1
    while end < 0 or len(reply) < end:
        came = link.recv(65536)
        if not came:
            raise OSError("a connection ended after %r" % reply[:200])
        reply += came
        head = reply.find(b"\r\n\r\n")
        if end < 0 and head >= 0:
            fields = dict(line.split(b": ", 1) for line in reply[:head].split(b"\r\n")[1:])
            revision, end = int(fields[b"X-Collection-Revision"]), head + 4 + int(fields[b"Content-Length"])
    return revision, reply


def some_view(chance, collection):
    """A view of a collection."""
    run = chance.choice(collection.runs)
    views = [("best", 0), ("run", run), ("offset", chance.choice(OFFSETS[:3])), ("forecast", run + 4 * HOUR)]
    return chance.choice(views)


class Client:
    """Asks of the collections in turns over one connection, until it is told to end. Where the connection takes no more
    requests, it goes on over another one."""

    def __init__(self, number, port, collections):
        self.chance = random.Random(number)
        self.port, self.collections = port, collections
        self.connect()
        self.seen = {collection.name: set() for collection in collections}
        self.last = dict.fromkeys(self.seen, 0)
        self.count = 0

    def connect(self):
        """Opens a connection, over which nothing was asked yet."""
        self.link = socket.create_connection(("127.0.0.1", self.port), timeout=PATIENCE)
        self.link.setsockopt(socket.IPPROTO_TCP, socket.TCP_NODELAY, 1)
        self.asked = 0

    def ask_one(self, collection):
        """Asks one of them, and compares the reply with the right one."""
        view, what = some_view(self.chance, collection), self.chance.choice(["time", "time_run", "t"])
        revision, reply = ask(self.link, target_of(view, what, collection.name))
        self.asked += 1
        right = reply_of(revision, view, what, set(collection.runs[:revision]), collection.name)
        if self.asked == MOST:
            right = right.replace(b"Connection: keep-alive", b"Connection: close", 1)
        if reply != right:
            fail("%s at revision %d: %r, not %r" % (target_of(view, what, collection.name), revision, reply, right))
        if revision < self.last[collection.name]:
            fail("%s: revision %d after %d" % (collection.name, revision, self.last[collection.name]))
        self.last[collection.name] = revision
        self.seen[collection.name].add(revision)
        self.count += 1
        if self.asked == MOST:
            self.link.close()
            self.connect()

    def read(self, over):
        """Reads until all files have come, and then once more of each."""
        while not over.is_set() and not failures:
            for collection in self.collections:
                self.ask_one(collection)
        for collection in self.collections:
            self.ask_one(collection)
            if self.last[collection.name] != FILES:
                fail("%s: revision %d at the end" % (collection.name, self.last[collection.name]))
        self.link.close()


def guarded(what, *given):
    """Does it, and notes what it raised."""
    try:
        what(*given)
    except Exception as error:
        fail("%s: %s: %s" % (what.__name__, type(error).__name__, error))


def started(what, *given):
    """A thread that does it."""
    thread = threading.Thread(target=guarded, args=(what, *given), daemon=True)
    thread.start()
    return thread


def finish(process, collections):
    """Stops both folders, and compares the last lines and the status."""
    for collection in collections:
        open(os.path.join(collection.inbox, "STOP"), "wb").close()
    out, error = process.communicate(timeout=PATIENCE)
    right = "".join(collection.line() for collection in collections)
    if (process.returncode, out.decode(), error) != (0, right, b""):
        fail("ended with %d, %r, %r, not with %r" % (process.returncode, out, error, right))


def main():
    program, folder = os.path.abspath(sys.argv[1]), sys.argv[2]
    collections = [Collection(folder, name, first) for name, first in COLLECTIONS.items()]
    port = free_port()
    words = [program, "many", "--listen", "127.0.0.1:%d" % port, "--workers", str(WORKERS), "--quiet"]
    words += [collection.word() for collection in collections]
    with subprocess.Popen(words, stdout=subprocess.PIPE, stderr=subprocess.PIPE) as process:
        try:
            wait_for(port, process, "the server")
            over = threading.Event()
            clients = [Client(number, port, collections) for number in range(CLIENTS)]
            readers = [started(client.read, over) for client in clients]
            arrivals = [started(collection.arrive_all) for collection in collections]
            for thread in arrivals:
                thread.join()
            over.set()
            for thread in readers:
                thread.join()
            if not failures:
                finish(process, collections)
        finally:
            process.kill()
    for failure in failures[:3]:
        print(failure[:2000], file=sys.stderr)
    for collection in collections:
        seen = set().union(*(client.seen[collection.name] for client in clients))
        print("%s: %d of %d revisions seen" % (collection.name, len(seen), FILES + 1))
    print("%d replies over %d connections compared, %d wrong" %
          (sum(client.count for client in clients), CLIENTS, len(failures)))
    sys.exit(1 if failures else 0)


if __name__ == "__main__":
    main()
