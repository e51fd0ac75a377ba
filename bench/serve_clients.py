"""Runs a server over a folder in which files arrive, reads from it, and checks each reply; bench/serve.sh says how."""
import os
import random
import signal
import socket
import subprocess
import sys
import threading
import time

from local_server import free_port, resident
from serve_replies import APART, EPOCH, FILES, HOUR, OFFSETS, file_of, name_of, reply_of, target_of

# How many files come at once, and how many seconds later the next ones do.
BATCH, BATCH_SECONDS = 3, 0.3
# For how many seconds each client reads, over how many connections, with how many requests on each, so long apart.
CLIENTS, SECONDS, TURNS, ASKED, PAUSE = 16, 60.0, 120, 50, 0.002
# Workers, and how many connections each takes: more than the clients make. Those that are left are opened at the end.
WORKERS = int(os.environ.get("WORKERS", "4"))
CONNECTIONS = 2000 // WORKERS
# After how many seconds all of this is given up, and how many bytes more than the files may be resident.
LIMIT, ROOM = 115.0, 64 << 20

failures = []
servers = []


def fail(text):
    """Notes what differed; the first three are shown."""
    failures.append(text)


def checked(revision, view, what, runs, reply):
    """Notes where a reply is another one than the right one, with the first byte that differs."""
    right = reply_of(revision, view, what, runs)
    if reply == right:
        return
    at = next((k for k, pair in enumerate(zip(reply, right)) if pair[0] != pair[1]), min(len(reply), len(right)))
    shown = (reply[max(0, at - 40) : at + 40], right[max(0, at - 40) : at + 40])
    fail("revision %d, %s: byte %d differs: %r, not %r" % ((revision, target_of(view, what), at) + shown))


# A server, its folder and its connections.


class Server:
    """A program that serves one folder on this machine."""

    def __init__(self, program, folder, workers, connections, options):
        self.inbox = os.path.join(folder, "inbox")
        self.beside = os.path.join(folder, "beside")
        os.makedirs(self.inbox)
        os.makedirs(self.beside)
        proto = os.path.join(folder, "proto.nc")
        with open(proto, "wb") as file:
            file.write(file_of(0))
        self.port = free_port()
        self.links = workers * connections
        self.opened = 0
        self.lock = threading.Lock()
        line = [program, "serve", "--name", "gfs", "--proto", proto, "--listen", "127.0.0.1:%d" % self.port]
        line += ["--workers", str(workers), "--connections", str(connections), "--epoch", "2020-01-01T00:00:00Z"]
        self.process = subprocess.Popen(line + options + ["--quiet", self.inbox], stdout=subprocess.PIPE,
                                        stderr=subprocess.PIPE)
        servers.append(self.process)

    def connect(self):
        """A connection, which is one of those that the doors are for."""
        link = socket.create_connection(("127.0.0.1", self.port), timeout=30)
        with self.lock:
            self.opened += 1
        link.setsockopt(socket.IPPROTO_TCP, socket.TCP_NODELAY, 1)
        return link

    def first(self):
        """The first connection, once the server listens; nothing is published yet."""
        for _ in range(500):
            if self.process.poll() is not None:
                said = self.process.stdout.read()
                raise OSError("the server ended with %d, %r" % (self.process.returncode, said))
            try:
                link = self.connect()
            except ConnectionRefusedError:
                time.sleep(0.02)
                continue
            with link:
                checked(0, ("best", 0), "time", set(), ask(link, ("best", 0), "time")[1])
            return
        raise OSError("the server doesn't listen")

    def arrive(self, names, contents):
        """Lets files arrive by renames, in byte order, and waits for their verdicts: when each came and was moved."""
        for name, content in zip(names, contents):
            with open(os.path.join(self.beside, name + ".part"), "wb") as file:
                file.write(content)
        came, gone = {}, {}
        for name in sorted(names):
            came[name] = time.monotonic()
            os.rename(os.path.join(self.beside, name + ".part"), os.path.join(self.inbox, name))
        for _ in range(4000):
            for name in names:
                if name not in gone and os.path.exists(os.path.join(self.inbox, "done", name)):
                    gone[name] = time.monotonic()
            if len(gone) == len(names):
                return came, gone
            time.sleep(0.005)
        raise OSError("%s wasn't moved to done" % min(set(names) - set(gone)))

    def finish(self, line):
        """Stops the inbox, opens the connections that are left, and checks the last line and the status."""
        open(os.path.join(self.inbox, "STOP"), "wb").close()
        while self.opened < self.links and self.process.poll() is None:
            self.connect().close()
        try:
            out, err = self.process.communicate(timeout=15)
        except subprocess.TimeoutExpired:
            raise OSError("the server doesn't end after %d connections and STOP" % self.opened) from None
        if (self.process.returncode, out, err) != (0, line.encode(), b""):
            fail("ended with %d, %r, %r, not with 0, %r" % (self.process.returncode, out, err, line))


def ask(link, view, what):
    """The revision and the bytes of one reply."""
    link.sendall(("GET %s HTTP/1.1\r\nHost: localhost\r\n\r\n" % target_of(view, what)).encode())
    reply = b""
    end = -1
    while end < 0 or len(reply) < end:
        came = link.recv(65536)
        if not came:
            raise OSError("a connection ended after %r" % reply[:200])
        reply += came
        head = reply.find(b"\r\n\r\n")
        if end < 0 and head >= 0:
            fields = dict(line.split(b": ", 1) for line in reply[:head].split(b"\r\n")[1:])
            revision, end = int(fields[b"X-Collection-Revision"]), head + 4 + int(fields[b"Content-Length"])
    if len(reply) > end:
        raise OSError("a reply goes on after its length: %r" % reply[end : end + 200])
    return revision, reply


# The clients.


class Readings:
    """What the clients have read: each different reply once, and when each revision was seen first and last."""

    def __init__(self):
        self.lock = threading.Lock()
        self.replies = {}
        self.first = {}
        self.asked = {}
        self.count = 0
        self.bytes = 0

    def add(self, revision, view, what, reply, sent, came):
        with self.lock:
            self.count += 1
            self.bytes += len(reply)
            self.first[revision] = min(came, self.first.get(revision, came))
            self.asked[revision] = max(sent, self.asked.get(revision, sent))
            known = self.replies.setdefault((revision, view, what), reply)
        if known != reply:
            shown = (revision, target_of(view, what), known[:300], reply[:300])
            fail("revision %d, %s has two replies: %r and %r" % shown)


def some_request(chance):
    """A view and what is asked of it."""
    run = APART * chance.randrange(0, FILES, 40)
    offset = chance.choice(OFFSETS[:4] + [HOUR])
    views = [("best", 0), ("best", 0), ("run", run), ("offset", offset), ("forecast", run + 4 * APART)]
    return chance.choice(views), chance.choice(["time", "time_run", "t"])


def read(server, readings, number, start):
    """Reads as one client until the time is over, over one connection after the other."""
    chance = random.Random(number)
    for turn in range(TURNS):
        due = start + (turn + number / CLIENTS) * SECONDS / TURNS
        time.sleep(max(0.0, due - time.monotonic()))
        if failures or time.monotonic() > start + SECONDS:
            return
        with server.connect() as link:
            seen = 0
            for _ in range(ASKED):
                view, what = some_request(chance)
                sent = time.monotonic()
                revision, reply = ask(link, view, what)
                readings.add(revision, view, what, reply, sent, time.monotonic())
                if revision < seen:
                    fail("a connection saw revision %d after %d" % (revision, seen))
                seen = revision
                time.sleep(PAUSE)


def guarded(what, *given):
    """Does it, and notes what it raised."""
    try:
        what(*given)
    except Exception as error:
        fail("%s: %s: %s" % (what.__name__, type(error).__name__, error))


def beside(what, *given):
    """A thread that does it, and ends with the program."""
    thread = threading.Thread(target=guarded, args=(what,) + given, daemon=True)
    thread.start()
    return thread


# The two runs.


def published_in_order(server, arrived):
    """The names in the order in which they were published: that of their moves to `done`, or of their arrival where the
    moves have one time."""
    done = os.path.join(server.inbox, "done")
    return sorted(arrived, key=lambda name: os.stat(os.path.join(done, name)).st_ctime_ns)


def arrivals(server, start):
    """Lets the files come in batches, each once the one before it is published: the run of each name, in the order of
    arrival, and when each file came and was moved."""
    runs = [APART * number for number in range(FILES)]
    random.Random(0).shuffle(runs)
    arrived, came, gone = {}, {}, {}
    for first in range(0, FILES, BATCH):
        time.sleep(max(0.0, start + first / BATCH * BATCH_SECONDS - time.monotonic()))
        if failures:
            break
        batch = sorted(runs[first : first + BATCH])
        names = [name_of(run) for run in batch]
        times = server.arrive(names, [file_of(run) for run in batch])
        arrived.update(zip(names, batch))
        came.update(times[0])
        gone.update(times[1])
    return arrived, came, gone


def serve_arrivals(program, folder):
    """400 files and 16 clients."""
    server = Server(program, folder, WORKERS, CONNECTIONS, ["--keep", "1073741823", "--ticks", "1"])
    server.first()
    readings = Readings()
    start = time.monotonic()
    clients = [beside(read, server, readings, number, start) for number in range(CLIENTS)]
    arrived, came, gone = arrivals(server, start)
    for client in clients:
        client.join()
    if failures:
        return
    held_memory = resident(server.process)
    names = published_in_order(server, arrived)
    line = "published %d retracted 0 expired 0 held %d rows %d revision %d\n"
    server.finish(line % (FILES, FILES, FILES * len(OFFSETS), FILES))
    for (revision, view, what), reply in readings.replies.items():
        checked(revision, view, what, {arrived[name] for name in names[:revision]}, reply)
    check_times(readings, names, came, gone)
    took = [1000 * (gone[name] - came[name]) for name in names]
    held = FILES * len(file_of(0))
    print("%d requests over %d connections, %d bytes" % (readings.count, server.opened, readings.bytes))
    print("%d of %d revisions seen, %d different replies" % (len(readings.first), FILES + 1, len(readings.replies)))
    print("from a file's rename to its verdict: %.0f ms, %.0f ms at most" % (sum(took) / FILES, max(took)))
    print("%d KiB resident, %d KiB of files" % (held_memory >> 10, held >> 10))
    if held_memory > held + ROOM:
        fail("more than the files and %d KiB are resident" % (ROOM >> 10))
    if FILES not in readings.first:
        fail("no reply was over the whole collection")


def check_times(readings, names, came, gone):
    """No revision was seen before its file came, and none was asked for once the next file had its verdict."""
    for revision, first in readings.first.items():
        if revision > FILES or (revision > 0 and first < came[names[revision - 1]]):
            fail("revision %d was seen before its file came" % revision)
        elif revision < FILES and readings.asked[revision] > gone[names[revision]]:
            fail("revision %d was seen once %s was published" % (revision, names[revision]))


def serve_expiry(program, folder):
    """Four files, one that is taken back, and a clock whose second tick leaves the present run alone."""
    server = Server(program, folder, 1, 2, ["--keep", "259200", "--ticks", "2"])
    server.first()
    time.sleep(2)
    now = int(time.time() - EPOCH.timestamp()) // APART * APART
    runs = [0, APART, 2 * APART, now]
    server.arrive([name_of(run) for run in runs], [file_of(run) for run in runs])
    with server.connect() as link:
        view = ("best", 0)
        checked(4, view, "t", set(runs), ask(link, view, "t")[1])
        server.arrive([name_of(APART) + ".retract"], [b""])
        revision = 5
        for _ in range(160):
            revision, reply = ask(link, view, "time")
            checked(revision, view, "time", {0, 2 * APART, now} if revision == 5 else {now}, reply)
            if revision != 5 or failures:
                break
            time.sleep(0.5)
        if revision != 6 and not failures:
            fail("nothing expired")
    server.finish("published 4 retracted 1 expired 1 held 1 rows %d revision 6\n" % len(OFFSETS))
    if not failures:
        print("a file taken back, and an expiry: replies, line and status as they should be")


def give_up():
    fail("not done within %.0f s" % LIMIT)
    end()


def end():
    """Ends what still runs, and says what differed first."""
    for process in servers:
        if process.poll() is None:
            process.kill()
            process.wait()
    for failure in failures[:3]:
        print(failure, file=sys.stderr)
    sys.stdout.flush()
    os._exit(1 if failures else 0)


def main():
    program, folder = os.path.abspath(sys.argv[1]), sys.argv[2]
    for sign in (signal.SIGHUP, signal.SIGINT, signal.SIGTERM):
        signal.signal(sign, lambda *_: (fail("stopped"), end()))
    timer = threading.Timer(LIMIT, give_up)
    timer.daemon = True
    timer.start()
    expiry = beside(serve_expiry, program, os.path.join(folder, "expiry"))
    guarded(serve_arrivals, program, os.path.join(folder, "arrivals"))
    if not failures:
        expiry.join()
    end()


if __name__ == "__main__":
    main()
