"""Four servers over a short day; bench/day.sh says how."""
import os
import pwd
import random
import resource
import signal
import socket
import struct
import subprocess
import sys
import threading
import time

import day_oracle
from classic import EPOCH
from folder_server import Ended, FolderServer, Link, bring, wait_until
from serve_replies import name_of

PROGRAM, FOLDER, BRING_BACK, MINUTES = sys.argv[1:5]
EVENTS = sys.argv[5:] or ["unreadable", "full", "descriptors", "killed"]
LENGTH = 60 * float(MINUTES)
WHILE = LENGTH / 60
# How long a verdict is waited for: what couldn't be read is looked at again after a minute.
PATIENCE = 90 + 3 * WHILE
SERVERS, CLIENTS = 4, 200
# How many runs a collection has at most, and how many changes come to it over the whole length. A run is at a whole
# minute.
RUNS, CHANGES, MINUTE = 40, 500, 60
# The seconds of a day in which some run gets too old for certain.
LONG_ENOUGH = 300
NOBODY = pwd.getpwnam("nobody")

failures, counts, lock, over = [], {}, threading.Lock(), threading.Event()


def fail(text):
    with lock:
        failures.append(text)
        if len(failures) < 20:
            print("WRONG: " + text, flush=True)


def note(what):
    with lock:
        counts[what] = counts.get(what, 0) + 1


def become_nobody():
    os.setgid(NOBODY.pw_gid)
    os.setuid(NOBODY.pw_uid)


class Collection:
    """A server with its folder, and what it has to hold."""

    def __init__(self, number):
        self.number, self.lock, self.chance = number, threading.Lock(), random.Random(number)
        # The file that was brought last for each run, and what the server says that it did.
        self.brought, self.log, self.expiries = {}, None, 0
        # The runs that are held for too long.
        self.overdue = set()
        self.inbox = os.path.join(FOLDER, "inbox%d" % number)
        os.mkdir(self.inbox)
        os.chown(self.inbox, NOBODY.pw_uid, NOBODY.pw_gid)
        self.proto = os.path.join(FOLDER, "proto%d.nc" % number)
        with open(self.proto, "wb") as file:
            file.write(day_oracle.content_of(0, 0))
        self.server = None
        self.start()
        self.before = self.use()

    def wrong(self, text):
        fail("collection %d: %s" % (self.number, text))

    def start(self):
        """Starts the server, at its port, and follows its lines."""
        port = self.server.port if self.server else None
        options = ["--workers", "16", "--keep", str(day_oracle.KEEP)]
        self.log = day_oracle.Log(self.brought, self.wrong)
        self.server = FolderServer(PROGRAM, self.proto, [self.inbox], options, become_nobody, port, subprocess.PIPE)
        self.follower = threading.Thread(target=self.log.follow, args=(self.server.process.stderr,), daemon=True)
        self.follower.start()
        self.server.connect().close()

    def kill(self):
        """Kills the server. All that it said is then known."""
        self.server.process.send_signal(signal.SIGKILL)
        self.server.process.wait()
        self.follower.join()
        self.log.end()
        self.expiries += self.log.expiries

    def connect(self):
        """A connection to the server, and the log of its life."""
        log = self.log
        link = Link(socket.create_connection(("127.0.0.1", self.server.port), timeout=15))
        if self.log is not log:
            link.close()
            raise OSError("the server was started again meanwhile")
        return link, log

    def use(self):
        """The resident memory in bytes, and the descriptors."""
        pid = self.server.process.pid
        with open("/proc/%d/statm" % pid) as file:
            pages = int(file.read().split()[1])
        return pages * resource.getpagesize(), len(os.listdir("/proc/%d/fd" % pid))

    def new_run(self, held):
        """A run that isn't held. Most are nearly too old."""
        first = (int(time.time()) - EPOCH - day_oracle.KEEP) // MINUTE + 1
        runs = [MINUTE * number for number in range(first, first + day_oracle.KEEP // MINUTE)]
        free = [run for run in runs if run not in held]
        return free[int(len(free) * self.chance.random() ** 2)]

    def change(self):
        """Brings a new run, corrects one, or takes one back, and waits for its verdict."""
        held = sorted(self.log.held())
        run, shift = self.chance.choice(held) if held else None, self.chance.randrange(6)
        if len(held) >= RUNS or held and self.chance.random() < 0.2:
            shift = None
        elif not held or self.chance.random() < 0.4:
            run, shift = self.new_run(held), 0
        name = name_of(run)
        word = name + (".retract" if shift is None else "")
        content = b""
        if shift is not None:
            content = day_oracle.content_of(run, shift)
            self.brought[run] = shift
        for shelf in ("done", "refused"):
            self.remove(os.path.join(self.inbox, shelf, word))
        self.log.verdicts.pop(name, None)
        self.bring_until_it_is_there(word, content)
        wait_until("the line of %s" % word, lambda: name in self.log.verdicts, PATIENCE)
        verdict, number = self.log.verdicts[name]
        shelf = "refused" if verdict == "not held" else "done"
        path = os.path.join(self.inbox, shelf, word)
        wait_until("%s is in %s" % (word, shelf), lambda: os.path.exists(path), PATIENCE)
        self.look_at_verdict(run, shift, verdict, number)
        note("operations")

    def look_at_verdict(self, run, shift, verdict, number):
        """A file was published; one that was to be taken back was, unless it had gone."""
        if verdict == "not held":
            wait_until("revision %d" % number, lambda: len(self.log.states) > number)
            self.remove(os.path.join(self.inbox, "refused", name_of(run) + ".retract"))
            note("words for a run that had gone")
        if (verdict == "published") != (shift is not None):
            self.wrong("%s of %s" % (verdict, name_of(run)))
        if verdict == "not held" and run in self.log.states[number]:
            self.wrong("%s was held at revision %d" % (name_of(run), number))
        if shift is None:
            del self.brought[run]

    def remove(self, path):
        """Removes a file that lies there, once that can be done."""
        while True:
            try:
                if os.path.exists(path):
                    os.remove(path)
                return
            except OSError:
                time.sleep(0.1)

    def bring_until_it_is_there(self, name, content):
        """Lets a file arrive; on a full disk it is tried again."""
        until = time.monotonic() + 3 * WHILE + 10
        while True:
            try:
                return bring(os.path.join(self.inbox, name), content)
            except OSError:
                if time.monotonic() > until:
                    raise Ended("%s can't be brought" % name) from None
                time.sleep(0.2)

    def kill_and_start(self):
        """Kills the server, and starts it over what it held. What is too old by then stays away."""
        self.kill()
        subprocess.run([BRING_BACK, self.inbox, "--keep", str(day_oracle.KEEP)], check=True, stdout=subprocess.DEVNULL)
        back = {name for name in os.listdir(self.inbox) if name.endswith(".nc")}
        held = day_oracle.kept(self.log.held(), time.time() - day_oracle.KEEP)
        if not {name_of(run) for run in held} <= back:
            self.wrong("not brought back: %r" % sorted({name_of(run) for run in held} - back))
        self.start()
        wait_until("what was held is back", lambda: back <= set(self.log.verdicts) and all(
            os.path.exists(os.path.join(self.inbox, "done", name)) for name in back), PATIENCE)

    def look_for_old(self):
        """No run is held that the clock should have let go. Each that is is said once."""
        for name in self.log.overdue():
            if name not in self.overdue:
                self.overdue.add(name)
                self.wrong("%s is still held" % name)

    def produce(self):
        try:
            while not over.is_set():
                with self.lock:
                    self.change()
                    self.look_for_old()
                over.wait(self.chance.uniform(0, 2 * LENGTH / CHANGES))
        except Ended as ended:
            self.wrong(ended)


def ask_once(link, log):
    """Asks for the best series. The reply has to be the one at its revision."""
    reply = link.ask(b"GET", day_oracle.TARGET)
    if reply is None:
        note("connections that ended between two replies")
        return False
    status, revision, body = reply
    note("replies")
    log.saw(revision, (status, body))
    return True


def read(number, collections):
    """A client: it comes, asks a few times, stalls or resets now and then, and goes."""
    chance = random.Random(1000 + number)
    while not over.wait(chance.uniform(0, 4)):
        collection = chance.choice(collections)
        try:
            link, log = collection.connect()
        except OSError:
            note("connections that weren't taken")
            continue
        try:
            how = chance.random()
            if how < 0.1:
                link.send(b"GET /thredds")
                over.wait(chance.uniform(0, 5))
            elif how < 0.2:
                link.send(b"GET " + day_oracle.TARGET + b" HTTP/1.1\r\n\r\n")
                link.sock.setsockopt(socket.SOL_SOCKET, socket.SO_LINGER, struct.pack("ii", 1, 0))
            else:
                for _ in range(chance.randrange(1, 20)):
                    if not ask_once(link, log):
                        break
        except (OSError, Ended, ValueError, IndexError):
            note("connections that were cut")
        finally:
            link.close()


def unreadable(collections):
    """Folders can't be read for a while."""
    for collection in collections:
        os.chmod(collection.inbox, 0)
    over.wait(WHILE)
    for collection in collections:
        os.chmod(collection.inbox, 0o755)


def full(_collections):
    """The disk is full for a while."""
    path = os.path.join(FOLDER, "ballast")
    with open(path, "wb") as file:
        try:
            while True:
                file.write(bytes(1 << 20))
                file.flush()
        except OSError:
            pass
    over.wait(WHILE)
    os.remove(path)


def limit_descriptors(process, most):
    """Says how many descriptors a process may have, which only its own user may."""
    words = ["prlimit", "--pid", str(process), "--nofile=%d:" % most]
    subprocess.run(words, preexec_fn=become_nobody, check=True)


def descriptors(collections):
    """Descriptors run out for a while."""
    for collection in collections:
        limit_descriptors(collection.server.process.pid, collection.use()[1] + 1)
    over.wait(WHILE)
    for collection in collections:
        limit_descriptors(collection.server.process.pid, 1024)


def killed(collections):
    """The servers are killed and started again."""
    for collection in collections:
        with collection.lock:
            collection.kill_and_start()


def happen(collections):
    """The events of the day, each at its time."""
    course = [(0.15, unreadable), (0.3, killed), (0.45, full), (0.6, descriptors), (0.75, killed)]
    start = time.monotonic()
    for part, event in course:
        if event.__name__ in EVENTS:
            over.wait(max(0, start + part * LENGTH - time.monotonic()))
            print("%3d%%: %s" % (100 * part, event.__doc__), flush=True)
            try:
                event(collections)
            except (Ended, subprocess.CalledProcessError) as ended:
                fail("%s: %s" % (event.__name__, ended))
    over.wait(max(0, start + LENGTH - time.monotonic()))


def look_at_the_end(collection):
    """Each file lies where its verdict says, and memory and descriptors are as at the start."""
    collection.look_for_old()
    wanted = {name_of(run) for run in collection.brought}
    found = {name for name in os.listdir(os.path.join(collection.inbox, "done")) if name.endswith(".nc")}
    if wanted != found:
        collection.wrong("not in done, or there without a verdict: %r" % sorted(wanted ^ found))
    for shelf in ("refused", "later"):
        path = os.path.join(collection.inbox, shelf)
        if os.path.isdir(path) and os.listdir(path):
            collection.wrong("in %s: %r" % (shelf, os.listdir(path)[:5]))
    if not ask_once(*collection.connect()):
        collection.wrong("no reply at the end")
    memory, files = collection.use()
    print("collection %d: %d KiB and %d descriptors, at the start %d KiB and %d" % (
        collection.number, memory >> 10, files, collection.before[0] >> 10, collection.before[1]))
    if files > collection.before[1] + 16 or memory > collection.before[0] + (24 << 20):
        collection.wrong("more memory or descriptors than at the start")
    collection.kill()
    counts["expiries"] = counts.get("expiries", 0) + collection.expiries
    if collection.expiries == 0 and LENGTH >= LONG_ENOUGH:
        collection.wrong("no run was too old at any look of the clock")


def main():
    collections = [Collection(number) for number in range(SERVERS)]
    threads = [threading.Thread(target=collection.produce) for collection in collections]
    threads += [threading.Thread(target=read, args=(number, collections)) for number in range(CLIENTS)]
    for thread in threads:
        thread.start()
    try:
        happen(collections)
    finally:
        over.set()
    for thread in threads:
        thread.join(PATIENCE + 30)
    time.sleep(3)
    for collection in collections:
        try:
            look_at_the_end(collection)
        except (Ended, OSError) as ended:
            collection.wrong(ended)
        collection.server.kill()
    print(", ".join("%s %d" % pair for pair in sorted(counts.items())))
    print("%d wrong" % len(failures))
    return 1 if failures else 0


if __name__ == "__main__":
    sys.exit(main())
