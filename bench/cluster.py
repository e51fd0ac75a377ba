"""Three servers behind a balancer, fed from one spool, under faults; bench/cluster.sh says how."""
import os
import random
import shlex
import signal
import socket
import subprocess
import sys
import threading
import time

from classic import EPOCH
from cluster_oracle import TARGETS
from cluster_parts import BALANCERS, Machine, Spool, pause_of_unit, with_nginx
from figures import load
from folder_server import Ended, Link, wait_until
from local_server import free_port, stop

PROGRAM, FOLDER, LENGTH, BALANCER = sys.argv[1], sys.argv[2], float(sys.argv[3]), sys.argv[4]
PULL = shlex.split(os.environ.get("PULL", "")) or [PROGRAM, "pull"]
SERVERS, CLIENTS = 3, 32
# How many runs there are at most, how many there are at first, and how many seconds lie between two.
RUNS, FIRST, APART = 40, 20, 300
# How long a change comes after the one before it, and a client's request after its last reply, in the mean.
BETWEEN, PAUSE = 0.5, 0.05
# In how many seconds each request has its reply, and all servers have what lies in the spool.
ANSWERED, SETTLED = 3.0, 30.0
# For how many seconds a server is cut off from the spool, and a length in which all servers come to reply again.
CUT, LONG_ENOUGH = 20.0, 100.0
# For how many seconds a server is silent, and then all are; for how many that isn't known; and how many a request then
# takes at most.
SILENT, ALL_SILENT, UNKNOWN, GIVEN_UP = 10.0, 2.0, 2.0, 12.0
# What clients ask, each as likely as it stands here.
ASKED = ["runs", "runs", "runs", "structure", "structure", "values"]
# Views over which servers have to agree beside the best series: of a run, and of an offset.
VIEWS = [b"runs/gfs_RUN_%s.dods?time,v", b"offset/gfs_Offset_300s.dods?time,time_run"]

failures, counts, lock, over = [], {}, threading.Lock(), threading.Event()
# The longest times that replies took, and when a server fell silent.
slowest, silent = {}, []


def fail(text):
    with lock:
        failures.append(text)
        if len(failures) < 20:
            print("WRONG: " + text, flush=True)


def note(what):
    with lock:
        counts[what] = counts.get(what, 0) + 1


def guarded(what, *given):
    """Does it, and notes what it raised."""
    try:
        what(*given)
    except Exception as error:
        fail("%s: %s: %s" % (what.__name__, type(error).__name__, error))


def produce(spool, filled):
    """Brings runs into the spool, corrects them and takes them back, until it is over."""
    chance = random.Random(0)
    first = (int(time.time()) - EPOCH) // APART * APART - RUNS * APART
    runs = [first + APART * number for number in range(RUNS)]
    for run in runs[:FIRST]:
        spool.put(run)
    filled.set()
    while not over.wait(chance.uniform(0, 2 * BETWEEN)):
        lying = sorted(spool.lying)
        if lying and chance.random() < 0.25:
            spool.take_back(chance.choice(lying))
        else:
            spool.put(chance.choice(runs))
        note("changes")


def look_at_time(sent, came):
    """A reply comes soon, but where a server had just fallen silent."""
    unknown = any(sent - UNKNOWN < moment < came for moment in silent)
    name = "as a server falls silent" if unknown else "else"
    with lock:
        slowest[name] = max(slowest.get(name, 0), came - sent)
    if came - sent > (GIVEN_UP if unknown else ANSWERED):
        fail("a reply came after %.1f s" % (came - sent))


class Client:
    """A client with an address of its own. It asks again where a reply is cut."""

    def __init__(self, number, port, machines):
        self.source, self.port, self.link = "127.0.1.%d" % (1 + number), port, None
        self.machines = {machine.address.encode(): machine for machine in machines}
        self.chance, self.last = random.Random(number), None

    def try_once(self, target):
        """A reply, or None where there was none."""
        try:
            if self.link is None:
                source = (self.source, 0)
                self.link = Link(socket.create_connection(("127.0.0.1", self.port), 10, source_address=source))
            reply = self.link.ask(b"GET", target)
            if reply is not None:
                return reply
        except (OSError, Ended, ValueError, IndexError):
            note("replies that were cut")
        if self.link is not None:
            self.link.close()
        self.link = None
        return None

    def ask(self, what):
        """Asks until a whole reply comes, and compares it with the one of its server at its revision."""
        sent, reply = time.monotonic(), None
        while reply is None:
            reply = self.try_once(TARGETS[what])
            came = time.monotonic()
            if reply is None and came - sent > 2 * GIVEN_UP:
                return fail("%s has no reply to %s" % (self.source, what))
        look_at_time(sent, came)
        status, revision, body = reply
        machine = self.machines.get(self.link.fields.get(b"x-collection-server"))
        if machine is None or revision < 0:
            return fail("a reply of no server: %d, %r" % (status, body[:80]))
        lives = [life for life in machine.lives if life.lasted(sent, came)]
        if len(lives) != 1:
            return machine.wrong("a reply while it didn't run, or in one of %d lives" % len(lives))
        if revision < lives[0].whole:
            machine.wrong("a client came to it before all was back, at revision %d" % revision)
        lives[0].saw(revision, (status, body, what))
        note("replies of server %d, life %d" % (machine.number, machine.lives.index(lives[0]) + 1))
        if self.last not in (None, machine):
            note("moves from one server to another")
        self.last = machine

    def read(self):
        """Reads until it is over."""
        while not over.wait(self.chance.uniform(0, 2 * PAUSE)):
            self.ask(self.chance.choice(ASKED))
        if self.link is not None:
            self.link.close()


def be_silent(machines, seconds):
    """Servers take connections for a while, and don't reply."""
    silent.append(time.monotonic())
    for machine in machines:
        machine.freeze()
    over.wait(seconds)
    for machine in machines:
        machine.thaw()


def happen(machines):
    """The faults, each at its time."""
    start = time.monotonic()
    over.wait(0.15 * LENGTH)
    print("server 1 is killed, and started again after %d s" % pause_of_unit(), flush=True)
    machines[0].kill_and_start()
    over.wait(max(0, start + 0.5 * LENGTH - time.monotonic()))
    print("server 3 is cut off from the spool for %d s" % CUT, flush=True)
    machines[2].way.cut()
    over.wait(CUT)
    machines[2].way.mend()
    over.wait(max(0, start + 0.75 * LENGTH - time.monotonic()))
    print("server 2 is silent for %d s" % SILENT, flush=True)
    be_silent(machines[1:2], SILENT)
    over.wait(max(0, start + 0.9 * LENGTH - time.monotonic()))
    print("all servers are silent for %d s" % ALL_SILENT, flush=True)
    be_silent(machines, ALL_SILENT)
    over.wait(max(0, start + LENGTH - time.monotonic()))


def all_hold(spool, machines):
    """Waits until each server holds what lies in the spool."""
    for machine in machines:
        try:
            wait_until("settled", lambda: machine.life().held() == spool.lying, SETTLED)
        except Ended:
            held = machine.life().held()
            differ = [run for run in {**held, **spool.lying} if held.get(run) != spool.lying.get(run)]
            machine.wrong("%d runs aren't those of the spool after %d s: %r" % (len(differ), SETTLED, differ[:5]))


def look_at_agreement(spool, machines):
    """All servers have the same sum over the same view, as an operator sees it by `pull`."""
    run = time.strftime("%Y%m%dT%H%M%SZ", time.gmtime(EPOCH + max(spool.lying))).encode()
    front = TARGETS["runs"][:TARGETS["runs"].rindex(b"/") + 1]
    for target in [TARGETS["runs"], TARGETS["values"], front + VIEWS[0] % run, front + VIEWS[1]]:
        said = []
        for machine in machines:
            words = [*PULL, "--connect", machine.address, target.decode()]
            ended = subprocess.run(words, capture_output=True, text=True)
            said.append(ended.stdout if ended.returncode == 0 else "%s: status %d" % (words, ended.returncode))
        print("%s of %d servers: %s" % (target.decode(), len(machines), said[0].strip()), flush=True)
        if len(set(said)) != 1 or not said[0].startswith("label "):
            fail("servers don't agree over %s: %r" % (target.decode(), said))


def show_delays(spool, machines):
    """How long after it came into the spool a file was shown by each server."""
    for machine in machines:
        times = {}
        for life in machine.lives:
            times = {**life.times, **times}
        took = sorted(times[key] - spool.times[key] for key in times)
        print("server %d: %d files, shown %.1f s after they came into the spool, %.1f at most" % (
            machine.number, len(took), took[len(took) // 2], took[-1]), flush=True)


def show_throughput(machines):
    """What nginx before 1, 2 and 3 of the servers sends."""
    for count in range(1, SERVERS + 1):
        port = free_port()
        # All connections of this load are of one address.
        nginx = with_nginx(os.path.join(FOLDER, "load%d" % count), machines[:count], port, "$remote_addr$remote_port")
        structure = load(port, TARGETS["structure"].decode(), 32, 3)["requests"]
        values = load(port, TARGETS["values"].decode(), 32, 3)["bytes"]
        print("%d servers: %.0f structure texts a second, %.0f MB a second of values" % (
            count, structure, values / 1e6), flush=True)
        stop(nginx)


def main():
    signal.signal(signal.SIGTERM, lambda *_: sys.exit("stopped"))
    spool, filled, port = Spool(FOLDER), threading.Event(), free_port()
    machines = [Machine(PROGRAM, FOLDER, spool, number + 1, fail) for number in range(SERVERS)]
    producer = threading.Thread(target=guarded, args=(produce, spool, filled))
    producer.start()
    try:
        filled.wait(SETTLED)
        for machine in machines:
            wait_until("server %d has files" % machine.number, lambda: len(machine.life().held()) >= FIRST // 2)
        BALANCERS[BALANCER](os.path.join(FOLDER, BALANCER), machines, port)
        clients = [Client(number, port, machines) for number in range(CLIENTS)]
        threads = [threading.Thread(target=guarded, args=(client.read,)) for client in clients]
        for thread in threads:
            thread.start()
        happen(machines)
    finally:
        over.set()
    for thread in [producer, *threads]:
        thread.join()
    all_hold(spool, machines)
    look_at_agreement(spool, machines)
    show_delays(spool, machines)
    print(", ".join("%s %d" % pair for pair in sorted(counts.items())))
    print("the slowest reply: " + ", ".join("%s %.2f s" % pair for pair in sorted(slowest.items())))
    for machine in machines:
        for number in range(1, len(machine.lives) + 1):
            if LENGTH >= LONG_ENOUGH and "replies of server %d, life %d" % (machine.number, number) not in counts:
                machine.wrong("no reply came from it in its life %d" % number)
    show_throughput(machines)
    for machine in machines:
        machine.kill()
    print("%d wrong" % len(failures))
    return 1 if failures else 0


if __name__ == "__main__":
    sys.exit(main())
