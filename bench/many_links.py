"""Loads a server that many connections are open to, and nginx, in turns; bench/many_links.sh says how."""
import os
import resource
import signal
import statistics
import subprocess
import sys
import time

import large_files
from beside_nginx import BEST, LARGE, RUN, SIDE, TIMES, body_of, delays, file_name
from figures import load
from local_server import TOP, Nginx, Server, free_port
from serve_replies import APART, FILES, file_of, name_of

IDLE, READERS, DRIPPERS, WORKERS = 10_000, 1_000, 100, 4
VARIABLE = RUN + ".dods?t"
LOADS = [("structure text", BEST + ".dds", "requests"), ("variable of 12 MB", VARIABLE, "bytes")]

# What is to be reached: of nginx, bytes of memory, bytes that a slow reader takes in a second, and milliseconds.
OF_NGINX, IDLE_MEMORY, READER_MEMORY, READ, DELAY = 0.8, 4096, 16_384, 20_000, 200
# How many bytes more than before may be resident once all have gone.
REST = 1 << 20
# After how many milliseconds a link has to be ended that sends a byte each five seconds: its time is over 30 seconds
# after it came (crates/dev_net/src/patience.rt), and it is stepped in the second after that.
SOONEST, LATEST = 29_900, 32_000
# For how many seconds such links are there before the others, which are to outlast them.
AHEAD = 4

missed = []


def aim(reached, shown):
    """Shows a figure, and notes where it isn't what is to be reached."""
    print("%s%s" % (shown, "" if reached else "  MISSED"), flush=True)
    if not reached:
        missed.append(shown)


def descriptors(server):
    return len(os.listdir("/proc/%d/fd" % server.process.pid))


def until(happened, what, seconds):
    """Waits until something is so."""
    limit = time.monotonic() + seconds
    while not happened():
        if time.monotonic() > limit:
            sys.exit(what)
        time.sleep(0.05)


def settled(server):
    """How many descriptors a server has, once that doesn't change any more."""
    last, count = None, descriptors(server)
    while count != last:
        time.sleep(0.3)
        last, count = count, descriptors(server)
    return count


class Crowd:
    """Connections to a server, for as long as this lasts, all of which it holds; but it ends those that drip."""

    def __init__(self, server, idle, readers, drippers=0):
        self.server, self.count, self.drippers = server, (idle, readers), drippers

    def __enter__(self):
        server, counts = self.server, (*self.count, self.drippers)
        before = settled(server)
        line = [sys.executable, "-B", os.path.join(TOP, "bench", "crowd.py"), *map(str, (server.port, *counts))]
        self.process = subprocess.Popen(line + [VARIABLE], stdin=subprocess.PIPE, stdout=subprocess.PIPE, text=True)
        if self.process.stdout.readline() != "ready\n":
            sys.exit("the crowd didn't come")
        until(lambda: descriptors(server) >= before + sum(counts), "not all of the crowd were accepted", 20)

    def __exit__(self, *_):
        self.process.stdin.close()
        idle, readers, read, *ends = (int(word) for word in self.process.stdout.readline().split())
        self.process.wait()
        if (idle, readers) != self.count:
            aim(False, "of %d idle connections and %d readers %d and %d were left" % (*self.count, idle, readers))
        if readers and read < READ:
            aim(False, "a slow reader took %d bytes a second, aim %d" % (read, READ))
        if self.drippers:
            self.compare_ends(*ends)

    def compare_ends(self, ended, first, last):
        """Whether each link that drips was ended at its time."""
        shown = "a byte each 5 seconds: %d of %d links ended, %.1f to %.1f seconds after they came, aim %.1f to %.1f"
        given = (ended, self.drippers, first / 1e3, last / 1e3, SOONEST / 1e3, LATEST / 1e3)
        aim(ended == self.drippers and SOONEST <= first and last <= LATEST, shown % given)


def compare(title, server, nginx, target, measure, links, turns):
    """Loads both in turns, and shows the middle of each and of the ratios."""
    both = []
    for _ in range(turns):
        one = load(server.port, target, links, 2)[measure]
        both.append((one, load(nginx.port, "/" + file_name(title), links, 2)[measure]))
    ratios = sorted(one / max(1, other) for one, other in both)
    one, other = (statistics.median(column) for column in zip(*both))
    scale, unit = (1, "/s") if measure == "requests" else (1e6, " MB/s")
    shown = "%-20s %4d connections: %8.0f%s, nginx %8.0f%s, ratio %.2f (%.2f to %.2f), aim %.1f"
    middle = statistics.median(ratios)
    given = (title, links, one / scale, unit, other / scale, unit, middle, ratios[0], ratios[-1], OF_NGINX)
    aim(middle >= OF_NGINX, shown % given)


def run_memory(server):
    """The memory of an idle connection and of a slow reader."""
    before = server.resident()
    with Crowd(server, IDLE, 0):
        idle = server.resident()
        with Crowd(server, 0, READERS):
            time.sleep(4)
            both = server.resident()
    each = (idle - before) / IDLE
    aim(each <= IDLE_MEMORY, "an idle connection: %.0f bytes, aim %d" % (each, IDLE_MEMORY))
    each = (both - idle) / READERS
    aim(each <= READER_MEMORY, "a slow reader: %.0f bytes, aim %d" % (each, READER_MEMORY))


def run_loads(server, nginx, turns):
    """The figures of both loads."""
    for title, target, measure in LOADS:
        for links in (64, 1000):
            with Crowd(server, IDLE, 0), Crowd(server, 0, READERS):
                compare(title, server, nginx, target, measure, links, turns)


def run_drippers(server):
    """Whether links that drip are ended while there are others, all of which are kept, and many requests come."""
    came = time.monotonic()
    with Crowd(server, 0, 0, DRIPPERS):
        time.sleep(AHEAD)
        with Crowd(server, IDLE, 0), Crowd(server, 0, READERS):
            load(server.port, LOADS[0][1], 64, 16)
            time.sleep(max(0.0, came + 1 + LATEST / 1e3 - time.monotonic()))


def run_delays(small, large):
    """How long it takes from a file's rename until a reply has it."""
    with Crowd(small, IDLE, 0), Crowd(large, 0, READERS):
        took = delays(small, 20)
    shown = "from a file's rename to a reply with it: %.0f ms, %.0f ms at most, aim %d"
    aim(took[-1] <= DELAY, shown % (statistics.mean(took), took[-1], DELAY))


def compare_rest(server, opened, resident):
    """Whether descriptors and memory are as they were before anybody came."""
    count, after = settled(server), server.resident()
    aim(count <= opened, "all gone: %d descriptors, %d before" % (count, opened))
    shown = "all gone: %.1f MB resident, %.1f before, aim %.1f more at most"
    aim(after <= resident + REST, shown % (after / 1e6, resident / 1e6, REST / 1e6))


def servers(program, folder):
    """A server of small files, one of large ones, and nginx with two replies of the latter."""
    small = Server(program, os.path.join(folder, "small"), file_of(0), WORKERS)
    for number in range(FILES):
        small.bring(name_of(APART * number), file_of(APART * number))
    content = large_files.file_of(0, TIMES, SIDE)
    large = Server(program, os.path.join(folder, "large"), content, WORKERS)
    for number in range(LARGE):
        large.arrive(name_of(APART * number), large_files.file_of(APART * number, TIMES, SIDE))
    until(lambda: body_of(small.port, BEST + ".dds?lat")[0] == FILES, "not all files were published", 60)
    files = os.path.join(folder, "files")
    os.makedirs(files)
    for title, target, _ in LOADS:
        with open(os.path.join(files, file_name(title)), "wb") as file:
            file.write(body_of(large.port, target)[1])
    port = free_port()
    site = "listen 127.0.0.1:%d backlog=4096; root %s; default_type application/octet-stream;" % (port, files)
    nginx = Nginx(os.path.join(folder, "nginx"), "server { %s }" % site, port, WORKERS)
    return small, large, nginx


def raise_limit():
    """Lets this process and those that it starts have many descriptors."""
    hard = resource.getrlimit(resource.RLIMIT_NOFILE)[1]
    most = hard if hard != resource.RLIM_INFINITY and hard < 65_536 else 65_536
    resource.setrlimit(resource.RLIMIT_NOFILE, (most, hard))
    if most < IDLE + 3 * READERS:
        sys.exit("%d descriptors are too few" % most)


def main():
    program, folder, turns = os.path.abspath(sys.argv[1]), sys.argv[2], int(sys.argv[3])
    signal.signal(signal.SIGTERM, lambda *_: sys.exit("stopped"))
    raise_limit()
    small, large, nginx = servers(program, folder)
    for _, target, _ in LOADS:
        load(large.port, target, 64, 1)
    opened, resident = settled(large), large.resident()
    run_memory(large)
    run_loads(large, nginx, turns)
    run_drippers(large)
    run_delays(small, large)
    compare_rest(large, opened, resident)
    if missed:
        sys.exit("%d figures are missed" % len(missed))


if __name__ == "__main__":
    main()
