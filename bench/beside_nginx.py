"""Loads a server and nginx in turns; bench/beside_nginx.sh says how."""
import http.client
import os
import random
import signal
import statistics
import sys
import threading
import time

import large_files
from figures import load
from local_server import Nginx, Server, free_port
from serve_replies import APART, FILES, file_of, name_of

BEST = "/thredds/dodsC/gfs/gfs_best.ncd"
RUN = "/thredds/dodsC/gfs/runs/gfs_RUN_2020-01-01T00:00:00Z"
FEW = BEST + ".dods?t%5B400:403%5D%5B0:15%5D%5B0:15%5D"
FIELDS = RUN + ".dods?t%5B4:7%5D%5B0:479%5D%5B0:479%5D"
AREA = RUN + ".dods?t%5B0:12%5D%5B100:299%5D%5B100:299%5D"
TIMES, SIDE, LARGE = 13, 480, 4

# What is to be reached of nginx. Rows of an area are gathered, which bench/slabs.sh measures beside a program in C.
AIM, AREA_AIM = 0.85, 0.6


def body_of(port, target):
    link = http.client.HTTPConnection("127.0.0.1", port, timeout=30)
    link.request("GET", target)
    reply = link.getresponse()
    body = reply.read()
    link.close()
    if reply.status != 200:
        sys.exit("%s: %d" % (target, reply.status))
    return int(reply.getheader("X-Collection-Revision")), body


class Arrivals:
    """A file that arrives each second, again and again, for as long as this lasts."""

    def __init__(self, server, name, content):
        self.given = (server, name, content)
        self.over = threading.Event()
        self.thread = threading.Thread(target=self.run, daemon=True)

    def run(self):
        while not self.over.wait(1.0):
            self.given[0].bring(*self.given[1:])

    def __enter__(self):
        self.thread.start()

    def __exit__(self, *_):
        self.over.set()
        self.thread.join()


def compare(title, server, nginx, target, name, measure, links, turns):
    """Loads both in turns, shows the middle of each and of the ratios, and returns whether the aim is reached."""
    both = []
    for _ in range(turns):
        both.append((load(server.port, target, links)[measure], load(nginx.port, name, links)[measure]))
    ratios = sorted(one / other for one, other in both)
    one, other = (statistics.median(column) for column in zip(*both))
    scale, unit = (1, "/s") if measure == "requests" else (1e6, " MB/s")
    shown = "%-38s %d connections: %8.0f%s, nginx %8.0f%s, ratio %.2f (%.2f to %.2f), aim %.2f%s"
    middle, aim = statistics.median(ratios), AREA_AIM if target == AREA else AIM
    given = (middle, ratios[0], ratios[-1], aim, "" if middle >= aim else ", MISSED")
    print(shown % ((title, links, one / scale, unit, other / scale, unit) + given), flush=True)
    return middle >= aim


def file_name(title):
    return title.replace(" ", "_")


def run_loads(server, nginx, loads, measure, arriving, turns):
    """All loads of a server, alone and while a file arrives each second. Whether all aims are reached."""
    good = True
    for title, target in loads:
        for links in (1, 4):
            given = (server, nginx, target, "/" + file_name(title), measure, links, turns)
            good &= compare(title, *given)
            with Arrivals(server, *arriving):
                good &= compare(title + ", arrivals", *given)
    return good


def delays(server, count):
    """How long it takes from a rename until a reply has the file, in milliseconds, in order."""
    chance, took = random.Random(0), []
    link = http.client.HTTPConnection("127.0.0.1", server.port, timeout=30)
    for number in range(count):
        run = APART * (FILES + number)
        link.request("HEAD", BEST + ".dds?time")
        reply = link.getresponse()
        reply.read()
        before = int(reply.getheader("X-Collection-Revision"))
        time.sleep(chance.uniform(0, 0.2))
        server.bring(name_of(run), file_of(run))
        start, now = time.monotonic(), before
        while now == before:
            link.request("HEAD", BEST + ".dds?time")
            reply = link.getresponse()
            reply.read()
            now = int(reply.getheader("X-Collection-Revision"))
            time.sleep(0.001)
        took.append(1000 * (time.monotonic() - start))
    return sorted(took)


def main():
    program, folder, turns = os.path.abspath(sys.argv[1]), sys.argv[2], int(sys.argv[3])
    signal.signal(signal.SIGTERM, lambda *_: sys.exit("stopped"))
    small = Server(program, os.path.join(folder, "small"), file_of(0), 8)
    for number in range(FILES):
        small.bring(name_of(APART * number), file_of(APART * number))
    content = large_files.file_of(0, TIMES, SIDE)
    large = Server(program, os.path.join(folder, "large"), content, 8)
    for number in range(LARGE):
        large.arrive(name_of(APART * number), large_files.file_of(APART * number, TIMES, SIDE))
    while body_of(small.port, BEST + ".dds?lat")[0] != FILES:
        time.sleep(0.1)

    small_loads = [("structure text", BEST + ".dds"), ("4 times of the best series", FEW)]
    large_loads = [("variable of 12 MB", RUN + ".dods?t"), ("4 times of it, 4 MB", FIELDS)]
    large_loads += [("an area of it, 2 MB", AREA)]
    files = os.path.join(folder, "files")
    os.makedirs(files)
    for server, loads in ((small, small_loads), (large, large_loads)):
        for title, target in loads:
            with open(os.path.join(files, file_name(title)), "wb") as file:
                file.write(body_of(server.port, target)[1])
    port = free_port()
    site = "server { listen 127.0.0.1:%d; root %s; default_type application/octet-stream; }" % (port, files)
    nginx = Nginx(os.path.join(folder, "nginx"), site, port, os.cpu_count())

    last = APART * (FILES - 1)
    good = run_loads(small, nginx, small_loads, "requests", (name_of(last), file_of(last)), turns)
    last = APART * (LARGE - 1)
    resident = large.resident()
    again = large_files.file_of(last, TIMES, SIDE)
    good &= run_loads(large, nginx, large_loads, "bytes", (name_of(last), again), turns)
    took = delays(small, 20)
    print("from a file's rename to a reply with it: %.0f ms, %.0f ms at most" % (statistics.mean(took), took[-1]))
    held = (FILES + 20) * len(file_of(0))
    print("small files: %.1f MB resident, %.1f MB of files" % (small.resident() / 1e6, held / 1e6))
    shown = "large files: %.1f MB resident, %.1f MB after all replies and arrivals, %.1f MB of files"
    print(shown % (resident / 1e6, large.resident() / 1e6, LARGE * len(content) / 1e6))
    sys.exit(0 if good else 1)


if __name__ == "__main__":
    main()
