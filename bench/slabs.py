"""Loads a server, nginx and a program that gathers rows, in turns; bench/slabs.sh says how."""
import atexit
import os
import random
import signal
import socket
import statistics
import subprocess
import sys
import time

import large_files
from beside_nginx import BEST, RUN, body_of
from figures import load
from local_server import Nginx, Server, free_port, stop, wait_for
from serve_replies import name_of

TIMES, SIDE = 13, 480
FIELD = 4 * SIDE * SIDE
SMALL, PIECE = 8192, 65_160
STATIONS, CHARS = 1_000_000, 16

# An area in rows of 800 bytes, and each second number of a field: the request, and what the program in C gathers.
AREA = ("area in rows of 800 bytes", "t[0:12][100:299][100:299]", (13, (100 * SIDE + 100) * 4, 200, 4 * SIDE, 800))
STRIDES = ("each second number", "t[0:12][0:479][0:2:479]", (13, 0, SIDE * SIDE // 2, 8, 4))


def escaped(words):
    return words.replace("[", "%5B").replace("]", "%5D")


def text_file():
    """A file of an array of Strings, and of numbers declared behind it."""
    words, text = large_files.words, large_files.text
    numbers, begin = 4 * STATIONS, 0
    for _ in range(2):
        head = b"CDF\1" + words(1, 10, 3)
        head += text(b"time") + words(0) + text(b"station") + words(STATIONS) + text(b"chars") + words(CHARS)
        head += words(0, 0, 11, 3)
        head += text(b"time") + words(1, 0, 12, 1) + text(b"units") + words(2) + text(large_files.UNITS)
        head += words(4, 4, begin + CHARS * STATIONS + numbers)
        head += text(b"names") + words(2, 1, 2, 0, 0, 2, CHARS * STATIONS, begin)
        head += text(b"numbers") + words(1, 1, 0, 0, 5, numbers, begin + CHARS * STATIONS)
        begin = len(head)
    names = b"".join(b"station %08d" % number for number in range(STATIONS))
    content = [head, names, random.Random(0).randbytes(numbers), words(large_files.EPOCH)]
    return b"".join(content)


def gather(folder, piece, about):
    """A program in C that answers with these rows of the large file, on a free port."""
    port = free_port()
    fields, begin, rows, step, row = about
    data = os.path.join(folder, "data")
    given = (data, port, piece, fields, FIELD + 4, begin, rows, step, row)
    process = subprocess.Popen([os.path.join(folder, "gather")] + [str(word) for word in given])
    atexit.register(stop, process)
    wait_for(port, process, "the program in C")
    return port


def check(title, measured, aim, unit="", below=False):
    good = measured <= aim if below else measured >= aim
    print("%-64s %8.2f%s, aim %s %.2f%s%s" % (title, measured, unit, "below" if below else "above", aim, unit,
                                              "" if good else ", MISSED"), flush=True)
    return good


def compare(title, links, turns, port, target, others):
    """The middle rate of a server in bytes a second, and the middle ratio to each of the others."""
    rates = [[load(port, target, links)["bytes"]] + [load(*other, links)["bytes"] for other in others]
             for _ in range(turns)]
    ratios = [statistics.median(turn[0] / turn[k + 1] for turn in rates) for k in range(len(others))]
    middle = [statistics.median(column) / 1e6 for column in zip(*rates)]
    print("%-30s %d connections: %s MB/s" % (title, links, ", ".join("%.0f" % rate for rate in middle)), flush=True)
    return middle[0], ratios


def seconds(link, target):
    """How long a reply takes."""
    room = bytearray(1 << 20)
    start = time.monotonic()
    link.sendall(b"GET %s HTTP/1.1\r\nHost: x\r\n\r\n" % target.encode())
    head = b""
    while b"\r\n\r\n" not in head:
        head += link.recv(4096)
    head, body = head.split(b"\r\n\r\n", 1)
    left = int(head.lower().split(b"content-length: ")[1].split(b"\r")[0]) - len(body)
    while left > 0:
        left -= link.recv_into(room)
    return time.monotonic() - start


def main():
    program, folder, turns = os.path.abspath(sys.argv[1]), sys.argv[2], int(sys.argv[3])
    signal.signal(signal.SIGTERM, lambda *_: sys.exit("stopped"))
    content = large_files.file_of(0, TIMES, SIDE)
    large = Server(program, os.path.join(folder, "large"), content, 8)
    large.arrive(name_of(0), content)
    with open(os.path.join(folder, "data"), "wb") as file:
        file.write(content[len(content) - TIMES * (FIELD + 4) + 4:])
    files = os.path.join(folder, "files")
    os.makedirs(files)
    good = True
    port = free_port()
    site = "server { listen 127.0.0.1:%d; root %s; default_type application/octet-stream; }" % (port, files)
    nginx = Nginx(os.path.join(folder, "nginx"), site, port, os.cpu_count())
    for title, clause, about in (AREA, STRIDES):
        target = RUN + ".dods?" + escaped(clause)
        name = title.replace(" ", "_")
        with open(os.path.join(files, name), "wb") as file:
            file.write(body_of(large.port, target)[1])
        small, same = gather(folder, SMALL, about), gather(folder, PIECE, about)
        others = [(port, "/" + name), (small, "/"), (same, "/")]
        for links, least in ((1, 0.6), (4, 0.9)):
            rate, ratios = compare(title, links, turns, large.port, target, others)
            shown = "%s, %d connections, " % (title, links)
            if title == AREA[0]:
                good &= check(shown + "of nginx", ratios[0], least)
                good &= check(shown + "of C with the same pieces", ratios[2], 0.9)
            elif links == 1:
                good &= check(shown + "sent", rate / 1000, 1.0, " GB/s")
    stop(large.process)

    content = text_file()
    texts = Server(program, os.path.join(folder, "texts"), content, 4)
    texts.arrive(name_of(0), content)
    with socket.create_connection(("127.0.0.1", texts.port)) as link:
        took = [[seconds(link, BEST + ".dods?" + asked) for asked in ("names", "numbers", "names,numbers")]
                for _ in range(max(turns, 15))]
    names = statistics.median(turn[0] for turn in took)
    both = statistics.median(turn[2] / (turn[0] + turn[1]) for turn in took)
    good &= check("1,000,000 texts of 16 bytes", names, 0.2, " s", below=True)
    good &= check("these with 4 MB behind them, beside both alone", both, 1.25, below=True)
    sys.exit(0 if good else 1)


if __name__ == "__main__":
    main()
