"""Replaces a large file by itself, and takes it back, and shows what stays resident; bench/replaced.sh says how."""
import os
import sys
import time

from large_files import file_of
from local_server import Server

MIB = 1 << 20
NAME = "gfs_20240101_0000.nc"
TURNS = 3


def until(happened, what):
    for _ in range(5000):
        if happened():
            return
        time.sleep(0.002)
    sys.exit(what)


def settled(server):
    """The memory that is resident once two readings of it are alike."""
    before = server.resident()
    for _ in range(100):
        time.sleep(0.1)
        now = server.resident()
        if abs(now - before) < MIB:
            break
        before = now
    return now


def main():
    program, folder, size = sys.argv[1], sys.argv[2], int(sys.argv[3]) * MIB
    # One time of a square grid of floats is as large as asked for.
    content = file_of(0, 1, int((size // 4) ** 0.5))
    server = Server(program, folder, content, 2)
    done = os.path.join(server.inbox, "done", NAME)
    most = 0
    for turn in range(TURNS):
        server.arrive(NAME, content)
        held = settled(server)
        most = max(most, held)
        print("held %d times: %d MiB resident for %d MiB" % (turn + 1, held // MIB, len(content) // MIB))
        os.remove(done)
    back = NAME + ".retract"
    server.bring(back, b"")
    until(lambda: not os.path.exists(os.path.join(server.inbox, back)), "the name was not taken back")
    gone = settled(server)
    print("taken back: %d MiB resident" % (gone // MIB))
    # Two of the file, or one after it went, would be more.
    if most > len(content) * 3 // 2 + 16 * MIB or gone > len(content) // 2 + 16 * MIB:
        sys.exit("what went is still held")


main()
