"""Counts the memory of plans; bench/plan_memory.sh says how."""
import mmap
import os
import struct
import sys
import time

from classic import CHAR, FLOAT, TIME, Classic, Variable, of_600_variables
from folder_server import FolderServer, wait_until

PROGRAM, FOLDER = sys.argv[1:3]
BEST = b"/thredds/dodsC/gfs/gfs_best.ncd"
# For each array of texts, while its marks are made; for each part, page of rows, and variable.
TEXTS, PART, PAGE, VARIABLE = 98304, 16, 64, 32


class Counted:
    """A server of some files of one form, whose memory is counted, and one connection."""

    def __init__(self, name, form, files, times):
        folder = os.path.join(FOLDER, name)
        inbox = os.path.join(folder, "inbox")
        os.makedirs(inbox)
        proto = os.path.join(folder, "proto.nc")
        form.write(proto, times(0))
        for number in range(files):
            form.write(os.path.join(inbox, "gfs_20200101_0000_%04d.nc" % number), times(number))
        held = os.path.join(folder, "held")
        os.environ.update(LD_PRELOAD=os.path.join(FOLDER, "held.so"), HELD_FILE=held)
        self.server = FolderServer(PROGRAM, proto, [inbox], ["--workers", "1"])
        del os.environ["LD_PRELOAD"], os.environ["HELD_FILE"]
        done = os.path.join(inbox, "done")
        wait_until("all files are held", lambda: os.path.isdir(done) and len(os.listdir(done)) == files, 600)
        with open(held, "r+b") as file:
            self.counts = mmap.mmap(file.fileno(), 16)
        self.link = self.server.connect()
        self.most(b"das")

    def most(self, asked):
        """The bytes that a request holds at most beyond what is held before it, the least of three turns."""
        found = []
        for _ in range(3):
            # The worker lets go of what it sent before.
            time.sleep(0.05)
            before = struct.unpack("=q", self.counts[:8])[0]
            self.counts[8:16] = struct.pack("=q", before)
            status, _, body = self.link.ask(b"GET", BEST + b"." + asked)
            if status != 200:
                sys.exit("%r: %d %r" % (asked[:80], status, body[:200]))
            found.append(struct.unpack("=q", self.counts[8:16])[0] - before)
        return min(found)

    def close(self):
        self.link.close()
        self.server.kill()


def check(counted, title, constraint, texts=0, parts=1, pages=1, variables=5):
    """Shows what a plan takes, and whether that is within its bound."""
    taken = counted.most(b"dods?" + constraint) - counted.most(b"dds?" + constraint)
    bound = TEXTS * texts + PART * parts + PAGE * pages + VARIABLE * variables
    print("%-48s %8d bytes, at most %8d%s" % (title, taken, bound, "" if taken <= bound else ", MISSED"), flush=True)
    return taken <= bound


def texts():
    """An array of a million texts, and the one with the most marks, of 8,388,607."""
    dims = [("time", 0), ("station", 1000000), ("chars", 16), ("many", 8388607), ("one", 1)]
    form = Classic(dims, [TIME, Variable("names", CHAR, [1, 2]), Variable("signs", CHAR, [3, 4])], records=1)
    counted = Counted("texts", form, 1, lambda number: [0])
    good = check(counted, "1,000,000 texts", b"names", texts=1)
    good &= check(counted, "8,388,607 texts", b"signs", texts=1)
    counted.close()
    return good


def rows():
    """262,144 rows, of 64 files."""
    form = Classic([("time", 0), ("x", 2)], [TIME, Variable("v", FLOAT, [0, 1])], records=4096)
    counted = Counted("rows", form, 64, lambda number: [60 * (4096 * number + record) for record in range(4096)])
    good = check(counted, "262,144 rows", b"v[0:1000:262143][0]", pages=256)
    counted.close()
    return good


def parts():
    """600 variables, and 5,300 clauses over one of them."""
    counted = Counted("parts", of_600_variables(1)[1], 1, lambda number: [0])
    good = check(counted, "600 variables, all sent", b"", parts=4 * 597 + 5, variables=600)
    good &= check(counted, "5,300 clauses over one of 600 variables", b",".join([b"v0"] * 5300), parts=4, variables=600)
    counted.close()
    return good


if __name__ == "__main__":
    sys.exit(0 if all([texts(), rows(), parts()]) else 1)
