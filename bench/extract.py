"""Measures `extract` of a large file; extract.sh says how."""
import os
import random
import subprocess
import sys
import time

from classic import FLOAT, INT, SINCE_2020, Classic, Variable

FIRST, RECORDS, ROWS, COLUMNS = 126230400, 60, 1000, 2000
TURNS = 8
# The share of the speed of the program in C that `extract` has to have.
SHARE = 0.9


def form(records):
    """The form of a file of a variable of ROWS times COLUMNS numbers, with records for the times."""
    axes = [Variable("time", INT, [0], [SINCE_2020]), Variable("y", FLOAT, [1]), Variable("x", FLOAT, [2])]
    dims = [("time", 0), ("y", ROWS), ("x", COLUMNS)]
    return Classic(dims, axes + [Variable("v", FLOAT, [0, 1, 2])], records=records)


def write(path, records, block):
    """Writes a file whose records are a block, but for its first bytes."""
    made = form(records)
    made.write(path, [FIRST + 3600 * number for number in range(records)])
    with open(path, "r+b") as file:
        for number in range(records):
            file.seek(made.begins["v"] + made.record * number)
            file.write(number.to_bytes(4, "big") + block[4:])
    return made


def turn(words, out):
    """The seconds and the most memory, in MiB, of a run whose standard output is a new file. `cp` writes it itself."""
    if os.path.exists(out):
        os.remove(out)
    with open(out if out not in words else os.devnull, "wb") as file:
        start = time.monotonic()
        child = subprocess.Popen(words, stdout=file)
        _, status, usage = os.wait4(child.pid, 0)
        took = time.monotonic() - start
    if status:
        sys.exit("%s: status %d" % (words[0], status))
    return took, usage.ru_maxrss / 1024


def fastest(runs):
    """The fastest turn of each run. They take turns, each time in another order, so that what else goes on falls on all
    of them."""
    found = {number: [] for number in range(len(runs))}
    for number in range(TURNS):
        for place in range(len(runs)):
            at = (number + place) % len(runs)
            found[at].append(turn(*runs[at]))
    return [min(turns) for turns in found.values()]


def is_same(made, path, view):
    """Whether the last variable's numbers stand at the end of the view, but for the runs and the offsets."""
    size, behind = 4 * ROWS * COLUMNS, 2 * 4 * RECORDS
    begin = os.path.getsize(view) - behind - RECORDS * size
    with open(path, "rb") as left, open(view, "rb") as right:
        right.seek(begin)
        for number in range(RECORDS):
            left.seek(made.begins["v"] + made.record * number)
            if left.read(size) != right.read(size):
                return False
    return True


def main():
    program, folder = sys.argv[1:]
    path, proto = (os.path.join(folder, name) for name in ("gfs_20240101_0000.nc", "proto.nc"))
    block = random.Random(1).randbytes(4 * ROWS * COLUMNS)
    write(proto, 1, block)
    made = write(path, RECORDS, block)
    held = (os.path.getsize(path) + os.path.getsize(proto)) / 2**20
    copy = os.path.join(folder, "copy.nc")
    views = [os.path.join(folder, "view%s.nc" % version) for version in "12"]
    words = [program, "extract", "--name", "gfs", "--proto", proto, "--view", "gfs_best.ncd", "put:" + path, "--format"]
    copied, read, *written = fastest([
        (["cp", "--sparse=never", "--reflink=never", path, copy], copy),
        ([os.path.join(folder, "hold"), path], os.path.join(folder, "held.nc")),
        *(([*words, version], out) for version, out in zip("12", views))])
    print("a copy of %.0f MiB: %.2f s" % (os.path.getsize(path) / 2**20, copied[0]))
    print("a program in C that reads it, then writes it: %.2f s, %.2f of the copy's speed"
          % (read[0], copied[0] / read[0]))
    wrong = 0
    for version, out, (took, memory) in zip("12", views, written):
        same = is_same(made, path, out)
        wrong += not same or memory > held + 16 or read[0] / took < SHARE
        print("version %s: %.2f s, %.2f of the copy's speed, %.2f of C's; %.0f MiB, %.1f over the files; %s"
              % (version, took, copied[0] / took, read[0] / took, memory, memory - held,
                 "the same numbers" if same else "OTHER NUMBERS"))
    sys.exit(1 if wrong else 0)


if __name__ == "__main__":
    main()
