"""What runs from which memory is kept may give; bench/out_of_memory.sh says how they are made."""
import os
import sys

PROGRAM, FOLDER, DATA = sys.argv[1:]
FIRST, LATER = "gfs_20240101_0000.nc", "gfs_20240101_0600.nc"
LIBRARY = os.path.join(FOLDER, "refused.so")
SORRY = b"HTTP/1.1 503 Service Unavailable\r\nContent-Length: 0\r\nConnection: close\r\n\r\n"
BEST = b"/thredds/dodsC/gfs/gfs_best.ncd"
# What the address space of a run is made smaller by at each step, at least.
STEP = 64 << 10
# The address space that is enough for each run of `once`, of files of 16 MB at most.
ENOUGH = 128 << 20

failures = []


def fail(text):
    failures.append(text)
    if len(failures) < 20:
        print("WRONG: " + text, flush=True)


def end():
    print("%d wrong" % len(failures))
    sys.exit(1 if failures else 0)


def data(name):
    return os.path.join(DATA, name)


def head(rest):
    return b"GET " + BEST + rest + b" HTTP/1.1\r\n\r\n"


def replies_of(output):
    """The whole replies of an output, one by one, and what is left of it."""
    replies = []
    while output:
        front, found, rest = output.partition(b"\r\n\r\n")
        length = [int(line[16:]) for line in front.split(b"\r\n") if line.startswith(b"Content-Length: ")]
        if not found or not length or len(rest) < length[0]:
            break
        replies.append(front + found + rest[:length[0]])
        output = rest[length[0]:]
    return replies, output


def port_of(process):
    """The port at which a process listens."""
    try:
        inodes = {os.readlink("/proc/%d/fd/%s" % (process, fd)) for fd in os.listdir("/proc/%d/fd" % process)}
    except OSError:
        return None
    with open("/proc/net/tcp") as table:
        for line in table.readlines()[1:]:
            fields = line.split()
            if fields[3] == "0A" and "socket:[%s]" % fields[9] in inodes:
                return int(fields[1].split(":")[1], 16)
    return None
