"""Cases that are run one after the other and counted, and replies as they have to be."""
import os
import shutil
import struct
import sys
import tempfile
import time

LIMIT = 536870912
HEAD = "GET /thredds/dodsC/gfs/gfs_best.ncd%s HTTP/1.1\r\n\r\n"
BIG = 1 << 20


class Wrong(Exception):
    """Something that isn't as it should be."""


def numbers(values):
    """An array of Int32 as XDR."""
    return struct.pack(">II%di" % len(values), len(values), len(values), *values)


def head_of(status, what, revision, length, last=False, media="text/plain"):
    connection = "close" if last else "keep-alive"
    lines = ["HTTP/1.1 " + status, "XDODS-Server: dods/3.2", "Content-Description: dods_" + what,
             "Content-Type: " + media, "X-Collection-Revision: %d" % revision, "Content-Length: %d" % length,
             "Connection: " + connection, "", ""]
    return "\r\n".join(lines).encode()


def length_of(parts):
    return sum(part if isinstance(part, int) else len(part) for part in parts)


def structure(lines, revision):
    """The reply that has a structure text of these lines."""
    text = dataset(lines)
    return [head_of("200 OK", "dds", revision, len(text)), text]


def dataset(lines):
    return ("Dataset {\n%s} gfs_best.ncd;\n" % "".join("    %s;\n" % line for line in lines)).encode()


def data(lines, parts, revision):
    """The reply that has data; a part that is a number is the length of a run of zero bytes."""
    parts = [dataset(lines) + b"Data:\n"] + parts
    head = head_of("200 OK", "data", revision, length_of(parts), media="application/octet-stream")
    return [head] + parts


def error(status, code, message, revision):
    text = ('Error {\n    code = %d;\n    message = "%s";\n};\n' % (code, message)).encode()
    return [head_of(status, "error", revision, len(text)), text]


def compare(stream, parts):
    """Reads a stream to its end, and compares it with parts."""
    place = 0
    for part in parts + [b""]:
        left = part if isinstance(part, int) else len(part)
        begun = 0
        while begun < left:
            want = min(left - begun, BIG)
            got = stream.read(want)
            right = bytes(len(got)) if isinstance(part, int) else part[begun:begun + len(got)]
            if not got or got != right:
                raise Wrong("differs from byte %d on: %r" % (place + begun, got[:80]))
            begun += len(got)
        place += left
    more = stream.read(80)
    if more:
        raise Wrong("goes on behind byte %d: %r" % (place, more))


def run(cases, folder, wanted):
    """Runs the cases in whose names a wanted word stands, each with a folder of its own."""
    failed = done = 0
    for case in cases:
        name = case.__name__.replace("_", " ")
        if wanted and not any(word in name for word in wanted) or not wanted and case.__doc__.startswith("Only"):
            continue
        done += 1
        own = tempfile.mkdtemp(dir=folder)
        start = time.monotonic()
        try:
            case(own)
            print("%s: %.1f s" % (name, time.monotonic() - start), flush=True)
        except Wrong as wrong:
            failed += 1
            print("%s: WRONG: %s" % (name, wrong), flush=True)
        shutil.rmtree(own)
    print("%d cases, %d wrong" % (done, failed))
    sys.exit(1 if failed else 0)


def path_in(folder, name):
    """A path whose folder is there."""
    path = os.path.join(folder, name)
    os.makedirs(os.path.dirname(path), exist_ok=True)
    return path
