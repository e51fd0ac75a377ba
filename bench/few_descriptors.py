"""300 connections to a server of 64 descriptors; bench/few_descriptors.sh says how."""
import os
import resource
import socket
import sys
import time

from local_server import Server
from serve_replies import file_of, name_of

LINKS, DESCRIPTORS = 300, 64
REQUEST = b"GET /thredds/dodsC/gfs/gfs_best.ncd.dds HTTP/1.1\r\nHost: here\r\nConnection: close\r\n\r\n"


def asked(port):
    """A connection over which a structure text was asked for."""
    link = socket.create_connection(("127.0.0.1", port), 30)
    link.sendall(REQUEST)
    return link


def reply_of(link):
    """All that comes until the other side closes."""
    parts = []
    while True:
        part = link.recv(65_536)
        if not part:
            break
        parts.append(part)
    link.close()
    return b"".join(parts)


def most_held(server):
    """How many descriptors a server has in use, once those are all that it may have, or after five seconds."""
    most, limit = 0, time.monotonic() + 5
    while most < DESCRIPTORS and time.monotonic() < limit:
        most = max(most, len(os.listdir("/proc/%d/fd" % server.process.pid)))
        time.sleep(0.01)
    return most


def lines_of_links(said):
    """What a server told of its connections, without the times."""
    with open(said) as file:
        lines = [line.split(" ", 1)[1] for line in file.read().splitlines()]
    return [line for line in lines if "connection" in line and not line.startswith("serving ")]


def check_told(server, said):
    """It has to be told that no connection can be taken, and then that they are taken again, each once. The one worker
    that tells it has to take one for that, so some more are asked for."""
    place = "127.0.0.1:%d" % server.port
    right = ["failing %s: no connection can be taken: Too many open files (os error 24)" % place,
             "working %s: connections are taken again" % place]
    for _ in range(100):
        if lines_of_links(said) == right:
            return
        reply_of(asked(server.port))
        time.sleep(0.05)
    sys.exit("of connections it says %r, not %r" % (lines_of_links(said), right))


def main():
    program, folder = os.path.abspath(sys.argv[1]), sys.argv[2]
    said = os.path.join(folder, "said")
    with open(said, "wb") as error:
        server = Server(program, folder, file_of(0), 2, error=error)
    server.arrive(name_of(0), file_of(0))
    resource.prlimit(server.process.pid, resource.RLIMIT_NOFILE, (DESCRIPTORS, DESCRIPTORS))
    links = [asked(server.port) for _ in range(LINKS)]
    held = most_held(server)
    replies = [reply_of(link) for link in links]
    replies.append(reply_of(asked(server.port)))
    wrong = sum(reply != replies[-1] for reply in replies)
    if wrong or not replies[-1].startswith(b"HTTP/1.1 200 "):
        sys.exit("%d of %d replies are wrong" % (wrong, LINKS))
    if held < DESCRIPTORS:
        sys.exit("only %d of %d descriptors were in use at once" % (held, DESCRIPTORS))
    check_told(server, said)
    print("%d connections were served with %d descriptors, all of which were in use" % (LINKS, DESCRIPTORS))


main()
