#!/usr/bin/env python3
"""Writes crates/rows/data/commands/orders.rows: three links of two requests each, in every order of their turns."""
from itertools import permutations

# A path, and of its reply the length, the code and the message.
ROOT = ("/", 59, 32, "no such dataset")
BEST = ("/thredds/dodsC/gfs/gfs_best.ncd.dds", 51, 37, "no rows")
LINKS = [(ROOT, BEST), (BEST, ROOT), (ROOT, ROOT)]
ORDERS = sorted(set(permutations((0, 0, 1, 1, 2, 2))))

# Each link waits before each of its requests. Or each second take and put would wait, of one byte each.
BEFORE_EACH, BYTE_BY_BYTE = [], ["take: 1", "put: 1", "pause each:"]


def reply(method, request, last):
    _, length, code, message = request
    yield "HTTP/1.1 404 Not Found\\r"
    yield "XDODS-Server: dods/3.2\\r"
    yield "Content-Description: dods_error\\r"
    yield "Content-Type: text/plain\\r"
    yield "X-Collection-Revision: 0\\r"
    yield f"Content-Length: {length}\\r"
    yield f"Connection: {'close' if last else 'keep-alive'}\\r"
    yield "\\r"
    if method == "GET":
        yield from ("Error {", f"    code = {code};", f'    message = "{message}";', "};")


def begin(name, says, fails=None):
    yield ""
    yield f"name: {name}"
    yield "words: serve --name gfs --proto A --listen here --workers 1 in"
    yield "file: A A.nc"
    yield "door:"
    yield f"door says: {says}"
    if fails:
        yield f"door fails: {fails}"


def want(replies, fails=None):
    """What is wanted, with the replies of each link in the order in which links are given back."""
    yield "inbox:"
    if fails:
        yield "want: status 6: door fault 0"
    else:
        yield "want: status 0: published 0 retracted 0 expired 0 held 0 rows 0 revision 0"
    yield "| -- door 0"
    for index, lines in enumerate(replies):
        yield f"| -- link {index}"
        yield from (f"| {line}" for line in lines)
    yield "| -- inbox 0: []"


def row(name, says, given, pieces=BEFORE_EACH, method="HEAD", fails=None):
    yield from begin(name, "comes comes comes " + says, fails)
    for first, last in LINKS:
        yield "link:"
        yield from pieces
        for request in (first, last):
            if not pieces:
                yield "pause:"
            yield f"ask: {method} {request[0]} HTTP/1.1"
        yield "| Connection: close"
    replies = []
    for first, last in (LINKS[link] for link in given):
        replies.append([*reply(method, first, False), *reply(method, last, True)])
    yield from want(replies, fails)


def ended(order):
    return [link for at, link in enumerate(order) if link in order[:at]]


def busy():
    """A link that never waits, and one that comes after it and ends before it."""
    yield from begin("a link that never waits lets another go on after 256 takes", "comes comes 0 0")
    yield "link:"
    yield "take: 1"
    yield f"input: HEAD {BEST[0]} HTTP/1.1\\r\\nX:"
    yield "fill: 300 x"
    yield "input: \\r\\nConnection: close\\r\\n\\r\\n"
    yield "link:"
    yield f"ask: HEAD {ROOT[0]} HTTP/1.1"
    yield "| Connection: close"
    yield from want([[*reply("HEAD", ROOT, True)], [*reply("HEAD", BEST, True)]])


def rows():
    yield "# Three links of a door, each of which waits before each of its two requests, in every order of their turns."
    yield "# What is replied on a link is the same in each; they are given back as they end. tests/orders.py writes"
    yield "# these rows."
    for order in ORDERS:
        says = " ".join(str(link) for link in order)
        yield from row(f"the links go on in the order {says}", says, ended(order))
    yield ""
    yield "# Each second take and each second put would wait, of one byte each."
    says = " ".join(["0 1 2"] * 800)
    yield from row("the links go on byte by byte, one after the other", says, [2, 0, 1], BYTE_BY_BYTE, "GET")
    yield ""
    yield "# Turns of no link, and turns that end before a call would wait."
    says = "7 0 99 1 3 2 0 1000000 1 2"
    yield from row("a key at which there is no link changes nothing", says, [0, 1, 2])
    yield from busy()
    yield ""
    yield "# A door that fails while its links are out: they go on to their ends."
    yield from row("a door that has failed gives its links back as they end", "2 2 1 0 1 0", [2, 1, 0], fails=4)


print("\n".join(rows()))
