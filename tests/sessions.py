#!/usr/bin/env python3
"""Writes crates/rows/data/replies/sessions.rows: 200 random lists of 60 events over three sessions, and what is sent.

A slow machine answers each question about a session from all the bytes that it was fed. A connection sends requests of
each kind: one with data, a method that isn't taken, a name of no dataset, a HEAD, one that ends its connection, and no
request.
"""
from struct import pack

LISTS, EVENTS, SESSIONS = 200, 60, 3
BEST = "/thredds/dodsC/gfs/gfs_best.ncd"
STREAM = "".join(line + "\r\n\r\n" for line in (
    f"GET {BEST}.dds HTTP/1.1", f"PUT {BEST}.dds HTTP/1.1", "GET /nowhere.dds HTTP/1.1",
    f"GET {BEST}.dods?time HTTP/1.1", f"\r\nHEAD {BEST}.das HTTP/1.1", f"GET {BEST}.dds?none HTTP/1.0", "no request"))
# The files of two runs, and the seconds of their times from 2020 on.
FILES = {"gfs_20240101_0000.nc": "A.nc", "gfs_20240101_0600.nc": "B.nc"}
FIRST, SECOND = FILES
RUNS = {FIRST: 126230400, SECOND: 126252000}
STEP, DAS = 21600, 530


def times_of(held):
    return sorted({RUNS[name] + k * STEP for name in held for k in range(3)})


def structure(n):
    place = f"[time = {n}][lat = 2][lon = 2]"
    axes = ("Float32 lat[lat = 2];", "Float32 lon[lon = 2];")
    lines = [f"Int32 time[time = {n}];", *axes, "Grid {", "    ARRAY:", f"        Float32 t{place};", "    MAPS:",
             f"        Int32 time[time = {n}];", *("        " + axis for axis in axes), "} t;",
             f"Int32 time_run[time = {n}];", f"Int32 time_offset[time = {n}];"]
    return dataset(lines)


def dataset(lines):
    return "Dataset {\n" + "".join(f"    {line}\n" for line in lines) + "} gfs_best.ncd;\n"


def reply(status, kind, body, revision, last, more=(), length=None, is_head=False):
    what = "application/octet-stream" if kind == "dods_data" else "text/plain"
    head = [f"HTTP/1.1 {status}", "XDODS-Server: dods/3.2", f"Content-Description: {kind}", f"Content-Type: {what}",
            f"X-Collection-Revision: {revision}", f"Content-Length: {len(body) if length is None else length}",
            f"Connection: {'close' if last else 'keep-alive'}", *more, "", ""]
    return "\r\n".join(head).encode() + (b"" if is_head else body)


def fault(status, code, message, revision, last, more=(), is_head=False):
    body = f'Error {{\n    code = {code};\n    message = "{message}";\n}};\n'.encode()
    return reply(status, "dods_error", body, revision, last, more, is_head=is_head)


def refusal(head):
    """What is said without a look, or None."""
    if head == "no request":
        return "400 Bad Request", 38, "bad request", ()
    if head.startswith("PUT"):
        return "405 Method Not Allowed", 35, "method not taken", ("Allow: GET, HEAD",)
    if "/nowhere" in head:
        return "404 Not Found", 32, "no such dataset", ()
    return None


def answer(head, held, revision, last):
    """The reply to a request for the best time series."""
    is_head, times = head.startswith("HEAD"), times_of(held)
    if not times:
        return fault("404 Not Found", 37, "no rows", revision, last, is_head=is_head)
    if "?none" in head:
        return fault("400 Bad Request", 23, "no variable none", revision, last)
    if is_head:
        return reply("200 OK", "dods_das", b"", revision, last, length=DAS, is_head=True)
    if "?time" in head:
        count = pack(">I", len(times))
        body = dataset([f"Int32 time[time = {len(times)}];"]) + "Data:\n"
        data = count + count + b"".join(pack(">i", time) for time in times)
        return reply("200 OK", "dods_data", body.encode() + data, revision, last)
    return reply("200 OK", "dods_dds", structure(len(times)).encode(), revision, last)


def heads_in(fed):
    """All heads in some bytes. Empty lines before a head don't count."""
    heads = []
    while True:
        fed = fed[2:] if fed.startswith("\r\n") else fed
        if fed.startswith("\r\n"):
            continue
        head, end, rest = fed.partition("\r\n\r\n")
        if not end:
            return heads
        heads.append(head)
        fed = rest
        if head == "no request":
            return heads


class Talk:
    """A session: all that it was fed, all replies that were begun, and how many of them."""

    def __init__(self):
        self.fed, self.script, self.begun, self.sent, self.seen, self.ended = "", b"", 0, 0, 0, False

    def left(self):
        return len(self.script) - self.sent

    def waits(self):
        return self.left() == 0 and not self.ended and len(heads_in(self.fed)) == self.begun

    def next(self):
        heads = heads_in(self.fed)
        return heads[self.begun] if self.begun < len(heads) else None

    def is_last(self, head):
        return head.endswith("1.0") or head == "no request"

    def begin(self, bytes_):
        self.script += bytes_
        self.begun += 1

    def settle(self):
        if self.left() > 0:
            return
        self.ended = self.ended or (self.begun > 0 and self.is_last(heads_in(self.fed)[self.begun - 1]))
        head = None if self.ended else self.next()
        if head is not None and refusal(head):
            status, code, message, more = refusal(head)
            self.begin(fault(status, code, message, self.seen, self.is_last(head), more))

    def happen(self, what, given, held, revision):
        if what == "look" and self.left() == 0 and not self.ended:
            head = self.next()
            if head is not None and not refusal(head):
                self.seen = revision
                self.begin(answer(head, held, revision, self.is_last(head)))
        elif what == "learn" and given <= revision:
            self.seen = max(self.seen, given)
        elif what == "bytes" and self.waits():
            self.fed += given
        elif what == "sent" and given <= self.left() and not self.ended:
            self.sent += given
        elif what == "end":
            self.ended = self.ended or self.waits()
        elif what == "fault":
            self.ended = self.ended or self.left() > 0 or self.waits()
        self.settle()


class Random:
    """A random number, and how far each session has come in the stream."""

    def __init__(self, seed):
        self.x, self.offsets = seed, [0] * SESSIONS

    def next(self):
        self.x = (self.x * 1664525 + 1013904223) % 2**32
        return self.x >> 8

    def piece(self, number, waits):
        count = 1 + self.next() % 90
        if number == SESSIONS:
            return "?"
        piece = STREAM[self.offsets[number]:][:count]
        if waits:
            self.offsets[number] += len(piece)
        return piece

    def event(self, talks):
        """A kind of event, the number of a session that is there or isn't, and what else is said."""
        number = SESSIONS if self.next() % 16 == 0 else self.next() % SESSIONS
        left, waits = (talks[number].left(), talks[number].waits()) if number < SESSIONS else (0, False)
        kind = self.next() % 64
        if kind < 8:
            return ("put", "put", "put", "put", "later", "later", "expire", "retract")[kind], None, None
        if kind < 24:
            return "look", number, None
        if kind < 27:
            return "learn", number, self.next() % 6
        if kind < 43:
            return "bytes", number, self.piece(number, waits)
        if kind < 62:
            return "sent", number, (left, left, left + 1, left // 2)[self.next() % 4]
        return ("end" if kind == 62 else "fault"), number, None


def shown(text):
    """Bytes of a stream on one line."""
    text = text.replace("\r", "\\r").replace("\n", "\\n")
    if text.startswith(" "):
        text = "\\x20" + text[1:]
    return text[:-1] + "\\x20" if text.endswith(" ") else text


def lines_of(sent):
    """Sent bytes as lines."""
    text = ""
    for byte in sent:
        sign = chr(byte)
        text += {"\n": "\n", "\r": "\\r", "\\": "\\\\"}.get(sign, sign if 32 <= byte < 127 else f"\\x{byte:02x}")
    return (text[:-1] if text.endswith("\n") else text + " (no line end)" if text else text).split("\n")


def after(held, what):
    """What is held after an operation."""
    if what in ("put", "later"):
        name = FIRST if what == "put" else SECOND
        return [other for other in held if other != name] + [name]
    # Runs before 2024-01-01T00:00:01Z expire, or the first is taken back.
    return [name for name in held if name != FIRST]


WORDS = {"put": f"put {FIRST} {FILES[FIRST]}", "later": f"put {SECOND} {FILES[SECOND]}",
         "expire": "expire 2024-01-01T00:00:01Z", "retract": f"retract {FIRST}"}


def run(seed):
    random, talks, held, revision = Random(seed), [Talk() for _ in range(SESSIONS)], [], 0
    events = []
    for _ in range(EVENTS):
        what, number, given = random.event(talks)
        if what in WORDS:
            events.append(WORDS[what])
            held = after(held, what)
            revision += 1
            continue
        events.append(" ".join([what, str(number)] + ([] if given is None else [shown(str(given))])))
        if number < SESSIONS:
            talks[number].happen(what, given, held, revision)
    return events, talks, revision


def main():
    with open("crates/rows/data/replies/sessions.rows", "w") as out:
        out.write("# 200 random lists of 60 events over three sessions (written by tests/sessions.py, which answers "
                  "each question\n# about a session from all the bytes that it was fed).\n")
        for seed in range(LISTS):
            events, talks, revision = run(seed)
            out.write(f"\nname: random events {seed}\nprototype: A.nc\nsessions: {SESSIONS}\n")
            out.write("".join(f"event: {event}\n" for event in events))
            out.write(f"want: operations {revision}\n")
            for number, talk in enumerate(talks):
                sent = talk.script[:talk.sent]
                out.write(f"| session {number} has seen {talk.seen}, and was sent {len(sent)} bytes\n")
                if sent:
                    out.write("".join(f"| {line}\n" for line in lines_of(sent)))


main()
