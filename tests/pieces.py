#!/usr/bin/env python3
"""Writes crates/rows/data/commands/pieces.rows: two requests cut at every length, the first one cut short at every
offset, and both over a link of which each call fails in turn."""

FIRST = "GET /thredds/dodsC/gfs/gfs_best.ncd.dds HTTP/1.1"
SECOND = "GET /thredds/dodsC/gfs/gfs_best.ncd.dods?time%5B0:2:2%5D HTTP/1.1"
PATH = "gfs_20240101_0000.nc"

CRLF = "\r\n"

# How many bytes the two requests have, each with its line end and an empty line.
LENGTHS = [len(FIRST) + 4, len(SECOND) + 4]

STRUCTURE = b"""Dataset {
    Int32 time[time = 3];
    Float32 lat[lat = 2];
    Float32 lon[lon = 2];
    Grid {
        ARRAY:
            Float32 t[time = 3][lat = 2][lon = 2];
        MAPS:
            Int32 time[time = 3];
            Float32 lat[lat = 2];
            Float32 lon[lon = 2];
    } t;
    Int32 time_run[time = 3];
    Int32 time_offset[time = 3];
} gfs_best.ncd;
"""
DATA = b"""Dataset {
    Int32 time[time = 2];
} gfs_best.ncd;
Data:
""" + bytes.fromhex("0000000200000002 07861f80 0786c840")


def reply(kind, media, body):
    lines = [
        "HTTP/1.1 200 OK", "XDODS-Server: dods/3.2", f"Content-Description: {kind}", f"Content-Type: {media}",
        "X-Collection-Revision: 1", f"Content-Length: {len(body)}", "Connection: keep-alive", "", ""]
    return "\r\n".join(lines).encode() + body


REPLIES = [reply("dods_dds", "text/plain", STRUCTURE), reply("dods_data", "application/octet-stream", DATA)]


def shown(sent):
    """What was sent, as rows show it."""
    text, mark, data = sent.partition(b"Data:\n")
    for line in (text + mark).decode().splitlines(keepends=True):
        line = line.replace("\r", "\\r")
        yield line[:-1] if line.endswith("\n") else line + "\\"
    if data:
        words = data.hex(" ", 4) if len(data) % 4 == 0 else data.hex(" ", -4)
        yield words


def escaped(text):
    """A text as the value of a row."""
    text = text.replace("\r", "\\r").replace("\n", "\\n")
    return text[:-1] + "\\x20" if text.endswith(" ") else text


def row(name, given, want, sent):
    yield ""
    yield f"name: {name}"
    yield f"words: once --name gfs --proto {PATH} put:{PATH} ask:2"
    yield f"file: {PATH} A.nc"
    yield from given
    yield f"want: {want}"
    if sent:
        yield "| -- sent"
        yield from (f"| {line}" for line in shown(sent))


def sent_before(call, most_taken, most_put):
    """What is sent before a call of the link, where takes and puts are counted together from 1."""
    taken, calls, sent = 0, 0, b""
    for index, whole in enumerate(REPLIES):
        while taken < sum(LENGTHS[:index + 1]):
            calls += 1
            if calls == call:
                return sent
            taken += most_taken
        for begin in range(0, len(whole), most_put):
            calls += 1
            if calls == call:
                return sent
            sent += whole[begin:begin + most_put]
    raise ValueError(f"call {call} isn't made")


def rows():
    both = [f"ask: {FIRST}", f"ask: {SECOND}"]
    yield "# Links that are cut or fail at every offset in turn (written by tests/pieces.py)."
    yield ""
    yield "# The replies are the same however the input is cut."
    for most in range(1, sum(LENGTHS) + 1):
        name = f"input in pieces of {most} of {sum(LENGTHS)} bytes"
        yield from row(name, both + [f"take: {most}"], "status 0", b"".join(REPLIES))
    yield ""
    yield "# Nothing is sent where the input ends within a request."
    for count in range(1, LENGTHS[0]):
        given = f"input: {escaped((FIRST + CRLF + CRLF)[:count])}"
        yield from row(f"input that ends after {count} bytes of a request", [given], "status 11: input ended", b"")
    yield ""
    yield "# Of 18 takes of at most 7 bytes and 9 puts of at most 100 each fails in turn."
    for call in range(1, 28):
        given = both + ["take: 7", "put: 100", f"link fails: {call}"]
        name = f"a link whose call {call} of 27 fails was sent a front of the replies"
        yield from row(name, given, "status 9: link fault", sent_before(call, 7, 100))


print("\n".join(rows()))
