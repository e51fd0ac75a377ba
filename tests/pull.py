#!/usr/bin/env python3
"""Compares what `fmrcd pull` says with what a slow reader finds in the same reply, and with the faults of other peers.

Use: tests/pull.py PROGRAM ADDRESS, where a server of the sample files listens at the address.
"""
import contextlib
import re
import socket
import subprocess
import sys
import threading
import time
import urllib.request

PROGRAM, ADDRESS = sys.argv[1:]
BASE = "/thredds/dodsC/gfs/"
BEST = BASE + "gfs_best.ncd.dods"
TARGETS = [BEST, BEST + "?time", BEST + "?t[0:1][1][0:1],time_run", BEST + "?t.t", BEST + "?lat,lon",
           BASE + "runs/gfs_RUN_20240101T060000Z.dods", BASE + "offset/gfs_Offset_21600s.dods?t"]
WIDTH = {"Byte": 1, "Int16": 2, "Int32": 4, "Float32": 4, "Float64": 8, "String": 0}
ARRAY = re.compile(rf"({'|'.join(WIDTH)}) ([\w-]+)((?:\[[\w-]+ = \d+\])*);")
failures = []


def line_of(body):
    """The line of a body, which is taken apart array by array."""
    text, data = body.split(b"Data:\n", 1)
    text = text.decode()
    values = total = at = 0
    arrays = ARRAY.findall(text)
    for kind, _, dims in arrays:
        sizes = [int(size) for size in re.findall(r"= (\d+)\]", dims)]
        count = 1
        for size in sizes:
            count *= size
        values += count
        at += 4 * bool(sizes) * (1 if kind == "String" else 2)
        step = 1 if kind == "Byte" and sizes else max(WIDTH[kind], 4)
        for _ in range(count):
            if kind == "String":
                at += 4 + -(-int.from_bytes(data[at:at + 4], "big") // 4) * 4
            else:
                total += int.from_bytes(data[at:at + step], "big") % 2 ** (8 * WIDTH[kind])
                at += step
        at += -at % 4
    assert at == len(data), (at, len(data))
    label = re.search(r"} ([^ ]+);\n$", text)[1]
    return f"label {label} parts {len(arrays)} values {values} sum {total % 2 ** 32}\n"


def pull(name, address, target, status, line):
    """Runs the command, and notes where its status or its line is another."""
    run = subprocess.run([PROGRAM, "pull", "--connect", address, target], capture_output=True, timeout=90, check=False)
    if (run.returncode, run.stdout.decode(), run.stderr) != (status, line, b""):
        failures.append(f"{name}: status {run.returncode}, {run.stdout!r}, {run.stderr!r}; not {status}, {line!r}")


def peer(reply, asked, pieces):
    """A peer of one connection, which sends a reply and ends it. Returns its port."""
    listener = socket.create_server(("127.0.0.1", 0))

    def serve():
        link = listener.accept()[0]
        with listener, link, contextlib.suppress(OSError):
            while not asked.endswith(b"\r\n\r\n"):
                asked.extend(link.recv(4096) or b"\r\n\r\n")
            for from_byte in range(0, len(reply), pieces):
                link.sendall(reply[from_byte:from_byte + pieces])
                time.sleep(0.01)
    threading.Thread(target=serve, daemon=True).start()
    return listener.getsockname()[1]


def pull_of_peer(name, reply, status, line, pieces=1 << 20, host="127.0.0.1"):
    """Pulls from a peer with this reply, and compares what it was asked."""
    asked = bytearray()
    address = f"{host}:{peer(reply, asked, pieces)}"
    pull(name, address, "/x?y", status, line)
    if asked != f"GET /x?y HTTP/1.1\r\nHost: {address}\r\nConnection: close\r\n\r\n".encode():
        failures.append(f"{name}: asked {bytes(asked)!r}")


def refused(code):
    return f"bad reply code {code}\n"


for target in TARGETS:
    with urllib.request.urlopen(f"http://{ADDRESS}{target}") as reply:
        pull(target, ADDRESS, target, 0, line_of(reply.read()))
pull("a name of no dataset", ADDRESS, BASE + "none.dods", 12, refused(85))
pull("a structure alone", ADDRESS, BASE + "gfs_best.ncd.dds", 12, refused(81))

with urllib.request.urlopen(f"http://{ADDRESS}{BEST}") as reply:
    body = reply.read()
head = b"HTTP/1.1 200 OK\r\nContent-Length: %d\r\n\r\n"
whole = head % len(body) + body
pull_of_peer("a reply in pieces", whole, 0, line_of(body), pieces=101)
pull_of_peer("a peer by its name", whole, 0, line_of(body), host="localhost")
pull_of_peer("a reply without carriage returns", whole.replace(b"\r", b"", 3), 0, line_of(body))
pull_of_peer("a body that is cut", head % len(body) + body[:-1], 12, refused(86))
pull_of_peer("a body that lacks a byte", head % (len(body) - 1) + body[:-1], 12, refused(81))
pull_of_peer("a head that is cut", whole[:20], 12, refused(86))
pull_of_peer("nothing", b"", 12, refused(86))
pull_of_peer("no head", b"hello\n\n", 12, refused(82))
pull_of_peer("an endless head", b"HTTP/1.1 200 OK\r\n" + b"a: b\r\n" * 4000, 12, refused(82))
pull_of_peer("no length", b"HTTP/1.1 200 OK\r\n\r\n" + body, 12, refused(83))
pull_of_peer("chunks", b"HTTP/1.1 200 OK\r\nTransfer-Encoding: chunked\r\n\r\n0\r\n\r\n", 12, refused(83))
pull_of_peer("a long body", head % (2 ** 26 + 1), 12, refused(84))
pull_of_peer("a status of its own", whole.replace(b"200 OK", b"206 Partial Content", 1), 12, refused(85))
with socket.create_server(("127.0.0.1", 0)) as closed:
    port = closed.getsockname()[1]
pull("nobody", f"127.0.0.1:{port}", "/x", 9, "link fault\n")

for failure in failures:
    print(failure, file=sys.stderr)
print(f"pull over sockets: {len(failures)} wrong")
sys.exit(bool(failures))
