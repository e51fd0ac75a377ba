"""Writes the seeds of the fuzzer: the sample files and those that rows describe, and the requests of rows."""
import glob
import os
import re
import sys

TOP, OUT = sys.argv[1:]
ROWS = os.path.join(TOP, "crates/rows/data")
MOST = 65536
FILE_KEYS = ("header", "layout", "elements", "prototype", "load", "over", "file", "put")


def rows_in(folder):
    """The fields of all rows of a folder, as keys and values."""
    for path in sorted(glob.glob(os.path.join(ROWS, folder, "*.rows"))):
        with open(path, encoding="utf-8") as file:
            for line in file.read().replace("\n| ", " ").splitlines():
                key, found, value = line.partition(":")
                if found and not line.startswith("#"):
                    yield key, value.strip()


def named():
    """The files that rows begin from, by their names."""
    paths = glob.glob(os.path.join(ROWS, "*.nc")) + glob.glob(os.path.join(ROWS, "*", "*.nc"))
    return {os.path.basename(path): open(path, "rb").read() for path in paths}


def content(files, words):
    """The bytes that a description stands for, or None where it is none, or one of more bytes than a seed has."""
    words = words.split()
    first = words.pop(0) if words else ""
    try:
        made = bytearray(bytes.fromhex(words.pop(0)) if first == "hex" else files[first])
        while words:
            what = words.pop(0)
            if what == "at":
                at, part = int(words.pop(0)), bytes.fromhex(words.pop(0))
                made[at:at + len(part)] = part
            elif what == "cut":
                del made[int(words.pop(0)):]
            else:
                times = int(words.pop(0)) if what == "fill" else 1
                part = bytes.fromhex(words.pop(0))
                if times * len(part) > MOST:
                    return None
                made += part * times
    except (KeyError, ValueError, IndexError):
        return None
    return bytes(made) if len(made) <= MOST else None


def unescaped(text):
    """The bytes that a value stands for."""
    text = re.sub(rb"\\x([0-9a-f]{2})|\\r|\\n", lambda found: bytes.fromhex(found[1].decode()) if found[1]
                  else {b"\\r": b"\r", b"\\n": b"\n"}[found[0]], text.encode())
    return text


def write(folder, seeds):
    os.makedirs(os.path.join(OUT, folder), exist_ok=True)
    for number, seed in enumerate(sorted(set(seeds), key=lambda seed: (len(seed), seed))):
        with open(os.path.join(OUT, folder, "%04d" % number), "wb") as file:
            file.write(seed)


def file_seeds():
    files = named()
    found = [seed for seed in files.values() if len(seed) <= MOST]
    for folder in ("files", "commands"):
        for key, value in rows_in(folder):
            if key in FILE_KEYS:
                value = value.split(" ", 1)[-1] if key in ("file", "put") else value
                found.append(content(files, value))
    return [seed for seed in found if seed]


def stream_seeds():
    found = []
    for key, value in rows_in("texts"):
        if key == "target":
            found.append(b"GET " + unescaped(value) + b" HTTP/1.1\r\n\r\n")
        elif key == "constraint":
            found.append(b"GET /thredds/dodsC/gfs/gfs_best.ncd.dods?" + unescaped(value) + b" HTTP/1.1\r\n\r\n")
        elif key in ("head", "input"):
            found.append(unescaped(value))
    for key, value in rows_in("commands"):
        if key == "ask":
            found.append(unescaped(value) + b"\r\n\r\n")
    return [seed for seed in found if seed and len(seed) <= MOST]


write("files", file_seeds())
write("streams", stream_seeds())
