"""Figures that measurements share: the time and the memory of a program's run, and what a server is loaded with."""
import os
import re
import subprocess
import sys
import time

UNITS = {"": 1.0, "K": 1024.0, "M": 1024.0**2, "G": 1024.0**3}


def fastest(words):
    """The seconds and the most memory, in MiB, of the fastest of five runs, and what the last printed."""
    best = None
    for _ in range(5):
        start = time.monotonic()
        child = subprocess.Popen(words, stdout=subprocess.PIPE)
        said = child.stdout.read().decode()
        _, status, usage = os.wait4(child.pid, 0)
        took = time.monotonic() - start
        if status != 0:
            sys.exit("%s ended with %d: %s" % (words[0], status, said))
        if best is None or took < best[0]:
            best = (took, usage.ru_maxrss / 1024)
    return best[0], best[1], said


def load(port, target, links, seconds=1):
    """The requests and the bytes of a second, by `wrk` over some connections."""
    line = ["wrk", "-t", str(min(links, 2)), "-c", str(links), "-d", "%ds" % seconds, "--timeout", "60s"]
    line.append("http://127.0.0.1:%d%s" % (port, target))
    said = subprocess.run(line, check=True, capture_output=True, text=True).stdout
    if "Non-2xx" in said or "Socket errors" in said:
        sys.exit("%s: %s" % (target, said))
    requests = float(re.search(r"Requests/sec: +([0-9.]+)", said)[1])
    count, unit = re.search(r"Transfer/sec: +([0-9.]+)([KMG]?)B", said).groups()
    return {"requests": requests, "bytes": float(count) * UNITS[unit]}
