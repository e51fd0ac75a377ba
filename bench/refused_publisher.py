"""What a publisher prints from which memory is kept; bench/refused_publisher.sh says how it is made."""
import os
import struct
import subprocess
import sys

program, folder = sys.argv[1:]
count = os.path.join(folder, "count")
# How many wrong runs of a round are shown. One that hangs takes half a minute, so no more are tried.
SHOWN = 3


def refused(call, which="REFUSE_CALL"):
    """What the program prints where this request for memory is refused, and how many requests it made."""
    given = dict(os.environ, LD_PRELOAD=os.path.join(folder, "refused.so"), REFUSE_COUNT=count)
    given[which] = str(call)
    try:
        ran = subprocess.run([program], env=given, capture_output=True, timeout=30, check=False)
        found = ran.returncode, ran.stdout
    except subprocess.TimeoutExpired:
        found = "hangs", b""
    with open(count, "rb") as file:
        return found, struct.unpack("l", file.read(8))[0]


def wrong_runs(requests, which, what, is_right):
    """How many runs are wrong, of those in which a request is refused in this way, one for each."""
    wrong = 0
    for call in range(1, requests + 1):
        found, _ = refused(call, which)
        if not is_right(found):
            print("%s %d refused: %r" % (what, call, found), flush=True)
            wrong += 1
            if wrong == SHOWN:
                break
    return wrong


def main():
    right, requests = refused(0)
    print("%r: %d requests for memory" % (right, requests), flush=True)
    if requests == 0 or right[0] != 0 or not right[1].endswith(b" 0 wrong\n"):
        return 1
    wrong = wrong_runs(requests, "REFUSE_CALL", "request", lambda found: found == right)
    print("each request refused in turn: %d wrong" % wrong, flush=True)
    stuck = wrong_runs(requests, "REFUSE_FROM", "all from request", lambda found: found[0] == 0)
    print("each request and all behind it refused in turn: %d wrong" % stuck)
    return wrong + stuck > 0


sys.exit(main())
