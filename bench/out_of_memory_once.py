"""Runs of `once` from which memory is kept; bench/out_of_memory.sh says how."""
import os
import resource
import shutil
import struct
import subprocess
import sys

from out_of_memory import (ENOUGH, FIRST, FOLDER, LATER, LIBRARY, PROGRAM, SORRY, STEP, data, end, fail, head,
                           replies_of)


def is_front(output, right):
    """Whether an output is a number of the right replies, and then nothing or the one that memory ran out."""
    replies, rest = replies_of(output)
    if replies and replies[-1] == SORRY:
        replies.pop()
    return rest == b"" and replies == right[:len(replies)]


class Run:
    """A run of `once`: its words and its input, and what it does where there is memory."""

    def __init__(self, name, steps, requests):
        self.name = name
        self.words = [PROGRAM, "once", "--name", "gfs", "--proto", data(FIRST)] + steps
        self.asked = b"".join(requests)
        status, self.output, said, self.requests = self.refused(0)
        self.right, rest = replies_of(self.output)
        if (status, said, rest) != (0, b"", b"") or len(self.right) != len(requests):
            sys.exit("%s: status %d, %r" % (name, status, said))

    def run(self, **how):
        child = subprocess.run(self.words, input=self.asked, stdout=subprocess.PIPE, stderr=subprocess.PIPE, **how)
        return child.returncode, child.stdout, child.stderr

    def refused(self, call):
        """The run where this request for memory is refused, and how many it made."""
        count = os.path.join(FOLDER, "count")
        given = dict(os.environ, LD_PRELOAD=LIBRARY, REFUSE_CALL=str(call), REFUSE_COUNT=count)
        found = self.run(env=given)
        with open(count, "rb") as file:
            return found + struct.unpack("l", file.read(8))

    def compare(self, what, status, output, said):
        right = (status, said) == (0, b"") and output == self.output or (status, said) == (4, b"no memory\n")
        if not right or not is_front(output, self.right):
            fail("%s, %s: status %d, %r, output %r" % (self.name, what, status, said, output[-120:]))

    def each_request_is_refused(self):
        statuses = {0: 0, 4: 0}
        for call in range(1, self.requests + 1):
            status, output, said, _ = self.refused(call)
            self.compare("request %d" % call, status, output, said)
            statuses[status] = statuses.get(status, 0) + 1
        print("%s: %d requests for memory, each refused in turn: statuses %r" % (self.name, self.requests, statuses))

    def less_and_less_space(self):
        """Makes the address space smaller until the program can't be loaded any more."""
        space, statuses = 4 << 20, {}
        while self.within(space)[0] != 0:
            space *= 2
        if space > ENOUGH:
            fail("%s: %d MiB are not enough" % (self.name, ENOUGH >> 20))
        while True:
            status, output, said = self.within(space)
            if status not in (0, 4):
                break
            self.compare("%d KiB" % (space >> 10), status, output, said)
            statuses[status] = statuses.get(status, 0) + 1
            space -= STEP
        if status != 127 and status >= 0:
            fail("%s, %d KiB: status %d, %r" % (self.name, space >> 10, status, said))
        print("%s: from %d steps of %d KiB down: statuses %r, then the loader's %d" % (
            self.name, sum(statuses.values()), STEP >> 10, statuses, status))

    def within(self, space):
        return self.run(preexec_fn=lambda: resource.setrlimit(resource.RLIMIT_AS, (space, space)))


def large_file():
    """A file of 16 MB over the sample's grid, by holes behind it, whose name has its run."""
    path = os.path.join(FOLDER, "large", FIRST)
    os.makedirs(os.path.dirname(path), exist_ok=True)
    shutil.copy(data(FIRST), path)
    os.truncate(path, 16 << 20)
    return path


RUNS = [
    Run("one reply over two files", ["put:" + data(FIRST), "put:" + data(LATER), "ask:1"],
        [head(b".dods?t%5B1%5D%5B0%5D%5B0%5D")]),
    Run("two replies over one file", ["put:" + data(FIRST), "ask:2"], [head(b".dds"), head(b".dods?time%5B0:2:2%5D")]),
    Run("a file of 16 MB", ["put:" + large_file(), "ask:2"], [head(b".das"), head(b".dods")]),
]
for run in RUNS:
    run.each_request_is_refused()
    run.less_and_less_space()
end()
