"""What a server of a cluster replies at each revision of each of its lives. Each server gets a file at its own time,
and may get a later one in its place instead. So its line says by the number of rows which one it was."""
import struct
import time

from day_oracle import FIRSTS, NO_ROWS, SIDE, TIMES, Log, best_of, cells_of, reply_of

# How many files of a run differ in their number of times before one has as many again.
LENGTHS = 13

BEST = b"/thredds/dodsC/gfs/gfs_best.ncd"
# What is asked of the best series.
TARGETS = {"runs": BEST + b".dods?time,time_run", "structure": BEST + b".dds?time", "values": BEST + b".dods?v"}


def shift_of(number):
    """The shift of the file of a run that comes after this number of others of it."""
    return FIRSTS * (number % LENGTHS) + number % FIRSTS


def body_of(what, held):
    """The status and the body of one of the replies over held files, which are the shift of each run."""
    if what == "runs":
        return reply_of(held)
    best = best_of(held)
    count = len(best)
    if count == 0:
        return NO_ROWS
    if what == "structure":
        return 200, b"Dataset {\n    Int32 time[time = %d];\n} gfs_best.ncd;\n" % count
    line = b"    Float32 v[time = %d][y = %d][x = %d];\n" % (count, SIDE, SIDE)
    cells = {run: cells_of(run, shift) for run, shift in held.items()}
    counts = struct.pack(">II", count * SIDE**2, count * SIDE**2)
    data = counts + b"".join(cells[best[valid]] for valid in sorted(best))
    return 200, b"Dataset {\n" + line + b"} gfs_best.ncd;\nData:\n" + data


class Life(Log):
    """One life of a server: what it says that it did, and whether a reply is the one at its revision. What was brought
    for a run is a list of shifts."""

    def __init__(self, brought, fail, back):
        super().__init__(brought, fail)
        self.begin, self.over = time.monotonic(), None
        # The revision from which on all is held again that was held before, and when each file was published first.
        self.whole, self.times = back, {}

    def lasted(self, first, last):
        """Whether the server lived at a moment between two."""
        return self.begin <= last and (self.over is None or first <= self.over)

    def published(self, run, brought, times):
        """The latest of the files that have this number of times."""
        for shift in reversed(brought):
            if TIMES + shift // FIRSTS == times:
                self.times.setdefault((run, shift), time.monotonic())
                return shift
        raise ValueError("no file of run %d has %d times" % (run, times))

    def after_the_last_line(self):
        """What may be held after one operation whose line was lost, since the server was killed."""
        held = self.held()
        for run, brought in list(self.brought.items()):
            yield {other: shift for other, shift in held.items() if other != run}
            for shift in set(brought):
                yield {**held, run: shift}

    def is_right(self, revision, reply):
        *told, what = reply
        if revision < len(self.states):
            return tuple(told) == body_of(what, self.states[revision])
        return revision == len(self.states) and any(
            tuple(told) == body_of(what, held) for held in self.after_the_last_line())
