"""What a collection holds after each operation, and the reply that shows it. Which operation has which number is what
the server says on standard error. A line has to be that of a file that was brought, or of runs that were too old."""
import calendar
import re
import struct
import threading
import time

from classic import EPOCH, FLOAT, Classic, Variable, axis
from serve_replies import name_of

# The least number of times of a file, the seconds from one to the next, and with how many of the first ones after its
# run it may begin.
TIMES, STEP, FIRSTS = 8, 60, 6
SIDE = 32
DIMENSIONS, VARIABLES = [("time", 0), ("y", SIDE), ("x", SIDE)], [axis(), Variable("v", FLOAT, [0, 1, 2])]
TARGET = b"/thredds/dodsC/gfs/gfs_best.ncd.dods?time,time_run"

NO_ROWS = 404, b'Error {\n    code = 37;\n    message = "no rows";\n};\n'

# For how many seconds a run is kept, the seconds between two looks of the clock, and what is added for a busy machine.
KEEP, TICK, SLACK = 3600, 60, 15

LINE = re.compile(r"\S+ (published|retracted|not held|expired before) (\S+) revision (\d+)(?: held (\d+) rows (\d+))?")
# Lines that say nothing of an operation. Any other line is wrong here.
BESIDE = re.compile(r"\S+ (serving|failing|working|passed over) ")


def times_of(run, shift):
    """The valid times of the file of a run. The shift says by how many steps the first comes after it, and by how many
    times there are more than the least."""
    first = run + STEP * (shift % FIRSTS)
    return range(first, first + STEP * (TIMES + shift // FIRSTS), STEP)


def content_of(run, shift):
    """The file of a run, with this shift."""
    times = times_of(run, shift)
    form = Classic(DIMENSIONS, VARIABLES, records=len(times))
    made, cells = bytearray(form.content([EPOCH + valid for valid in times])), cells_of(run, shift)
    for number in range(len(times)):
        place = form.begins["v"] + form.record * number
        made[place:place + len(cells)] = cells
    return bytes(made)


def cells_of(run, shift):
    """The values of `v` at each time of a file: each is a number that few other files have."""
    return struct.pack(">f", run // STEP % 10_000 * 100 + shift) * SIDE**2


def rows_in(held):
    """How many times held files have together."""
    return sum(len(times_of(run, shift)) for run, shift in held.items())


def best_of(held):
    """The run that each valid time of the best series is taken from."""
    return {valid: run for run in sorted(held) for valid in times_of(run, held[run])}


def run_of(name):
    """The run in a file's name, in seconds from the epoch."""
    return calendar.timegm(time.strptime(name, "gfs_%Y%m%d_%H%M.nc")) - EPOCH


def kept(held, cutoff):
    """What is left of held files without the runs before a moment."""
    return {run: shift for run, shift in held.items() if EPOCH + run >= cutoff}


def reply_of(held):
    """The status and the body of the best series over held files, which are the shift of each run."""
    best = best_of(held)
    if not best:
        return NO_ROWS
    count = len(best)
    lines = b"    Int32 time[time = %d];\n    Int32 time_run[time = %d];\n" % (count, count)
    return 200, b"Dataset {\n" + lines + b"} gfs_best.ncd;\nData:\n" + array(sorted(best)) + array(
        [best[valid] for valid in sorted(best)])


def array(values):
    return struct.pack(">II%di" % len(values), len(values), len(values), *values)


class Log:
    """One life of a server: what it says that it did, and the reply at each revision."""

    def __init__(self, brought, fail):
        # The file that was last brought for each run, as its shift, and what takes a text on what is wrong.
        self.brought, self.fail = brought, fail
        self.lock, self.start = threading.Lock(), time.time()
        self.states, self.replies = [{}], [reply_of({})]
        # When each run was published last.
        self.came = {}
        # Operations whose line came before that of the one before them, and replies whose revision has no line yet.
        self.early, self.waiting = {}, []
        # The verdict on each name that had one, with its number, and how many operations let runs go.
        self.verdicts, self.expiries = {}, 0
        # Once the server was killed: the reply that a client may have got without a line.
        self.last = None

    def held(self):
        return self.states[-1]

    def follow(self, stream):
        """Reads the server's lines until it ends."""
        for line in stream:
            text = line.decode().rstrip("\n")
            found = LINE.fullmatch(text)
            if found:
                try:
                    self.take(*found.groups())
                except (KeyError, ValueError) as error:
                    self.fail("the line %r: %r" % (text, error))
            elif not BESIDE.match(text):
                self.fail("the line %r" % text)

    def take(self, word, subject, number, files, rows):
        """Takes what a line says. The lines of two workers may stand in another order than their numbers."""
        number = int(number)
        if word == "expired before":
            cutoff = calendar.timegm(time.strptime(subject, "%Y-%m-%dT%H:%M:%SZ"))
            if not 0 <= time.time() - KEEP - cutoff <= SLACK:
                raise ValueError("it isn't %d seconds ago" % KEEP)
            self.add(number, (word, cutoff))
            return
        run = run_of(subject)
        if word == "published":
            self.add(number, (word, run, self.brought[run], int(files), int(rows)))
        elif word == "retracted":
            self.add(number, (word, run))
        self.verdicts[subject] = word, number

    def add(self, number, operation):
        """An operation with its number. It counts once each one before it is there."""
        with self.lock:
            if number < len(self.states) or number in self.early:
                raise ValueError("the number came before")
            self.early[number] = operation
            while len(self.states) in self.early:
                self.do(*self.early.pop(len(self.states)))

    def do(self, word, what, *more):
        """The next operation: what is held after it, and the reply. Replies that waited for it are compared."""
        number, before = len(self.states), self.held()
        if word == "expired before":
            held = kept(before, what)
            self.expiries += 1
        else:
            held = {run: shift for run, shift in before.items() if run != what}
        if word != "published" and held == before:
            self.fail("revision %d: nothing went" % number)
        if word == "published":
            held[what] = self.published(what, more[0], more[2] - rows_in(held))
            self.came[what] = time.time()
            if more[1:] != (len(held), rows_in(held)):
                self.fail("revision %d: %d files, and the line says %r" % (number, len(held), more[1:]))
        self.states.append(held)
        self.replies.append(reply_of(held))
        waiting, self.waiting = self.waiting, []
        for revision, reply in waiting:
            self.compare(revision, reply)

    def published(self, _run, brought, _times):
        """The shift of the file that was published, which has this number of times."""
        return brought

    def saw(self, revision, reply):
        """A client got a reply at a revision."""
        with self.lock:
            self.compare(revision, reply)

    def compare(self, revision, reply):
        """Compares a reply with the one at its revision, or lets it wait for the line, which may come later."""
        if revision >= len(self.states) and not self.last:
            self.waiting.append((revision, reply))
        elif not self.is_right(revision, reply):
            self.fail("revision %d of %d: status %d, %r" % (revision, len(self.replies), reply[0], reply[1][-60:]))

    def is_right(self, revision, reply):
        """Whether a reply is the one at its revision."""
        return reply == (self.replies + [self.last])[min(revision, len(self.replies))]

    def end(self):
        """The server was killed, and its lines were read. Runs may have gone at that moment without a line."""
        with self.lock:
            self.last = reply_of(kept(self.held(), time.time() - KEEP))
            waiting, self.waiting = self.waiting, []
            for revision, reply in waiting:
                self.compare(revision, reply)
            if self.early:
                self.fail("no line has the revision %d" % len(self.states))

    def overdue(self):
        """The runs that should have gone when the clock looked last. One that is published after that look goes at the
        next."""
        now = time.time()
        if now < self.start + TICK + SLACK:
            return []
        return [name_of(run) for run in self.held()
                if max(EPOCH + run + KEEP, self.came[run]) + TICK + SLACK < now]
