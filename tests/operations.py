#!/usr/bin/env python3
"""Writes crates/rows/data/replies/changes.rows: 1,000 operations, and what is held between them, over a plain list.

An operation puts a file of one of 20 names and 10 runs, takes a name back, or lets runs expire, as a recurrence says. A
file has three times, six hours apart, which fall for every second name; so files of a run and runs overlap.
"""
from datetime import datetime, timedelta, timezone

OPERATIONS = 1000
NAMES = range(20)
# A page of an edition ends among the hours.
FIRST_RUN = datetime(2024, 1, 7, tzinfo=timezone.utc)
STEP = timedelta(hours=6)
HOURS = [FIRST_RUN + timedelta(hours=3 * (i - 2)) for i in range(32)]
# Of a file, in bytes, and where its three times lie.
SIZE, PLACES = 352, (292, 312, 332)
# No least offset, at the run, at six hours, and a second more.
LEAST = (None, 0, 21600, 21601)


def said(moment):
    return moment.strftime("%Y-%m-%dT%H:%M:%SZ")


def run_of(k):
    return FIRST_RUN + k // 2 * STEP


def name_of(k):
    return "gfs_%s-%s.nc" % (run_of(k).strftime("%Y%m%d_%H%M"), "ab"[k % 2])


def times_of(k, step):
    first = run_of(k) + timedelta(hours=3 * step - 6)
    times = [first, first + STEP, first + 2 * STEP]
    return times if k % 2 == 0 else times[::-1]


class Collection:
    """The held files in the order in which they came: name, run and times."""

    def __init__(self):
        self.files, self.revision = [], 0

    def keep(self, files):
        if len(files) == len(self.files):
            return "nothing"
        self.files = files
        self.revision += 1
        return "revision %d" % self.revision

    def put(self, k, times):
        self.files = [f for f in self.files if f[0] != name_of(k)] + [(name_of(k), run_of(k), times)]
        self.revision += 1
        return "revision %d" % self.revision

    def expire(self, cutoff):
        return self.keep([f for f in self.files if f[1] >= cutoff])

    def retract(self, name):
        return self.keep([f for f in self.files if f[0] != name])

    def runs(self):
        return sorted({run for _, run, _ in self.files})

    def cell(self, run, valid):
        """The file that came last of those of the run that have the time, and the time's index there."""
        found = [(name, times.index(valid)) for name, own, times in self.files if own == run and valid in times]
        return found[-1] if found else None

    def times(self, run):
        return sorted({time for _, own, times in self.files if own == run for time in times})

    def best(self, valid, least):
        early = [run for run in self.runs() if self.cell(run, valid)
                 and (least is None or (valid - run).total_seconds() >= least)]
        return early[-1] if early else None

    def best_rows(self, least):
        valids = sorted({time for _, _, times in self.files for time in times})
        return [(valid, self.best(valid, least)) for valid in valids if self.best(valid, least)]


def line_of(moments):
    return " ".join(said(moment) for moment in moments) or "none"


def rows_of(held, rows):
    cells = ["%s %s %s %d" % (said(valid), said(run), *held.cell(run, valid)) for valid, run in rows]
    return ["rows %d" % len(rows)] + cells


def yes_or_no(yes):
    return ["yes" if yes else "no"]


def views(held):
    """Questions and answers: how much is held, of which runs, the best rows, and the rows of each run."""
    yield "tally", ["files %d, rows %d, bytes %d" % (len(held.files), 3 * len(held.files), SIZE * len(held.files))]
    yield "runs", [line_of(held.runs())]
    for least in LEAST:
        yield "rows best" + ("" if least is None else " %d" % least), rows_of(held, held.best_rows(least))
    for run in held.runs():
        yield "rows run " + said(run), rows_of(held, [(valid, run) for valid in held.times(run)])


def look_ups(held):
    """The other questions: about each name, each run, each of its cells, and the best run of each hour."""
    for k in NAMES:
        yield "holds " + name_of(k), yes_or_no(any(f[0] == name_of(k) for f in held.files))
    for run in sorted({run_of(k) for k in NAMES}):
        yield "older " + said(run), yes_or_no(any(f[1] < run for f in held.files))
        yield "times " + said(run), [line_of(held.times(run))]
        for valid in HOURS:
            cell = held.cell(run, valid)
            yield "cell %s %s" % (said(run), said(valid)), ["%s %d" % cell if cell else "none"]
    for valid in HOURS:
        for least in LEAST:
            best = held.best(valid, least)
            yield "best %s" % said(valid) + ("" if least is None else " %d" % least), [said(best) if best else "none"]


def numbers():
    a, b, c = 7, 0, 0
    while True:
        a = (5 * a + 17) % 256
        b = (b + a) % 256
        c = (c + b) % 256
        yield a, b, c


def done(held, a, b, c):
    """The line of the operation of some numbers, and what it gives."""
    k = (a ^ c) % len(NAMES)
    if c // 16 == 0:
        return "expire: " + said(run_of(k)), held.expire(run_of(k))
    if c // 16 < 4:
        return "retract: " + name_of(k), held.retract(name_of(k))
    times = times_of(k, b // 32)
    at = " ".join("at %d %08x" % (place, int(time.timestamp())) for place, time in zip(PLACES, times))
    return "put: %s A.nc %s" % (name_of(k), at), held.put(k, times)


def main():
    held, steps, wanted = Collection(), [], []
    for count, given in zip(range(1, OPERATIONS + 1), numbers()):
        line, came = done(held, *given)
        steps.append(line)
        wanted.append(came)
        asked = (list(views(held)) if count % 25 == 0 else []) + (list(look_ups(held)) if count % 500 == 0 else [])
        for question, answer in asked:
            steps.append("ask: " + question)
            wanted += answer
    with open("crates/rows/data/replies/changes.rows", "w") as out:
        out.write("# 1,000 operations on 20 names of ten runs, and what is held after every 25 of them (written by\n"
                  "# tests/operations.py, over a plain list of names and times).\n\n"
                  "name: 1,000 operations and what is held between them\n"
                  "prototype: A.nc\n")
        out.write("\n".join(steps) + "\nwant: " + "\n| ".join(wanted) + "\n")


main()
