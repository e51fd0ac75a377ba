"""What each view shows, worked out from the runs alone; docs/DEFINITIONS.md has the definition."""
import datetime

from runs import COORDINATES, EPOCH, LETTERS, RUNS, SIZES, VARIABLES, at


class View:
    """A view: its name, its path, and its rows. A row is the place of a file in RUNS, and of a time in that file."""

    def __init__(self, name, path, rows, axis="time"):
        self.name, self.path, self.rows = name, path, rows
        self.runs = [RUNS[number].run for number, _ in rows]
        self.valid = [RUNS[number].times[place] for number, place in rows]
        self.axis = self.valid if axis == "time" else self.runs

    def own(self):
        """The values that no file holds: the axis, the runs and the offsets, in seconds."""
        seconds = [(valid - run).total_seconds() for valid, run in zip(self.valid, self.runs)]
        return {
            "time": [int((moment - EPOCH).total_seconds()) for moment in self.axis],
            "time_run": [int((run - EPOCH).total_seconds()) for run in self.runs],
            "time_offset": [int(number) for number in seconds],
        }


def cells():
    """For each run and valid time the last file of that run that has the time, and the time's place in it."""
    found = {}
    for number, run in enumerate(RUNS):
        for place, valid in enumerate(run.times):
            found[run.run, valid] = (number, place)
    return found


CELLS = cells()


def best(least):
    """The cell of the latest run that has each valid time, of those runs that are at least `least` hours earlier."""
    rows = {}
    for run, valid in sorted(CELLS):
        if valid - run >= datetime.timedelta(hours=least):
            rows[valid] = CELLS[run, valid]
    return [rows[valid] for valid in sorted(rows)]


def some(wanted):
    """The cells of which the run and the valid time are wanted, rising."""
    return [CELLS[pair] for pair in sorted(CELLS) if wanted(*pair)]


def views():
    """All five views, and the best series with a least offset."""
    noon, six = at(12), datetime.timedelta(hours=6)
    return [
        View("best", "fc_best.ncd", best(-1000)),
        View("best, 3 hours", "best/fc_BestGE_10800s", best(3)),
        View("run", "runs/fc_RUN_20240101T120000Z", some(lambda run, valid: run == noon)),
        View("offset", "offset/fc_Offset_21600s", some(lambda run, valid: valid - run == six)),
        View("forecast", "forecast/fc_ConstantForecast_20240101T120000Z",
             some(lambda run, valid: valid == noon), "run"),
    ]


# Variables.


def dims_of(name):
    """The dimensions of a variable of the files, without that of the letters of a text."""
    dims = (name,) if name in COORDINATES else VARIABLES[name][1] if name in VARIABLES else ()
    return tuple(dim for dim in dims if dim != LETTERS)


def shape_of(name, view):
    """The shape of a variable in a view."""
    return tuple(len(view.rows) if dim == "time" else SIZES[dim] for dim in dims_of(name))


def has_rows(name):
    return "time" in dims_of(name)


def shown(name, view, files):
    """The values of a variable in a view, in row-major order, by those that a client reads from each file."""
    if not has_rows(name):
        return list(files[0][name])
    values = []
    for number, place in view.rows:
        count = len(files[number][name]) // len(RUNS[number].times)
        values += files[number][name][place * count : (place + 1) * count]
    return values


# Slabs. A slab is a start, a stride and a stop, which it has too, for each dimension.


def slabs(name, view, strided):
    """Slabs of a variable: its last value, a part, and each second index of the dimensions that are strided."""
    shape = shape_of(name, view)
    last = [(size - 1, 1, size - 1) for size in shape]
    part = [(min(1, size - 1), 1, max(size - 2, min(1, size - 1))) for size in shape]
    pairs = [(0, 2, size // 2 * 2 - 1) if dim in strided and size > 1 else (0, 1, size - 1)
             for dim, size in zip(dims_of(name), shape)]
    return [last, part, pairs]


def ending(slab):
    """The same indices, with the last of them as the stop."""
    return [(start, stride, stop - (stop - start) % stride) for start, stride, stop in slab]


def cut(values, shape, slab):
    """The values at the indices of a slab, in row-major order."""
    if not shape:
        return values
    step = len(values) // shape[0]
    start, stride, stop = slab[0]
    return [value for index in range(start, stop + 1, stride)
            for value in cut(values[index * step : (index + 1) * step], shape[1:], slab[1:])]
