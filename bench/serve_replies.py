"""The files that bench/serve_clients.py lets arrive, and the reply that is right over some of them."""
import datetime
import struct

from large_files import HOUR, head_of, words

FILES = 400
APART = 6 * HOUR
OFFSETS = [3 * HOUR * k for k in range(13)]
SIDE = 16
EPOCH = datetime.datetime(2020, 1, 1, tzinfo=datetime.timezone.utc)

# The files. Times and runs are seconds from the epoch.


def coordinates(first):
    return [first + k for k in range(SIDE)]


LAT, LON = coordinates(10.0), coordinates(100.0)


def number(run, valid, y, x):
    """The value of `t`: no two of it are alike."""
    record = run // APART % FILES * len(OFFSETS) + (valid - run) // OFFSETS[1]
    return float(record * SIDE * SIDE + y * SIDE + x)


def floats(values):
    return struct.pack(">%df" % len(values), *values)


def file_of(run):
    """The file of a run: `time` over records, `lat`, `lon`, and `t` over all three."""
    head = head_of(len(OFFSETS), SIDE, len(head_of(len(OFFSETS), SIDE, 0)))
    content = [head, floats(LAT), floats(LON)]
    for offset in OFFSETS:
        content.append(words(int(EPOCH.timestamp()) + run + offset))
        content.append(floats([number(run, run + offset, y, x) for y in range(SIDE) for x in range(SIDE)]))
    return b"".join(content)


def moment(seconds):
    return EPOCH + datetime.timedelta(seconds=seconds)


def name_of(run, collection="gfs"):
    return moment(run).strftime(collection + "_%Y%m%d_%H%M.nc")


# The replies that are right. A view is a kind and a number; what is asked of it is `time`, `time_run` or a slab of `t`.

SLAB = "%5B0:2:6%5D%5B0%5D%5B0:1%5D"


def label_of(view, collection):
    kind, seconds = view
    if kind == "best":
        return collection + "_best.ncd"
    if kind == "offset":
        return "%s_Offset_%ds" % (collection, seconds)
    front = {"run": "_RUN_", "forecast": "_ConstantForecast_"}[kind]
    return collection + front + moment(seconds).strftime("%Y-%m-%dT%H:%M:%SZ")


def target_of(view, what, collection="gfs"):
    folder = {"best": "", "run": "runs/", "offset": "offset/", "forecast": "forecast/"}[view[0]]
    name = folder + label_of(view, collection)
    return "/thredds/dodsC/%s/%s.dods?%s" % (collection, name, what + (SLAB if what == "t" else ""))


def rows_of(view, runs):
    """The rows of a view of the files of some runs: each is a run and a valid time."""
    kind, seconds = view
    if kind == "best":
        best = {}
        for run in sorted(runs):
            for offset in OFFSETS:
                best[run + offset] = run
        return [(best[valid], valid) for valid in sorted(best)]
    if kind == "run":
        return [(seconds, seconds + offset) for offset in OFFSETS if seconds in runs]
    if kind == "offset":
        return [(run, run + seconds) for run in sorted(runs) if seconds in OFFSETS]
    return [(run, seconds) for run in sorted(runs) if seconds - run in OFFSETS]


def array(form, values):
    return struct.pack(">II%d%s" % (len(values), form), len(values), len(values), *values)


def body_of(view, what, runs, collection="gfs"):
    """The status, the description, the type and the body of the reply over the files of some runs."""
    rows = rows_of(view, runs)
    axis = [run if view[0] == "forecast" else valid for run, valid in rows]
    if not rows:
        return error(404, 37, "no rows")
    if what != "t":
        values = axis if what == "time" else [run for run, _ in rows]
        shown = "    Int32 %s[time = %d];\n" % (what, len(rows))
        data = array("i", values)
    elif len(rows) <= 6:
        return error(400, 25, "slab 0 of t is outside %d" % len(rows))
    else:
        places = [0, 2, 4, 6]
        shown = "    Grid {\n        ARRAY:\n            Float32 t[time = 4][lat = 1][lon = 2];\n        MAPS:\n"
        shown += "            Int32 time[time = 4];\n            Float32 lat[lat = 1];\n"
        shown += "            Float32 lon[lon = 2];\n    } t;\n"
        data = array("f", [number(*rows[place], 0, x) for place in places for x in (0, 1)])
        data += array("i", [axis[place] for place in places]) + array("f", LAT[:1]) + array("f", LON[:2])
    front = "Dataset {\n%s} %s;\nData:\n" % (shown, label_of(view, collection))
    return "200 OK", "dods_data", "application/octet-stream", front.encode() + data


def error(status, code, message):
    line = {400: "400 Bad Request", 404: "404 Not Found"}[status]
    body = 'Error {\n    code = %d;\n    message = "%s";\n};\n' % (code, message)
    return line, "dods_error", "text/plain", body.encode()


def reply_of(revision, view, what, runs, collection="gfs"):
    """The whole reply, with its head."""
    line, description, kind, body = body_of(view, what, runs, collection)
    head = (
        "HTTP/1.1 %s\r\nXDODS-Server: dods/3.2\r\nContent-Description: %s\r\nContent-Type: %s\r\n"
        "X-Collection-Revision: %d\r\nContent-Length: %d\r\nConnection: keep-alive\r\n\r\n"
    )
    return (head % (line, description, kind, revision, len(body))).encode() + body
