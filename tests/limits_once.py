"""Limits of files, collections and requests, by `once`; tests/limits.sh says how."""
import subprocess
import sys

import limits_cases as cases
from classic import EPOCH, FLOAT, Classic, Variable, axis
from limits_cases import HEAD, LIMIT, Wrong, data, error, head_of, numbers, path_in, structure
from serve_replies import name_of

PROGRAM, FOLDER = sys.argv[1:3]
FIRST = "gfs_20200101_0000.nc"


def once(folder, proto, steps, requests, parts, status=0, said=""):
    """Runs the steps, and compares the status, the line and what is sent."""
    asked = path_in(folder, "asked")
    with open(asked, "wb") as file:
        file.write("".join(requests).encode())
    words = [PROGRAM, "once", "--name", "gfs", "--proto", proto] + steps
    with open(asked, "rb") as given, open(path_in(folder, "line"), "w+b") as line:
        child = subprocess.Popen(words, stdin=given, stdout=subprocess.PIPE, stderr=line)
        try:
            cases.compare(child.stdout, parts)
        finally:
            child.stdout.close()
            got = child.wait()
            line.seek(0)
            text = line.read(200).decode()
        if (got, text) != (status, said):
            raise Wrong("status %d, '%s'" % (got, text.strip()))


def declared(count, *others):
    """The structure of a best series with this many times and other variables of the file."""
    return (["Int32 time[time = %d]" % count] + list(others)
            + ["Int32 time_run[time = %d]" % count, "Int32 time_offset[time = %d]" % count])


def grid(records):
    dims = [("time", 0), ("y", 128), ("x", 256)]
    return Classic(dims, [axis(), Variable("v", FLOAT, [0, 1, 2])], records=records)


def files_up_to_512_MiB(folder):
    """Files of 1, 10, 100 and 512 MiB, of up to 4,095 times."""
    proto = path_in(folder, "proto/" + FIRST)
    grid(1).write(proto, [EPOCH])
    for size in (1 << 20, 10400000, 100 << 20, LIMIT):
        count = (size - 500) // 131076
        path = path_in(folder, FIRST)
        grid(count).write(path, [EPOCH + 3600 * k for k in range(count)], size)
        series = "Float32 v[time = %d][y = 128][x = 256]" % count
        times = numbers([3600 * k for k in range(count)])
        parts = structure(declared(count, series), 1) + data(["Int32 time[time = %d]" % count], [times], 1)
        once(folder, proto, ["put:" + path, "ask:2"], [HEAD % ".dds", HEAD % ".dods?time"], parts)


def prototypes_up_to_512_MiB(folder):
    """Prototypes with a variable without time, which are files too."""
    for size in (1 << 20, 10400000, 100 << 20, LIMIT):
        count = (size - 300) // 4
        path = path_in(folder, FIRST)
        form = Classic([("time", 0), ("n", count)], [axis(), Variable("w", FLOAT, [1])], records=1)
        form.write(path, [EPOCH], size)
        last = ".dods?w%%5B%d%%5D" % (count - 1)
        parts = structure(declared(1, "Float32 w[n = %d]" % count), 1)
        parts += data(["Float32 w[n = 1]"], [numbers([0])], 1)
        once(folder, path, ["put:" + path, "ask:2"], [HEAD % ".dds", HEAD % last], parts)


def one_byte_more_than_a_file_has(folder):
    """A file of 512 MiB and a byte, as the prototype and as a file."""
    proto, path = path_in(folder, "proto/" + FIRST), path_in(folder, FIRST)
    grid(1).write(proto, [EPOCH])
    grid(1).write(path, [EPOCH], LIMIT + 1)
    said = "too long %s %d\n" % (path, LIMIT + 1)
    once(folder, proto, ["put:" + path, "ask:1"], [HEAD % ".dds"], [], 10, said)
    once(folder, path, ["put:" + proto, "ask:1"], [HEAD % ".dds"], [], 10, said)


def halves(extra):
    """Two variables over the same bytes, whose data and structure are the limit and four bytes more."""
    second = "w" + extra * "w"
    for count in range(67108800, 67108865):
        lines = ["Float32 v[time = 1][n = %d]" % count, "Float32 %s[time = 1][n = %d]" % (second, count)]
        if len(cases.dataset(lines) + b"Data:\n") + 2 * (8 + 4 * count) == LIMIT + 4:
            return second, count, lines
    return halves(extra + 1)


def replies_up_to_the_limit(folder):
    """Replies of 1, 10 and 100 MB, of the limit, and of four bytes more."""
    second, count, lines = halves(0)
    dims = [("time", 1), ("n", count)]
    variables = [axis(), Variable("v", FLOAT, [0, 1]), Variable(second, FLOAT, [0, 1], same_as="v")]
    path = path_in(folder, FIRST)
    Classic(dims, variables).write(path, [EPOCH])
    for part in (250000, 2500000, 25000000):
        asked = HEAD % (".dods?v%%5B0%%5D%%5B0:%d%%5D" % (part - 1))
        parts = data(["Float32 v[time = 1][n = %d]" % part], [word_twice(part), 4 * part], 1)
        once(folder, path, ["put:" + path, "ask:1"], [asked], parts)
    asked = HEAD % (".dods?v,%s%%5B0%%5D%%5B0:%d%%5D" % (second, count - 2))
    most = [lines[0], lines[1].replace(str(count), str(count - 1))]
    parts = data(most, [word_twice(count), 4 * count, word_twice(count - 1), 4 * (count - 1)], 1)
    if int(parts[0].split(b"Content-Length: ")[1].split(b"\r")[0]) != LIMIT:
        raise Wrong("the case itself: the body isn't the limit")
    once(folder, path, ["put:" + path, "ask:1"], [asked], parts)
    over = error("413 Content Too Large", 34, "body of %d bytes is over %d" % (LIMIT + 4, LIMIT), 1)
    once(folder, path, ["put:" + path, "ask:1"], [HEAD % (".dods?v," + second)], over)


def word_twice(number):
    return number.to_bytes(4, "big") * 2


def files_up_to_4096(folder):
    """1,000 and 4,096 files of one time each, and one more."""
    proto = path_in(folder, "proto/" + FIRST)
    form = Classic([("time", 0)], [axis()], records=1)
    form.write(proto, [EPOCH])
    steps, moments = [], [3600 * k for k in range(4097)]
    for moment in moments:
        path = path_in(folder, name_of(moment))
        form.write(path, [EPOCH + moment])
        steps.append("put:" + path)
    for count in (1000, 4096):
        lines = ["Int32 time[time = %d]" % count]
        parts = structure(declared(count), count) + data(lines, [numbers(moments[:count])], count)
        once(folder, proto, steps[:count] + ["ask:2"], [HEAD % ".dds", HEAD % ".dods?time"], parts)
    once(folder, proto, steps, [], [], 3, "refused %s code 61\n" % steps[-1][4:])


def times_up_to_262144(folder):
    """16 and 64 files of 4,096 times each, and one time more."""
    proto = path_in(folder, "proto/" + FIRST)
    Classic([("time", 0)], [axis()], records=1).write(proto, [EPOCH])
    form = Classic([("time", 0)], [axis()], records=4096)
    steps, moments = [], [60 * k for k in range(65 * 4096)]
    for first in range(0, 64 * 4096, 4096):
        path = path_in(folder, name_of(moments[first]))
        form.write(path, [EPOCH + moment for moment in moments[first:first + 4096]])
        steps.append("put:" + path)
    for count in (16, 64):
        some = count * 4096
        lines = ["Int32 time[time = %d]" % some, "Int32 time_run[time = %d]" % some]
        runs = [moment - moment % (60 * 4096) for moment in moments[:some]]
        parts = structure(declared(some), count)
        parts += data(lines, [numbers(moments[:some]), numbers(runs)], count)
        once(folder, proto, steps[:count] + ["ask:2"], [HEAD % ".dds", HEAD % ".dods?time,time_run"], parts)
    path = path_in(folder, name_of(moments[-4096]))
    Classic([("time", 0)], [axis()], records=1).write(path, [EPOCH + moments[-4096]])
    once(folder, proto, steps + ["put:" + path], [], [], 3, "refused %s code 61\n" % path)


def steps_up_to_20000(folder):
    """101, 1,000 and 20,000 steps."""
    proto = path_in(folder, FIRST)
    grid(1).write(proto, [EPOCH])
    for count in (101, 1000, 20000):
        steps = ["retract:x"] * (count - 2) + ["put:" + proto, "ask:1"]
        parts = structure(declared(1, "Float32 v[time = 1][y = 128][x = 256]"), 1)
        once(folder, proto, steps, [HEAD % ".dds"], parts)


def heads_up_to_16_KB(folder):
    """1,000 to 8,166 clauses, and a path of as many bytes as a head has."""
    proto = path_in(folder, FIRST)
    grid(1).write(proto, [EPOCH])
    for count in (1000, 4000, 8000, 8166):
        parts = structure(["Float32 v[time = 1][y = 128][x = 256]"], 1)
        once(folder, proto, ["put:" + proto, "ask:1"], [HEAD % (".dds?v" + ",v" * (count - 1))], parts)
    for count in (4000, 8000, 16366):
        asked = "GET /%s HTTP/1.1\r\n\r\n" % ("a" * count)
        parts = error("404 Not Found", 32, "no such dataset", 1)
        once(folder, proto, ["put:" + proto, "ask:1"], [asked], parts)


def declarations_up_to_20000(folder):
    """600, 5,000 and 20,000 variables."""
    for count in (600, 5000, 20000):
        path = path_in(folder, FIRST)
        names = ["v%05d" % number for number in range(count)]
        form = Classic([("time", 0), ("n", 1)], [axis()] + [Variable(name, FLOAT, [1]) for name in names], records=1)
        form.write(path, [EPOCH])
        lines = ["Float32 %s[n = 1]" % name for name in names]
        some = [lines[0], lines[-1]]
        asked = [HEAD % ".dds", HEAD % (".dods?%s,%s" % (names[-1], names[0]))]
        parts = structure(declared(1, *lines), 1) + data(some, [numbers([0]) * 2], 1)
        once(folder, path, ["put:" + path, "ask:2"], asked, parts)


DAS = """Attributes {
    time {
        String units "seconds since 2020-01-01T00:00:00Z";
        String standard_name "time";
        String calendar "proleptic_gregorian";
    }
    time_run {
        String units "seconds since 2020-01-01T00:00:00Z";
        String standard_name "forecast_reference_time";
        String calendar "proleptic_gregorian";
    }
    time_offset {
        String units "seconds";
        String standard_name "forecast_period";
    }
    NC_GLOBAL {
        String title "%s";
    }
}
"""


def texts_up_to_100_MB(folder):
    """An attribute of 70,000 bytes, of 1, of 10 and of 100 MB."""
    for count in (70000, 1000000, 10000000, 100000000):
        path = path_in(folder, FIRST)
        Classic([("time", 0)], [axis()], [("title", b"x" * count)], records=1).write(path, [EPOCH])
        text = (DAS % ("x" * count)).encode()
        parts = [head_of("200 OK", "das", 1, len(text)), text]
        once(folder, path, ["put:" + path, "ask:1"], [HEAD % ".das"], parts)


def requests_up_to_10000(folder):
    """10,001 requests, each of which needs a look, of which the last isn't answered."""
    proto = path_in(folder, FIRST)
    grid(1).write(proto, [EPOCH])
    body = structure(declared(1, "Float32 v[time = 1][y = 128][x = 256]"), 1)[1]
    heads = [head_of("200 OK", "dds", 1, len(body), last) for last in (False, True)]
    asked = [HEAD.replace("GET", "HEAD") % ".dds"] * 10001
    once(folder, proto, ["put:" + proto, "ask:10000"], asked, [heads[0] * 9999, heads[1]])


def sum_of_3_GiB(folder):
    """Only where it is asked for: six files of 512 MiB, which are all that a collection holds, and one more."""
    proto = path_in(folder, "proto/" + FIRST)
    grid(1).write(proto, [EPOCH])
    steps = []
    for number in range(7):
        path = path_in(folder, name_of(3600 * number))
        grid(1).write(path, [EPOCH + 3600 * number], LIMIT if number < 6 else None)
        steps.append("put:" + path)
    parts = structure(declared(6, "Float32 v[time = 6][y = 128][x = 256]"), 6)
    once(folder, proto, steps[:6] + ["ask:1"], [HEAD % ".dds"], parts)
    once(folder, proto, steps, [], [], 3, "refused %s code 61\n" % steps[-1][4:])


cases.run([files_up_to_512_MiB, prototypes_up_to_512_MiB, one_byte_more_than_a_file_has, replies_up_to_the_limit,
           files_up_to_4096, times_up_to_262144, steps_up_to_20000, heads_up_to_16_KB, declarations_up_to_20000,
           texts_up_to_100_MB, requests_up_to_10000, sum_of_3_GiB], FOLDER, sys.argv[3:])
