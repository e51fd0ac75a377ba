"""What docs/CLIENTS.md says that a client cannot do: a line says whether it is still so. None of it fails a run."""
import os
import tempfile

import netCDF4
import numpy

import server
from other_tools import Getdap
from tools import Failed, cdl_values, run

LETTERS, WIDE = 100, 100000
TEXTS = ["x" * LETTERS, "y" * 70]
WORKERS = int(os.environ.get("WORKERS", "2"))
# The second of January in seconds from the epoch.
DAY_2 = 126316800


def write(folder, day, hours):
    """A file with two long texts, bytes of -1, an attribute that isn't finite, and values that are told by the day."""
    path = os.path.join(folder, "fc_202401%02d_0000.nc" % day)
    with netCDF4.Dataset(path, "w", format="NETCDF3_CLASSIC") as file:
        for name, size in (("time", None), ("lat", 3), ("lon", 2), ("station", 2), ("letter", LETTERS), ("x", WIDE)):
            file.createDimension(name, size)
        axis = file.createVariable("time", "i4", ("time",))
        axis.units = "hours since 2024-01-%02d" % day
        axis[:] = hours
        for name, size in (("lat", 3), ("lon", 2)):
            var = file.createVariable(name, "f4", (name,))
            var.units = {"lat": "degrees_north", "lon": "degrees_east"}[name]
            var[:] = range(size)
        flag = file.createVariable("flag", "i1", ("time", "lat", "lon"))
        flag.setncattr("odd name", "v")
        flag.limit = numpy.inf
        flag[:] = -1
        wide = file.createVariable("wide", "f4", ("time", "x"))
        wide[:] = numpy.full((len(hours), WIDE), day)
        remark = file.createVariable("remark", "S1", ("station", "letter"))
        remark[:] = numpy.array(TEXTS, "S%d" % LETTERS).view("S1").reshape(2, LETTERS)
    return path


def fails(*line):
    try:
        return run(*line).strip() == ""
    except Failed:
        return True


def texts(address):
    return cdl_values(run("ncdump", "-v", "remark", address))["remark"]


def mislabels(served, path):
    """Whether a dataset whose times were read shows the first value of a run that came later under its own time."""
    with netCDF4.Dataset(served.base + "fc_best.ncd") as data:
        first = data["time"][0]
        served.bring(path)
        return (first, data["time"][0], data["wide"][0, 0]) == (DAY_2, DAY_2, 1)


def check(program):
    """Says of each whether it is still so."""
    with tempfile.TemporaryDirectory() as folder:
        path = write(folder, 2, [0, 6, 12])
        with server.Server(program, os.path.join(folder, "known"), path, WORKERS) as served:
            served.bring(path)
            best, colons = served.base + "fc_best.ncd", served.base + "runs/fc_RUN_2024-01-02T00:00:00Z"
            quoted = ['"%s"' % text for text in TEXTS]
            strided = cdl_values(run("ncdump", "-v", "flag", best + "?flag[0:2:2][0][0]"))["flag"]
            known = {
                "netCDF library: a path with `:` is refused": fails("ncdump", "-h", colons),
                "netCDF library: so is one with `%3A`": fails("ncdump", "-h", colons.replace(":00", "%3A00")),
                "libdap: a path with `:` is refused": fails("getdap", "-d", colons),
                "netCDF library: a text is cut to 64 bytes": texts(best) == [text[:65] + '"' for text in quoted],
                "netCDF library: with `#maxstrlen=100` it isn't": texts(best + "#maxstrlen=100") == quoted,
                "libdap: a text isn't cut": Getdap(folder).whole(best)["remark"] == quoted,
                "netCDF library: a stride in the address loses the last value": len(strided) == 1,
                "netCDF library: `odd name` is `odd%20name`": 'flag:odd%20name = "v"' in run("ncdump", "-h", best),
                "libdap: an attribute that isn't finite is refused": "not a Float64" in run("getdap", "-a", best),
                "CDO: a byte of -1 is 255": set(run("cdo", "-s", "output", "-selname,flag", best).split()) == {"255"},
                "an open dataset shows new rows under old times": mislabels(served, write(folder, 1, [0, 6])),
            }
    for what, so in known.items():
        print("known    %-62s %s" % (what, "yes" if so else "NO LONGER"), flush=True)
