"""A variable over the limit of a reply: a client that asks for all of it fails, and one that asks for parts has it."""
import os
import subprocess
import sys
import tempfile

import netCDF4

import server
from tools import TOKEN, Failed, cdl_values, run

WORKERS = int(os.environ.get("WORKERS", "4"))
SIDE, TIMES, HOURS = 4096, 5, 6
VALUES = [0, 1, 2, 3, 1000, 1001, 1002, 1003, 1004]
SLAB = "[0:8][%d][%d]" % (SIDE - 1, SIDE - 1)


def write(folder):
    """Two files of 5 times, of which one is in both. A value has 2 bytes in a file and 4 in a reply, so the 9 times of
    the best series are 576 MiB. The files have holes but for the last value of each time."""
    paths = []
    for number in range(2):
        path = os.path.join(folder, "fc_2024010%d_0000.nc" % (number + 1))
        with netCDF4.Dataset(path, "w", format="NETCDF3_64BIT_OFFSET") as file:
            file.set_fill_off()
            for name, size in (("time", None), ("y", SIDE), ("x", SIDE)):
                file.createDimension(name, size)
            axis = file.createVariable("time", "i4", ("time",))
            axis.units = "hours since 2024-01-0%d" % (number + 1)
            big = file.createVariable("big", "i2", ("time", "y", "x"))
            for place in range(TIMES):
                axis[place] = place * HOURS
                big[place, SIDE - 1, SIDE - 1] = 1000 * number + place
        paths.append(path)
    return paths


# Each client in a process of its own, as a user has it: what it reads of the last value of each time. It gets an
# address and a file to write.


def python(text):
    return lambda address, out: run(sys.executable, "-c", "import netCDF4, xarray\n" + text % address).split()


def last(out):
    with netCDF4.Dataset(out) as data:
        return [str(value) for value in data["big"][:, -1, -1]]


def nccopy(*words):
    def read(address, out):
        run("nccopy", "-k", "classic", *words, address, out)
        return last(out)
    return read


def ncks(*words):
    def read(address, out):
        run("ncks", "-O", "-v", "big", *words, address, out)
        return last(out)
    return read


def ncdump(address, out):
    return cdl_values(run("ncdump", "-v", "big", address + "?big" + SLAB))["big"]


def getdap(constraint):
    """It ends with status 0 whatever comes, and says on its standard error what went wrong."""
    def read(address, out):
        done = subprocess.run(["getdap", "-D", "-c", constraint, address], capture_output=True, text=True, check=False)
        if " = " not in done.stdout:
            raise Failed(done.stderr)
        return TOKEN.findall(done.stdout.split("x = 1] = ")[1])
    return read


def cdo(address, out):
    return run("cdo", "-s", "outputf,%g,1", "-selindexbox,4096,4096,4096,4096", "-selname,big", address).split()


FAIL = {
    "nccopy, a buffer of 1 GB": nccopy("-m", "1000000000"),
    "getdap": getdap("big"),
    "ncks": ncks(),
    "netCDF4": python("print(*netCDF4.Dataset('%s')['big'][:][:, -1, -1])"),
    "xarray": python("print(*xarray.open_dataset('%s').big.values[:, -1, -1])"),
}
READ = {
    "ncdump, a slab": ncdump,
    "nccopy, the whole in parts": nccopy(),
    "getdap, a slab": getdap("big" + SLAB),
    "ncks, a slab": ncks("-d", "y,4095", "-d", "x,4095"),
    "cdo, the whole by times": cdo,
    "netCDF4, a slab": python("print(*netCDF4.Dataset('%s')['big'][:, -1, -1])"),
    "xarray, a slab": python("print(*xarray.open_dataset('%s').big[:, -1, -1].values)"),
}


def outcome(read, address, out):
    """The values that a client reads, or the text with which it fails."""
    try:
        return read(address, out)
    except Failed as failed:
        return str(failed)


def says(text, *words):
    """Whether a client failed, and one of these words was told of it."""
    return isinstance(text, str) and any(word in text for word in words)


def check(program):
    """What is not as it must be. After each failure a slab is read by netCDF4."""
    wrong = []

    def see(what, right, said):
        shown = "as it must be" if right else "DIFFERS: %s" % str(said)[-500:]
        print("%-8s %-31s %s" % ("limit", what, shown), flush=True)
        if not right:
            wrong.append(what)

    with tempfile.TemporaryDirectory() as folder:
        out = os.path.join(folder, "out.nc")
        paths = write(folder)
        values = [str(value) for value in VALUES]
        with server.Server(program, os.path.join(folder, "limits"), paths[0], WORKERS) as served:
            for path in paths:
                served.bring(path)
            best = served.base + "fc_best.ncd"
            for what, read in FAIL.items():
                said = outcome(read, best, out)
                see(what + ", fails", says(said, "Access failure", "Request Entity Too Large"), said)
                said = outcome(READ["netCDF4, a slab"], best, out)
                see("  and then a slab", said == values, said)
            for what, read in READ.items():
                said = outcome(read, best, out)
                see(what, said == values, said)
            empty = served.base + "offset/fc_Offset_-3600s"
            for what, read in READ.items():
                said = outcome(read, empty, out)
                refused = says(said, "no rows", "404 Not Found", "Not Found:", "file not found")
                see(what.split(",")[0] + ", no rows", refused, said)
            see("the server goes on", served.runs(), "it ended")
    return wrong
