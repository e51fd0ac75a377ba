"""What the clients have in common: running a program, and the values and attributes of a text or an array."""
import os
import re
import subprocess

import netCDF4
import numpy

from runs import COORDINATES, VARIABLES

NAMES = list(COORDINATES) + list(VARIABLES)
OWN_ATTRIBUTES = {
    "time:units": "seconds since 2020-01-01T00:00:00Z",
    "time:standard_name": "time",
    "time:calendar": "proleptic_gregorian",
    "time_run:units": "seconds since 2020-01-01T00:00:00Z",
    "time_run:standard_name": "forecast_reference_time",
    "time_run:calendar": "proleptic_gregorian",
    "time_offset:units": "seconds",
    "time_offset:standard_name": "forecast_period",
}
SECONDS = 120


class Failed(Exception):
    """A client's program that ended with a status other than 0."""


def run(*line):
    """What a program says on its standard output."""
    done = subprocess.run(line, capture_output=True, timeout=SECONDS, check=False)
    if done.returncode:
        said = done.stderr.decode(errors="replace").strip()
        raise Failed("%s: status %d: %s" % (" ".join(line), done.returncode, said))
    return done.stdout.decode()


TOKEN = re.compile(r'"(?:\\.|[^"\\])*"|[^\s,;"{}]+')


def cdl_values(text):
    """The values of each variable in the data of a CDL text: tokens, by the variable's name."""
    data = text.split("\ndata:", 1)[1]
    return {name: TOKEN.findall(values)
            for name, values in re.findall(r'^ *(\w+) =((?:[^;"]|"(?:\\.|[^"\\])*")*);', data, re.M)}


def cdl_attributes(text):
    """The attributes of a CDL text, each as a line."""
    head = text.split("\ndata:", 1)[0]
    return {line.strip().rstrip(" ;") for line in head.split("\n") if re.match(r"\s+\w*:\w+ = ", line)}


def bits(array):
    """The values of an array in row-major order: each text, and the kind and the bytes of each number."""
    array = numpy.asarray(array)
    if array.dtype.kind == "S":
        return [bytes(value).rstrip(b"\0") for value in array.ravel()]
    flat = numpy.ascontiguousarray(array).ravel()
    return [(flat.dtype.name, value.tobytes()) for value in flat]


def arrays(source, names, slab=()):
    """The arrays of some variables as they are stored; letters are joined to texts."""
    with netCDF4.Dataset(source) as data:
        data.set_auto_maskandscale(False)
        data.set_auto_chartostring(False)
        found = {}
        for name in names:
            part = data[name][sliced(slab)]
            found[name] = netCDF4.chartostring(part, "bytes") if part.dtype.kind == "S" else part
        return found


def sliced(slab):
    return tuple(slice(start, stop + 1, stride) for start, stride, stop in slab) or ...


def bracketed(slab):
    return "".join("[%d:%d:%d]" % part for part in slab)


def attribute_lines(name, attributes):
    """Attributes of a variable, each as a line."""
    return {"%s:%s = %s" % (name, key, '"%s"' % value if isinstance(value, str) else numpy.asarray(value).tolist())
            for key, value in attributes.items()}


class Client:
    """A client. It reads a file by its path and a view by its address; what it says of the two is compared as it is."""

    name = ""
    names = NAMES
    own_names = ["time", "time_run", "time_offset"]
    slabbed = [
        "t", "wind", "pressure", "humidity", "cloud", "count", "steps", "station_t", "weather", "lat", "orography"]
    strides = ["time", "level", "lat", "lon", "station"]
    any_stop = True

    def __init__(self, folder):
        self.out = os.path.join(folder, "out.nc")

    def whole(self, source):
        """The values of all variables, by name."""
        raise NotImplementedError

    def slab(self, source, name, slab):
        """The values of a slab of a variable."""
        raise NotImplementedError

    def dates(self, source):
        """The dates of the axis, each as a text that begins with the day and the hour."""
        raise NotImplementedError

    def attributes(self, source):
        """The attributes of the variables and the dataset, each as a line."""
        raise NotImplementedError

    def own(self, values):
        """The values that no file holds, which are given as seconds by name, as this client shows those of an Int32."""
        return {name: bits(numpy.array(numbers, "i4")) for name, numbers in values.items()}

    def own_attributes(self):
        """The attributes that no file holds."""
        return {'%s = "%s"' % pair for pair in OWN_ATTRIBUTES.items()}
