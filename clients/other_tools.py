"""The clients with a reading of their own: libdap's getdap, and CDO."""
import re

import netCDF4

from tools import NAMES, TOKEN, Client, arrays, bracketed, run
from views import dims_of


class Getdap(Client):
    """It prints a number with 6 or 15 digits, and a byte without its sign. It reads no files, so the library does."""

    name = "getdap"

    def whole(self, source):
        if source.startswith("http"):
            return self.printed(run("getdap", "-D", source))
        return {name: [self.shown(array.dtype.kind, array.dtype.itemsize, value) for value in array.ravel()]
                for name, array in arrays(source, NAMES).items()}

    def slab(self, source, name, slab):
        return self.printed(run("getdap", "-D", source, "-c", name + bracketed(slab)))[name]

    def printed(self, text):
        """The tokens of each array, each Grid's array and each number of a printed reply."""
        found = re.findall(r"^\w+ (\w+)(?:\[[^\]]*\])* = (.*);$", text, re.M)
        found += re.findall(r"^} (\w+) = \{ +Array: (.*?) +Maps: .*\};$", text, re.M)
        return {name: TOKEN.findall(values) for name, values in found}

    def shown(self, kind, size, value):
        """A value as it prints it."""
        if kind == "S":
            letters = bytes(value).rstrip(b"\0").decode().replace("\\", "\\\\").replace('"', '\\"')
            return '"%s"' % letters
        if kind == "f":
            return "%.*g" % (6 if size == 4 else 15, value)
        return str(int(value) % 256 if size == 1 else value)

    def dates(self, source):
        """It decodes none."""
        return None

    def attributes(self, source):
        if source.startswith("http"):
            lines, name = set(), ""
            for line in run("getdap", "-a", source).split("\n"):
                words = line.split(None, 2)
                if line.endswith("{"):
                    name = words[0].replace("NC_GLOBAL", "")
                elif len(words) == 3:
                    lines.add("%s:%s = %s" % (name, words[1], self.value(words[0], words[2].rstrip(";"))))
            return lines
        with netCDF4.Dataset(source) as data:
            return {"%s:%s = %s" % (name, key, self.given(var.getncattr(key)))
                    for name, var in [("", data)] + list(data.variables.items()) for key in var.ncattrs()}

    def value(self, kind, text):
        """The value of a printed attribute."""
        if kind == "String":
            return text
        return [float.fromhex(word) if word.startswith(("0x", "-0x")) else float(word) for word in text.split(", ")]

    def given(self, value):
        """The value of a file's attribute, in the same form."""
        if isinstance(value, str):
            return '"%s"' % value.replace("\\", "\\\\").replace('"', '\\"')
        return [float(number) for number in getattr(value, "ravel", lambda: [value])()]

    def own(self, values):
        return {name: [str(number) for number in numbers] for name, numbers in values.items()}


class Cdo(Client):
    """Values are unpacked, and a byte of a view has no sign. It has no texts, and only one axis of times."""

    name = "cdo"
    names = ["t", "wind", "pressure", "humidity", "cloud", "count", "steps", "station_t", "orography", "griddes"]
    own_names = []
    slabbed = ["t", "wind", "pressure", "humidity", "cloud", "count", "steps", "orography"]
    strides = ["time", "level"]

    def read(self, source, name, *steps):
        shown = run("cdo", "-s", "outputf,%.17g,1", *steps, "-selname," + name, source).split()
        return [str(int(value) % 256) for value in shown] if name == "cloud" else shown

    def whole(self, source):
        found = {name: self.read(source, name) for name in self.names[:-1]}
        found["griddes"] = run("cdo", "-s", "griddes", "-selname,t", source).split()
        return found

    def slab(self, source, name, slab):
        steps = []
        for dim, (start, stride, stop) in zip(dims_of(name), slab):
            if dim == "time":
                steps.append("-seltimestep,%d/%d/%d" % (start + 1, stop + 1, stride))
            elif dim == "level":
                steps.append("-sellevidx,%d/%d/%d" % (start + 1, stop + 1, stride))
        if "lat" in dims_of(name):
            (south, _, north), (west, _, east) = slab[-2:]
            steps.append("-selindexbox,%d,%d,%d,%d" % (west + 1, east + 1, south + 1, north + 1))
        return self.read(source, name, *steps)

    def dates(self, source):
        return run("cdo", "-s", "showtimestamp", source).split()

    def attributes(self, source):
        lines = {name + line.strip() for name in self.names[:-1]
                 for line in run("cdo", "-s", "showattribute," + name + "@", source).split("\n")}
        return lines | set(run("cdo", "-s", "showattsglob", source).split("\n"))

    def own_attributes(self):
        return set()
