"""The clients that read by the netCDF library: ncdump, nccopy, ncks, and Python's netCDF4 and xarray."""
import netCDF4
import numpy
import xarray

from tools import NAMES, Client, arrays, attribute_lines, bits, bracketed, cdl_attributes, cdl_values, run, sliced
from views import dims_of


class Ncdump(Client):
    """It prints."""

    name = "ncdump"
    any_stop = False

    def whole(self, source):
        return cdl_values(run("ncdump", "-p", "9,17", source))

    def slab(self, source, name, slab):
        return cdl_values(run("ncdump", "-p", "9,17", "-v", name, source + "?" + name + bracketed(slab)))[name]

    def dates(self, source):
        shown = cdl_values(run("ncdump", "-t", "-v", "time", source))["time"]
        return [text.strip('"') + " 00:00"[len(text) - 12 :] for text in shown]

    def attributes(self, source):
        return cdl_attributes(run("ncdump", "-h", source))

    def own(self, values):
        return {name: [str(number) for number in numbers] for name, numbers in values.items()}


class Copier(Client):
    """A client that copies to a file, which the library then reads."""

    def copy(self, source, *words):
        """Copies to the file; the words are the program's."""
        raise NotImplementedError

    def whole(self, source):
        names = NAMES + (self.own_names if source.startswith("http") else [])
        self.copy(source)
        return {name: bits(array) for name, array in arrays(self.out, names).items()}

    def dates(self, source):
        self.copy(source)
        return Ncdump.dates(self, self.out)

    def attributes(self, source):
        self.copy(source)
        return cdl_attributes(run("ncdump", "-h", self.out))


class Nccopy(Copier):
    """Slabs are a constraint in the address."""

    name = "nccopy"
    any_stop = False

    def copy(self, source, *words):
        run("nccopy", "-k", "classic", *words, source, self.out)

    def slab(self, source, name, slab):
        self.copy(source + "?" + name + bracketed(slab))
        return bits(arrays(self.out, [name])[name])


class Ncks(Copier):
    """Slabs are its hyperslabs."""

    name = "ncks"

    def copy(self, source, *words):
        run("ncks", "-O", "-h", *words, source, self.out)

    def slab(self, source, name, slab):
        words = ["-C", "-v", name]
        for dim, (start, stride, stop) in zip(dims_of(name), slab):
            words += ["-d", "%s,%d,%d,%d" % (dim, start, stop, stride)]
        self.copy(source, *words)
        return bits(arrays(self.out, [name])[name])


class Python(Client):
    """Python's netCDF4."""

    name = "netCDF4"

    def whole(self, source):
        names = NAMES + (self.own_names if source.startswith("http") else [])
        return {name: bits(array) for name, array in arrays(source, names).items()}

    def slab(self, source, name, slab):
        return bits(arrays(source, [name], slab)[name])

    def dates(self, source):
        with netCDF4.Dataset(source) as data:
            axis = data["time"]
            return [str(moment) for moment in netCDF4.num2date(axis[:], axis.units, axis.calendar)]

    def attributes(self, source):
        with netCDF4.Dataset(source) as data:
            lines = attribute_lines("", {key: data.getncattr(key) for key in data.ncattrs()})
            for name, var in data.variables.items():
                lines |= attribute_lines(name, {key: var.getncattr(key) for key in var.ncattrs()})
            return lines


class Xarray(Client):
    """Values are unpacked, times are dates, and missing values are NaN."""

    name = "xarray"

    def whole(self, source):
        with xarray.open_dataset(source) as data:
            return {name: bits(data[name].values) for name in data.variables if name != "run"}

    def slab(self, source, name, slab):
        with xarray.open_dataset(source) as data:
            return bits(data[name][sliced(slab)].values)

    def dates(self, source):
        with xarray.open_dataset(source) as data:
            return [str(moment) for moment in data.time.values]

    def attributes(self, source):
        with xarray.open_dataset(source, decode_cf=False) as data:
            lines = attribute_lines("", data.attrs)
            for name, var in data.variables.items():
                lines |= attribute_lines(name, var.attrs)
            return lines

    def own(self, values):
        since = numpy.datetime64("2020-01-01", "ns")
        shown = {name: numpy.array(numbers, "m8[s]").astype("m8[ns]") for name, numbers in values.items()}
        return {name: bits(times if name == "time_offset" else since + times) for name, times in shown.items()}
