"""The files of the runs that the clients read, and the definition of each view: the file and the place of each row."""
import datetime
import os

import netCDF4
import numpy

EPOCH = datetime.datetime(2020, 1, 1)
LETTERS = "letter"
SIZES = {"level": 3, "lat": 4, "lon": 5, "station": 2, LETTERS: 8}
WORDS = ["calm", "a \"gale\"", "8letters", "", "\\"]


def at(hour):
    return datetime.datetime(2024, 1, 1, hour)


class Run:
    """One file: its name, its run, the hours of its times after it, and how it is written."""

    def __init__(self, name, hour, offsets, units, kind, form, records):
        self.name, self.run = name, at(hour)
        self.times = [self.run + datetime.timedelta(hours=offset) for offset in offsets]
        self.units, self.kind, self.form, self.records = units, kind, form, records


# In the order of arrival: a later run comes before an earlier one, and the run of 12:00 comes in two files. The second
# of these has one time of the first again, and says its run in a variable.
CLASSIC, LARGE = "NETCDF3_CLASSIC", "NETCDF3_64BIT_OFFSET"
RUNS = [
    Run("fc_20240101_0000.nc", 0, [0, 3, 6, 9, 12], "hours since 2024-01-01 00:00:00", "f8", CLASSIC, True),
    Run("fc_20240101_1200.nc", 12, [0, 3, 6], "minutes since 2024-01-01T12:00:00Z", "i4", LARGE, True),
    Run("fc_20240101_0600.nc", 6, [0, 3, 6, 9, 12, 15], "seconds since 1970-01-01", "i4", CLASSIC, False),
    Run("fc_20240101_1800.nc", 18, [6, 12], "days since 2024-01-01", "f8", LARGE, False),
    Run("more_of_1200.nc", 12, [6, 9, 24], "hours since 2024-01-01 06:00", "i2", CLASSIC, True),
]

# Each variable but the coordinates: its kind, its dimensions, and its attributes.
VARIABLES = {
    "t": ("f4", ("time", "lat", "lon"), {"units": "K", "standard_name": "air_temperature"}),
    "wind": ("f4", ("time", "level", "lat", "lon"), {"units": "m s-1", "_FillValue": numpy.float32(-999)}),
    "pressure": ("f8", ("time", "lat", "lon"), {"units": "Pa", "valid_range": numpy.array([1e4, 1.1e5])}),
    "humidity": ("i2", ("time", "lat", "lon"), {
        "scale_factor": 0.5, "add_offset": 100.0, "_FillValue": numpy.int16(-32768), "units": "1"}),
    "cloud": ("i1", ("time", "lat", "lon"), {
        "flag_values": numpy.array([0, 1, 2], "i1"), "flag_meanings": "clear some overcast"}),
    "count": ("i4", ("time", "lat", "lon"), {}),
    "steps": ("i4", ("time",), {"long_name": "steps \"done\" \\ since the start"}),
    "station_t": ("f4", ("time", "station"), {"coordinates": "height", "units": "K"}),
    "weather": ("S1", ("time", "station", LETTERS), {"long_name": "weather at each station"}),
    "station_name": ("S1", ("station", LETTERS), {}),
    "orography": ("f4", ("lat", "lon"), {"units": "m"}),
    "height": ("f8", (), {"units": "m", "positive": "up"}),
}
COORDINATES = {
    "level": ("i4", {"units": "hPa", "positive": "down"}),
    "lat": ("f4", {"units": "degrees_north", "standard_name": "latitude"}),
    "lon": ("f8", {"units": "degrees_east", "standard_name": "longitude"}),
}
GLOBAL = {"title": "a forecast", "Conventions": "CF-1.8", "levels": numpy.int32(3), "grid": numpy.array([0.1, 2.5])}


def values(name, kind, shape, first):
    """Values that differ from row to row, with the greatest and the least of the kind among them."""
    if kind == "S1":
        count = int(numpy.prod(shape[:-1]))
        texts = [WORDS[(first + place) % len(WORDS)].encode() for place in range(count)]
        return numpy.array(texts, "S8").view("S1").reshape(shape)
    count = int(numpy.prod(shape))
    numbers = numpy.arange(count) * (0.37 if kind[0] == "f" else 1) + first * 1009
    if kind == "i1":
        return (numbers % 256).astype("u1").view("i1").reshape(shape)
    numbers = numbers.astype(kind)
    if count > 6:
        ends = [numpy.inf, -numpy.inf, numpy.nan, -0.0] if kind[0] == "f" else [
            numpy.iinfo(kind).max, numpy.iinfo(kind).min]
        numbers[1 : 1 + len(ends)] = ends
    return numbers.reshape(shape)


def write(folder, number, run):
    """Writes a file, whose values are told by its number."""
    with netCDF4.Dataset(os.path.join(folder, run.name), "w", format=run.form) as file:
        file.set_auto_mask(False)
        file.set_auto_scale(False)
        file.setncatts(GLOBAL)
        file.createDimension("time", None if run.records else len(run.times))
        for name, size in SIZES.items():
            file.createDimension(name, size)
        axis = file.createVariable("time", run.kind, ("time",))
        axis.units = run.units
        axis[:] = netCDF4.date2num(run.times, run.units.replace("Z", "").replace("T", " "))
        for name, (kind, attributes) in COORDINATES.items():
            put(file, name, kind, (name,), attributes, 0)
        for name, (kind, dims, attributes) in VARIABLES.items():
            put(file, name, kind, dims, attributes, 10 * number if "time" in dims else 0)
        if not run.name.startswith("fc_"):
            told = file.createVariable("run", "f8", ())
            told.units, told.standard_name = "hours since 2024-01-01", "forecast_reference_time"
            told[...] = run.run.hour


def put(file, name, kind, dims, attributes, first):
    attributes = dict(attributes)
    var = file.createVariable(name, kind, dims, fill_value=attributes.pop("_FillValue", None))
    var.set_auto_maskandscale(False)
    var.setncatts(attributes)
    axis = len(file.variables["time"])
    shape = tuple(axis if dim == "time" else SIZES[dim] for dim in dims)
    if name in COORDINATES:
        var[:] = numpy.arange(shape[0])[::-1] * 10.5 + 5
    elif dims[:1] == ("time",):
        for place in range(axis):
            var[place] = values(name, kind, shape[1:] or (1,), first + place).reshape(shape[1:])
    else:
        var[...] = values(name, kind, shape, first)
