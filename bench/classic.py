"""netCDF classic files that are written from lists, with holes in the place of data that is zero."""
import struct

BYTE, CHAR, SHORT, INT, FLOAT, DOUBLE = range(1, 7)
SIZES = {BYTE: 1, CHAR: 1, SHORT: 2, INT: 4, FLOAT: 4, DOUBLE: 8}
UNITS = ("units", b"seconds since 1970-01-01 00:00:00")
EPOCH = 1577836800


def words(*numbers):
    return struct.pack(">%dI" % len(numbers), *numbers)


def padded(content):
    return content + b"\0" * (-len(content) % 4)


def name_of(text):
    return words(len(text)) + padded(text.encode())


def attributes(pairs):
    """Attributes whose values are texts."""
    if not pairs:
        return words(0, 0)
    listed = (name_of(name) + words(CHAR, len(text)) + padded(text) for name, text in pairs)
    return words(12, len(pairs)) + b"".join(listed)


class Variable:
    """A variable over dimensions, by their numbers. One that has the place of another shows the same bytes."""

    def __init__(self, name, kind, dims, attrs=(), same_as=None):
        self.name, self.kind, self.dims, self.attrs, self.same_as = name, kind, dims, attrs, same_as

    def size(self, sizes):
        """The bytes of a record, or of the whole where it has none."""
        size = SIZES[self.kind]
        for dim in self.dims:
            size *= sizes[dim] or 1
        return size + -size % 4


class Classic:
    """A file of version 1: dimensions with their sizes, 0 for that of records, attributes and variables."""

    def __init__(self, dims, variables, attrs=(), records=0):
        self.dims, self.variables, self.attrs, self.records = dims, variables, attrs, records
        self.sizes = [size for _, size in dims]
        self.begins = {}
        fixed = [variable for variable in variables if not self.is_record(variable)]
        place = len(self.header())
        for variable in fixed + [variable for variable in variables if self.is_record(variable)]:
            if variable.same_as:
                self.begins[variable.name] = self.begins[variable.same_as]
            else:
                self.begins[variable.name] = place
                place += variable.size(self.sizes)
        self.record = sum(variable.size(self.sizes) for variable in variables if self.is_record(variable))
        self.length = place + self.record * (records - 1) if self.record else place

    def is_record(self, variable):
        return bool(variable.dims) and self.sizes[variable.dims[0]] == 0

    def header(self):
        head = b"CDF\1" + words(self.records, 10, len(self.dims))
        head += b"".join(name_of(name) + words(size) for name, size in self.dims)
        head += attributes(self.attrs) + words(11, len(self.variables))
        for variable in self.variables:
            head += name_of(variable.name) + words(len(variable.dims), *variable.dims) + attributes(variable.attrs)
            size = min(variable.size(self.sizes), 0xffffffff)
            head += words(variable.kind, size, self.begins.get(variable.name, 0))
        return head

    def write(self, path, times, length=None):
        """Writes the file, with these values of `time` and zeros elsewhere, as long as is said or as it has to be."""
        with open(path, "wb") as file:
            file.write(self.header())
            step = self.record or 4
            for number, moment in enumerate(times):
                file.seek(self.begins["time"] + step * number)
                file.write(words(moment & 0xffffffff))
            file.truncate(length or self.length)

    def content(self, times):
        """The bytes of the file with these values of `time`, and zeros elsewhere."""
        made = bytearray(self.header().ljust(self.length, b"\0"))
        for number, moment in enumerate(times):
            place = self.begins["time"] + (self.record or 4) * number
            made[place:place + 4] = words(moment & 0xffffffff)
        return bytes(made)


def axis(*more):
    """The axis `time`, whose dimension has the number 0."""
    return Variable("time", INT, [0], [UNITS, *more])


# The axis whose times count from 2020, so that those of 30 years fit four bytes.
SINCE_2020 = ("units", b"seconds since 2020-01-01 00:00:00")
TIME = Variable("time", INT, [0], [SINCE_2020])


def of_600_variables(records):
    """The names of 597 variables over records and a grid of one place, and the form of a file of them and of axes."""
    names = ["v%d" % number for number in range(597)]
    variables = [TIME, Variable("y", FLOAT, [1]), Variable("x", FLOAT, [2])]
    variables += [Variable(name, FLOAT, [0, 1, 2]) for name in names]
    return names, Classic([("time", 0), ("y", 1), ("x", 1)], variables, records=records)
