"""Files of a chosen size: `time` over records, `lat`, `lon`, and `t` over all three."""
import random
import struct

HOUR = 3600
UNITS = b"seconds since 1970-01-01 00:00:00"
EPOCH = 1577836800


def words(*numbers):
    return struct.pack(">%di" % len(numbers), *numbers)


def text(value):
    return words(len(value)) + value + b"\0" * (-len(value) % 4)


def head_of(times, side, begin):
    """The header, where the data begins at `begin`."""
    head = b"CDF\1" + words(times, 10, 3)
    head += text(b"time") + words(0) + text(b"lat") + words(side) + text(b"lon") + words(side)
    head += words(0, 0, 11, 4)
    head += text(b"time") + words(1, 0, 12, 1) + text(b"units") + words(2) + text(UNITS)
    head += words(4, 4, begin + 8 * side)
    head += text(b"lat") + words(1, 1, 0, 0, 5, 4 * side, begin)
    head += text(b"lon") + words(1, 2, 0, 0, 5, 4 * side, begin + 4 * side)
    return head + text(b"t") + words(3, 0, 1, 2, 0, 0, 5, 4 * side * side, begin + 8 * side + 4)


def file_of(run, times, side):
    """The file of a run, in seconds from the epoch: that many times, three hours apart, over a square grid."""
    chance = random.Random(run)
    head = head_of(times, side, len(head_of(times, side, 0)))
    content = [head, struct.pack(">%df" % (2 * side), *range(2 * side))]
    for number in range(times):
        content.append(words(EPOCH + run + 3 * HOUR * number))
        # Python makes fewer than 2^28 bytes at once.
        content.extend(chance.randbytes(4 * side) for _ in range(side))
    return b"".join(content)
