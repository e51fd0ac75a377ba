"""Idle connections, slow readers and links that drip, until standard input ends and each of the last could have ended:
crowd.py PORT IDLE READERS DRIPPERS TARGET."""
import select
import socket
import sys
import time

# What a reader takes once a second, what its system holds, and the bytes of a segment, as over a network.
# With the segments of the loopback device the system would hold some megabytes of each reply.
TAKEN, ROOM, SEGMENT = 20_480, 131_072, 1448

# What a link drips, a byte each five seconds, and after how many seconds its end is waited for no more. By then no head
# is whole.
DRIPS, LATEST = b"GET /thredds/dodsC/", 40.0


def opened(port, is_slow):
    """A connection, of a reader that is far away and slow or of one that is near."""
    link = socket.socket()
    if is_slow:
        link.setsockopt(socket.SOL_SOCKET, socket.SO_RCVBUF, ROOM)
        link.setsockopt(socket.IPPROTO_TCP, socket.TCP_MAXSEG, SEGMENT)
    link.connect(("127.0.0.1", port))
    return link


def is_open(link):
    """Whether the other side hasn't closed a connection on which nothing comes."""
    try:
        return bool(link.recv(1, socket.MSG_DONTWAIT | socket.MSG_PEEK))
    except BlockingIOError:
        return True
    except OSError:
        return False


def take(link):
    """How many bytes there are to take, at most those of a second; none says that the other side has closed."""
    try:
        return len(link.recv(TAKEN, socket.MSG_DONTWAIT)) or None
    except BlockingIOError:
        return 0
    except OSError:
        return None


class Readers:
    """Connections over which something is read slowly."""

    def __init__(self, port, count, target):
        self.links = [opened(port, True) for _ in range(count)]
        for link in self.links:
            link.sendall(("GET %s HTTP/1.1\r\nHost: here\r\n\r\n" % target).encode())
        self.lost = set()
        self.turns = self.bytes = 0

    def go_on(self, tick):
        """A hundredth of the readers takes something, which it does each hundredth of a second."""
        for number in range(tick % 100, len(self.links), 100):
            if number in self.lost:
                continue
            count = take(self.links[number])
            if count is None:
                self.lost.add(number)
                continue
            self.turns += 1
            self.bytes += count


class Drippers:
    """Connections over which a byte is sent now and then, each until the other side closes it."""

    def __init__(self, port, count):
        self.links, self.came = [], []
        # After how many seconds each of those that have ended did so.
        self.ended = {}
        for _ in range(count):
            self.came.append(time.monotonic())
            self.links.append(opened(port, False))

    def look(self, number):
        """Notes the end of a connection."""
        if number not in self.ended and not is_open(self.links[number]):
            self.ended[number] = time.monotonic() - self.came[number]
            self.links[number].close()

    def drip(self, number, byte):
        """Sends a byte where the connection is still open."""
        try:
            if number not in self.ended:
                self.links[number].send(byte)
        except OSError:
            # The next look notes the end.
            pass

    def go_on(self, tick):
        """Each is looked at ten times a second, and sends a byte each five seconds."""
        for number in range(tick % 10, len(self.links), 10):
            self.look(number)
        place = tick // 500 % len(DRIPS)
        for number in range(tick % 500, len(self.links), 500):
            self.drip(number, DRIPS[place:place + 1])

    def wait(self, tick):
        """Goes on until each has ended, or could have."""
        while len(self.ended) < len(self.links) and time.monotonic() < self.came[-1] + LATEST:
            time.sleep(0.01)
            self.go_on(tick)
            tick += 1

    def ends(self):
        """How many have ended, and after how many milliseconds the first and the last of them did so."""
        took = [int(1000 * seconds) for seconds in self.ended.values()] or [0]
        return len(self.ended), min(took), max(took)


def main():
    port, idle, count, dripping = (int(word) for word in sys.argv[1:5])
    resting = [opened(port, False) for _ in range(idle)]
    readers = Readers(port, count, sys.argv[5])
    drippers = Drippers(port, dripping)
    print("ready", flush=True)
    # The first bytes have a second to come.
    tick, next_tick = 0, time.monotonic() + 1.0
    while not select.select([0], [], [], max(0.0, next_tick - time.monotonic()))[0]:
        readers.go_on(tick)
        drippers.go_on(tick)
        tick, next_tick = tick + 1, next_tick + 0.01
    kept = sum(is_open(link) for link in resting)
    drippers.wait(tick)
    read = readers.bytes // max(1, readers.turns)
    print(kept, count - len(readers.lost), read, *drippers.ends(), flush=True)


main()
