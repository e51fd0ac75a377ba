"""Searches for dear requests; bench/slow_requests.sh says how."""
import os
import random
import sys
import time as clock

from classic import CHAR, EPOCH, FLOAT, TIME, Classic, Variable, of_600_variables
from folder_server import FolderServer, wait_until

PROGRAM, FOLDER, COUNT = sys.argv[1], sys.argv[2], int(sys.argv[3])
HOUR, MOST, LIMIT = 3600, 16000, 0.005
PATH = "/thredds/dodsC/gfs/"


def moment(seconds):
    return clock.strftime("%Y-%m-%dT%H:%M:%SZ", clock.gmtime(EPOCH + seconds))


def views(run, offset, valid):
    """The path of each view."""
    return {"best": PATH + "gfs_best.ncd", "best from 0": PATH + "best/gfs_BestGE_0s",
            "best from 6 hours": PATH + "best/gfs_BestGE_%ds" % (6 * HOUR), "run": PATH + "runs/gfs_RUN_" + moment(run),
            "offset": PATH + "offset/gfs_Offset_%ds" % offset,
            "forecast": PATH + "forecast/gfs_ConstantForecast_" + moment(valid)}


class Collection:
    """A server of some files of one form, each at its run, and one connection."""

    def __init__(self, name, form, runs, times):
        folder = os.path.join(FOLDER, name.replace(" ", "_"))
        inbox = os.path.join(folder, "inbox")
        os.makedirs(inbox)
        proto = os.path.join(folder, "proto.nc")
        content = bytearray(form.content(times(0)))
        with open(proto, "wb") as file:
            file.write(content)
        for number, run in enumerate(runs):
            for record, offset in enumerate(times(number)):
                place = form.begins["time"] + form.record * record
                content[place:place + 4] = (run + offset).to_bytes(4, "big")
            day = clock.strftime("gfs_%Y%m%d_%H%M", clock.gmtime(EPOCH + run))
            with open(os.path.join(inbox, "%s_%04d.nc" % (day, number)), "wb") as file:
                file.write(content)
        self.name = name
        self.server = FolderServer(PROGRAM, proto, [inbox], ["--workers", "1"])
        done = os.path.join(inbox, "done")
        wait_until("all files are held", lambda: os.path.isdir(done) and len(os.listdir(done)) == len(runs), 600)
        self.link = self.server.connect()
        self.tasks = "/proc/%d/task" % self.server.process.pid

    def spent(self):
        """The seconds that all threads were on a processor."""
        spent = 0
        for task in os.listdir(self.tasks):
            with open("%s/%s/schedstat" % (self.tasks, task)) as file:
                spent += int(file.read().split()[0])
        return spent / 1e9

    def ask(self, method, target):
        """The seconds that a request costs, the least of three turns, and the status and the bytes of its reply."""
        least = None
        for _ in range(3):
            before = self.spent()
            status, _, body = self.reply_to(method, target)
            clock.sleep(0.001)
            spent = self.spent() - before
            least = spent if least is None else min(least, spent)
            if least < LIMIT / 2:
                break
        return least, status, len(body)

    def reply_to(self, method, target):
        """The reply to a request; a connection that has ended is made anew."""
        for _ in range(2):
            try:
                reply = self.link.ask(method.encode(), target.encode())
            except OSError:
                reply = None
            if reply is not None:
                return reply
            self.link = self.server.connect()
        sys.exit("%s: no reply to %s" % (self.name, target[:200]))

    def close(self):
        self.link.close()
        self.server.kill()


def escaped(text):
    return "".join("%%%02X" % ord(char) for char in text)


def repeated(text, most=MOST):
    """A text again and again, with commas between."""
    return ",".join([text] * ((most + 1) // (len(text) + 1)))


def cut(clauses, most=MOST):
    """As many clauses as fit."""
    held, length = [], -1
    for clause in clauses:
        length += len(clause) + 1
        if length > most:
            break
        held.append(clause)
    return ",".join(held)


def fixed(name, rank, names):
    """Constraints of each kind: over one variable of a rank, and over the names of all."""
    none, last = "[0]" * rank, "[0:1:0]" * rank
    return {
        "nothing": "", "one name": name, "the same name": repeated(name),
        "the same members": repeated(name + "." + name),
        "all names": cut(names * 64), "the same slabs": repeated(name + none), "long slabs": repeated(name + last),
        "slabs of all": cut([other + none for other in names] * 64), "other slabs": cut(
            name + "[%d]" % number + "[0]" * (rank - 1) for number in range(4000)),
        "long index": name + "[%s]" % ("0" * (MOST - len(name) - 2)), "many indices": name + "[0]" * (MOST // 3 - 8),
        "large index": name + "[%s]" % ("9" * (MOST - len(name) - 2)), "long name": "n" * MOST,
        "long path": ".".join(["n"] * (MOST // 2)), "unknown names": repeated("nothing_of_this_name"),
        "bad at its end": repeated(name, MOST - 2) + ",", "selection": "&" + repeated(name, MOST - 1),
        "escapes": escaped(repeated(name, MOST // 3)), "commas": "," * MOST,
    }


def mixed(chance, names, rank, sizes):
    """Clauses by chance, up to a length by chance."""
    most, clauses = chance.choice((20, 200, 2000, MOST)), []
    pool = [chance.choice(names) for _ in range(chance.choice((1, 3, 30, 600)))]
    for _ in range(8000):
        clause = chance.choice(pool)
        if chance.random() < 0.3:
            clause += "." + chance.choice((clause, "time", "y", "x"))
        for size in sizes[:rank] if chance.random() < 0.6 else ():
            start = chance.randrange(size)
            forms = ("[%d]" % start, "[%d:%d]" % (start, min(size - 1, start + 3)),
                     "[%d:%d:%d]" % (start, max(1, size // 8), size - 1))
            clause += chance.choice(forms)
        clauses.append(clause)
    return cut(clauses, most)


def prices_of(collection, view, path, plain):
    """What a byte of a view costs beyond the head of its reply, by plain requests; none where the view has no rows."""
    prices = {}
    for what, asked in plain.items():
        base = min(collection.ask("HEAD", path + asked)[0] for _ in range(5))
        cost, status, count = min(collection.ask("GET", path + asked) for _ in range(3))
        if status != 200:
            return {}
        prices[what] = max(0, cost - base) / count
        print("%s, %s: %s: %d bytes, %.1f ns each"
              % (collection.name, view, what, count, 1e9 * prices[what]), flush=True)
    return prices


def search(collection, paths, names, rank, sizes, plain):
    """Asks all, and returns what each cost beyond its bytes; `plain` are requests whose bytes tell their price."""
    found = []
    prices = {view: prices_of(collection, view, path, plain) for view, path in paths.items()}
    if not prices["best"]:
        sys.exit("%s: a plain request isn't answered" % collection.name)
    asked = [(view, service, kind, constraint) for view in paths for service in ("dds", "das", "dods", "HEAD")
             for kind, constraint in fixed(names[0], rank, names).items()]
    chance = random.Random(1)
    asked += [(chance.choice(list(paths)), chance.choice(("dds", "das", "dods", "HEAD")), "a mixture",
               mixed(chance, names, rank, sizes)) for _ in range(COUNT)]
    for view, service, kind, constraint in asked:
        method, word = ("HEAD", "dods") if service == "HEAD" else ("GET", service)
        target = "%s.%s?%s" % (paths[view], word, constraint)
        cost, status, count = collection.ask(method, target)
        known = prices[view] or prices["best"]
        price = max(known.values()) if service == "dods" else known["text"]
        # What seems dear may have been interrupted, so it is asked again.
        for _ in range(3):
            if cost - count * price > LIMIT:
                cost = min(cost, collection.ask(method, target)[0])
        shown = "%s: %d, %d bytes: %s" % (", ".join((service, kind)), status, count, constraint[:60])
        found.append((cost - count * price, cost, "%s, %s" % (collection.name, view), shown))
    return found


def wide():
    """4,096 files of 600 variables and 64 times, an hour apart, whose runs are 64 hours apart."""
    names, form = of_600_variables(64)
    collection = Collection("wide", form, [64 * HOUR * number for number in range(4096)],
                            lambda number: [HOUR * record for record in range(64)])
    paths = views(64 * HOUR * 2048, 6 * HOUR, 64 * HOUR * 2048 + 6 * HOUR)
    plain = {"text": ".dds", "times": ".dods?time", "runs": ".dods?time_run", "numbers": ".dods?v1.v1"}
    return search(collection, paths, names, 3, (4096 * 64, 1, 1), plain), collection


def overlapping():
    """4,096 files of 64 times, an hour apart, whose runs are 6 hours apart: up to 11 files have a time. The greatest
    offsets are kept by the fewest of them."""
    runs, records = 4096, 64
    form = Classic([("time", 0), ("y", 1), ("x", 1)],
                   [TIME, Variable("y", FLOAT, [1]), Variable("x", FLOAT, [2]), Variable("v", FLOAT, [0, 1, 2])],
                   records=records)
    collection = Collection("overlapping", form, [6 * HOUR * number for number in range(runs)],
                            lambda number: [HOUR * record for record in range(records)])
    middle = 6 * HOUR * (runs // 2)
    paths = views(middle, 6 * HOUR, middle + 6 * HOUR)
    paths["best from 60 hours"] = PATH + "best/gfs_BestGE_%ds" % (60 * HOUR)
    plain = {"text": ".das", "times": ".dods?time", "runs": ".dods?time_run", "numbers": ".dods?v.v"}
    return search(collection, paths, ["v", "time", "y"], 3, (6 * (runs - 1) + records, 1, 1), plain), collection


def long():
    """64 files of 4,096 times each, of the same days."""
    form = Classic([("time", 0), ("y", 8), ("x", 8)],
                   [TIME, Variable("y", FLOAT, [1]), Variable("x", FLOAT, [2]), Variable("v", FLOAT, [0, 1, 2])],
                   records=4096)
    collection = Collection("long", form, [60 * number for number in range(64)],
                            lambda number: [60 * record if record < 2048 else 180 * record - 120 * 2047
                                            for record in range(4096)])
    paths = views(60 * 32, 60 * 100, 60 * 132)
    plain = {"text": ".das", "times": ".dods?time", "runs": ".dods?time_run", "numbers": ".dods?v.v"}
    return search(collection, paths, ["v", "time", "y"], 3, (4096, 8, 8), plain), collection


def large():
    """One file of large arrays: numbers, Strings, and one of ten dimensions."""
    dims = [("time", 0), ("y", 1000), ("x", 1000), ("station", 200000), ("chars", 16)]
    deep = len(dims)
    dims += [("d%d" % number, 4) for number in range(10)]
    variables = [TIME, Variable("y", FLOAT, [1]), Variable("x", FLOAT, [2]), Variable("names", CHAR, [3, 4]),
                 Variable("deep", FLOAT, list(range(deep, deep + 10))), Variable("v", FLOAT, [0, 1, 2])]
    collection = Collection("large", Classic(dims, variables, records=2), [0], lambda number: [0, HOUR])
    paths = views(0, HOUR, HOUR)
    plain = {"text": ".das", "numbers": ".dods?v.v", "strides": ".dods?v.v[0][0:999][0:3:999]",
             "texts": ".dods?names", "places": ".dods?deep" + "[0:3:3]" * 10}
    return search(collection, paths, ["v", "names", "deep", "y"], 3, (2, 1000, 1000), plain), collection


def main():
    found = []
    for made in (wide, overlapping, long, large):
        more, collection = made()
        found += more
        collection.close()
    found.sort(reverse=True)
    seen, over = set(), sum(one[0] > LIMIT for one in found)
    print("%d requests, %d of them over %.0f ms beyond their bytes; the ten dearest, and the dearest of each view:"
          % (len(found), over, 1e3 * LIMIT))
    for place, (beyond, cost, where, shown) in enumerate(found):
        if place < 10 or where not in seen:
            print("%.2f ms of %.2f ms: %s, %s" % (1e3 * beyond, 1e3 * cost, where, shown))
        seen.add(where)
    sys.exit(1 if over else 0)


if __name__ == "__main__":
    main()
