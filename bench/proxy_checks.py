"""Runs servers behind nginx and compares what both reply; bench/proxy.sh says how."""
import gzip
import http.client
import os
import random
import re
import signal
import ssl
import subprocess
import sys
import threading
import time

import large_files
from local_server import TOP, Nginx, Server, free_port, settings_of, stop
from serve_replies import APART, HOUR, file_of, name_of, reply_of, target_of

# The workers of a server.
WORKERS = int(os.environ.get("WORKERS", "8"))
# How many files there are before the clients come, and how many arrive while they read.
BEFORE, ARRIVING, CLIENTS = 20, 40, 4
# How long nginx keeps a reply, and how much later a server may start again.
PAUSE = 7

# What nginx adds or says for its own connection.
OWN = {"Date", "Server", "Connection", "Vary", "Access-Control-Allow-Origin", "Access-Control-Expose-Headers"}
OWN.add("X-Collection-Server")

BEST = "/thredds/dodsC/gfs/gfs_best.ncd"
RUN = "/thredds/dodsC/gfs/runs/gfs_RUN_2020-01-01T00:00:00Z"
TARGETS = [BEST + ".dds", BEST + ".das", BEST + ".dods", BEST + ".dods?t", RUN + ".dds", RUN + ".dods?t%5B0:2:6%5D"]
TARGETS += [BEST + ".dds?time,time_run", "/thredds/dodsC/gfs/offset/gfs_Offset_10800s.dods?time"]
TARGETS += ["/thredds/dodsC/gfs/forecast/gfs_ConstantForecast_20200102T000000Z.dods?time"]
# Those that are replied to by data.
DATA = [BEST + ".dods", BEST + ".dods?t", TARGETS[-2], TARGETS[-1]]
FAULTS = ["/thredds", "/none", BEST + ".nc", BEST + ".dds?none", BEST + ".dods?t%5B9:1:2%5D", BEST + ".dds?%"]
FAULTS += [BEST + ".dds?" + "x" * 9000, "/thredds/dodsC/gfs/offset/gfs_Offset_1s.dds"]
FAULTS += ["/thredds//dodsC/gfs/../gfs/gfs_best.ncd.dds"]
OF_WAVES = [target.replace("gfs", "waves") for target in TARGETS + FAULTS]

failures = []


def fail(text):
    """Notes what differs; each is shown once."""
    if text not in failures:
        print(text, file=sys.stderr, flush=True)
    failures.append(text)


def passed(text):
    """Says what passed, where nothing failed so far."""
    if not failures:
        print(text, flush=True)


def log_in(folder):
    """Where nginx writes a line for each request."""
    return os.path.join(folder, "access.log")


def site_of(gfs, waves, port, secure, folder):
    """docs/nginx.conf with two servers, and the ports and the folder of this run."""
    tls = "listen 127.0.0.1:%d ssl; ssl_certificate %s/cert.pem; ssl_certificate_key %s/key.pem;"
    own = {
        "server 127.0.0.1:8080;": "server 127.0.0.1:%d;" % gfs.port,
        "server 127.0.0.1:8081;": "server 127.0.0.1:%d;" % waves.port,
        "listen 80;": "listen 127.0.0.1:%d; " % port + tls % (secure, folder, folder),
        "proxy_cache_path /var/cache/fmrcd ": "proxy_cache_path %s/cache " % folder,
        "access_log /var/log/nginx/fmrcd.log ": "access_log %s " % log_in(folder),
        "root /usr/share/fmrcd/web;": "root %s;" % os.path.join(TOP, "web"),
    }
    return settings_of("nginx.conf", own)


def make_certificate(folder):
    line = "openssl req -x509 -newkey rsa:2048 -nodes -subj /CN=localhost -days 1 -keyout key.pem -out cert.pem"
    subprocess.run(line.split(), cwd=folder, check=True, capture_output=True)


def ask(link, method, target, body=None):
    """The revision, and what else a client is told: the status, the fields that aren't nginx's own, and the body."""
    link.request(method, target, body)
    reply = link.getresponse()
    fields = {name: value for name, value in reply.getheaders() if name not in OWN}
    revision = int(fields.pop("X-Collection-Revision", -1))
    return revision, (reply.status, reply.reason, fields, reply.read())


def compare(what, one, other):
    if one != other:
        shown = [(status, reason, fields, len(body), body[:80]) for status, reason, fields, body in (one, other)]
        fail("%s: through nginx %r, directly %r" % (what, shown[0], shown[1]))


def check_same(server, nginx, targets):
    """The replies to some requests, three times each, and the revisions where the collection was looked at."""
    count = 0
    for method in ("GET", "HEAD", "POST"):
        for target in targets:
            for _ in range(3):
                body = b"some" if method == "POST" else None
                direct = http.client.HTTPConnection("127.0.0.1", server.port, timeout=30)
                through = http.client.HTTPConnection("127.0.0.1", nginx.port, timeout=30)
                right, reply = ask(direct, method, target, body), ask(through, method, target, body)
                compare("%s %s" % (method, target[:90]), reply[1], right[1])
                if right[1][0] == 200 and reply[0] != right[0]:
                    fail("%s %s: revision %d, not %d" % (method, target, reply[0], right[0]))
                direct.close()
                through.close()
                count += 1
    return count


def told(nginx, target, fields):
    """The status, the fields and the body of the reply to a request with these fields."""
    link = http.client.HTTPConnection("127.0.0.1", nginx.port, timeout=30)
    link.request("GET", target, headers=fields)
    reply = link.getresponse()
    body = reply.read()
    link.close()
    return reply.status, reply.headers, body


def check_page(nginx):
    """The page stands at the root, and beside it the names of the collections."""
    with open(os.path.join(TOP, "web", "index.html"), "rb") as file:
        page = file.read()
    for target, kind, right in (("/", "text/html", page), ("/collections", "text/plain", b"gfs waves\n")):
        status, fields, body = told(nginx, target, {})
        if (status, fields["Content-Type"], body) != (200, kind, right):
            fail("%s: status %d, %s, %r" % (target, status, fields["Content-Type"], body[:80]))


def last_lines(folder, patterns):
    """The last lines of the log, a line for each pattern. nginx writes one after its reply, so it may come late."""
    until = time.monotonic() + 2
    while True:
        with open(log_in(folder)) as file:
            lines = file.read().splitlines()[-len(patterns) :]
        if all(map(re.fullmatch, patterns, lines)) or time.monotonic() > until:
            return lines
        time.sleep(0.05)


def check_added(nginx, folder, revision):
    """What nginx adds: compression where it is asked for, leave for other sites, and a line in its log."""
    target, refused = BEST + ".dods?t", BEST + ".dds?none"
    right = told(nginx, target, {})[2]
    status, fields, packed = told(nginx, target, {"Accept-Encoding": "deflate, gzip"})
    if (status, fields["Content-Encoding"]) != (200, "gzip") or gzip.decompress(packed) != right:
        fail("a compressed reply: status %d, encoding %r" % (status, fields["Content-Encoding"]))
    for asked in (target, refused):
        status, fields, _ = told(nginx, asked, {"Origin": "http://elsewhere"})
        shown = fields["Access-Control-Expose-Headers"] or ""
        if fields["Access-Control-Allow-Origin"] != "*" or "X-Collection-Revision" not in shown:
            fail("%s: other sites aren't let in: %r" % (asked, fields.items()))
    wanted = r'127.0.0.1 \[\S+\] "GET %s HTTP/1.1" %d [0-9]+ [0-9.]+ %d \S+ 127.0.0.1:[0-9]+'
    patterns = [wanted % (re.escape(asked), status, revision) for asked, status in ((target, 200), (refused, 400))]
    lines = last_lines(folder, patterns)
    for line, pattern in zip(lines, patterns):
        if not re.fullmatch(pattern, line):
            fail("the log has the line %r" % line)
    return len(packed), len(right)


def pulled(program, port, target):
    """The status of `pull` of a target, and what it says."""
    words = [program, "pull", "--connect", "127.0.0.1:%d" % port, target]
    run = subprocess.run(words, capture_output=True, timeout=60, check=False)
    return run.returncode, run.stdout, run.stderr


def check_pulled(program, server, nginx):
    """The program's own client says the same of each reply through nginx; of data it says a sum. How many it read."""
    for target in TARGETS + FAULTS:
        direct, through = pulled(program, server.port, target), pulled(program, nginx.port, target)
        if direct != through:
            fail("pull of %s: through nginx %r, directly %r" % (target[:90], through, direct))
        if target in DATA and through[0] != 0:
            fail("pull of %s: status %d" % (target[:90], through[0]))
    return len(TARGETS + FAULTS)


def copied(nginx, folder, settings):
    """What nccopy copies of the best time series through nginx, where its folder has these settings, and how many bytes
    of data nginx sent for that. It asks for whole variables, where ncdump asks for rows that are too short."""
    home = os.path.join(folder, "home")
    os.makedirs(home, exist_ok=True)
    with open(os.path.join(home, ".dodsrc"), "w") as file:
        file.write(settings)
    line = ["nccopy", "-k", "classic", "http://127.0.0.1:%d%s" % (nginx.port, BEST), "copy.nc"]
    given = dict(os.environ, HOME=home, no_proxy="127.0.0.1")
    with open(log_in(folder)) as log:
        log.seek(0, 2)
        subprocess.run(line, cwd=home, env=given, check=True, timeout=60)
        # nginx writes a line of its log after its reply.
        time.sleep(1)
        sent = [int(told.split('" ')[1].split()[1]) for told in log if ".dods?" in told]
    with open(os.path.join(home, "copy.nc"), "rb") as file:
        return file.read(), sum(sent)


def check_netcdf(nginx, folder):
    """netCDF-C copies the same where it asks for compression, and fewer bytes come."""
    right, plain = copied(nginx, folder, "")
    copy, packed = copied(nginx, folder, "HTTP.DEFLATE=1\n")
    if copy != right or len(right) < plain / 2:
        fail("nccopy with HTTP.DEFLATE copies %d bytes, without it %d" % (len(copy), len(right)))
    if not 0 < packed < plain:
        fail("nccopy with HTTP.DEFLATE gets %d bytes, without it %d" % (packed, plain))
    return packed, plain


def links_to(port):
    """The ports from which connections to a port were made, also those that ended just now."""
    found = set()
    with open("/proc/net/tcp") as file:
        for line in list(file)[1:]:
            local, remote = line.split()[1:3]
            if int(remote.split(":")[1], 16) == port:
                found.add(local)
    return found


def check_kept(server, nginx):
    """Many requests of one client go over one connection to nginx, and a few to the server."""
    before = links_to(server.port)
    link = http.client.HTTPConnection("127.0.0.1", nginx.port, timeout=30)
    link.connect()
    first = link.sock
    for number in range(300):
        ask(link, ("GET", "HEAD")[number % 2], TARGETS[number % len(TARGETS)])
        if link.sock is not first:
            fail("nginx ended the client's connection")
            return 0
    link.close()
    made = len(links_to(server.port) - before)
    if made > 2:
        fail("300 requests took %d connections to the server" % made)
    return made


# Files that arrive while clients read.


class Readings:
    """What was read, and the latest revision of a reply that has come."""

    def __init__(self):
        self.lock = threading.Lock()
        self.latest = 0
        self.count = 0
        self.different = {}

    def add(self, revision, request, body, least):
        with self.lock:
            self.latest = max(self.latest, revision)
            self.count += 1
            if self.different.setdefault((revision, request), body) != body:
                fail("revision %d of %r has two replies" % (revision, request))
        if revision < least:
            fail("%r: revision %d after %d" % (request, revision, least))


def read(nginx, readings, number, is_over):
    """Reads until it is over; each reply has to be as new as all that came before it was asked for."""
    chance = random.Random(number)
    link = http.client.HTTPConnection("127.0.0.1", nginx.port, timeout=30)
    while not is_over.is_set() and not failures:
        view = chance.choice([("best", 0), ("run", APART * BEFORE), ("offset", 3 * HOUR)])
        what = chance.choice(["time", "time_run", "t"])
        least = readings.latest
        revision, (_, _, _, body) = ask(link, "GET", target_of(view, what))
        readings.add(revision, (view, what), body, least)


def check_arrivals(server, nginx, folder, runs):
    """Lets files arrive while clients read. How many replies there were, and how many came from the cache."""
    readings, is_over = Readings(), threading.Event()
    with open(log_in(folder)) as file:
        file.seek(0, 2)
        given = [(nginx, readings, number, is_over) for number in range(CLIENTS)]
        clients = [threading.Thread(target=read, args=client, daemon=True) for client in given]
        for client in clients:
            client.start()
        for number in range(ARRIVING):
            runs.append(APART * (BEFORE + number))
            server.arrive(name_of(runs[-1]), file_of(runs[-1]))
            link = http.client.HTTPConnection("127.0.0.1", nginx.port, timeout=30)
            revision, _ = ask(link, "GET", TARGETS[number % 2])
            if revision != len(runs):
                fail("revision %d once file %d was published" % (revision, len(runs)))
            link.close()
        is_over.set()
        for client in clients:
            client.join(30)
        hits = file.read().split().count("HIT")
    for (revision, (view, what)), body in readings.different.items():
        if reply_of(revision, view, what, set(runs[:revision])).split(b"\r\n\r\n", 1)[1] != body:
            fail("revision %d of %s isn't the right reply" % (revision, target_of(view, what)))
    if hits == 0:
        fail("nothing came from the cache")
    return readings, hits


def check_restart(program, folder, server, nginx):
    """A server that is started again has other files by the same revision."""
    link = http.client.HTTPConnection("127.0.0.1", nginx.port, timeout=30)
    target = TARGETS[2]
    ask(link, "GET", target)
    stop(server.process)
    time.sleep(PAUSE)
    held = [name for name in os.listdir(os.path.join(server.inbox, "done"))]
    other = Server(program, folder, file_of(0), WORKERS, server.port)
    for number in range(len(held)):
        run = APART * (200 + number)
        other.bring(name_of(run), file_of(run))
    direct = http.client.HTTPConnection("127.0.0.1", other.port, timeout=30)
    for _ in range(500):
        if ask(direct, "HEAD", target)[0] == len(held):
            break
        time.sleep(0.02)
    right, reply = ask(direct, "GET", target), ask(link, "GET", target)
    compare("after a restart", reply[1], right[1])
    if reply[0] != right[0] or right[0] != len(held):
        fail("after a restart: revision %d, not %d" % (reply[0], right[0]))
    link.close()
    direct.close()
    return other


def check_large(program, folder, secure):
    """A reply of 12 MB, plain and over TLS."""
    os.makedirs(folder)
    make_certificate(folder)
    content = large_files.file_of(0, 13, 480)
    server = Server(program, os.path.join(folder, "server"), content, WORKERS)
    server.arrive("gfs_20200101_0000.nc", content)
    port = free_port()
    nginx = Nginx(folder, site_of(server, server, port, secure, folder), port, 2)
    direct = http.client.HTTPConnection("127.0.0.1", server.port, timeout=30)
    right = ask(direct, "GET", RUN + ".dods?t")
    trusted = ssl.create_default_context(cafile=os.path.join(folder, "cert.pem"))
    through = http.client.HTTPConnection("127.0.0.1", nginx.port, timeout=30)
    over_tls = http.client.HTTPSConnection("localhost", secure, timeout=30, context=trusted)
    for link in (through, through, over_tls):
        reply = ask(link, "GET", RUN + ".dods?t")
        compare("a large reply", reply[1], right[1])
        link.close()
    direct.close()
    return len(right[1][3])


def main():
    program, folder = os.path.abspath(sys.argv[1]), sys.argv[2]
    signal.signal(signal.SIGTERM, lambda *_: sys.exit("stopped"))
    make_certificate(folder)
    server = Server(program, os.path.join(folder, "first"), file_of(0), WORKERS)
    waves = Server(program, os.path.join(folder, "waves"), file_of(0), WORKERS, collection="waves")
    port = free_port()
    nginx = Nginx(folder, site_of(server, waves, port, free_port(), folder), port, 2)
    check_page(nginx)
    passed("the page and the names of the collections are there")
    passed("nothing held: %d replies are the same" % check_same(server, nginx, TARGETS + FAULTS))
    runs = [APART * number for number in range(BEFORE)]
    for run in runs:
        server.arrive(name_of(run), file_of(run))
    passed("%d files held: %d replies are the same" % (BEFORE, check_same(server, nginx, TARGETS + FAULTS)))
    waves.arrive(name_of(0).replace("gfs", "waves"), file_of(0))
    passed("another collection: %d replies are the same" % check_same(waves, nginx, OF_WAVES))
    passed("compressed, %d bytes in place of %d; open to other sites; in the log" % check_added(nginx, folder, BEFORE))
    passed("nccopy with HTTP.DEFLATE copies the same from %d bytes in place of %d" % check_netcdf(nginx, folder))
    passed("pull says the same of %d replies" % check_pulled(program, server, nginx))
    passed("300 requests over 1 connection to nginx and %d to the server" % check_kept(server, nginx))
    readings, hits = check_arrivals(server, nginx, folder, runs)
    shown = "%d files arrived during %d replies, %d of them from the cache: each right, none older than one before it"
    passed(shown % (ARRIVING, readings.count, hits))
    check_restart(program, os.path.join(folder, "second"), server, nginx)
    passed("after a restart with other files: nothing old from the cache")
    large = check_large(program, os.path.join(folder, "large"), free_port())
    passed("a reply of %d bytes, from the cache and over TLS: the same" % large)
    if failures:
        sys.exit("%d failures" % len(failures))


if __name__ == "__main__":
    main()
