"""The machines of a cluster on this one: a spool, the ways from it, servers with what feeds them, and a balancer."""
import atexit
import os
import re
import shlex
import shutil
import signal
import subprocess
import sys
import threading
import time

import day_oracle
from cluster_oracle import Life, shift_of
from folder_server import FolderServer, bring
from local_server import TOP, Nginx, free_port, settings_of, stop, wait_for
from serve_replies import name_of

FEED = os.path.join(TOP, "package", "fmrcd-feed")
BRING_BACK = os.path.join(TOP, "package", "fmrcd-bring-back")
KEEP = 864_000


def words_of(unit, key):
    """The words of the line of this key in a unit of docs."""
    with open(os.path.join(TOP, "docs", unit)) as file:
        text = file.read().replace("\\\n", "")
    return shlex.split(re.search("^%s=(.*)" % key, text, re.M)[1])


def pause_of_unit():
    """After how many seconds the unit starts a server again that was killed."""
    with open(os.path.join(TOP, "docs", "fmrcd@.service")) as file:
        return sum(map(int, re.findall(r"^(?:RestartSec=|ExecStartPre=.*sleep )(\d+)$", file.read(), re.M)))


class Spool:
    """The folder where producers put files, as docs/CLUSTER.md says, and what lies there."""

    def __init__(self, folder):
        self.path = os.path.join(folder, "spool")
        os.mkdir(self.path)
        # All files that came for each run, as shifts, the one that lies there, and when each came.
        self.brought, self.lying, self.times = {}, {}, {}

    def put(self, run):
        """Brings a new file of a run, in the place of what lies there for it."""
        shift = shift_of(len(self.brought.setdefault(run, [])))
        self.brought[run].append(shift)
        path = os.path.join(self.path, name_of(run))
        self.remove(path + ".retract")
        self.times[run, shift] = time.monotonic()
        bring(path, day_oracle.content_of(run, shift))
        self.lying[run] = shift

    def take_back(self, run):
        """Brings the word that takes a run back, in the place of its file."""
        path = os.path.join(self.path, name_of(run))
        self.remove(path)
        bring(path + ".retract", b"")
        del self.lying[run]

    def remove(self, path):
        if os.path.exists(path):
            os.remove(path)


class Way:
    """The way from the spool to one machine: an rsync daemon of its own, so that one can be cut."""

    def __init__(self, folder, spool, number):
        self.host, port = "127.0.0.%d" % (20 + number), free_port()
        settings = os.path.join(folder, "rsyncd%d.conf" % number)
        with open(settings, "w") as file:
            file.write(settings_of("rsyncd.conf", {"path = /srv/spool/gfs": "path = " + spool.path}))
        words = ["rsync", "--daemon", "--no-detach", "--config", settings, "--log-file", settings + ".log"]
        words += ["--address", self.host, "--port", str(port)]
        self.process = subprocess.Popen(words, start_new_session=True)
        atexit.register(self.end)
        self.address = "rsync://%s:%d/gfs/" % (self.host, port)
        wait_for(port, self.process, "rsync", self.host)

    def cut(self):
        """Nothing comes over it any more, nor does a refusal."""
        os.killpg(self.process.pid, signal.SIGSTOP)

    def mend(self):
        os.killpg(self.process.pid, signal.SIGCONT)

    def end(self):
        if self.process.poll() is None:
            self.mend()
            stop(self.process)


class Machine:
    """A server with its folder, its mirror of the spool and what feeds it."""

    def __init__(self, program, folder, spool, number, fail):
        self.number, self.program, self.spool, self.fail = number, program, spool, fail
        self.folder = os.path.join(folder, "machine%d" % number)
        self.inbox = os.path.join(self.folder, "inbox")
        os.makedirs(self.inbox)
        with open(os.path.join(self.folder, "proto.nc"), "wb") as file:
            file.write(day_oracle.content_of(0, 0))
        self.host, self.port = "127.0.0.%d" % (10 + number), free_port()
        self.address = "%s:%d" % (self.host, self.port)
        self.way = Way(folder, spool, number)
        self.lives, self.server, self.follower = [], None, None
        self.start()
        self.feeder = None
        self.feed()

    def wrong(self, text):
        self.fail("server %d: %s" % (self.number, text))

    def life(self):
        return self.lives[-1]

    def start(self, back=0):
        """Starts the server over this number of files that were brought back, and follows its lines."""
        options = ["--workers", "4", "--keep", str(KEEP)]
        life = Life(self.spool.brought, self.wrong, back)
        self.lives.append(life)
        self.server = FolderServer(self.program, os.path.join(self.folder, "proto.nc"), [self.inbox], options, None,
                                   self.port, subprocess.PIPE, self.host)
        self.follower = threading.Thread(target=life.follow, args=(self.server.process.stderr,), daemon=True)
        self.follower.start()
        self.server.connect().close()

    def feed(self):
        """Starts what feeds the server, by the words of its unit."""
        words = words_of("fmrcd-feed@.service", "ExecStart")
        given = {"/usr/bin/fmrcd-feed": FEED, "${SPOOL}": self.way.address}
        words = [sys.executable] + [given.get(word, word) for word in words]
        with open(os.path.join(self.folder, "feed.log"), "wb") as log:
            self.feeder = subprocess.Popen(words, cwd=self.folder, stderr=log)
        atexit.register(stop, self.feeder)

    def freeze(self):
        """The server takes connections, and doesn't reply any more."""
        self.server.process.send_signal(signal.SIGSTOP)

    def thaw(self):
        self.server.process.send_signal(signal.SIGCONT)

    def kill(self):
        """Kills the server. All that it said is then known."""
        self.server.kill()
        self.life().over = time.monotonic()
        self.follower.join()
        self.life().end()

    def kill_and_start(self):
        """Kills the server, and starts it again as its unit does."""
        self.kill()
        time.sleep(pause_of_unit())
        subprocess.run([BRING_BACK, self.inbox, "--keep", str(KEEP)], check=True, stdout=subprocess.DEVNULL)
        back = len([name for name in os.listdir(self.inbox) if name.endswith(".nc")])
        self.start(back)


def with_addresses(text, machines):
    """Settings with the addresses of these servers. A line of one that isn't among them is left out."""
    for number, machine in enumerate(machines):
        if text.count("10.0.0.%d:8080" % (number + 1)) != 2:
            sys.exit("server %d doesn't stand twice in the settings" % (number + 1))
        text = text.replace("10.0.0.%d:8080" % (number + 1), machine.address)
    return re.sub(r" *server 10\..*\n", "", text)


def with_nginx(folder, machines, port, hashed="$remote_addr"):
    """nginx before some servers, with docs/nginx.conf and docs/nginx-cluster.conf."""
    upstream = with_addresses(settings_of("nginx-cluster.conf", {}), machines).replace("$remote_addr", hashed)
    site = settings_of("nginx.conf", {
        "default $named;": "default $named; gfs gfs_any;",
        "listen 80;": "listen 127.0.0.1:%d;" % port,
        "proxy_cache_path /var/cache/fmrcd ": "proxy_cache_path %s/cache " % folder,
        "access_log /var/log/nginx/fmrcd.log ": "access_log %s/access.log " % folder,
    })
    site, count = re.subn(r"(?m)^upstream gfs \{\n(?: .*\n)*\}\n", lambda _: upstream, site)
    if count != 1:
        sys.exit("docs/nginx.conf has %d upstreams gfs" % count)
    return Nginx(folder, site, port, 2).process


def with_haproxy(folder, machines, port):
    """HAProxy before the servers, with docs/haproxy.cfg."""
    settings = os.path.join(folder, "haproxy.cfg")
    os.makedirs(folder)
    with open(settings, "w") as file:
        file.write(with_addresses(settings_of("haproxy.cfg", {"bind :80": "bind 127.0.0.1:%d" % port}), machines))
    program = shutil.which("haproxy", path=os.environ.get("PATH", "") + ":/usr/sbin")
    process = subprocess.Popen([program, "-db", "-f", settings])
    atexit.register(stop, process)
    wait_for(port, process, "HAProxy")
    return process


BALANCERS = {"nginx": with_nginx, "haproxy": with_haproxy}
