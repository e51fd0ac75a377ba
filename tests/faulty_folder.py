"""A server over a folder, and the failing of its system calls."""
import http.client
import os
import re
import signal
import subprocess
import tempfile
import threading
import time

from local_server import free_port
from serve_replies import APART, body_of, file_of, name_of

# The user that servers run as, for whom files have modes.
NOBODY = 65534
# The files of a case: A is held from the beginning, B comes while calls fail, and C after that.
A, B, C = (name_of(APART * number) for number in range(3))
RUNS = {name: APART * number for number, name in enumerate((A, B, C))}
# How the lines begin that are not of failing calls.
VERDICTS = ("serving ", "published ", "retracted ", "refused ", "full ", "later ", "not held ", "expired ")
# What is told of a folder while calls fail, and once they work again.
LISTED = ("it can't be listed", "it is listed again")
MOVED = (B + " can't be moved", "all files are moved")
READ = (B + " can't be read", "all files are read")
BEST = "/thredds/dodsC/gfs/gfs_best.ncd.dods?time_run"
# For how many seconds calls fail, and how many are waited for where something should happen at the next look.
LASTS, SOON = 2, 20
# After how many seconds what couldn't be read is looked at again, with some for a busy machine.
MINUTE = 70

taken_ports = set()
port_lock = threading.Lock()


def own_port():
    """A port that no other case takes."""
    with port_lock:
        port = free_port()
        while port in taken_ports:
            port = free_port()
        taken_ports.add(port)
        return port


def lines_in(said):
    """The lines in a file of a server's standard error, without the times."""
    with open(said, errors="replace") as file:
        return [line.split(" ", 1)[-1] for line in file.read().splitlines()]


def wait_until(fact, seconds):
    """Whether a fact holds within these seconds."""
    end = time.monotonic() + seconds
    while not fact():
        if time.monotonic() > end:
            return False
        time.sleep(0.05)
    return True


class Folder:
    """A server over one folder or several, with what a case does to them, and what it finds wrong."""

    def __init__(self, program, top, inboxes=1, workers=2):
        self.workers = workers
        self.top = tempfile.mkdtemp(dir=top)
        os.chmod(self.top, 0o755)
        self.program = program
        self.inboxes = [os.path.join(self.top, "inbox%d" % number) for number in range(inboxes)]
        self.inbox = self.inboxes[0]
        for inbox in self.inboxes:
            os.mkdir(inbox)
            os.chown(inbox, NOBODY, NOBODY)
        self.proto = os.path.join(self.top, "proto.nc")
        with open(self.proto, "wb") as file:
            file.write(file_of(0))
        self.port = own_port()
        self.wrong = []
        self.said = os.path.join(self.top, "said")
        self.process = self.start(self.port, self.inboxes, self.said)
        self.held = set()
        if not wait_until(lambda: self.reply() is not None, 10):
            raise OSError("the server doesn't listen")
        self.bring(A)
        self.sees(A)

    def start(self, port, inboxes, said, before=()):
        """Starts a server, by another program where words stand before its own."""
        line = [*before, self.program, "serve", "--name", "gfs", "--proto", self.proto]
        line += ["--listen", "127.0.0.1:%d" % port, "--workers", str(self.workers)]
        with open(said, "w") as file:
            return subprocess.Popen(line + inboxes, stdout=subprocess.PIPE, stderr=file, user=NOBODY, group=NOBODY,
                                    extra_groups=[], cwd=self.top)

    def close(self):
        if self.process.poll() is None:
            self.process.kill()
        self.process.communicate()

    def lines(self):
        """What the server said on standard error, without the times."""
        return lines_in(self.said)

    def check_line(self, line):
        """It has to be told."""
        if not wait_until(lambda: line in self.lines(), SOON):
            self.wrongs("there is no line %r" % line)

    def check_told(self, fails, works):
        """It has to be told that calls fail, with the reason, and that they work again, each once, and nothing else."""
        self.check_line("working %s: %s" % (self.inbox, works))
        told = [line for line in self.lines() if not line.startswith(VERDICTS)]
        fronts = ("failing %s: %s: " % (self.inbox, fails), "working %s: %s" % (self.inbox, works))
        if len(told) != 2 or not all(line.startswith(front) for line, front in zip(told, fronts)):
            self.wrongs("of failing and mending %r is told" % told)

    def check_door_told(self):
        """It has to be told that accepts fail, and that they work again, each once, and nothing else."""
        told = [line for line in self.lines() if not line.startswith(VERDICTS)]
        if len(told) != 2 or len(set(told)) != 2:
            self.wrongs("of failing and mending %r is told" % told)

    def path(self, *names):
        return os.path.join(self.inbox, *names)

    def bring(self, name, content=None, mode=0o644, inbox=None):
        """Brings a file by a rename."""
        part = os.path.join(inbox or self.inbox, "part")
        with open(part, "wb") as file:
            file.write(file_of(RUNS[name]) if content is None else content)
        os.chmod(part, mode)
        os.rename(part, os.path.join(inbox or self.inbox, name))

    def link(self):
        """A connection to the server."""
        return http.client.HTTPConnection("127.0.0.1", self.port, timeout=5)

    def reply(self):
        """The status and the body of the reply to a request, or None."""
        link = self.link()
        try:
            link.request("GET", BEST)
            return reply_over(link)
        except OSError:
            return None
        finally:
            link.close()

    def right(self, names):
        """The reply where these files are held."""
        line, _, _, body = body_of(("best", 0), "time_run", {RUNS[name] for name in names})
        return int(line.split()[0]), body

    def shows(self, names):
        return self.reply() == self.right(names)

    def wrongs(self, text):
        self.wrong.append(text)

    def sees(self, name, seconds=SOON, inbox=None):
        """Whether a file that came is published within these seconds. Where it isn't moved then, that is noted."""
        after = self.held | {name}
        path = os.path.join(inbox or self.inbox, "done", name)
        is_moved = wait_until(lambda: os.path.isfile(path) and self.shows(after), seconds)
        if not self.shows(after):
            return False
        self.held = after
        if not is_moved:
            self.wrongs("%s is published, and isn't moved" % said_of(name))
        return True

    def retract(self, name):
        """Whether a file can be taken back."""
        self.bring(name + ".retract", b"")
        after = self.held - {name}
        if not wait_until(lambda: os.path.isfile(self.path("done", name + ".retract")) and self.shows(after), SOON):
            self.wrongs("%s can't be taken back" % said_of(name))
            return
        self.held = after

    def thread(self):
        """The number of the thread that lists the folder."""
        return self.thread_of(["-e", "trace=getdents64", "-P", self.inbox], lambda: None)

    def door_thread(self):
        """The number of the thread that takes connections, where that is one."""
        return self.thread_of(["-e", "trace=accept,accept4"], self.reply)

    def thread_of(self, words, act):
        """The number of the thread that makes calls which strace traces by these words, at least while one acts so."""
        log = os.path.join(self.top, "threads")
        line = ["strace", "-f", "-p", str(self.process.pid), "-o", log] + words
        tracer = subprocess.Popen(line, stderr=subprocess.DEVNULL)

        def is_found():
            act()
            return os.path.exists(log) and os.path.getsize(log) > 0

        try:
            if not wait_until(is_found, 10):
                raise OSError("no thread is found by %s" % " ".join(words))
        finally:
            tracer.send_signal(signal.SIGINT)
            tracer.wait()
        with open(log) as file:
            return int(re.match("[0-9]+", file.read()).group())


def reply_over(link):
    """The status and the body of the reply that comes over a connection."""
    reply = link.getresponse()
    return reply.status, reply.read()


def said_of(name):
    """What a file is called in what is said of a case."""
    return {A: "the file from before", B: "the file that came meanwhile", C: "a later file"}.get(name, name)


class Tracer:
    """strace on one thread; `words` are what it does there, on paths where some are given."""

    def __init__(self, folder, thread, words, paths=()):
        self.log = os.path.join(folder.top, "calls")
        line = ["strace", "-p", str(thread), "-o", self.log] + words
        for path in paths:
            line += ["-P", path]
        self.process = subprocess.Popen(line, stderr=subprocess.PIPE, text=True)
        said = "none"
        while said and "attached" not in said:
            said = self.process.stderr.readline()
        if not said:
            raise OSError("strace doesn't attach")

    def lines(self, mark):
        """The calls with a mark, so far."""
        with open(self.log) as file:
            return [line for line in file if mark in line]

    def detach(self):
        self.process.send_signal(signal.SIGINT)
        self.process.wait()
        self.process.stderr.close()
