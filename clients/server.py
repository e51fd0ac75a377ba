"""A server over one folder on this machine."""
import os
import socket
import subprocess
import time

NAME = "fc"
# A second collection of one server.
OTHER = "rest"


class Server:
    """A program that serves one folder until it is closed."""

    def __init__(self, program, folder, proto, workers):
        self.inbox = os.path.join(folder, "inbox")
        os.makedirs(self.inbox)
        with socket.socket() as free:
            free.bind(("127.0.0.1", 0))
            self.port = free.getsockname()[1]
        self.base = "http://127.0.0.1:%d/thredds/dodsC/%s/" % (self.port, NAME)
        line = [program, *self.words(proto), "--listen", "127.0.0.1:%d" % self.port, "--workers", str(workers)]
        self.process = subprocess.Popen(line, stdout=subprocess.PIPE, stderr=subprocess.STDOUT, text=True)

    def words(self, proto):
        """The command, and what it serves."""
        return ["serve", "--name", NAME, "--proto", proto, "--epoch", "2020-01-01T00:00:00Z", self.inbox]

    def __enter__(self):
        for _ in range(500):
            if self.process.poll() is not None:
                raise OSError("the server ended with %d, %r" % (self.process.returncode, self.process.stdout.read()))
            try:
                socket.create_connection(("127.0.0.1", self.port)).close()
                return self
            except ConnectionRefusedError:
                time.sleep(0.02)
        raise OSError("the server doesn't listen")

    def __exit__(self, *_):
        self.process.kill()
        self.process.communicate()

    def runs(self):
        """Whether it still runs."""
        return self.process.poll() is None

    def bring(self, path):
        """Brings a file into the folder by a rename, and waits until it is published."""
        bring(path, self.inbox, os.path.basename(path))


class Both(Server):
    """A program that serves two collections over one prototype, each from a folder of its own."""

    def words(self, proto):
        self.other_inbox = self.inbox + "_" + OTHER
        os.makedirs(self.other_inbox)
        self.other_base = "http://127.0.0.1:%d/thredds/dodsC/%s/" % (self.port, OTHER)
        return ["many", "=".join((NAME, proto, self.inbox)), "=".join((OTHER, proto, self.other_inbox))]

    def bring_other(self, path):
        """Brings a file of the first collection to the other one, under a name of that one."""
        bring(path, self.other_inbox, OTHER + os.path.basename(path)[len(NAME):])


def bring(path, inbox, name):
    """Brings a file into a folder by a rename, and waits until it is published."""
    part = os.path.join(inbox, name + ".part")
    os.link(path, part)
    os.rename(part, os.path.join(inbox, name))
    for _ in range(2000):
        if os.path.exists(os.path.join(inbox, "done", name)):
            return
        for verdict in ("refused", "later"):
            if os.path.exists(os.path.join(inbox, verdict, name)):
                raise OSError("%s went to %s" % (name, verdict))
        time.sleep(0.01)
    raise OSError("%s has no verdict" % name)
