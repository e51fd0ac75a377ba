"""A server of several folders, and connections that are kept."""
import atexit
import os
import socket
import subprocess
import time

from local_server import free_port


class Ended(Exception):
    """The server ended, or didn't do what it was waited for."""


class FolderServer:
    """A server of the collection `gfs` over folders that are there; `limits` is called before it starts."""

    def __init__(self, program, proto, inboxes, options=(), limits=None, port=None, error=subprocess.DEVNULL,
                 host="127.0.0.1"):
        self.host, self.port = host, port or free_port()
        words = [program, "serve", "--name", "gfs", "--proto", proto, "--listen", "%s:%d" % (host, self.port)]
        self.process = subprocess.Popen(words + list(options) + list(inboxes), stdout=subprocess.PIPE, stderr=error,
                                        preexec_fn=limits)
        atexit.register(self.kill)

    def kill(self):
        if self.process.poll() is None:
            self.process.kill()
            self.process.wait()

    def connect(self, seconds=10.0):
        """A connection, once the server listens."""
        until = time.monotonic() + seconds
        while True:
            try:
                return Link(socket.create_connection((self.host, self.port), timeout=60.0))
            except OSError:
                if self.process.poll() is not None or time.monotonic() > until:
                    raise Ended("the server doesn't listen: %s" % self.process.poll()) from None
                time.sleep(0.02)

    def end(self, seconds=60.0):
        """The status and the line of a server that ends by itself."""
        try:
            text = self.process.communicate(timeout=seconds)[0]
        except subprocess.TimeoutExpired:
            raise Ended("the server doesn't end") from None
        return self.process.returncode, text.decode()


class Link:
    """A connection, from which whole replies are read."""

    def __init__(self, sock):
        self.sock = sock
        self.stream = sock.makefile("rb", 1 << 16)
        # The fields of the last reply, by their names in small letters.
        self.fields = {}

    def send(self, text):
        self.sock.sendall(text)

    def reply(self, bodiless=False):
        """The next reply as status, revision and body; None where the connection ended before its first byte."""
        status, fields = self.stream.readline(), {}
        if not status:
            return None
        while True:
            line = self.stream.readline()
            if line in (b"\r\n", b""):
                break
            key, _, value = line.partition(b": ")
            fields[key.lower()] = value.strip()
        length = 0 if bodiless else int(fields.get(b"content-length", b"0"))
        body = self.stream.read(length)
        if line == b"" or len(body) != length:
            raise Ended("a reply was cut: %r" % (status + body[:40]))
        self.fields = fields
        revision = int(fields.get(b"x-collection-revision", b"-1"))
        return int(status.split()[1]), revision, body

    def ask(self, method, target):
        self.send(b"%s %s HTTP/1.1\r\nHost: localhost\r\n\r\n" % (method, target))
        return self.reply(method == b"HEAD")

    def close(self):
        self.stream.close()
        self.sock.close()


def bring(path, content):
    """Lets a file arrive, by a rename."""
    part = path + ".part"
    with open(part, "wb") as file:
        file.write(content)
    os.rename(part, path)


def wait_until(what, test, seconds=60.0):
    """Waits until a test is true."""
    until = time.monotonic() + seconds
    while not test():
        if time.monotonic() > until:
            raise Ended("after %d seconds still not: %s" % (seconds, what))
        time.sleep(0.02)
