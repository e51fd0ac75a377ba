"""A server of a folder, and nginx, on free ports of this machine; both end with the program."""
import atexit
import os
import shutil
import socket
import subprocess
import sys
import time

TOP = os.path.dirname(os.path.dirname(os.path.abspath(__file__)))


def free_port():
    with socket.socket() as free:
        free.bind(("127.0.0.1", 0))
        return free.getsockname()[1]


def wait_for(port, process, what, host="127.0.0.1"):
    """Waits until something listens at a port."""
    for _ in range(500):
        if process.poll() is not None:
            sys.exit("%s ended with %d" % (what, process.returncode))
        with socket.socket() as link:
            if link.connect_ex((host, port)) == 0:
                return
        time.sleep(0.02)
    sys.exit("%s doesn't listen" % what)


def resident(process):
    """The memory of a process that is resident, in bytes."""
    with open("/proc/%d/status" % process.pid) as file:
        return next(int(line.split()[1]) for line in file if line.startswith("VmRSS:")) << 10


def stop(process):
    """Ends a process, which has some seconds to end well."""
    if process.poll() is None:
        process.terminate()
        try:
            process.wait(5)
        except subprocess.TimeoutExpired:
            process.kill()
            process.wait()


def of_unit():
    """What the unit docs/fmrcd@.service sets for the C library, by name."""
    with open(os.path.join(TOP, "docs", "fmrcd@.service")) as unit:
        words = [word for line in unit if line.startswith("Environment=") for word in line[12:].split()]
    return dict(word.split("=", 1) for word in words if word.startswith(("MALLOC_", "GLIBC_")))


class Server:
    """A program that serves one folder; `proto` is the content of its prototype, and `error` takes its lines."""

    def __init__(self, program, folder, proto, workers, port=None, collection="gfs", error=None):
        self.inbox = os.path.join(folder, "inbox")
        self.part = os.path.join(self.inbox, "arriving.part")
        os.makedirs(self.inbox)
        name = os.path.join(folder, "proto.nc")
        with open(name, "wb") as file:
            file.write(proto)
        self.port = port or free_port()
        line = [program, "serve", "--name", collection, "--proto", name, "--listen", "127.0.0.1:%d" % self.port]
        given = dict(os.environ, **of_unit())
        self.process = subprocess.Popen(line + ["--workers", str(workers), self.inbox], env=given, stderr=error)
        atexit.register(stop, self.process)
        wait_for(self.port, self.process, "the server")

    def bring(self, name, content):
        """Lets a file arrive, by a rename."""
        with open(self.part, "wb") as file:
            file.write(content)
        os.rename(self.part, os.path.join(self.inbox, name))

    def arrive(self, name, content):
        """The same, and waits for its verdict."""
        self.bring(name, content)
        for _ in range(4000):
            if os.path.exists(os.path.join(self.inbox, "done", name)):
                return
            time.sleep(0.002)
        sys.exit("%s wasn't moved to done" % name)

    def resident(self):
        return resident(self.process)


def settings_of(name, own):
    """A file of docs, with texts of this run in the place of its own, each of which stands there once."""
    with open(os.path.join(TOP, "docs", name)) as file:
        text = file.read()
    for old, new in own.items():
        if text.count(old) != 1:
            sys.exit("docs/%s has %d times %r" % (name, text.count(old), old))
        text = text.replace(old, new)
    return text


MAIN = """%(user)sdaemon off; pid %(folder)s/pid; error_log %(folder)s/error.log; worker_processes %(processes)d;
events { worker_connections 4096; }
http {
    sendfile on; tcp_nopush on; keepalive_requests 1000000; access_log off;
    client_body_temp_path %(folder)s/body; proxy_temp_path %(folder)s/proxy; fastcgi_temp_path %(folder)s/fastcgi;
    uwsgi_temp_path %(folder)s/uwsgi; scgi_temp_path %(folder)s/scgi;
    include %(folder)s/site.conf;
}
"""


class Nginx:
    """nginx with `processes` processes over the configuration of a site; `port` is where it listens."""

    def __init__(self, folder, site, port, processes):
        self.port = port
        os.makedirs(folder, exist_ok=True)
        program = shutil.which("nginx", path=os.environ.get("PATH", "") + ":/usr/sbin")
        if program is None:
            sys.exit("nginx isn't here; it is in Debian's package nginx-core")
        user = "user root; " if os.geteuid() == 0 else ""
        given = {"user": user, "folder": folder, "processes": processes}
        for name, content in (("main.conf", MAIN % given), ("site.conf", site)):
            with open(os.path.join(folder, name), "w") as file:
                file.write(content)
        line = [program, "-p", folder, "-e", os.path.join(folder, "error.log"), "-c", os.path.join(folder, "main.conf")]
        self.process = subprocess.Popen(line)
        atexit.register(stop, self.process)
        wait_for(port, self.process, "nginx")
