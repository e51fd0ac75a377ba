"""Headless Chromium, driven over a pipe by its own protocol."""
import atexit
import base64
import fcntl
import json
import os
import subprocess
import time

from local_server import stop

LINE = ["chromium", "--headless=new", "--no-sandbox", "--disable-gpu", "--disable-dev-shm-usage", "--hide-scrollbars"]
LINE += ["--no-first-run", "--remote-debugging-pipe"]


class Browser:
    """A page in a browser of its own, which ends with the program."""

    def __init__(self, folder, wide, high):
        command, self.commands = high_ends(*os.pipe())
        self.replies, reply = high_ends(*os.pipe())

        # The browser reads commands from 3 and writes replies to 4.
        def hand_over():
            os.dup2(command, 3)
            os.dup2(reply, 4)

        line = LINE + ["--user-data-dir=" + os.path.join(folder, "profile"), "about:blank"]
        with open(os.path.join(folder, "chromium.log"), "w") as log:
            self.process = subprocess.Popen(line, stdout=log, stderr=log, close_fds=False, preexec_fn=hand_over)
        atexit.register(stop, self.process)
        os.close(command)
        os.close(reply)
        self.left = b""
        self.count = 0
        self.session = None
        target = self.ask("Target.createTarget", url="about:blank")["targetId"]
        self.session = self.ask("Target.attachToTarget", targetId=target, flatten=True)["sessionId"]
        self.resize(wide, high)

    def ask(self, method, **given):
        """What the browser answers to a command."""
        self.count += 1
        command = {"id": self.count, "method": method, "params": given}
        if self.session:
            command["sessionId"] = self.session
        os.write(self.commands, json.dumps(command).encode() + b"\0")
        while True:
            message = self.next_message()
            if message.get("id") == self.count:
                if "error" in message:
                    raise OSError("%s: %s" % (method, message["error"]["message"]))
                return message["result"]

    def next_message(self):
        while b"\0" not in self.left:
            some = os.read(self.replies, 1 << 16)
            if not some:
                raise OSError("the browser ended")
            self.left += some
        message, self.left = self.left.split(b"\0", 1)
        return json.loads(message)

    def open(self, address):
        self.ask("Page.navigate", url=address)

    def value_of(self, expression):
        """The value of an expression in the page; none while another page is opened."""
        try:
            result = self.ask("Runtime.evaluate", expression=expression, returnByValue=True)
        except OSError:
            return None
        return result["result"].get("value") if "exceptionDetails" not in result else None

    def resize(self, wide, high):
        self.ask("Emulation.setDeviceMetricsOverride", width=wide, height=high, deviceScaleFactor=1, mobile=False)
        # The page draws anew.
        time.sleep(0.5)

    def picture(self, path):
        with open(path, "wb") as file:
            file.write(base64.b64decode(self.ask("Page.captureScreenshot", format="png")["data"]))


def high_ends(*ends):
    """The same ends of a pipe under other numbers than 3 and 4."""
    moved = [fcntl.fcntl(end, fcntl.F_DUPFD_CLOEXEC, 10) for end in ends]
    for end in ends:
        os.close(end)
    return moved
