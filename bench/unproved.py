"""Builds the program of a crate with checks, without a proof, and keeps it. `rt try` removes what it has built, so it
is copied while it runs."""
import os
import shutil
import subprocess
import tempfile
import time


def running(room):
    """The program that `rt try` built below a folder and runs, once it does. It is handed to the loader by its path."""
    for number in filter(str.isdigit, os.listdir("/proc")):
        try:
            with open("/proc/%s/cmdline" % number, "rb") as file:
                words = file.read().decode(errors="replace").split("\0")
        except OSError:
            continue
        for word in words:
            if word.startswith(room + "/") and os.path.basename(word) == "program" and os.access(word, os.X_OK):
                return word
    return None


def build(folder, program, words=(), data=()):
    """Builds the program of a crate and keeps it under a path. What is said where that fails; else nothing. The words
    have to keep the program running for a moment."""
    with tempfile.TemporaryDirectory() as own:
        room, log = os.path.join(own, "room"), os.path.join(own, "log")
        os.mkdir(room)
        given = ["rt", "try", "--seconds", "60"]
        for pair in data:
            given += ["--data", pair]
        found = None
        with open(log, "w+b") as said:
            tried = subprocess.Popen(given + ["--"] + list(words), cwd=folder, env=dict(os.environ, TMPDIR=room),
                                     stdin=subprocess.DEVNULL, stdout=said, stderr=said)
            try:
                while tried.poll() is None and not found:
                    time.sleep(0.005)
                    found = running(room)
                    if found:
                        shutil.copy2(found, program)
            except OSError:
                found = None
            finally:
                tried.terminate()
                tried.wait()
            said.seek(0)
            return "" if found else said.read().decode(errors="replace") or "nothing was said"
