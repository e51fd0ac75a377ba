"""What people and other programs do to a folder, and what a server has to make of it."""
import os
import signal
import socket
import subprocess
import time

from faulty_folder import (A, B, C, LASTS, LISTED, MINUTE, MOVED, NOBODY, READ, SOON, Tracer, lines_in, own_port,
                           said_of, wait_until)
from serve_replies import APART, file_of

# How many replies are under way: together they have more bytes than the system keeps for a peer that takes nothing.
REPLIES = 600


def comes(folder, name, **given):
    """Notes where a file isn't taken in soon."""
    if not folder.sees(name, **given):
        folder.wrongs("%s isn't taken in" % said_of(name))


def folder_away(folder):
    os.rename(folder.inbox, folder.inbox + ".away")
    time.sleep(LASTS)
    os.rename(folder.inbox + ".away", folder.inbox)
    folder.bring(B)
    comes(folder, B)


def done_is_a_file(folder):
    os.rename(folder.path("done"), folder.path("away"))
    with open(folder.path("done"), "wb"):
        pass
    folder.bring(B)
    time.sleep(LASTS)
    os.remove(folder.path("done"))
    os.rename(folder.path("away"), folder.path("done"))
    comes(folder, B)
    folder.bring(C)
    comes(folder, C)


def done_read_only(folder):
    os.chmod(folder.path("done"), 0o555)
    folder.bring(B)
    time.sleep(LASTS)
    os.chmod(folder.path("done"), 0o755)
    comes(folder, B)
    folder.bring(C)
    comes(folder, C)


def folder_in_the_place(folder):
    """A folder lies where the file should go: the others come, and the file once that has gone."""
    os.mkdir(folder.path("done", B))
    folder.bring(B)
    if not wait_until(lambda: folder.shows({A, B}), SOON):
        folder.wrongs("%s isn't published" % said_of(B))
    folder.held.add(B)
    folder.bring(C)
    comes(folder, C)
    os.rmdir(folder.path("done", B))
    comes(folder, B)


def unreadable(folder):
    folder.bring(B, mode=0)
    folder.bring(C)
    comes(folder, C)
    os.chmod(folder.path(B), 0o644)
    comes(folder, B)


def unreadable_replaced(folder):
    folder.bring(B, mode=0)
    time.sleep(1)
    folder.bring(B)
    comes(folder, B)


def unread_once(folder):
    """A file whose opening failed once is opened again within a minute, though nobody touches it."""
    words = ["-e", "trace=openat", "-e", "inject=openat:error=EIO:when=1"]
    tracer = Tracer(folder, folder.thread(), words, [folder.path(B)])
    folder.bring(B)
    time.sleep(1)
    tracer.detach()
    comes(folder, B, seconds=MINUTE)


def held_up_at_the_opening(folder, meanwhile):
    """Holds the worker up for a second as it opens B, and does something to the file in that time."""
    words = ["-e", "trace=openat", "-e", "inject=openat:delay_enter=1000000:when=1"]
    tracer = Tracer(folder, folder.thread(), words, [folder.path(B)])
    folder.bring(B)
    time.sleep(0.6)
    meanwhile()
    time.sleep(1)
    tracer.detach()


def vanished(folder):
    held_up_at_the_opening(folder, lambda: os.remove(folder.path(B)))
    folder.bring(C)
    comes(folder, C)
    folder.bring(B)
    comes(folder, B)


def pipe(folder):
    """A pipe takes the place of a file that was listed, while the file before it is read."""
    words = ["-e", "trace=openat", "-e", "inject=openat:delay_enter=1000000:when=1..2"]
    tracer = Tracer(folder, folder.thread(), words, [folder.path(""), folder.path(B)])
    # The opening of the folder is held up for a second, so that one listing gives both, and then that of the first.
    time.sleep(0.5)
    folder.bring(C)
    folder.bring(B)
    time.sleep(1.1)
    os.mkfifo(folder.path("pipe"))
    os.rename(folder.path("pipe"), folder.path(C))
    time.sleep(1)
    tracer.detach()
    comes(folder, B)
    folder.bring(C)
    comes(folder, C)


def stop_taken_away(folder):
    """STOP in one of two folders, which is taken away again."""
    stop = folder.path("STOP")
    with open(stop, "wb"):
        pass
    time.sleep(1)
    os.remove(stop)
    folder.bring(B)
    comes(folder, B)
    folder.bring(C, inbox=folder.inboxes[1])
    comes(folder, C, inbox=folder.inboxes[1])


def stop_ends_the_server(folder):
    with open(folder.path("STOP"), "wb"):
        pass
    if not wait_until(lambda: folder.process.poll() is not None, 5):
        folder.wrongs("STOP doesn't end a server without --connections")
    elif folder.process.returncode != 0:
        folder.wrongs("STOP ends the server with %d" % folder.process.returncode)


def link_to(folder, requests, room=None):
    """A connection over which requests were sent; with `room` the system keeps few bytes for it that wait."""
    link = socket.socket()
    if room:
        link.setsockopt(socket.SOL_SOCKET, socket.SO_RCVBUF, room)
    link.settimeout(10)
    link.connect(("127.0.0.1", folder.port))
    link.sendall(requests)
    return link


def rest_of(link):
    """What still comes over a connection until its end."""
    with link:
        return b"".join(iter(lambda: link.recv(1 << 16), b""))


def stop_lets_replies_end(folder):
    """What is under way when STOP comes is sent whole, and a connection between two requests is closed soon."""
    request = b"GET /thredds/dodsC/gfs/gfs_best.ncd.dods HTTP/1.1\r\nHost: gfs\r\n\r\n"
    with link_to(folder, request.replace(b"Host", b"Connection: close\r\nHost")) as link:
        body = rest_of(link).split(b"\r\n\r\n", 1)[1]
    idle, busy = link_to(folder, request), link_to(folder, request * REPLIES, room=4096)
    time.sleep(0.5)
    with open(folder.path("STOP"), "wb"):
        pass
    began = time.monotonic()
    if not rest_of(idle).endswith(body) or time.monotonic() > began + 5:
        folder.wrongs("a connection between two requests isn't closed within 5 s")
    replies = rest_of(busy).split(b"HTTP/1.1 200 OK\r\n")[1:]
    whole = sum(reply.endswith(b"\r\n\r\n" + body) for reply in replies)
    if not whole == len(replies) == REPLIES:
        folder.wrongs("of %d replies %d come, %d of them whole" % (REPLIES, len(replies), whole))
    if not wait_until(lambda: folder.process.poll() is not None, 5) or folder.process.returncode != 0:
        folder.wrongs("the server hasn't ended, or with %s" % folder.process.returncode)


def taken_back(folder):
    folder.retract(A)
    if os.path.exists(folder.path("done", A)) or not os.path.exists(folder.path("taken", A)):
        folder.wrongs("a file that was taken back isn't moved to taken")


def number_of(path):
    """The number of the file at a path, where one lies there."""
    return os.stat(path).st_ino if os.path.isfile(path) else None


def outdated(folder):
    """Two files wait in `later`; of one the name is published meanwhile, and the name of the other is taken back. Both
    go to `taken`."""
    words = ["-e", "trace=openat", "-e", "inject=openat:error=ENOMEM:when=1..2"]
    tracer = Tracer(folder, folder.thread(), words, [folder.path(B), folder.path(C)])
    waiting = {}
    for name in (B, C):
        folder.bring(name)
        if not wait_until(lambda path=folder.path("later", name): os.path.isfile(path), SOON):
            folder.wrongs("%s doesn't go to later" % said_of(name))
        waiting[name] = number_of(folder.path("later", name))
        folder.check_line("later %s no memory" % name)
    tracer.detach()
    folder.bring(B)
    comes(folder, B)
    folder.bring(C + ".retract", b"")
    for name, number in waiting.items():
        if not wait_until(lambda path=folder.path("taken", name): number_of(path) == number, MINUTE):
            folder.wrongs("%s isn't put away" % said_of(name))
    if number_of(folder.path("done", B)) in (None, waiting[B]) or not folder.shows({A, B}):
        folder.wrongs("%s that was published later is gone" % said_of(B))


def relative_link(folder):
    """It would be broken once it was moved."""
    with open(os.path.join(folder.top, "source.nc"), "wb") as file:
        file.write(file_of(APART))
    os.symlink("../source.nc", folder.path(B))
    if not wait_until(lambda: os.path.lexists(folder.path("refused", B)), SOON):
        folder.wrongs("a relative link isn't refused")
    if not folder.shows({A}):
        folder.wrongs("a relative link is published")


def passed_over(folder):
    """Names that aren't taken in are told, each once."""
    names = [b"gfs_20200101_0600.NC", b"gfs_20200101_0600.nc4", b"gfs_\xff.nc"]
    for name in names:
        with open(os.path.join(folder.inbox.encode(), name), "wb"):
            pass
    time.sleep(LASTS)
    for name in names:
        told = sum(name.decode(errors="replace")[:20] in line for line in folder.lines())
        if told != 1:
            folder.wrongs("%r is told %d times" % (name, told))


def other_inbox(folder):
    """A folder that no server has."""
    inbox = os.path.join(folder.top, "other")
    os.mkdir(inbox)
    os.chown(inbox, NOBODY, NOBODY)
    return inbox


def no_lock(folder):
    """Where a folder can't be locked, that is told, and the folder is served."""
    inbox, said = other_inbox(folder), os.path.join(folder.top, "unlocked")
    words = ["strace", "-f", "-o", "/dev/null", "-e", "trace=flock", "-e", "inject=flock:error=ENOLCK"]
    other = folder.start(own_port(), [inbox], said, words)
    folder.bring(B, inbox=inbox)
    if not wait_until(lambda: os.path.isfile(os.path.join(inbox, "done", B)), SOON):
        folder.wrongs("%s isn't taken in" % said_of(B))
    with open(os.path.join(inbox, "STOP"), "wb"):
        pass
    try:
        status = other.wait(SOON)
    except subprocess.TimeoutExpired:
        other.kill()
        status = "none"
    other.communicate()
    line = "failing %s: it can't be locked: No locks available (os error 37)" % inbox
    if status != 0 or lines_in(said).count(line) != 1:
        folder.wrongs("a server without a lock ends with %s, and says %r" % (status, lines_in(said)))


def second_server(folder):
    """A second server over the folder, and one at the address of the first: each ends, and says why."""
    for port, status, why in ((own_port(), 8, "folder"), (folder.port, 6, "in use")):
        inbox = folder.inbox
        if status == 6:
            inbox = other_inbox(folder)
        said = os.path.join(folder.top, "said%d" % status)
        other = folder.start(port, [inbox], said)
        try:
            other.wait(SOON)
        except subprocess.TimeoutExpired:
            other.kill()
            folder.wrongs("a second server over one %s goes on" % why)
        other.communicate()
        with open(said) as file:
            text = file.read()
        if other.returncode not in (status, -signal.SIGKILL) or why not in text:
            folder.wrongs("a second server ends with %d, and says %r, not %r" % (other.returncode, text, why))
    folder.bring(B)
    comes(folder, B)


# What a case is called, what it does, over how many folders, and what lines have to say that calls fail and work again,
# where some have to.
CASES = [
    ("the folder is away for 2 s", folder_away, 1, LISTED),
    ("done is a file for 2 s", done_is_a_file, 1, MOVED),
    ("done may not be written for 2 s", done_read_only, 1, MOVED),
    ("a folder lies where the file should go", folder_in_the_place, 1, MOVED),
    ("a file that may not be read may be read later", unreadable, 1, READ),
    ("a file that may not be read is replaced by one that may", unreadable_replaced, 1, READ),
    ("a file that couldn't be opened once lies there for a minute", unread_once, 1, READ),
    ("a listed file vanishes and comes again", vanished, 1, None),
    ("a pipe takes the place of a listed file", pipe, 1, None),
    ("STOP is taken away while another folder runs", stop_taken_away, 2, None),
    ("STOP ends a server", stop_ends_the_server, 1, None),
    ("STOP lets replies end that are under way", stop_lets_replies_end, 1, None),
    ("a file is taken back", taken_back, 1, None),
    ("files of later whose names got a later verdict", outdated, 1, None),
    ("a relative link", relative_link, 1, None),
    ("names that are passed over", passed_over, 1, None),
    ("a folder that can't be locked", no_lock, 1, None),
    ("a second server", second_server, 1, None),
]
