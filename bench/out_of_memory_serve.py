"""Servers from which memory is kept; bench/out_of_memory.sh says how."""
import os
import resource
import shutil
import signal
import socket
import struct
import subprocess
import time

from folder_server import Ended, FolderServer, bring, wait_until
from out_of_memory import (BEST, ENOUGH, FIRST, FOLDER, LATER, LIBRARY, PROGRAM, SORRY, STEP, data, end, fail, head,
                           port_of, replies_of)

ONE = ["--workers", "1", "--connections", "1"]
TWO = ["--workers", "2", "--connections", "1"]
ASKED = [head(b".dds"), b"GET " + BEST + b".dods?time HTTP/1.1\r\nConnection: close\r\n\r\n"]
PUBLISHED = "published 1 retracted 0 expired 0 held 1 rows 3 revision 1\n"
WHOLE = "published 2 retracted 1 expired 0 held 1 rows 3 revision 3\n"
NONE = "gfs_20240101_1200.nc"
# How many more requests for memory than the first run made are refused.
MORE = 20
# Where the files may lie; one that wasn't taken can't be taken back.
RIGHT = {FIRST: ("done", "taken", "later"), FIRST + ".retract": ("done", "later", "refused"), LATER: ("done", "later"),
         NONE: ("refused", "later")}


def shelves(inbox):
    found = {}
    for shelf in ("done", "taken", "refused", "later"):
        path = os.path.join(inbox, shelf)
        for name in os.listdir(path) if os.path.isdir(path) else []:
            found[name] = shelf
    return found


def serve(folder, options, given):
    """A server of one empty folder with this environment, and the folder."""
    inbox = os.path.join(folder, "inbox")
    shutil.rmtree(inbox, ignore_errors=True)
    os.makedirs(inbox)
    environment = dict(os.environ)
    os.environ.update(given, LD_PRELOAD=LIBRARY)
    try:
        return FolderServer(PROGRAM, data(FIRST), [inbox], options), inbox
    finally:
        os.environ.clear()
        os.environ.update(environment)


def begin(call, inbox, options, limits=None):
    """A server of a folder at a free port, of which one request for memory is refused."""
    given = dict(os.environ, LD_PRELOAD=LIBRARY, REFUSE_CALL=str(call), REFUSE_COUNT=os.path.join(FOLDER, "turns"))
    words = [PROGRAM, "serve", "--name", "gfs", "--proto", data(FIRST), "--listen", "127.0.0.1:0"] + options
    return subprocess.Popen(words + [inbox], env=given, stdout=subprocess.PIPE, stderr=subprocess.PIPE,
                            preexec_fn=limits)


def requests_made():
    """How many requests for memory the last server made."""
    with open(os.path.join(FOLDER, "turns"), "rb") as file:
        return struct.unpack("l", file.read(8))[0]


def end_of(child, visit, seconds=20):
    """The status and the line of a server that is visited once it listens, until that says that it was done. One that
    goes on is killed after these seconds."""
    until = time.monotonic() + seconds
    port = None
    while child.poll() is None and time.monotonic() < until:
        port = port or port_of(child.pid)
        try:
            if port and visit(port):
                break
        except OSError:
            port = None
        time.sleep(0.005)
    try:
        said = child.communicate(timeout=seconds)[0]
    except subprocess.TimeoutExpired:
        child.kill()
        said = child.communicate()[0]
    return child.returncode, said.decode()


def come_and_go(port):
    socket.create_connection(("127.0.0.1", port), timeout=1).close()
    return True


def inbox_of(files):
    """An empty folder to which these files have come, and nothing more comes."""
    inbox = os.path.join(FOLDER, "turn", "inbox")
    shutil.rmtree(inbox, ignore_errors=True)
    os.makedirs(inbox)
    for name, content in files + [("STOP", b"")]:
        with open(os.path.join(inbox, name), "wb") as file:
            file.write(content)
    return inbox


def content_of(name):
    with open(data(name), "rb") as file:
        return file.read()


def arrivals():
    """A file, its retraction, another one, and one that is refused."""
    return [(FIRST, content_of(FIRST)), (FIRST + ".retract", b""), (LATER, content_of(LATER)), (NONE, b"none")]


def server_requests_are_refused():
    """Each request for memory of a server that takes a file, takes it back, takes another and refuses one is refused in
    turn. Each of the four is once the one for which memory ran out. As threads meet otherwise, a run may make more
    requests than the first: so some more are counted."""
    call, statuses, last, short = 0, {}, 1, set()
    while call <= last + MORE:
        inbox = inbox_of(arrivals())
        status, said = end_of(begin(call, inbox, ONE), come_and_go)
        if call == 0:
            last = requests_made()
        verdicts = shelves(inbox)
        statuses[status] = statuses.get(status, 0) + 1
        check_turn("request %d" % call, status, said, verdicts)
        short |= {name for name, shelf in verdicts.items() if shelf == "later"}
        call += 1
    if short != set(RIGHT):
        fail("a server: memory ran out for %r alone" % sorted(short))
    print("a server: %d requests for memory, each refused in turn: statuses %r" % (last, statuses), flush=True)


def server_has_less_and_less_space():
    """Makes the address space of such a server smaller, whose first file has 16 MB, until the program can't be loaded
    any more. It may have no memory to take the connection: then it waits for some. Where the system can't let its stack
    grow, that ends it."""
    space, statuses = ENOUGH << 2, {0: 0, 4: 0}
    while space > 2 << 20:
        inbox = inbox_of(arrivals())
        os.truncate(os.path.join(inbox, FIRST), 16 << 20)
        child = begin(0, inbox, ONE, lambda: resource.setrlimit(resource.RLIMIT_AS, (space, space)))
        status, said = end_of(child, come_and_go, 4)
        if status == 127:
            break
        waits = status == -signal.SIGKILL and set(shelves(inbox)) == set(RIGHT)
        if not waits and status != -signal.SIGSEGV:
            check_turn("%d KiB" % (space >> 10), status, said, shelves(inbox))
        statuses[status] = statuses.get(status, 0) + 1
        space -= max(STEP, space >> 6)
    if 0 in (statuses[0], statuses[4]):
        fail("a server in less and less space: statuses %r" % statuses)
    print("a server in less and less space: statuses %r, down to %d KiB" % (statuses, space >> 10), flush=True)


def ask_both(port, inbox, outputs):
    """Asks over two connections at once, and notes what they got."""
    until = time.monotonic() + 2
    while FIRST not in shelves(inbox) and os.path.exists(os.path.join(inbox, FIRST)) and time.monotonic() < until:
        time.sleep(0.005)
    links = [socket.create_connection(("127.0.0.1", port), timeout=10) for _ in range(2)]
    for link in links:
        outputs.append(asked_over(link))
    return True


def asked_over(link):
    """What a connection over which two replies are asked for gets until it ends."""
    parts = []
    try:
        link.sendall(b"".join(ASKED))
        while not parts or parts[-1]:
            parts.append(link.recv(1 << 16))
    except OSError:
        pass
    link.close()
    return b"".join(parts)


def links_requests_are_refused():
    """Each request for memory of a server with two workers is refused in turn, while each of two connections asks for
    two replies. These are as before the file has come, or as once it has."""
    right = [set(), set()]
    for files in ([], arrivals()[:1]):
        outputs = []
        inbox = inbox_of(files)
        end_of(begin(0, inbox, TWO), lambda port: ask_both(port, inbox, outputs))
        for output in outputs:
            for place, reply in enumerate(replies_of(output)[0]):
                right[place].add(reply)
    last, statuses, silent, sorry = requests_made(), {}, 0, 0
    for call in range(1, last + 1):
        outputs = []
        inbox = inbox_of(arrivals()[:1])
        status, said = end_of(begin(call, inbox, TWO), lambda port: ask_both(port, inbox, outputs))
        statuses[status] = statuses.get(status, 0) + 1
        if status not in (0, 4) or status == 4 and said != "no memory\n":
            fail("two connections, request %d: status %d, '%s'" % (call, status, said.strip()))
        if status == 0 and "later" not in shelves(inbox).values() and said != PUBLISHED:
            fail("two connections, request %d: '%s'" % (call, said.strip()))
        for output in outputs:
            replies, rest = replies_of(output)
            silent += not output
            if replies and replies[-1] == SORRY:
                sorry += 1
                replies.pop()
            if rest or any(reply not in wanted for reply, wanted in zip(replies, right)):
                fail("two connections, request %d: output %r" % (call, output[-120:]))
    print("two connections: %d requests for memory, each refused in turn: statuses %r" % (last, statuses))
    print("of these connections %d were told so, and %d ended without a byte" % (sorry, silent), flush=True)


def check_turn(what, status, said, verdicts):
    if status == 0 and (said != WHOLE or list(verdicts.values()).count("later")):
        fail("server, %s: status 0, '%s', %r" % (what, said.strip(), verdicts))
    if status not in (0, 4) or status == 4 and said != "no memory\n":
        fail("server, %s: status %d, '%s'" % (what, status, said.strip()))
    for name, shelf in verdicts.items():
        if shelf not in RIGHT[name]:
            fail("server, %s: %s lies in %s" % (what, name, shelf))


def memory_comes_back():
    """All memory is refused to a server for a while, twice."""
    flag = os.path.join(FOLDER, "flag")
    given = {"REFUSE_FILE": flag}
    turn(flag, b"\0")
    server, inbox = serve(os.path.join(FOLDER, "back"), ["--workers", "4"], given)
    server.connect().close()
    content = content_of(FIRST)
    bring(os.path.join(inbox, FIRST), content)
    wait_until("the first file is done", lambda: shelves(inbox).get(FIRST) == "done")
    counts = {SORRY: 0, b"": 0, None: 0}
    for _ in range(2):
        links = [server.connect()]
        if links[0].ask(b"GET", BEST + b".dds")[0] != 200:
            fail("a server with memory doesn't answer")
        turn(flag, b"\1")
        links += [server.connect() for _ in range(40)]
        for link in links:
            link.send(ASKED[1])
        time.sleep(1)
        outputs = [come_over(link) for link in links]
        turn(flag, b"\0")
        for link, output in zip(links, outputs):
            counts[output] = counts.get(output, 0) + 1
            if output not in (SORRY, b"", None):
                fail("without memory a connection got %r" % output)
            if output is None and link.reply()[0] != 200:
                fail("once memory is back a connection that waited gets no reply")
            link.close()
        link = server.connect()
        if link.ask(b"GET", BEST + b".dds")[0] != 200:
            fail("once memory is back the server doesn't answer")
        link.close()
    turn(flag, b"\1")
    bring(os.path.join(inbox, LATER), content)
    time.sleep(1)
    turn(flag, b"\0")
    bring(os.path.join(inbox, NONE), content)
    try:
        wait_until("a file is taken once memory is back", lambda: NONE in shelves(inbox), 5)
        print("once memory is back the folder takes files: %r" % shelves(inbox))
    except Ended:
        print("once memory is back the folder takes no file: a name that can't be asked for ends it")
    print("without memory %d connections were told so, %d ended without a byte, and %d waited and got their replies" % (
        counts[SORRY], counts[b""], counts[None]), flush=True)
    server.kill()


def turn(path, byte):
    """Says in the file that all memory is refused, or that none is."""
    with open(path, "r+b" if os.path.exists(path) else "wb") as file:
        file.write(byte)


def come_over(link):
    """What has come over a connection that has ended; None where it hasn't, and nothing has come."""
    parts = []
    link.sock.settimeout(0)
    try:
        while not parts or parts[-1]:
            parts.append(link.sock.recv(1 << 16))
    except BlockingIOError:
        return b"".join(parts) or None
    except OSError:
        pass
    finally:
        # One whose request came while there was no memory goes on as soon as there is some.
        link.sock.settimeout(10)
    return b"".join(parts)


server_requests_are_refused()
server_has_less_and_less_space()
links_requests_are_refused()
memory_comes_back()
end()
