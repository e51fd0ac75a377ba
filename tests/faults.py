"""Fails the system calls of a folder's worker, and sees whether the folder mends itself, and those by which connections
are taken; tests/faults.sh says how."""
import concurrent.futures
import os
import re
import shutil
import sys
import time

from faulty_folder import (A, B, BEST, C, LASTS, LISTED, MINUTE, MOVED, READ, RUNS, SOON, Folder, Tracer, reply_over,
                           said_of, wait_until)
from folder_cases import CASES
from serve_replies import file_of

# How many cases run at once; most of their time they wait.
AT_ONCE = 6
# Bytes behind those of a file, which no view shows, so that it takes memory of its own.
MORE = 8 << 20

READ_ERRORS = ["EIO", "EINTR", "EACCES", "ESTALE"]
OPEN_ERRORS = READ_ERRORS + ["EMFILE", "ENFILE", "ENOMEM", "ENOENT"]
MOVE_ERRORS = ["ENOSPC", "EDQUOT", "EROFS", "EXDEV", "EIO", "EINTR", "EACCES", "EISDIR"]


class Step:
    """A step of the worker: the calls of which it makes one, the path that they are of, and how they can fail."""

    def __init__(self, name, calls, path, errors, waits=False, told=None, silent=(), number=1, prepare=None,
                 meanwhile=None):
        self.name, self.calls, self.path, self.errors = name, calls, path, errors
        # Whether the file is looked at again only once it is another one, or after a minute.
        self.waits = waits
        # What the lines have to say that tell that it fails and that it works again, and the errors without lines: the
        # call is made again at once, or there is no file.
        self.told, self.silent = told, silent
        # Which of the calls on the path that are made for a file it is.
        self.number = number
        # What is done to the folder before calls fail, and while they do, so that it is made at all.
        self.prepare, self.meanwhile = prepare, meanwhile

    def words(self, call, error, once):
        """How strace fails the call."""
        when = ":when=%d" % self.number if once else ":when=%d+%d" % (self.number, self.number)
        return ["-e", "trace=" + call, "-e", "inject=%s:error=%s%s" % (call, error, when)]


    def check_lines(self, folder, error, once):
        """What has to be told in a case."""
        if self.told and error not in self.silent:
            folder.check_told(*self.told)


class OfContent(Step):
    """A step by which the content of a file is had. Where memory runs out the file goes to `later`, with a line."""

    def check_lines(self, folder, error, once):
        if error == "ENOMEM":
            folder.check_line("later %s no memory" % B)
        else:
            super().check_lines(folder, error, once)


class Memory(OfContent):
    """The getting of memory, which the C library tries by two calls, and again. A failing brk gives a number."""

    def words(self, call, error, once):
        when = ":when=1..4" if once else ""
        fails = ["inject=mmap:error=%s%s" % (error, when), "inject=brk:retval=0" + when]
        return ["-e", "trace=mmap,brk", "-e", fails[0], "-e", fails[1]]

    def check_lines(self, folder, error, once):
        """Where a few of these calls fail, the library may still get it by others, and nothing is told."""
        if not once:
            super().check_lines(folder, error, once)


class DoorStep(Step):
    """A step of a door's worker, of which a call makes it whose line has a mark."""

    def __init__(self, name, call, errors, mark, drops=False, tells=False):
        super().__init__(name, [call], None, errors)
        self.mark = mark
        # Whether lines tell that it fails and that it works again.
        self.tells = tells
        # Whether the connection is dropped for which it is made. Else that waits.
        self.drops = drops


def without_done(folder):
    """Takes the folder away into which files are moved."""
    shutil.move(folder.path("done"), os.path.join(folder.top, "done"))


def name_to_tell(folder):
    """Puts a file there whose name is told."""
    with open(folder.path("gfs.NC"), "wb"):
        pass


LOOK = ["statx", "newfstatat", "stat"]
STEPS = [
    Step("the look for STOP", LOOK, "STOP", READ_ERRORS + ["ENOMEM"], told=LISTED),
    Step("the opening of the folder", ["openat"], "", OPEN_ERRORS, told=LISTED),
    Step("the listing", ["getdents64"], "", ["EIO", "EINTR", "ESTALE"], told=LISTED),
    Step("the end of a listing", ["getdents64"], "", ["EIO", "EINTR", "ESTALE"], told=LISTED, number=2),
    # std takes this for the end of a listing.
    Step("the listing of a folder that is gone", ["getdents64"], "", ["ENOENT"]),
    Step("the look at a listed file", LOOK, B, READ_ERRORS + ["ENOMEM", "ENOENT"], waits=True),
    OfContent("the opening of a file", ["openat"], B, OPEN_ERRORS, waits=True, told=READ, silent=["EINTR", "ENOENT"]),
    Step("the look whether a file is a link", ["statx"], B, READ_ERRORS + ["ENOENT"], waits=True, told=READ,
         silent=["ENOENT"], number=2),
    Step("the look before the opening", ["statx"], B, READ_ERRORS + ["ENOENT"], waits=True, told=READ,
         silent=["ENOENT"], number=3),
    Step("the length of a file", ["statx"], B, READ_ERRORS, waits=True, told=READ, number=4),
    Step("the reading of a file", ["read", "pread64"], B, ["EIO", "EINTR", "ESTALE", "EAGAIN"], waits=True, told=READ,
         silent=["EINTR"]),
    Step("the look before a move", ["statx"], B, READ_ERRORS, told=MOVED, number=5),
    Step("a move", ["rename", "renameat", "renameat2"], B, MOVE_ERRORS, told=MOVED),
    Step("the making of done", ["mkdir", "mkdirat"], "done", ["ENOSPC", "EDQUOT", "EROFS", "EIO", "EACCES"],
         told=MOVED, prepare=without_done),
    Step("a close", ["close"], None, ["EIO", "EINTR"]),
    # Where that can't be asked, the line is written.
    Step("the question whether a line has room", ["epoll_create1"], None, ["EMFILE", "ENFILE", "ENOMEM"],
         meanwhile=name_to_tell),
    Step("the same of a descriptor", ["epoll_ctl"], None, ["ENOMEM", "ENOSPC", "EPERM"], meanwhile=name_to_tell),
    Step("a line", ["write", "writev"], None, ["EIO", "EAGAIN", "EPIPE"], meanwhile=name_to_tell),
    Step("a pause", ["clock_nanosleep", "nanosleep"], None, ["EINTR"]),
    Memory("memory for a file", ["mmap"], None, ["ENOMEM"], waits=True),
]
DOOR_STEPS = [
    DoorStep("an accept", "accept4", ["EMFILE", "ENFILE", "ENOBUFS", "ENOMEM", "EPROTO"], "accept4", tells=True),
    DoorStep("an accept whose peer is gone", "accept4", ["ECONNABORTED"], "accept4"),
    DoorStep("the sending at once", "setsockopt", ["EINVAL", "ENOBUFS", "ENOMEM"], "TCP_NODELAY", drops=True),
    DoorStep("the watching of a connection", "epoll_ctl", ["ENOMEM", "ENOSPC", "EPERM"], "EPOLL_CTL_ADD", drops=True),
]
# Calls that are made with others of these, that can't fail, or that give something back.
OTHERS = {"brk", "munmap", "madvise", "sched_yield", "restart_syscall", "gettid"}


def comes_in_the_end(folder, waits):
    """Whether the file that came while calls failed is taken in."""
    if folder.sees(B) or not waits:
        return B in folder.held
    if os.path.exists(folder.path("later", B)):
        return folder.sees(B, MINUTE)
    if os.path.exists(folder.path(B)):
        os.chmod(folder.path(B), 0o664)
    return folder.sees(B)


def check_after(folder, step, error, once):
    """What has to hold once calls no longer fail."""
    if not comes_in_the_end(folder, step.waits):
        folder.wrongs("%s isn't taken in" % said_of(B))
    folder.bring(C)
    if not folder.sees(C):
        folder.wrongs("%s isn't taken in" % said_of(C))
    folder.retract(A)
    step.check_lines(folder, error, once)
    if folder.process.poll() is not None:
        folder.wrongs("the server ended with %d" % folder.process.returncode)


def fail_calls(program, top, step, call, error, once):
    """One case: what was wrong, and whether the server made the call."""
    folder = Folder(program, top)
    try:
        thread = folder.thread()
        if step.prepare:
            step.prepare(folder)
        # strace takes the path of the folder, which ends in a slash, also without it.
        paths = [] if step.path is None else [folder.path(step.path)]
        tracer = Tracer(folder, thread, step.words(call, error, once), paths)
        folder.bring(B, file_of(RUNS[B]) + bytes(MORE))
        if step.meanwhile:
            step.meanwhile(folder)
        was_made = wait_until(lambda: tracer.lines("INJECTED"), SOON)
        if not once:
            time.sleep(LASTS)
        if folder.reply() is None:
            folder.wrongs("no reply comes meanwhile")
        tracer.detach()
        check_after(folder, step, error, once)
        return folder.wrong, was_made
    finally:
        folder.close()


def is_dropped(link):
    """Whether a connection ends without a reply."""
    try:
        link.getresponse()
    except TimeoutError:
        return False
    except OSError:
        return True
    return False


def check_link(folder, step, link):
    """What has to come over the connection that came while calls failed."""
    if step.drops:
        if not is_dropped(link):
            folder.wrongs("the connection isn't dropped")
        return
    try:
        if reply_over(link) != folder.right(folder.held):
            folder.wrongs("the connection that came meanwhile has another reply")
    except OSError:
        folder.wrongs("the connection that came meanwhile has no reply")


def fail_door_calls(program, top, step, call, error, once):
    """One case of a server with one worker: what was wrong, and whether the server made the call."""
    folder = Folder(program, top, workers=1)
    link = folder.link()
    try:
        tracer = Tracer(folder, folder.door_thread(), step.words(call, error, once))
        link.request("GET", BEST)
        was_made = wait_until(lambda: any(step.mark in line for line in tracer.lines("INJECTED")), SOON)
        if not once:
            time.sleep(LASTS)
        elif not folder.shows(folder.held):
            folder.wrongs("the next connection has no reply")
        tracer.detach()
        check_link(folder, step, link)
        if not folder.shows(folder.held):
            folder.wrongs("a later connection has no reply")
        if step.tells:
            folder.check_door_told()
        return folder.wrong, was_made
    finally:
        link.close()
        folder.close()


def calls_of_a_life(program, top):
    """The names of the calls that the worker makes while files come, are refused and are taken back."""
    folder = Folder(program, top)
    try:
        tracer = Tracer(folder, folder.thread(), [])
        folder.bring(B, file_of(RUNS[B]) + bytes(MORE))
        folder.sees(B)
        folder.bring(C, b"none")
        folder.bring("none.nc.retract", b"")
        wait_until(lambda: os.path.exists(folder.path("refused", "none.nc.retract")), SOON)
        folder.retract(A)
        without_done(folder)
        name_to_tell(folder)
        folder.bring(A)
        folder.sees(A)
        tracer.detach()
        return {found.group() for found in (re.match("[a-z_0-9]+", line) for line in tracer.lines("(")) if found}
    finally:
        folder.close()


def injected_cases(program, top):
    """Each step of the worker, each call of it that this program makes, each error, once and for some seconds."""
    made = calls_of_a_life(program, top)
    known = {call for step in STEPS for call in step.calls}
    for call in sorted(made - known - OTHERS):
        yield "the call " + call, lambda: (["no case fails it"], True)
    for step in STEPS:
        for name, given in cases_of(step, made):
            yield name, lambda given=given: fail_calls(program, top, *given)


def cases_of(step, calls):
    """Each of these calls that a step makes, each error, once and for some seconds."""
    for call in step.calls:
        for error in step.errors if call in calls else []:
            for once in (True, False):
                name = "%s, %s %s %s" % (step.name, call, error, "once" if once else "for %d s" % LASTS)
                yield name, (step, call, error, once)


def door_cases(program, top):
    """The same of each step of a door's worker that takes a connection."""
    for step in DOOR_STEPS:
        for name, given in cases_of(step, step.calls):
            yield name, lambda given=given: fail_door_calls(program, top, *given)


def other_cases(program, top):
    """What is done to a folder from outside."""

    def run(act, inboxes, told):
        folder = Folder(program, top, inboxes)
        try:
            act(folder)
            if told:
                folder.check_told(*told)
            return folder.wrong, True
        finally:
            folder.close()

    for name, *given in CASES:
        yield name, lambda given=given: run(*given)


def tried(case):
    """What came of a case, also where it couldn't be tried."""
    try:
        return case[1]()
    except OSError as error:
        return ["it couldn't be tried: %s" % error], True


def main():
    top, words = sys.argv[2], sys.argv[3:]
    program = os.path.join(top, "fmrcd")
    shutil.copy(sys.argv[1], program)
    os.chmod(program, 0o755)
    cases = [*injected_cases(program, top), *door_cases(program, top), *other_cases(program, top)]
    cases = [case for case in cases if not words or any(word in case[0] for word in words)]
    with concurrent.futures.ThreadPoolExecutor(AT_ONCE) as pool:
        results = list(pool.map(tried, cases))
    wrong = unmade = 0
    for (name, _), (wrongs, was_made) in zip(cases, results):
        if not was_made:
            unmade += 1
            print("%s: the call wasn't made" % name)
        elif wrongs:
            wrong += 1
            print("%s: %s" % (name, "; ".join(wrongs)))
    print("%d cases, %d wrong; in %d more the call wasn't made" % (len(cases) - unmade, wrong, unmade))
    sys.exit(1 if wrong else 0)


if __name__ == "__main__":
    main()
