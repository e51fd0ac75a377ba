"""Limits of a server; tests/limits.sh says how."""
import calendar
import os
import sys
import time as clock

import limits_cases as cases
from classic import EPOCH, Classic, axis
from folder_server import Ended, FolderServer, bring, wait_until
from limits_cases import LIMIT, Wrong, path_in
from serve_replies import name_of

PROGRAM, FOLDER = sys.argv[1:3]
BEST = b"/thredds/dodsC/gfs/gfs_best.ncd.dds"
FORM = Classic([("time", 0)], [axis()], records=1)


def inboxes_in(folder, count):
    paths = [os.path.join(folder, "inbox%d" % number) for number in range(count)]
    for path in paths:
        os.mkdir(path)
    return paths


def proto_in(folder):
    path = path_in(folder, "proto.nc")
    FORM.write(path, [EPOCH])
    return path


def expect(what, got, right):
    if got != right:
        raise Wrong("%s: %r, not %r" % (what, got, right))


def sixteen_workers_with_eight_folders_and_a_clock(folder):
    """Each pass looks: those of the workers by a request, those of the folders by a retraction, the clock's at once."""
    inboxes = inboxes_in(folder, 8)
    for number, path in enumerate(inboxes):
        bring(os.path.join(path, name_of(3600 * number)), FORM.content([EPOCH + 3600 * number]))
        bring(os.path.join(path, "none%d.nc.retract" % number), b"")
        bring(os.path.join(path, "STOP"), b"")
    options = ["--workers", "16", "--connections", "1", "--keep", "1073741823", "--ticks", "1"]
    server = FolderServer(PROGRAM, proto_in(folder), inboxes, options)
    links = [server.connect() for _ in range(16)]
    wait_until("eight files are done", lambda: count_in(inboxes, "done") == 8)
    for link in links:
        status, revision, _ = link.ask(b"GET", BEST)
        expect("a reply's status", status, 200)
        expect("a reply's revision", revision, 8)
    for link in links:
        link.close()
    line = "published 8 retracted 0 expired 0 held 8 rows 8 revision 8\n"
    expect("the end", server.end(), (0, line))
    for number, path in enumerate(inboxes):
        expect("what is refused", os.listdir(path + "/refused"), ["none%d.nc.retract" % number])


def lines_in(path):
    """The lines that a server told on standard error, without their times."""
    with open(path) as file:
        return [line.split(" ", 1)[1] for line in file.read().splitlines()]


def files_up_to_512_MiB_in_a_folder(folder):
    """Files of 1, 10, 100 and 512 MiB are published, and one of a byte more is refused."""
    inbox = inboxes_in(folder, 1)[0]
    sizes = (1 << 20, 10400000, 100 << 20, LIMIT, LIMIT + 1)
    for number, size in enumerate(sizes):
        FORM.write(os.path.join(inbox, name_of(3600 * number)), [EPOCH + 3600 * number], size)
    bring(os.path.join(inbox, "STOP"), b"")
    said = path_in(folder, "said")
    with open(said, "wb") as error:
        server = FolderServer(PROGRAM, proto_in(folder), [inbox], ["--workers", "1", "--connections", "1"], error=error)
    wait_until("each has a verdict", lambda: sum(verdicts_in([inbox])) == len(sizes))
    link = server.connect()
    expect("a reply", link.ask(b"HEAD", BEST)[:2], (200, 4))
    link.close()
    line = "published 4 retracted 0 expired 0 held 4 rows 4 revision 4\n"
    expect("the end", server.end(), (0, line))
    expect("what is refused", os.listdir(inbox + "/refused"), [name_of(3600 * 4)])
    expect("the last line", lines_in(said)[-1], "refused %s code 62 over 536870912 bytes" % name_of(3600 * 4))


def the_file_after_4096_is_full(folder):
    """4,096 files are published, and the one that comes then is put off, with a line."""
    inbox = inboxes_in(folder, 1)[0]
    source = path_in(folder, "source.nc")
    FORM.write(source, [EPOCH])
    names = ["gfs_20200101_0000_%04d.nc" % number for number in range(4097)]
    for name in names:
        os.link(source, os.path.join(inbox, name))
    bring(os.path.join(inbox, "STOP"), b"")
    said = path_in(folder, "said")
    with open(said, "wb") as error:
        server = FolderServer(PROGRAM, proto_in(folder), [inbox], ["--workers", "1", "--connections", "1"], error=error)
    wait_until("each has a verdict", lambda: verdicts_in([inbox]) == [4096, 0, 1], 120)
    server.connect().close()
    line = "published 4096 retracted 0 expired 0 held 4096 rows 4096 revision 4096\n"
    expect("the end", server.end(), (0, line))
    expect("the last lines", lines_in(said)[-2:], ["published %s revision 4096 held 4096 rows 4096" % names[4095],
                                                  "full %s revision 4096" % names[4096]])


def a_run_that_is_too_old_goes_with_a_line(folder):
    """The clock's first moment comes at once, and the second a minute later. By then a file of 2020 is too old.
    The line says before which moment runs went."""
    inbox = inboxes_in(folder, 1)[0]
    bring(os.path.join(inbox, name_of(0)), FORM.content([EPOCH]))
    bring(os.path.join(inbox, "STOP"), b"")
    said, began = path_in(folder, "said"), clock.time()
    options = ["--workers", "1", "--connections", "1", "--keep", "3600", "--ticks", "2"]
    with open(said, "wb") as error:
        server = FolderServer(PROGRAM, proto_in(folder), [inbox], options, error=error)
    wait_until("it is published", lambda: verdicts_in([inbox]) == [1, 0, 0])
    wait_until("it has gone", lambda: expiries_in(said), 90)
    link = server.connect()
    expect("a reply", link.ask(b"HEAD", BEST)[:2], (404, 2))
    link.close()
    line = "published 1 retracted 0 expired 1 held 0 rows 0 revision 2\n"
    expect("the end", server.end(90), (0, line))
    [(instant, revision)] = expiries_in(said)
    moment = calendar.timegm(clock.strptime(instant, "%Y-%m-%dT%H:%M:%SZ")) + 3600
    expect("the moment", (int(began) <= moment <= clock.time(), revision), (True, "2"))


def expiries_in(said):
    """Before when runs went, and the revision, of each such line."""
    lines = (line.split(" ") for line in lines_in(said) if line.startswith("expired "))
    return [(words[2], words[4]) for words in lines if words[1:4:2] == ["before", "revision"] and len(words) == 5]


def operations_up_to_20000(folder):
    """10,000 files that come and are taken back, and 20,001 looks over three connections of one worker."""
    inbox = inboxes_in(folder, 1)[0]
    source = path_in(folder, "source.nc")
    FORM.write(source, [EPOCH])
    for number in range(10000):
        name = os.path.join(inbox, "gfs_20200101_0000_%05d.nc" % number)
        os.link(source, name)
        os.link(source, name + ".retract")
    bring(os.path.join(inbox, "STOP"), b"")
    server = FolderServer(PROGRAM, proto_in(folder), [inbox], ["--workers", "1", "--connections", "3"])
    link = server.connect()
    asked = 0
    while True:
        asked += 1
        _, revision, _ = link.ask(b"HEAD", BEST)
        if revision == 20000:
            break
        if asked > 2000:
            raise Wrong("revision %d after %d looks" % (revision, asked))
        clock.sleep(0.05)
    link.close()
    for _ in range(2):
        link = server.connect()
        for _ in range(100):
            link.send(100 * (b"HEAD " + BEST + b" HTTP/1.1\r\n\r\n"))
            for _ in range(100):
                expect("a look", link.reply(True)[:2], (404, 20000))
        expect("request 10,001", link.reply(True), None)
        link.close()
    line = "published 10000 retracted 10000 expired 0 held 0 rows 0 revision 20000\n"
    expect("the end", server.end(), (0, line))
    later = inbox + "/later"
    expect("what is not done", os.listdir(later) if os.path.exists(later) else [], [])


def retractions_of_the_same_files_by_eight_folders(folder):
    """Eight folders take the same files back at once: one does, and to the others they are not held."""
    inboxes = inboxes_in(folder, 8)
    source = path_in(folder, "source.nc")
    FORM.write(source, [EPOCH])
    names = ["gfs_20200101_0000_%04d.nc" % number for number in range(200)]
    server = FolderServer(PROGRAM, proto_in(folder), inboxes, ["--workers", "1"])
    server.connect().close()
    for name in names:
        os.link(source, os.path.join(inboxes[0], name))
    wait_until("all are held", lambda: count_in(inboxes[:1], "done") == len(names))
    for name in names:
        for path in inboxes:
            os.link(source, os.path.join(path, name + ".retract"))
    wait_until("all have a verdict", lambda: sum(verdicts_in(inboxes)) == 9 * len(names), 120)
    expect("done, refused and later", verdicts_in(inboxes), [2 * len(names), 7 * len(names), 0])
    server.kill()


def files_that_eight_folders_put_and_take_back_at_once(folder):
    """Each of eight folders has the same files, and takes each back before the next: none is told that memory ran out,
    though a file may come again between a retraction and its look."""
    inboxes = inboxes_in(folder, 8)
    source = path_in(folder, "source.nc")
    FORM.write(source, [EPOCH])
    count = 1500
    for number in range(count):
        for path in inboxes:
            name = os.path.join(path, "gfs_20200101_0000_%04d.nc" % number)
            os.link(source, name)
            os.link(source, name + ".retract")
    server = FolderServer(PROGRAM, proto_in(folder), inboxes, ["--workers", "1"])
    server.connect().close()
    wait_until("all have a verdict", lambda: sum(verdicts_in(inboxes)) == 16 * count, 120)
    done, refused, later = verdicts_in(inboxes)
    expect("done and refused together, and later", [done + refused, later], [16 * count, 0])
    server.kill()


def verdicts_in(inboxes):
    """How many files are done, taken back later on or not; how many are refused; and how many are put off."""
    done, taken, refused, later = (count_in(inboxes, shelf) for shelf in ("done", "taken", "refused", "later"))
    return [done + taken, refused, later]


def count_in(inboxes, shelf):
    paths = [os.path.join(path, shelf) for path in inboxes]
    return sum(len(os.listdir(path)) for path in paths if os.path.isdir(path))


def told(case):
    """A case in which an end of the server is something wrong."""
    def run(folder):
        try:
            case(folder)
        except Ended as ended:
            raise Wrong(str(ended)) from None
    run.__name__, run.__doc__ = case.__name__, case.__doc__
    return run


cases.run([told(case) for case in (sixteen_workers_with_eight_folders_and_a_clock, files_up_to_512_MiB_in_a_folder,
                                   the_file_after_4096_is_full, a_run_that_is_too_old_goes_with_a_line,
                                   operations_up_to_20000, retractions_of_the_same_files_by_eight_folders,
                                   files_that_eight_folders_put_and_take_back_at_once)], FOLDER, sys.argv[3:])
