"""Compares what the page shows with the files of a server; tests/page.sh says how."""
import json
import os
import signal
import sys
import time
import urllib.request

from browser import Browser
from local_server import Nginx, Server, free_port
from proxy_checks import make_certificate, site_of
from serve_replies import APART, HOUR, OFFSETS, file_of, moment, name_of, rows_of

# How many seconds the page may take until it shows what is there.
PATIENCE = 20
WIDE, HIGH = 800, 476
PHONE = (360, 740)

SHOWN = "document.body.dataset.shown"
BARS = "[...document.querySelectorAll('#chart rect')].map((bar) => [bar.getAttribute('class'), bar.x.baseVal.value," \
    " bar.y.baseVal.value, bar.width.baseVal.value])"
LINKS = "[...document.querySelectorAll('#views a')].map((link) => link.href)"
OUTSIDE = "document.documentElement.scrollWidth > innerWidth"
WORDS = "[...document.querySelectorAll('#chart text')].map((text) => text.getBoundingClientRect().height)"

failures = []


def fail(text):
    print(text, file=sys.stderr, flush=True)
    failures.append(text)


def text_of(seconds):
    return moment(seconds).strftime("%Y-%m-%dT%H:%M:%SZ")


def marks_of(runs):
    """The valid times that the best time series takes from each run."""
    marks = {run: [] for run in runs}
    for run, valid in rows_of(("best", 0), set(runs)):
        marks[run].append(valid)
    return marks


def wanted(runs, revision):
    """What the page has to say over the files of some runs."""
    if not runs:
        return {"rows": 0, "runs": []}
    marks = marks_of(runs)
    latest_first = sorted(runs, reverse=True)
    return {
        "revision": revision,
        "rows": sum(len(times) for times in marks.values()),
        "newest": text_of(latest_first[0]),
        "runs": [[text_of(run), len(OFFSETS), len(marks[run])] for run in latest_first],
    }


def spans(times):
    """The first and the last of the times that follow each other."""
    found = []
    for valid in sorted(times):
        if found and valid - found[-1][1] == OFFSETS[1]:
            found[-1][1] = valid
        else:
            found.append([valid, valid])
    return found


def check_bars(what, browser, runs):
    """The bars stand in the runs' order, and across in proportion to the times."""
    bars = browser.value_of(BARS)
    marks = marks_of(runs)
    right = []
    for run in sorted(runs, reverse=True):
        right += [("held", span) for span in spans([run + offset for offset in OFFSETS])]
        right += [("best", span) for span in spans(marks[run])]
    if [kind for kind, *_ in bars] != [kind for kind, _ in right]:
        fail("%s: the bars are %r" % (what, [kind for kind, *_ in bars]))
        return
    if not bars:
        return
    # Two bars that begin at different times give the scale.
    ends = sorted((first, bar[1]) for bar, (_, (first, _)) in zip(bars, right))
    (first, at_first), (last, at_last) = ends[0], ends[-1]
    scale = (at_last - at_first) / (last - first) if last > first else 0
    for bar, (kind, (begin, end)) in zip(bars, right):
        across, wide = at_first + scale * (begin - first), scale * (end + OFFSETS[1] - begin) - 1
        if scale and (abs(bar[1] - across) > 0.1 or abs(bar[3] - wide) > 0.1):
            fail("%s: a bar %r stands at %r, not %r wide %r" % (what, kind, bar, across, wide))


def check_links(browser):
    """Each link is one to which the server replies."""
    links = browser.value_of(LINKS)
    for link in links:
        with urllib.request.urlopen(link, timeout=30) as reply:
            reply.read()
    if len(links) != 15:
        fail("there are %d links" % len(links))


def check_copy(browser):
    """A button beside a line copies it, or selects it where the browser lets no page copy."""
    browser.value_of("document.querySelectorAll('#views button')[1].click()")
    time.sleep(0.5)
    said = browser.value_of("document.querySelectorAll('#views button')[1].textContent")
    selected = browser.value_of("getSelection().toString()")
    if said not in ("copied", "selected") or not (selected or "").startswith("xarray.open_dataset("):
        fail("a button to copy says %r, and %r is selected" % (said, selected))


def check(what, browser, runs, revision):
    """Waits until the page shows the files of these runs, and looks at what it has drawn."""
    right = wanted(runs, revision)
    end = time.monotonic() + PATIENCE
    found = None
    while found != right and time.monotonic() < end:
        time.sleep(0.1)
        shown = browser.value_of(SHOWN)
        found = shown and json.loads(shown)
    if found != right:
        fail("%s: the page says %r, not %r" % (what, found, right))
        return
    check_bars(what, browser, runs)
    if not failures:
        print("%s: %d runs, %d rows" % (what, len(runs), right["rows"]), flush=True)


def check_phone(browser):
    """On a phone nothing lies outside of the screen, and each word of the drawing can be read."""
    browser.resize(*PHONE)
    if browser.value_of(OUTSIDE):
        fail("on a phone the page is wider than the screen")
    if min(browser.value_of(WORDS)) < 11:
        fail("on a phone words are only %r high" % min(browser.value_of(WORDS)))
    browser.resize(WIDE, HIGH)


def main():
    program, folder, picture = os.path.abspath(sys.argv[1]), sys.argv[2], sys.argv[3]
    signal.signal(signal.SIGTERM, lambda *_: sys.exit("stopped"))
    make_certificate(folder)
    server = Server(program, os.path.join(folder, "server"), file_of(0), 8)
    waves = Server(program, os.path.join(folder, "waves"), file_of(0), 8, collection="waves")
    port = free_port()
    nginx = Nginx(folder, site_of(server, waves, port, free_port(), folder), port, 2)
    browser = Browser(folder, WIDE, HIGH)
    browser.open("http://127.0.0.1:%d/" % nginx.port)
    check("nothing held", browser, [], 0)
    runs = [APART * number for number in range(5)]
    for run in runs:
        server.arrive(name_of(run), file_of(run))
    check("five files", browser, runs, 5)
    runs.append(APART * 5 + 6 * HOUR)
    server.arrive(name_of(runs[-1]), file_of(runs[-1]))
    check("one file more, of a run after a gap", browser, runs, 6)
    check_links(browser)
    check_phone(browser)
    if picture:
        browser.picture(picture)
    check_copy(browser)
    server.arrive(name_of(runs[2]) + ".retract", b"")
    del runs[2]
    check("one file taken back", browser, runs, 7)
    waves.arrive(name_of(0).replace("gfs", "waves"), file_of(0))
    browser.open("http://127.0.0.1:%d/?name=waves" % nginx.port)
    check("another collection", browser, [0], 1)
    sys.exit(1 if failures else 0)


if __name__ == "__main__":
    main()
