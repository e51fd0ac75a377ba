"""Reads all views by each client, served and as files of their own, and compares what it says with what it says of the
files of the runs; clients.sh says how."""
import os
import signal
import subprocess
import sys
import tempfile
import time

import both
import known
import limits
import netcdf_tools
import other_tools
import runs
import server
import views

CLIENTS = [netcdf_tools.Ncdump, netcdf_tools.Nccopy, other_tools.Getdap, netcdf_tools.Ncks, other_tools.Cdo,
           netcdf_tools.Python, netcdf_tools.Xarray]
# Those that read views that were written as files.
FILES = [netcdf_tools.Ncdump, other_tools.Cdo, netcdf_tools.Xarray]
WORKERS = int(os.environ.get("WORKERS", "4"))


class Check:
    """One client and one view: what was compared, and what differs."""

    def __init__(self, client, view, address):
        self.client, self.view, self.address = client, view, address
        self.count, self.wrong = 0, []

    def equal(self, what, value, right):
        self.count += 1
        if value == right:
            return
        if isinstance(right, set):
            value, right = sorted(value - right), sorted(right - value)
        elif value is not None:
            least = min(len(value), len(right))
            at = next((k for k in range(least) if value[k] != right[k]), least)
            what += " of %d, not %d, at %d" % (len(value), len(right), at)
            value, right = value[at : at + 3], right[at : at + 3]
        self.wrong.append("%s: %r, not %r" % (what, value, right))

    def whole(self, files, attributes):
        """Compares whole variables, dates and attributes with what the client says of the files."""
        whole = self.client.whole(self.address)
        own = self.client.own(self.view.own())
        for name in self.client.own_names:
            self.equal(name, whole.get(name), own[name])
        for name in self.client.names:
            self.equal(name, whole.get(name), views.shown(name, self.view, files))
        dates = self.client.dates(self.address)
        if dates is not None:
            self.equal("dates", [text.replace(" ", "T")[:16] for text in dates],
                       [moment.strftime("%Y-%m-%dT%H:%M") for moment in self.view.axis])
        self.equal("attributes", self.client.attributes(self.address), attributes)

    def slabs(self, files):
        """Compares slabs with what the client says of the files."""
        for name in self.client.slabbed:
            cuts = views.slabs(name, self.view, self.client.strides)
            for slab in cuts + [views.ending(cut) for cut in cuts[2:] if self.client.any_stop]:
                right = views.cut(views.shown(name, self.view, files), views.shape_of(name, self.view), slab)
                self.equal("%s %s" % (name, slab), self.client.slab(self.address, name, slab), right)

    def report(self, start):
        """Prints what was compared since a moment, and what differs."""
        result = "%d compared" % self.count if not self.wrong else "%d DIFFER" % len(self.wrong)
        took = time.monotonic() - start
        print("%-8s %-14s %s, %.1f s" % (self.client.name, self.view.name, result, took), flush=True)
        for text in self.wrong[:5]:
            print("    " + text, flush=True)


def expected_attributes(client, folder, view):
    """The attributes that a view has: those of the prototype, but for the axis, the runs and the offsets."""
    proto = client.attributes(os.path.join(folder, runs.RUNS[0].name))
    lines = {line for line in proto if not line.startswith("time:")}
    own = client.own_attributes()
    if view.name == "forecast":
        own = {line.replace('time:standard_name = "time"', 'time:standard_name = "forecast_reference_time"')
               for line in own}
    return lines | own


def check_views(program, folder):
    """Serves the runs, and reads each view by each client: what differs."""
    wrong = []
    paths = [os.path.join(folder, run.name) for run in runs.RUNS]
    for number, run in enumerate(runs.RUNS):
        runs.write(folder, number, run)
    with server.Server(program, os.path.join(folder, "views"), paths[0], WORKERS) as served:
        for path in paths:
            served.bring(path)
        for kind in CLIENTS:
            client = kind(folder)
            files = [client.whole(path) for path in paths]
            for view in views.views():
                start = time.monotonic()
                check = Check(client, view, served.base + view.path)
                try:
                    check.whole(files, expected_attributes(client, folder, view))
                    check.slabs(files)
                except Exception as error:
                    check.wrong.append("%s: %s" % (type(error).__name__, str(error)[-500:]))
                check.report(start)
                wrong += check.wrong
        if not served.runs():
            wrong.append("the server ended")
    return wrong


def extract(program, view, form, paths):
    """Writes a view of the runs as a file, in version 1 or 2 of the format, and returns its path."""
    out = os.path.join(os.path.dirname(paths[0]), "view.nc")
    words = ["--name", server.NAME, "--proto", paths[0], "--epoch", "2020-01-01T00:00:00Z", "--view", view.path]
    with open(out, "wb") as file:
        subprocess.run([program, "extract", *words, "--format", form, *("put:" + path for path in paths)],
                       stdout=file, check=True)
    return out


def check_files(program, folder):
    """Writes each view of the runs as a file in both versions, and reads it by each client of FILES: what differs."""
    wrong = []
    paths = [os.path.join(folder, run.name) for run in runs.RUNS]
    for kind in FILES:
        client = kind(folder)
        files = [client.whole(path) for path in paths]
        for form in ("1", "2"):
            for view in views.views():
                start = time.monotonic()
                check = Check(client, view, extract(program, view, form, paths))
                try:
                    check.whole(files, expected_attributes(client, folder, view))
                except Exception as error:
                    check.wrong.append("%s: %s" % (type(error).__name__, str(error)[-500:]))
                check.report(start)
                wrong += check.wrong
    return wrong


def main():
    program = os.path.abspath(sys.argv[1])
    for sign in (signal.SIGHUP, signal.SIGTERM):
        signal.signal(sign, lambda *_: sys.exit(1))
    with tempfile.TemporaryDirectory() as folder:
        # ncks leaves files where it runs.
        os.chdir(folder)
        wrong = check_views(program, folder) + check_files(program, folder) + limits.check(program)
        wrong += both.check(program, folder, WORKERS)
    known.check(program)
    print("%d differ" % len(wrong) if wrong else "each client reads what the files hold")
    sys.exit(1 if wrong else 0)


if __name__ == "__main__":
    main()
