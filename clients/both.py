"""Reads two collections of one server in turns: each shows its own files."""
import os

import netCDF4

import runs
import server
import tools


def stored(source):
    """The bytes of each number and each text of a dataset, by the name of its variable."""
    found = {name: tools.bits(array) for name, array in tools.arrays(source, tools.NAMES).items()}
    return {name: [part if isinstance(part, bytes) else part[1] for part in parts] for name, parts in found.items()}


def differs(served, path):
    """What the other collection, which has one file, shows otherwise than that file."""
    address = served.other_base + server.OTHER + "_best.ncd"
    shown, own = stored(address), stored(path)
    wrong = ["%s of %s differs from its file" % (name, server.OTHER) for name in own if shown[name] != own[name]]
    with netCDF4.Dataset(address) as view, netCDF4.Dataset(path) as file:
        if len(view["time"]) != len(file["time"]):
            wrong.append("%s has another number of times" % server.OTHER)
    return wrong


def check(program, folder, workers):
    """Serves two collections, of which one has all runs and the other the first one: what differs."""
    paths = [os.path.join(folder, run.name) for run in runs.RUNS]
    wrong = []
    with server.Both(program, os.path.join(folder, "both"), paths[0], workers) as served:
        for path in paths:
            served.bring(path)
        before = tools.run("ncdump", served.base + server.NAME + "_best.ncd")
        served.bring_other(paths[0])
        for _ in range(10):
            wrong += differs(served, paths[0])
            if tools.run("ncdump", served.base + server.NAME + "_best.ncd") != before:
                wrong.append("%s isn't as before a file came to %s" % (server.NAME, server.OTHER))
        if not served.runs():
            wrong.append("the server of two collections ended")
    print(*sorted(set(wrong)), sep="\n", end="\n" if wrong else "")
    print("two collections of one server: %s" % ("%d DIFFER" % len(wrong) if wrong else "each shows its own files"))
    return wrong
