"""Writes small files of 64 and of 4,096 times, each of which is its prototype too; prints where the run and the first
time stand. Use: bench/made_files.py FOLDER."""
import os
import sys

from classic import FLOAT, INT, SINCE_2020, TIME, Classic, Variable

RUN = ("standard_name", b"forecast_reference_time")


def form(records):
    variables = [TIME, Variable("run", INT, [], [RUN, SINCE_2020])]
    variables.append(Variable("v", FLOAT, [0, 1, 2]))
    return Classic([("time", 0), ("y", 1), ("x", 1)], variables, records=records)


if __name__ == "__main__":
    for name, records in (("few.nc", 64), ("many.nc", 4096)):
        made = form(records)
        made.write(os.path.join(sys.argv[1], name), [60 * record for record in range(records)])
    print(made.begins["run"], made.begins["time"])
