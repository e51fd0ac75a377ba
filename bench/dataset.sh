#!/bin/sh
# Shows how long the best time series of a collection of 64 files of 4,096 times takes, which are 262,144 rows: to list
# its rows, and to build the dataset of these rows, which may take a millisecond.
# Use: bench/dataset.sh.
set -eu
. "$(dirname "$0")/common.sh"
make_folder
"$top/bench/crates.sh" "$folder" build_dataset fm_dataset fm_views fm_views fm_sample
cat > "$folder/crates/build_dataset/src/main.rt" << 'PROGRAM'
//! `PROGRAM PROTO FILE..` makes an edition of files over a prototype, and says how many rows and declarations its best
//! time series has, and how many microseconds its rows took to list, and its dataset to build from them.
#![tactic(auto)]

use fm_base::Bytes;
use fm_dataset::dataset;
use fm_edition::Edition;
use fm_model::ViewName;
use fm_sample::{edition_of, edition_with};
use fm_views::rows;
use std::alloc::Global;
use std::rt::Clock;
use std::time::Instant;
use std::{env, fs, io};

// Lists the rows of the best time series, builds the dataset, and says how long each took.
#[tactic(auto, using(fm_views::proofs::RowFacts::shown_rows))]
fn built<R: Print + Clock>(rt: &R, alloc: Global, edition: &Edition) -> io::Result<()> {
    let start = Instant::now(rt)?;
    let Ok(list) = rows(alloc, edition, &ViewName::Best) else {
        return println!(rt; "no rows");
    };
    let listing = start.elapsed(rt)?.as_micros();
    let count = list.get().len();
    let start = Instant::now(rt)?;
    let Ok(set) = dataset(alloc, edition.proto(), list, ViewName::Best, b"gfs_best.ncd") else {
        return println!(rt; "no memory");
    };
    let building = start.elapsed(rt)?.as_micros();
    println!(rt; "{count} {} {listing} {building}", set.decls().len())
}

fn main(rt: HostRuntime) -> io::Result<()> {
    let alloc = rt.alloc();
    let mut edition: Option<Edition> = None;
    for path in env::args(&rt)?.skip(1) {
        let bytes = Bytes {
            items: fs::read(&rt, path.as_str())?,
        };
        edition = match &edition {
            None => edition_of(alloc, bytes).ok(),
            Some(edition) => edition_with(alloc, edition, path.as_bytes(), bytes).ok(),
        };
        if edition.is_none() {
            return println!(&rt; "{path} isn't taken");
        }
    }
    match &edition {
        Some(edition) => {
            for _ in 0..5 {
                built(&rt, alloc, edition)?;
            }
            Ok(())
        }
        None => Ok(()),
    }
}
PROGRAM
run_crate build_dataset

# 64 files of 4,096 hours each, one behind the other: a time and a number for each hour. Their names say their runs.
mkdir "$folder/files"
python3 - "$folder/files" << 'PYTHON'
import datetime
import struct
import sys

HOURS = 4096


def words(*numbers):
    return struct.pack(">%dI" % len(numbers), *numbers)


def head(begin):
    dims = words(10, 1, 4) + b"time" + words(0, 0, 0, 11, 2)
    units = words(12, 1, 5) + b"units\0\0\0" + words(2, 22) + b"hours since 2020-01-01\0\0"
    time = words(4) + b"time" + words(1, 0) + units + words(4, 4, begin)
    return b"CDF\1" + words(HOURS) + dims + time + words(1) + b"f\0\0\0" + words(1, 0, 0, 0, 5, 4, begin + 4)


start = datetime.datetime(2020, 1, 1)
for number in range(64):
    run = start + datetime.timedelta(hours=HOURS * number)
    with open(sys.argv[1] + run.strftime("/gfs_%Y%m%d_%H%M.nc"), "wb") as file:
        file.write(head(len(head(0))))
        for hour in range(HOURS):
            file.write(words(HOURS * number + hour, hour))
PYTHON

cd "$folder/files"
first=$(ls | head -n 1)
"$program" "$first" * > "$folder/figures"
python3 - "$folder/figures" << 'PYTHON'
import sys

counts, listing, building = set(), [], []
for line in open(sys.argv[1]):
    words = line.split()
    if len(words) != 4:
        sys.exit(line)
    counts.add((words[0], words[1]))
    listing.append(int(words[2]))
    building.append(int(words[3]))
print("262144 rows: listed in %d us, built into a dataset in %d us" % (min(listing), min(building)))
if counts != {("262144", "4")}:
    sys.exit("the dataset has other rows or declarations: %s" % counts)
if min(building) > 1000:
    sys.exit("building takes more than a millisecond")
PYTHON
