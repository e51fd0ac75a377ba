#!/bin/sh
# Shows the time and the memory that loading a file of nearly 512 MiB over a prototype takes, beside a C program that
# reads the same file whole into memory: 4,095 times of a field of 128 by 256 numbers. The fields are holes of the file.
# Use: bench/load.sh.
set -eu
. "$(dirname "$0")/common.sh"
make_folder
"$top/bench/crates.sh" "$folder" load_file fm_proto fm_load
cat > "$folder/crates/load_file/src/main.rt" << 'PROGRAM'
//! `PROGRAM PROTO FILE` loads a file over a prototype, and says how many microseconds that took without reading it.
#![tactic(auto)]

use fm_base::Bytes;
use fm_load::load;
use fm_model::{Proto, Site};
use fm_proto::read_proto;
use std::alloc::Global;
use std::rt::Clock;
use std::time::Instant;
use std::{env, fs, io};

fn site(alloc: Global) -> Option<Site> {
    Some(Site {
        name: Bytes::copy_of(alloc, b"gfs").ok()?,
        epoch: 1_577_836_800,
        mark: Bytes::copy_of(alloc, b"gfs_").ok()?,
    })
}

fn loaded<R: Print + Clock>(rt: &R, alloc: Global, proto: &Proto, bytes: Bytes) -> io::Result<()> {
    if bytes.len() > 536_870_912 {
        return println!(rt; "too long");
    }
    let start = Instant::now(rt)?;
    let found = load(alloc, b"gfs_20240101_0000.nc", bytes, proto);
    let took = start.elapsed(rt)?;
    match found {
        Ok(file) => println!(rt; "loaded {} times in {} us", file.times.len(), took.as_micros()),
        Err(_) => println!(rt; "refused in {} us", took.as_micros()),
    }
}

fn main(rt: HostRuntime) -> io::Result<()> {
    let alloc = rt.alloc();
    let mut proto = None;
    for path in env::args(&rt)?.skip(1) {
        let bytes = Bytes {
            items: fs::read(&rt, path.as_str())?,
        };
        match &proto {
            Some(proto) => loaded(&rt, alloc, proto, bytes)?,
            None => {
                let Some(site) = site(alloc) else {
                    return println!(rt; "no memory");
                };
                proto = read_proto(alloc, bytes, site).ok();
            }
        }
    }
    Ok(())
}
PROGRAM
run_crate load_file

cc -O2 -o "$folder/whole" "$top/bench/read_whole.c"
PYTHONPATH=$top/bench python3 -B - "$folder" "$program" << 'PYTHON'
import sys

from classic import FLOAT, TIME, Classic, Variable
from figures import fastest

folder, program = sys.argv[1:]


def write(name, records):
    """A file of some times, an hour apart, and a field at each."""
    form = Classic([("time", 0), ("y", 128), ("x", 256)], [TIME, Variable("v", FLOAT, [0, 1, 2])], records=records)
    form.write(folder + name, [3600 * record for record in range(records)])


write("/proto.nc", 1)
write("/large.nc", 4095)
large = folder + "/large.nc"
reading = fastest([folder + "/whole", large])
loading = fastest([program, folder + "/proto.nc", large])
print("reading in C: %.3f s, %.0f MiB" % reading[:2])
print("loading:      %.3f s, %.0f MiB (%s)" % (loading[0], loading[1], loading[2].strip()))
if "loaded 4095" not in loading[2]:
    sys.exit("the file wasn't taken")
if loading[1] > 512 + 16:
    sys.exit("loading takes more memory than the file and 16 MiB")
PYTHON
