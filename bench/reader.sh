#!/bin/sh
# Builds a small program that answers `PROGRAM check FILE` by the header reader alone, in a folder of its own, and
# prints where the program lies. The crates are those of this repository, proved as far as their own checks have gone.
# Use: bench/reader.sh FOLDER.
set -eu
folder=$1
. "$(dirname "$0")/common.sh"
"$top/bench/crates.sh" "$folder" read_headers nc_header
cat > "$folder/crates/read_headers/src/main.rt" << 'PROGRAM'
//! Reads the header of a file, and says how long its lists are.
#![tactic(auto)]

use nc_header::{Header, read_header};
use std::{env, fs, io};

fn told(rt: &impl Print, header: &Header) -> io::Result<()> {
    println!(rt; "ok dims {} vars {}", header.dims.len(), header.vars.len())
}

fn main(rt: HostRuntime) -> io::Result<()> {
    for path in env::args(&rt)?.skip(2) {
        let bytes = fs::read(&rt, path.as_str())?;
        match read_header(rt.alloc(), bytes.as_slice()) {
            Ok(header) => told(&rt, &header)?,
            Err(_) => println!(rt; "refused")?,
        }
    }
    Ok(())
}
PROGRAM
run_crate read_headers -- check
echo "$program"
