#!/bin/sh
# Shows how long a constraint of 16 KB takes to read, of each kind of text: one long name, a path of many names, many
# clauses, many slabs, long numbers, and one that is bad at its end. Each may take less than a millisecond. Then it does
# the same for a text eight times as long, which may take about eight times as long.
# Use: bench/constraint.sh [BYTES].
set -eu
size=${1:-16384}
. "$(dirname "$0")/common.sh"
make_folder
"$top/bench/crates.sh" "$folder" read_constraints dap_ce
cat > "$folder/crates/read_constraints/src/main.rt" << 'PROGRAM'
//! Reads the constraint in each file, and says how many clauses it has and the fewest nanoseconds that it took.
#![tactic(auto)]

use dap_ce::read_constraint;
use std::alloc::Global;
use std::rt::{Clock, Files};
use std::time::Instant;
use std::{env, fs, io};

// How many clauses a constraint has, or 0 where it has a fault.
fn clauses(alloc: Global, text: &[u8]) -> usize {
    match read_constraint(alloc, text) {
        Ok(projection) => projection.clauses.len(),
        Err(_) => 0,
    }
}

fn timed<R: Print + Clock>(rt: &R, alloc: Global, path: &str, text: &[u8]) -> io::Result<()> {
    let mut fewest = u128::MAX;
    let mut count = 0;
    for _ in 0..50 {
        let start = Instant::now(rt)?;
        count = clauses(alloc, text);
        let took = start.elapsed(rt)?.as_nanos();
        if took < fewest {
            fewest = took;
        }
    }
    println!(rt; "{path}: {} bytes, {count} clauses, {} microseconds", text.len(), fewest / 1000)
}

fn main(rt: HostRuntime) -> io::Result<()> {
    for path in env::args(&rt)?.skip(2) {
        let text = fs::read(&rt, path.as_str())?;
        timed(&rt, rt.alloc(), path.as_str(), text.as_slice())?;
    }
    Ok(())
}
PROGRAM
run_crate read_constraints -- read
cd "$folder"
python3 - "$size" << 'PYTHON'
import sys

SIZE = int(sys.argv[1])
KINDS = {
    "name": ("", "n"),
    "path": ("n", ".n"),
    "clauses": ("n", ",n"),
    "slabs": ("n", "[1]"),
    "numbers": ("n", "[1:123456789012345678:2]"),
    "bad": ("n[1],", "n,"),
}
for times in (1, 8):
    for kind, (front, part) in KINDS.items():
        text = front + part * ((SIZE * times - len(front)) // len(part))
        with open("%s%d" % (kind, times), "w") as file:
            file.write(text)
PYTHON
"$program" read name1 path1 clauses1 slabs1 numbers1 bad1 name8 path8 clauses8 slabs8 numbers8 bad8
