#!/bin/sh
# Tries wrong bodies of the machine's links and doors that no clause refuses: a row has to refuse each. They are tried in
# a copy of the crates, compiled with checks and not proved, by a program that has the rows of crates/rows/data/devices
# and crates/rows/data/machine alone. These have to pass before the first of them. It says what refused each, and ends
# with status 1 where that isn't what has to, or where a body can no longer be applied.
# Use: bench/planted_links.sh [NAME..]; with names, only these are tried.
set -eu
. "$(dirname "$0")/common.sh"
make_folder
"$top/bench/crates.sh" "$folder" planted device_rows
crate=$folder/crates/planted
cp -r "$top/crates/rows/data/devices" "$top/crates/rows/data/machine" "$crate/"
cat > "$crate/src/main.rt" << 'PROGRAM'
//! Runs rows of devices and of the machine.
#![tactic(auto)]

use device_rows::Devices;
use row_text::{Count, end, read_inputs, run};
use std::io;
use std::process::ExitCode;

fn main(rt: HostRuntime) -> io::Result<ExitCode> {
    let inputs = read_inputs(&rt)?;
    let devices = Devices { rt };
    let mut count = Count::default();
    for text in inputs.texts.as_slice() {
        let (path, rows) = (text.path.as_str(), text.text.as_str());
        run(&rt, rt.alloc(), path, rows, &devices, &mut count)?;
    }
    end(&rt, count)
}
PROGRAM
python3 -B "$top/bench/planted_links.py" "$folder/crates" "$@"
