#!/bin/sh
# Shows how fast the data of a two-dimensional view is written in pieces of 65,536 bytes: fields of 256 by 512 numbers
# of four, two and eight bytes over 16 runs and 19 offsets, of which a quarter has no cell; a part of each field, and
# one number of it; and the axis. It says how many bytes there are, and how many microseconds they take. The data of the
# first may take 5 seconds.
# Use: bench/twod.sh.
set -eu
. "$(dirname "$0")/common.sh"
make_folder
"$top/bench/crates.sh" "$folder" send_grid fm_twod fm_sample
cat > "$folder/crates/send_grid/src/main.rt" << 'PROGRAM'
//! `PROGRAM PROTO NAME FILE ..` makes a collection over a prototype. Of each constraint it says how many bytes the data
//! of its two-dimensional view has, and how many microseconds these take in pieces.
#![tactic(auto)]
ghost use Rattle.std.specs.Prelude.{◌≡◌};

use fm_base::Bytes;
use fm_edition::Edition;
use fm_sample::{edition_of, edition_with};
use fm_twod::{Twod, TwodAsk};
use pub_look::Query;
use std::alloc::Global;
use std::rt::Clock;
use std::time::Instant;
use std::{env, fs, io};

const PIECE: usize = 65_536;

const ASKED: [&str; 7] = [
    "f", "s", "d", "f[0:15][0:18][0:255][1:510]", "f[0:15][0:18][0:2:255][0:2:511]", "f[0:15][0:18][3][4]", "time",
];

// Writes all bytes in pieces.
fn in_pieces<R: Print + Clock>(rt: &R, asked: &str, twod: &Twod) -> io::Result<()> {
    let mut room = [0; PIECE];
    let mut sum = 0_u64;
    let mut from = 0_u64;
    let len = twod.len();
    let start = Instant::now(rt)?;
    for _ in 0..=len / PIECE as u64 {
        if from > len {
            return println!(rt; "too far");
        }
        let count = twod.piece(from, &mut room);
        from = from.wrapping_add(count as u64);
        sum = sum.wrapping_add(u64::from(room[7]));
    }
    let took = start.elapsed(rt)?;
    println!(rt; "{asked} {from} {} {sum}", took.as_micros())
}

fn measured<R: Print + Clock>(rt: &R, alloc: Global, edition: &Edition, asked: &str) -> io::Result<()> {
    let Ok(constraint) = Bytes::copy_of(alloc, asked.as_bytes()) else {
        return println!(rt; "no memory");
    };
    let ask = TwodAsk {
        with_values: true,
        constraint,
    };
    match ask.answer(alloc, edition, 0) {
        Ok(Ok(twod)) => {
            in_pieces(rt, asked, &twod)?;
            in_pieces(rt, asked, &twod)
        }
        _ => println!(rt; "no view"),
    }
}

fn all_measured<R: Print + Clock>(rt: &R, alloc: Global, edition: &Edition) -> io::Result<()> {
    for asked in ASKED {
        measured(rt, alloc, edition, asked)?;
    }
    Ok(())
}

fn main(rt: HostRuntime) -> io::Result<()> {
    let mut words = env::args(&rt)?.skip(1);
    let Some(proto) = words.next() else {
        return println!(&rt; "no prototype");
    };
    let proto = Bytes { items: fs::read(&rt, proto.as_str())? };
    let Ok(mut edition) = edition_of(rt.alloc(), proto) else {
        return println!(&rt; "no collection");
    };
    while let (Some(name), Some(path)) = (words.next(), words.next()) {
        let file = Bytes { items: fs::read(&rt, path.as_str())? };
        let Ok(next) = edition_with(rt.alloc(), &edition, name.as_bytes(), file) else {
            return println!(&rt; "no file");
        };
        edition = next;
    }
    all_measured(&rt, rt.alloc(), &edition)
}
PROGRAM
run_crate send_grid

# The runs are six hours apart, and every second of them has nine offsets of 19. The variables are holes of the files.
words=$(PYTHONPATH=$top/bench python3 -B - "$folder" << 'PYTHON'
import sys

from classic import DOUBLE, FLOAT, SHORT, TIME, Classic, Variable

HOUR, FIRST = 3600, 126230400
variables = [TIME, Variable("f", FLOAT, [0, 1, 2]), Variable("s", SHORT, [0, 1, 2]), Variable("d", DOUBLE, [0, 1, 2])]
words = []
for run in [None, *range(16)]:
    records = 1 if run is None else 9 if run % 2 else 19
    name = "proto.nc" if run is None else "gfs_202401%02d_%02d00.nc" % (1 + run // 4, 6 * (run % 4))
    form = Classic([("time", 0), ("y", 256), ("x", 512)], variables, records=records)
    begin = FIRST + 6 * HOUR * (run or 0)
    form.write(sys.argv[1] + "/" + name, [begin + 3 * HOUR * number for number in range(records)])
    words += [sys.argv[1] + "/" + name] if run is None else [name, sys.argv[1] + "/" + name]
print(" ".join(words))
PYTHON
)

# shellcheck disable=SC2086  # several words
"$program" $words | tee "$folder/figures"
awk '{ if (NF != 4) bad = 1; if ($1 == "f" && (!took || $3 < took)) took = $3 }
    END { exit bad || !took || took > 5000000 }' "$folder/figures"
