#!/bin/sh
# Shows how fast whole parts of 100 MiB are written as XDR in pieces of 8,192 bytes, beside a plain copy in C of as many
# bytes in such pieces: of numbers of four and eight bytes, which may fall to 0.7 of the copy's speed, and of two bytes,
# which are widened, and may fall to 0.4. Then it shows what one piece costs at places from the front of a part to its
# end.
# Use: bench/xdr.sh.
set -eu
. "$(dirname "$0")/common.sh"
make_folder
"$top/bench/crates.sh" "$folder" send_parts dap_xdr fm_views fm_sample
cat > "$folder/crates/send_parts/src/main.rt" << 'PROGRAM'
//! `PROGRAM PROTO FILE` makes the best time series of a file over a prototype. Of each declaration after the axis, but
//! for the runs and the offsets, it says how many microseconds all of its array takes in pieces, and then how many
//! nanoseconds a thousand pieces take at five places.
#![tactic(auto)]
ghost use Rattle.std.specs.Prelude.{◌<◌, ◌^◌, IsSomeAnd, length};
ghost use Rattle.dap_xdr.specs.Content.{array_in, part_data, FitsArray};
ghost use Rattle.dap_xdr.specs.Datasets.{content_of};

use dap_model::{Array, Decl, Sent, Slab};
use dap_xdr::{fits, xdr_len, xdr_piece};
use fm_base::{Bytes, List, NoMemory};
use fm_dataset::Dataset;
use fm_model::ViewName;
use fm_sample::{edition_of, edition_with};
use fm_views::shown;
use std::alloc::Global;
use std::rt::Clock;
use std::time::Instant;
use std::{env, fs, io};

const PIECE: usize = 8_192;

// The best time series of a file over a prototype.
fn best(alloc: Global, proto: Bytes, file: Bytes) -> Option<Dataset> {
    let empty = edition_of(alloc, proto).ok()?;
    let edition = edition_with(alloc, &empty, b"gfs_20240101_0000.nc", file).ok()?;
    shown(alloc, &edition, &ViewName::Best, b"gfs_best.ncd").ok()
}

fn array_of(decl: &Decl) -> Option<&Array> {
    match decl {
        Decl::Plain(array) => Some(array),
        Decl::Grid { array, .. } => Some(array),
        Decl::Structure { .. } => None,
    }
}

// All of an array.
fn whole_of(alloc: Global, decl: u32, array: &Array) -> Result<Sent, NoMemory> {
    let mut slabs = List::new(alloc);
    for dim in array.dims.as_slice() {
        slabs.push(Slab {
            start: 0,
            stride: 1,
            stop: dim.size.wrapping_sub(1),
        })?;
    }
    Ok(Sent {
        decl,
        part: 0,
        slabs,
    })
}

// Writes a part in pieces.
fn in_pieces<R: Print + Clock>(rt: &R, set: &Dataset, sent: &Sent, len: u64) -> io::Result<()>
    requires part { IsSomeAnd (array_in (content_of set.now).decls sent.now.decl sent.now.part)
        (FitsArray sent.now) }
    requires small { length (part_data (content_of set.now) sent.now) < 2 ^ 64 }
{
    let mut room = [0; PIECE];
    let mut sum = 0_u64;
    let mut from = 0_u64;
    let start = Instant::now(rt)?;
    for _ in 0..=len / PIECE as u64 {
        let count = xdr_piece(set, sent, from, &mut room);
        from = from.wrapping_add(count as u64);
        sum = sum.wrapping_add(u64::from(room[7]));
    }
    let took = start.elapsed(rt)?;
    println!(rt; "pieces {} {from} {} {sum}", sent.decl, took.as_micros())
}

// Writes one piece of a part a thousand times.
fn one_piece<R: Print + Clock>(rt: &R, set: &Dataset, sent: &Sent, from: u64) -> io::Result<()>
    requires part { IsSomeAnd (array_in (content_of set.now).decls sent.now.decl sent.now.part)
        (FitsArray sent.now) }
    requires small { length (part_data (content_of set.now) sent.now) < 2 ^ 64 }
{
    let mut room = [0; PIECE];
    let mut sum = 0_u64;
    let start = Instant::now(rt)?;
    for _ in 0..1_000 {
        let count = xdr_piece(set, sent, from, &mut room);
        sum = sum.wrapping_add(count as u64).wrapping_add(u64::from(room[7]));
    }
    let took = start.elapsed(rt)?;
    println!(rt; "piece {} {from} {} {sum}", sent.decl, took.as_nanos())
}

fn measured<R: Print + Clock>(rt: &R, set: &Dataset, sent: &Sent) -> io::Result<()> {
    if !fits(set, sent) {
        return println!(rt; "no part");
    }
    let len = xdr_len(set, sent);
    if len > u128::from(u64::MAX) {
        return println!(rt; "too long");
    }
    let len = len as u64;
    for _ in 0..20 {
        in_pieces(rt, set, sent, len)?;
        for place in 0..5_u64 {
            one_piece(rt, set, sent, (len / 4).wrapping_sub(PIECE as u64).wrapping_mul(place))?;
        }
    }
    Ok(())
}

fn all_measured<R: Print + Clock>(
    rt: &R,
    alloc: Global,
    set: &Dataset,
) -> io::Result<()> {
    let decls = set.decls().as_slice();
    let count = decls.len().saturating_sub(2).min(9) as u32;
    for number in 1..count {
        let Some(array) = decls.get(number as usize).and_then(array_of) else {
            return println!(rt; "no array");
        };
        let Ok(sent) = whole_of(alloc, number, array) else {
            return println!(rt; "no memory");
        };
        measured(rt, set, &sent)?;
    }
    Ok(())
}

fn main(rt: HostRuntime) -> io::Result<()> {
    let mut files = Vec::new(rt.alloc());
    for path in env::args(&rt)?.skip(1) {
        let items = fs::read(&rt, path.as_str())?;
        files.push(Bytes { items })?;
    }
    let (Some(file), Some(proto)) = (files.pop(), files.pop()) else {
        return println!(&rt; "two files");
    };
    match best(rt.alloc(), proto, file) {
        Some(set) => all_measured(&rt, rt.alloc(), &set),
        None => println!(&rt; "no dataset"),
    }
}
PROGRAM
run_crate send_parts

# A file of 100 records of a time and four variables, each of which is sent as 1 MiB, and one of one record that is the
# prototype. The variables are holes of the file.
PYTHONPATH=$top/bench python3 -B - "$folder" << 'PYTHON'
import sys

from classic import DOUBLE, FLOAT, INT, SHORT, TIME, Classic, Variable

variables = [TIME, Variable("f", FLOAT, [0, 1, 3]), Variable("i", INT, [0, 1, 3])]
variables += [Variable("d", DOUBLE, [0, 2, 3]), Variable("s", SHORT, [0, 1, 3])]
for name, records in (("/proto.nc", 1), ("/large.nc", 100)):
    form = Classic([("time", 0), ("y", 256), ("h", 128), ("x", 1024)], variables, records=records)
    form.write(sys.argv[1] + name, [3600 * record for record in range(records)])
PYTHON
cat > "$folder/copy.c" << 'C'
#include <stdio.h>
#include <stdlib.h>
#include <string.h>
#include <time.h>

static char room[8192];

// Copies the first 100 MiB of a file, which it holds, in pieces of 8,192 bytes, and says how many microseconds that
// takes.
int main(int count, char **words) {
    size_t len = 100u << 20;
    char *bytes = malloc(len);
    FILE *file = count == 2 ? fopen(words[1], "rb") : NULL;
    if (!bytes || !file || fread(bytes, 1, len, file) != len)
        return 1;
    for (int turn = 0; turn < 20; turn++) {
        struct timespec start, end;
        clock_gettime(CLOCK_MONOTONIC, &start);
        for (size_t from = 0; from < len; from += sizeof room) {
            memcpy(room, bytes + from, sizeof room);
            __asm__ volatile("" : : "r"(room) : "memory");
        }
        clock_gettime(CLOCK_MONOTONIC, &end);
        long took = (end.tv_sec - start.tv_sec) * 1000000 + (end.tv_nsec - start.tv_nsec) / 1000;
        printf("plain 0 %zu %ld 0\n", len, took);
    }
}
C
cc -O2 -o "$folder/copy" "$folder/copy.c"

"$program" "$folder/proto.nc" "$folder/large.nc" > "$folder/figures"
"$folder/copy" "$folder/large.nc" >> "$folder/figures"
python3 - "$folder" << 'PYTHON'
import sys

KINDS = {"1": ("Float", 0.7), "2": ("Int", 0.7), "3": ("Double", 0.7), "4": ("Short", 0.4)}
pieces, places, plain = {}, {}, []
for line in open(sys.argv[1] + "/figures"):
    words = line.split()
    if len(words) != 5:
        sys.exit(line)
    what, decl, count, took = words[0], words[1], int(words[2]), int(words[3])
    if what == "plain":
        plain.append(took)
    elif what == "pieces":
        pieces.setdefault(decl, []).append((took, count))
    else:
        places.setdefault(decl, {}).setdefault(count, []).append(took)
bad = False
for decl, (kind, least) in KINDS.items():
    took, count = min(pieces[decl])
    ratio = min(plain) / took
    bad = bad or ratio < least or count != 104857608
    shown = (kind, count, took, min(plain), ratio)
    print("%s: %d bytes in pieces in %d us, plain copy in %d us, %.2f of its speed" % shown)
    pieces = ("%d: %d ns" % (at, min(each) / 1000) for at, each in sorted(places[decl].items()))
    print("    a piece at " + ", ".join(pieces))
sys.exit(bad)
PYTHON
