#!/bin/sh
# Shows how long an edition takes to be made from the one before it, and its look-ups and views, for 40, 400 and 4,096
# files of 64 times. Each number is the least of five turns. It uses what the
# gate proved on this machine (bench/build.sh).
# Use: bench/edition.sh.
set -eu
. "$(dirname "$0")/common.sh"
make_folder
"$top/bench/crates.sh" "$folder" edition_bench fm_views fm_load fm_sample
"$top/bench/made_files.sh" "$folder" edition_bench

cat > "$folder/crates/edition_bench/src/apart.rt" << 'PROGRAM'
//! Files of one shape, whose runs are evenly apart.

use crate::made::{Made, Shape};
use fm_base::{Bytes, NoMemory};
use std::alloc::Global;

/// A file to be copied, and the seconds from one run to the next.
#[derive(Clone, Copy)]
pub struct Apart<'a> {
    pub made: Made<'a>,
    pub gap: i64,
}

impl Apart<'_> {
    /// The run of a number.
    pub fn run(&self, k: u32) -> i64 {
        i64::from(k).wrapping_mul(self.gap)
    }

    /// The file of a number: times an hour apart, the first at its run.
    pub fn bytes(&self, alloc: Global, k: u32) -> Result<Bytes, NoMemory> {
        self.made.bytes(alloc, &Shape::hourly(self.gap, k))
    }
}
PROGRAM

cat > "$folder/crates/edition_bench/src/steps.rt" << 'PROGRAM'
//! Steps of an edition.

use crate::apart::Apart;
use crate::made::{Untaken, name_of, now, since};
use fm_base::Arc;
use fm_edition::Edition;
use fm_load::load;
use fm_model::{MAX_FILE_BYTES, Op};
use std::alloc::Global;
use std::rt::Clock;

/// The edition with the file of a number, and how many microseconds it took to make it.
pub fn put<R: Clock>(
    rt: &R,
    alloc: Global,
    edition: &Edition,
    made: &Apart<'_>,
    k: u32,
) -> Result<(Edition, u64), Untaken> {
    let bytes = made.bytes(alloc, k)?;
    if bytes.len() as u64 > MAX_FILE_BYTES {
        return Err(Untaken);
    }
    let name = name_of(alloc, b"made-", k)?;
    let file = match load(alloc, name.as_slice(), bytes, edition.proto().get()) {
        Ok(file) => file,
        Err(_) => return Err(Untaken),
    };
    let op = Op::Put(Arc::new(alloc, file)?);
    let start = now(rt)?;
    let next = edition.after(alloc, &op);
    let took = since(rt, &start)? / 1_000;
    match next {
        Ok(next) => Ok((next, took)),
        Err(_) => Err(Untaken),
    }
}

/// The edition of the files of the numbers below a count.
pub fn built<R: Clock>(
    rt: &R,
    alloc: Global,
    edition: Edition,
    made: &Apart<'_>,
    count: u32,
) -> Result<Edition, Untaken> {
    let mut edition = edition;
    for k in 0..count {
        edition = put(rt, alloc, &edition, made, k)?.0;
    }
    Ok(edition)
}

/// How long a put under a new name takes.
pub fn new_name<R: Clock>(
    rt: &R,
    alloc: Global,
    edition: &Edition,
    made: &Apart<'_>,
    count: u32,
) -> Result<u64, Untaken> {
    let mut least = u64::MAX;
    for _ in 0..5u8 {
        least = least.min(put(rt, alloc, edition, made, count)?.1);
    }
    Ok(least)
}

/// How long an expiry of the runs before a cutoff takes.
pub fn expiry<R: Clock>(rt: &R, alloc: Global, edition: &Edition, cutoff: i64) -> Result<u64, Untaken> {
    let mut least = u64::MAX;
    for _ in 0..5u8 {
        let start = now(rt)?;
        let next = edition.after(alloc, &Op::Expire(cutoff));
        least = least.min(since(rt, &start)? / 1_000);
        if next.is_err() {
            return Err(Untaken);
        }
    }
    Ok(least)
}

/// How many nanoseconds a look-up of a best run takes, over some valid times, an hour apart.
pub fn best_run<R: Clock>(rt: &R, edition: &Edition, times: i64) -> Result<u64, Untaken> {
    let mut least = u64::MAX;
    let mut found = 0u64;
    for _ in 0..5u8 {
        let start = now(rt)?;
        for k in 0..times {
            if edition.best_run(k.wrapping_mul(3_600), None).is_some() {
                found = found.wrapping_add(1);
            }
        }
        least = least.min(since(rt, &start)?);
    }
    if found == 0 { Err(Untaken) } else { Ok(per(least, times)) }
}

/// How many nanoseconds a look-up of a cell takes, over the first hours of some runs.
pub fn cell<R: Clock>(rt: &R, edition: &Edition, made: &Apart<'_>, runs: u32) -> Result<u64, Untaken> {
    let mut least = u64::MAX;
    let mut found = 0u64;
    for _ in 0..5u8 {
        let start = now(rt)?;
        for k in 0..runs {
            let run = made.run(k);
            if edition.cell(run, run.wrapping_add(7_200)).is_some() {
                found = found.wrapping_add(1);
            }
        }
        least = least.min(since(rt, &start)?);
    }
    if found == 0 { Err(Untaken) } else { Ok(per(least, i64::from(runs))) }
}

fn per(nanos: u64, times: i64) -> u64 {
    let times = times.clamp(1, 1_000_000) as u64;
    nanos / times
}

/// Shows what the steps take from an edition of one file less than a count, and returns it.
pub fn all<R: Print + Clock>(
    rt: &R,
    alloc: Global,
    none: Edition,
    made: &Apart<'_>,
    count: u32,
) -> Result<Edition, Untaken> {
    let less = count.wrapping_sub(1);
    let edition = built(rt, alloc, none, made, less)?;
    let added = new_name(rt, alloc, &edition, made, less)?;
    let expired = expiry(rt, alloc, &edition, made.run(1))?;
    let best = best_run(rt, &edition, 2_000)?;
    let found = cell(rt, &edition, made, less)?;
    let _ = println!(rt; "put {} us, expire one run {} us, best_run {} ns, cell {} ns", added, expired, best, found);
    Ok(edition)
}
PROGRAM

cat > "$folder/crates/edition_bench/src/main.rt" << 'PROGRAM'
//! `PROGRAM FILE` shows the times of an edition.
#![tactic(auto)]

mod apart;
mod made;
mod steps;

use apart::Apart;
use fm_base::Bytes;
use fm_edition::Edition;
use fm_model::ViewName;
use fm_sample::edition_of;
use fm_views::{row_count, rows};
use made::{Made, Untaken, now, since};
use std::alloc::Global;
use std::rt::Clock;
use std::{env, fs, io};

fn empty(alloc: Global, bytes: &[u8]) -> Result<Edition, Untaken> {
    edition_of(alloc, Bytes::copy_of(alloc, bytes)?).map_err(|_| Untaken)
}

fn view<R: Print + Clock>(
    rt: &R,
    alloc: Global,
    edition: &Edition,
    name: &str,
    view: &ViewName,
) -> Result<(), Untaken> {
    let (mut least, mut least_count, mut found) = (u64::MAX, u64::MAX, 0);
    for _ in 0..5u8 {
        let start = now(rt)?;
        let Ok(list) = rows(alloc, edition, view) else {
            return Err(Untaken);
        };
        least = least.min(since(rt, &start)? / 1_000);
        found = list.get().len();
        let start = now(rt)?;
        let _ = row_count(alloc, edition, view)?;
        least_count = least_count.min(since(rt, &start)? / 1_000);
    }
    let _ = println!(rt; "  {}: {} rows in {} us, counted in {} us", name, found, least, least_count);
    Ok(())
}

fn views<R: Print + Clock>(
    rt: &R,
    alloc: Global,
    edition: &Edition,
    made: &Apart<'_>,
    count: u32,
) -> Result<(), Untaken> {
    let run = made.run(count / 2);
    view(rt, alloc, edition, "best", &ViewName::Best)?;
    view(rt, alloc, edition, "best from six hours", &ViewName::BestFrom(21_600))?;
    view(rt, alloc, edition, "run", &ViewName::Run(run))?;
    view(rt, alloc, edition, "offset", &ViewName::Offset(7_200))?;
    view(rt, alloc, edition, "forecast", &ViewName::Forecast(run.wrapping_add(7_200)))
}

fn shown<R: Print + Clock>(rt: &R, alloc: Global, made: &Apart<'_>, count: u32) -> Result<(), Untaken> {
    let none = empty(alloc, made.made.bytes)?;
    let _ = println!(rt; "{} files of 64 times, a run each {} hours", count, made.gap / 3_600);
    let edition = steps::all(rt, alloc, none, made, count)?;
    views(rt, alloc, &edition, made, count)
}

fn main(rt: HostRuntime) -> io::Result<()> {
    let alloc = rt.alloc();
    for path in env::args(&rt)?.skip(1) {
        let bytes = fs::read(&rt, path.as_str())?;
        for gap in [21_600, 230_400] {
            for count in [40, 400, 4_096] {
                let files = Made {
                    bytes: bytes.as_slice(),
                    times: 64,
                };
                let made = Apart { made: files, gap };
                if shown(&rt, alloc, &made, count).is_err() {
                    println!(rt; "a step failed")?;
                }
            }
        }
    }
    Ok(())
}
PROGRAM
program=$("$top/bench/build.sh" "$folder" edition_bench)
"$program" "$folder/few.nc"
