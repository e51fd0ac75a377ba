#!/bin/sh
# Writes what programs share that measure editions, into a folder of bench/crates.sh: the files few.nc and many.nc, and
# the module `made` of a crate, which makes files of these with other runs and times.
# Use: bench/made_files.sh FOLDER NAME.
set -eu
. "$(dirname "$0")/common.sh"
folder=$1 name=$2
places=$(python3 -B "$top/bench/made_files.py" "$folder")
cat > "$folder/crates/$name/src/made.rt" << 'PROGRAM'
//! Made files, and the clock.

use fm_base::{Bytes, NoMemory, put_decimal};
use std::alloc::Global;
use std::rt::Clock;
use std::time::Instant;

/// Something that no step of this program meets.
#[derive(Clone, Copy, Debug)]
pub struct Untaken;

impl From<NoMemory> for Untaken {
    fn from(_error: NoMemory) -> Untaken {
        Untaken
    }
}

/// A file to be copied, and how many times it has.
#[derive(Clone, Copy)]
pub struct Made<'a> {
    pub bytes: &'a [u8],
    pub times: u32,
}

/// The run of a file, its first time, and the seconds from one time to the next, in the first half and after it.
#[derive(Clone, Copy)]
pub struct Shape {
    pub run: i64,
    pub first: i64,
    pub step: i64,
    pub later: i64,
}

impl Shape {
    /// Times an hour apart, the first at the run, where runs are this number of seconds apart.
    pub fn hourly(gap: i64, k: u32) -> Shape {
        let run = i64::from(k).wrapping_mul(gap);
        Shape {
            run,
            first: run,
            step: 3_600,
            later: 3_600,
        }
    }
}

impl Made<'_> {
    /// The file of a shape.
    pub fn bytes(&self, alloc: Global, shape: &Shape) -> Result<Bytes, NoMemory> {
        let mut bytes = Bytes::copy_of(alloc, self.bytes)?;
        set(&mut bytes, RUN_AT, shape.run);
        let mut at: usize = TIME_AT;
        let mut time = shape.first;
        for record in 0..self.times {
            set(&mut bytes, at, time);
            at = at.wrapping_add(8);
            let step = if record < self.times / 2 { shape.step } else { shape.later };
            time = time.wrapping_add(step);
        }
        Ok(bytes)
    }
}

// Sets the four bytes at a place.
fn set(bytes: &mut Bytes, at: usize, number: i64) {
    let mut place = at;
    let [_, _, _, _, a, b, c, d] = number.to_be_bytes();
    for byte in [a, b, c, d] {
        if let Some(old) = bytes.items.get_mut(place) {
            *old = byte;
        }
        place = place.wrapping_add(1);
    }
}

/// A name with a number.
pub fn name_of(alloc: Global, front: &[u8], k: u32) -> Result<Bytes, NoMemory> {
    let mut name = Bytes::copy_of(alloc, front)?;
    put_decimal(alloc, i128::from(k), &mut name)?;
    Ok(name)
}

/// The present moment.
pub fn now<R: Clock>(rt: &R) -> Result<Instant, Untaken> {
    match Instant::now(rt) {
        Ok(moment) => Ok(moment),
        Err(_) => Err(Untaken),
    }
}

/// The nanoseconds since a moment.
pub fn since<R: Clock>(rt: &R, start: &Instant) -> Result<u64, Untaken> {
    match start.elapsed(rt) {
        Ok(took) => Ok((took.as_nanos() % 1_000_000_000_000_000) as u64),
        Err(_) => Err(Untaken),
    }
}
PROGRAM
# shellcheck disable=SC2086  # two numbers
set -- $places
sed -i "s/RUN_AT/$1/; s/TIME_AT/$2/" "$folder/crates/$name/src/made.rt"
