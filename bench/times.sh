#!/bin/sh
# Measures what an edition and a projection owe beside their bytes, and compares it with goals: a put of 4,096 times
# where 63 files have the same days, the structure text of an offset and of a forecast time over 4,096 runs, the best
# time series with a least offset, a put and what is asked by a name among 40 and among 4,096 files, and 8,000 clauses
# over 600 variables. Each number is the least of some turns, in microseconds. Its status is 1 where a goal is missed, 2
# where a step fails. It wants a quiet machine, and uses what the gate proved there (bench/build.sh).
# Use: bench/times.sh.
set -eu
. "$(dirname "$0")/common.sh"
make_folder
"$top/bench/crates.sh" "$folder" times_bench fm_views fm_load fm_sample dap_ce dap_project dap_dds
"$top/bench/made_files.sh" "$folder" times_bench

cat > "$folder/crates/times_bench/src/editions.rt" << 'PROGRAM'
//! Puts, and what a view costs.
ghost use Rattle.std.specs.Prelude.{IfOk};
ghost use Rattle.fm_edition.specs.Held.{OpFits};

use crate::made::{Made, Shape, Untaken, name_of, now, since};
use dap_dds::dds_text;
use fm_base::{Arc, Bytes};
use fm_dataset::decls;
use fm_edition::Edition;
use fm_load::load;
use fm_model::{MAX_FILE_BYTES, Op, ViewName};
use fm_sample::edition_of;
use fm_views::{row_count, rows};
use std::alloc::Global;
use std::rt::Clock;

/// The edition without files over the prototype of a file.
pub fn empty(alloc: Global, made: &Made<'_>) -> Result<Edition, Untaken> {
    match edition_of(alloc, Bytes::copy_of(alloc, made.bytes)?) {
        Ok(edition) => Ok(edition),
        Err(_) => Err(Untaken),
    }
}

/// A file of a shape, which is put under the name of a number.
#[derive(Clone, Copy)]
pub struct Put<'a> {
    pub made: Made<'a>,
    pub k: u32,
    pub shape: Shape,
}

// The operation of a put.
fn op_of(alloc: Global, edition: &Edition, put: &Put<'_>) -> Result<Op, Untaken>
    ensures { IfOk result (OpFits edition.now.proto) }
{
    let bytes = put.made.bytes(alloc, &put.shape)?;
    if bytes.len() as u64 > MAX_FILE_BYTES {
        return Err(Untaken);
    }
    let name = name_of(alloc, b"made-", put.k)?;
    match load(alloc, name.as_slice(), bytes, edition.proto().get()) {
        Ok(file) => Ok(Op::Put(Arc::new(alloc, file)?)),
        Err(_) => Err(Untaken),
    }
}

/// The edition after a put.
pub fn after(alloc: Global, edition: &Edition, put: &Put<'_>) -> Result<Edition, Untaken> {
    let op = op_of(alloc, edition, put)?;
    match edition.after(alloc, &op) {
        Ok(next) => Ok(next),
        Err(_) => Err(Untaken),
    }
}

/// How long a put takes, with the end of the edition that it makes.
pub fn put_time<R: Clock>(rt: &R, alloc: Global, edition: &Edition, put: &Put<'_>) -> Result<u64, Untaken> {
    let mut least = u64::MAX;
    for _ in 0..9u8 {
        least = least.min(one_put(rt, alloc, edition, put)?);
    }
    Ok(least)
}

fn one_put<R: Clock>(rt: &R, alloc: Global, edition: &Edition, put: &Put<'_>) -> Result<u64, Untaken> {
    let op = op_of(alloc, edition, put)?;
    let start = now(rt)?;
    match edition.after(alloc, &op) {
        Ok(_next) => {}
        Err(_) => return Err(Untaken),
    }
    since(rt, &start)
}

/// How long a hundred questions by a held name take: whether it is held, and whether a put under it would pass a limit.
pub fn names_time<R: Clock>(rt: &R, alloc: Global, edition: &Edition, put: &Put<'_>) -> Result<u64, Untaken> {
    let op = op_of(alloc, edition, put)?;
    let name = name_of(alloc, b"made-", put.k)?;
    let mut least = u64::MAX;
    for _ in 0..9u8 {
        let start = now(rt)?;
        for _ in 0..100u8 {
            if !edition.holds(name.as_slice()) || edition.full_at(&op).is_some() {
                return Err(Untaken);
            }
        }
        least = least.min(since(rt, &start)?);
    }
    Ok(least)
}

// The structure text of a view.
fn structure(alloc: Global, edition: &Edition, view: &ViewName) -> Result<Bytes, Untaken> {
    let count = row_count(alloc, edition, view)?;
    if count == 0 {
        return Err(Untaken);
    }
    let decls = decls(alloc, edition.proto().get(), count)?;
    let mut text = Bytes::new(alloc);
    dds_text(alloc, b"made", &decls, &mut text)?;
    Ok(text)
}

/// How long the structure text of a view takes.
pub fn structure_time<R: Clock>(rt: &R, alloc: Global, edition: &Edition, view: &ViewName) -> Result<u64, Untaken> {
    let mut least = u64::MAX;
    for _ in 0..50u8 {
        let start = now(rt)?;
        let _text = structure(alloc, edition, view)?;
        least = least.min(since(rt, &start)?);
    }
    Ok(least)
}

/// How long the rows of a view take.
pub fn rows_time<R: Clock>(rt: &R, alloc: Global, edition: &Edition, view: &ViewName) -> Result<u64, Untaken> {
    let mut least = u64::MAX;
    for _ in 0..20u8 {
        let start = now(rt)?;
        let Ok(_list) = rows(alloc, edition, view) else {
            return Err(Untaken);
        };
        least = least.min(since(rt, &start)?);
    }
    Ok(least)
}
PROGRAM

cat > "$folder/crates/times_bench/src/clauses.rt" << 'PROGRAM'
//! A constraint of many clauses over many variables.

use crate::made::{Untaken, name_of, now, since};
use dap_ce::read_constraint;
use dap_model::{Array, DapKind, Decl};
use dap_project::project_text;
use fm_base::{Bytes, List, NoMemory};
use nc_model::Dim;
use std::alloc::Global;
use std::rt::Clock;

// A list of one item.
fn one<T: Drop>(alloc: Global, item: T) -> Result<List<T>, NoMemory> {
    let mut list = List::new(alloc);
    list.push(item)?;
    Ok(list)
}

fn dim(alloc: Global, name: &[u8]) -> Result<Dim, NoMemory> {
    Ok(Dim {
        name: Bytes::copy_of(alloc, name)?,
        size: 8,
    })
}

fn map(alloc: Global, name: &[u8]) -> Result<Array, NoMemory> {
    Ok(Array {
        name: Bytes::copy_of(alloc, name)?,
        kind: DapKind::Float32,
        dims: one(alloc, dim(alloc, name)?)?,
    })
}

// A Grid of three dimensions under a name.
fn grid(alloc: Global, name: Bytes) -> Result<Decl, NoMemory> {
    let mut dims = one(alloc, dim(alloc, b"t")?)?;
    dims.push(dim(alloc, b"y")?)?;
    dims.push(dim(alloc, b"x")?)?;
    let mut maps = one(alloc, map(alloc, b"t")?)?;
    maps.push(map(alloc, b"y")?)?;
    maps.push(map(alloc, b"x")?)?;
    let array = Array {
        name: Bytes::copy_of(alloc, name.as_slice())?,
        kind: DapKind::Float32,
        dims,
    };
    Ok(Decl::Grid { name, array, maps })
}

/// `count` Grids. The first is named `a`.
pub fn grids(alloc: Global, count: u32) -> Result<List<Decl>, NoMemory> {
    let mut decls = one(alloc, grid(alloc, Bytes::copy_of(alloc, b"a")?)?)?;
    for k in 1..count {
        decls.push(grid(alloc, name_of(alloc, b"v", k)?)?)?;
    }
    Ok(decls)
}

/// A text again and again, up to `most` bytes, with commas between.
pub fn repeated(alloc: Global, text: &[u8], most: usize) -> Result<Bytes, NoMemory> {
    let mut list = Bytes::copy_of(alloc, text)?;
    for _ in 0..most {
        if list.len() >= most {
            return Ok(list);
        }
        list.append(b",")?;
        list.append(text)?;
    }
    Ok(list)
}

/// The names of `count` Grids, again and again, up to `most` bytes.
pub fn names(alloc: Global, count: u32, most: usize) -> Result<Bytes, NoMemory> {
    let mut list = Bytes::copy_of(alloc, b"a")?;
    for _ in 0..64u8 {
        for k in 1..count {
            if list.len() > most {
                return Ok(list);
            }
            list.append(b",")?;
            list.append(name_of(alloc, b"v", k)?.as_slice())?;
        }
    }
    Ok(list)
}

/// How long it takes to find what is sent for a constraint, and to write its structure text.
pub fn project_time<R: Clock>(rt: &R, alloc: Global, decls: &List<Decl>, text: &[u8]) -> Result<u64, Untaken> {
    let Ok(asked) = read_constraint(alloc, text) else {
        return Err(Untaken);
    };
    let mut least = u64::MAX;
    for _ in 0..20u8 {
        let start = now(rt)?;
        let Ok(_sent) = project_text(alloc, b"a", decls.as_slice(), &asked) else {
            return Err(Untaken);
        };
        least = least.min(since(rt, &start)?);
    }
    Ok(least)
}
PROGRAM

cat > "$folder/crates/times_bench/src/main.rt" << 'PROGRAM'
//! `PROGRAM FEW MANY` shows how long the steps take, each in nanoseconds.
#![tactic(auto)]

mod clauses;
mod editions;
mod made;

use clauses::{grids, names, project_time, repeated};
use editions::{Put, after, empty, names_time, put_time, rows_time, structure_time};
use fm_edition::Edition;
use fm_model::ViewName;
use made::{Made, Shape, Untaken};
use std::alloc::Global;
use std::rt::Clock;
use std::{env, fs, io};

fn say<R: Print>(rt: &R, name: &str, nanos: u64) {
    let _ = println!(rt; "{name} {nanos}");
}

// A run each minute, with times a minute apart, and in the second half three minutes.
fn uneven(k: u32) -> Shape {
    Shape {
        run: i64::from(k).wrapping_mul(60),
        first: i64::from(k).wrapping_mul(60),
        step: 60,
        later: 180,
    }
}

// A run each minute, all with the same times.
fn together(k: u32) -> Shape {
    Shape {
        run: i64::from(k).wrapping_mul(60),
        first: 600_000,
        step: 60,
        later: 60,
    }
}

// How the runs and the times of files lie.
#[derive(Clone, Copy)]
enum Lie {
    Uneven,
    Together,
    Hourly,
}

fn put_of(made: Made<'_>, lie: Lie, k: u32) -> Put<'_> {
    let shape = match lie {
        Lie::Uneven => uneven(k),
        Lie::Together => together(k),
        Lie::Hourly => Shape::hourly(21_600, k),
    };
    Put { made, k, shape }
}

// Puts one file more.
fn add(alloc: Global, edition: &mut Edition, put: &Put<'_>) -> Result<(), Untaken> {
    let next = after(alloc, edition, put)?;
    *edition = next;
    Ok(())
}

// The edition of some files.
fn files(alloc: Global, made: Made<'_>, lie: Lie, count: u32) -> Result<Edition, Untaken> {
    let mut edition = empty(alloc, &made)?;
    for k in 0..count {
        add(alloc, &mut edition, &put_of(made, lie, k))?;
    }
    Ok(edition)
}

// A put of as many times as a file may have, beside 63 such files of the same days.
fn puts_of_many<R: Print + Clock>(rt: &R, alloc: Global, made: Made<'_>) -> Result<(), Untaken> {
    let edition = files(alloc, made, Lie::Uneven, 63)?;
    let mut put = put_of(made, Lie::Uneven, 63);
    say(rt, "put_many", put_time(rt, alloc, &edition, &put)?);
    put = put_of(made, Lie::Uneven, 62);
    say(rt, "put_many_again", put_time(rt, alloc, &edition, &put)?);
    put.shape.first = 3_721;
    say(rt, "put_many_moved", put_time(rt, alloc, &edition, &put)?);
    Ok(())
}

fn structures<R: Print + Clock>(rt: &R, alloc: Global, edition: &Edition) -> Result<(), Untaken> {
    for (name, view) in [
        ("best", ViewName::Best),
        ("best_from_0", ViewName::BestFrom(0)),
        ("best_from_6h", ViewName::BestFrom(21_600)),
        ("offset", ViewName::Offset(7_200)),
        ("offset_last", ViewName::Offset(226_800)),
        ("forecast", ViewName::Forecast(44_240_400)),
    ] {
        say(rt, name, structure_time(rt, alloc, edition, &view)?);
    }
    Ok(())
}

fn all_rows<R: Print + Clock>(rt: &R, alloc: Global, edition: &Edition) -> Result<(), Untaken> {
    for (name, view) in [
        ("best_rows", ViewName::Best),
        ("best_from_0_rows", ViewName::BestFrom(0)),
        ("best_from_6h_rows", ViewName::BestFrom(21_600)),
        ("offset_rows", ViewName::Offset(7_200)),
    ] {
        say(rt, name, rows_time(rt, alloc, edition, &view)?);
    }
    Ok(())
}

fn same_times<R: Print + Clock>(rt: &R, alloc: Global, made: Made<'_>) -> Result<(), Untaken> {
    let edition = files(alloc, made, Lie::Together, 4_096)?;
    say(rt, "offset_together", structure_time(rt, alloc, &edition, &ViewName::Offset(480_000))?);
    say(rt, "forecast_together", structure_time(rt, alloc, &edition, &ViewName::Forecast(601_200))?);
    say(rt, "forecast_together_rows", rows_time(rt, alloc, &edition, &ViewName::Forecast(601_200))?);
    Ok(())
}

// What a name costs among some files, with one more that is put again and again.
fn names_among<R: Print + Clock>(rt: &R, alloc: Global, edition: &Edition, put: &Put<'_>) -> Result<(), Untaken> {
    let count = edition.tally().files;
    say_among(rt, "put", count, put_time(rt, alloc, edition, put)?);
    say_among(rt, "names", count, names_time(rt, alloc, edition, put)?);
    Ok(())
}

fn say_among<R: Print>(rt: &R, name: &str, count: u32, nanos: u64) {
    let _ = println!(rt; "{name}_among_{count} {nanos}");
}

// The edition of this number of files an hour apart, and what a name costs in it.
fn hourly<R: Print + Clock>(rt: &R, alloc: Global, made: Made<'_>, count: u32) -> Result<Edition, Untaken> {
    let last = put_of(made, Lie::Hourly, count.wrapping_sub(1));
    let before = files(alloc, made, Lie::Hourly, count.wrapping_sub(1))?;
    say_among(rt, "put_new", count, put_time(rt, alloc, &before, &last)?);
    let edition = after(alloc, &before, &last)?;
    names_among(rt, alloc, &edition, &last)?;
    Ok(edition)
}

fn constraints<R: Print + Clock>(rt: &R, alloc: Global) -> Result<(), Untaken> {
    let decls = grids(alloc, 600)?;
    say(rt, "one_clause", project_time(rt, alloc, &decls, b"v300")?);
    for (name, text) in [("same_clauses", "a"), ("slab_clauses", "a[1][2][3]"), ("part_clauses", "a.x")] {
        let list = repeated(alloc, text.as_bytes(), 16_384)?;
        say(rt, name, project_time(rt, alloc, &decls, list.as_slice())?);
    }
    let list = names(alloc, 600, 16_384)?;
    say(rt, "all_names", project_time(rt, alloc, &decls, list.as_slice())?);
    Ok(())
}

fn shown<R: Print + Clock>(rt: &R, alloc: Global, few: Made<'_>, many: Made<'_>) -> Result<(), Untaken> {
    constraints(rt, alloc)?;
    let _few = hourly(rt, alloc, few, 40)?;
    puts_of_many(rt, alloc, many)?;
    same_times(rt, alloc, few)?;
    let edition = hourly(rt, alloc, few, 4_096)?;
    structures(rt, alloc, &edition)?;
    all_rows(rt, alloc, &edition)
}

fn main(rt: HostRuntime) -> io::Result<()> {
    let mut files = Vec::new(rt.alloc());
    for path in env::args(&rt)?.skip(1) {
        files.push(fs::read(&rt, path.as_str())?)?;
    }
    let (Some(many), Some(few)) = (files.pop(), files.pop()) else {
        return Ok(());
    };
    let few = Made {
        bytes: few.as_slice(),
        times: 64,
    };
    let many = Made {
        bytes: many.as_slice(),
        times: 4_096,
    };
    if shown(&rt, rt.alloc(), few, many).is_err() {
        println!(rt; "a step failed")?;
    }
    Ok(())
}
PROGRAM
program=$("$top/bench/build.sh" "$folder" times_bench)
cd "$folder"
"$program" few.nc many.nc > shown
cat > goals << 'GOALS'
put_many 5000
put_many_again 5000
put_many_moved 5000
offset 500
offset_last 500
offset_together 500
forecast 500
forecast_together 500
best_from_0 500
same_clauses 2000
slab_clauses 2000
part_clauses 2000
all_names 2000
GOALS
python3 - << 'PYTHON'
import sys

shown = dict(line.split() for line in open("shown") if len(line.split()) == 2)
goals = dict(line.split() for line in open("goals"))
missed = [name for name in goals if name not in shown]
for name, nanos in shown.items():
    micros = int(nanos) / 1000
    goal = float(goals.get(name, "inf"))
    note = "" if name not in goals else " (goal %.0f%s)" % (goal, "" if micros <= goal else ", MISSED")
    print("%s: %.1f us%s" % (name, micros, note))
    if micros > goal:
        missed.append(name)
pairs = [("%s_among_4096" % step, "%s_among_40" % step, 2) for step in ("put_new", "put", "names")]
for name, other, most in pairs + [("best_from_0", "best", 1.5)]:
    ratio = int(shown.get(name, 0)) / max(int(shown.get(other, 0)), 1)
    print("%s: %.2f times %s (goal %.1f%s)" % (name, ratio, other, most, ", MISSED" if ratio > most else ""))
    if ratio > most:
        missed.append(name)
if open("shown").read().endswith("a step failed\n"):
    print("a step failed")
    sys.exit(2)
print("missed: %d" % len(missed))
sys.exit(1 if missed else 0)
PYTHON
