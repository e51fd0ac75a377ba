#!/bin/sh
# Refuses memory to a publisher with threads: a small program publishes while two readers look, in a run for each
# request for memory, of which that one is refused. A call that was refused has to leave the log, the share and what is
# looked at as they were; the program does it again, and ends as without a refusal. Then each request and all behind it
# are refused: nothing may wait for memory, so that the program still ends. A run that hangs or ends otherwise is shown,
# and the status is then 1. The program is proved first: some minutes over the libraries that `make build` left in
# this tree, else 25.
# Use: bench/refused_publisher.sh
set -eu
. "$(dirname "$0")/common.sh"
make_folder
"$top/bench/crates.sh" "$folder" refused_publisher fm_base fm_model fm_edition fm_load fm_sample pub_look pub_snap
crate=$folder/crates/refused_publisher
cat > "$crate/src/main.rt" << 'PROGRAM'
//! Publishes while two readers look, and does again what memory was refused for. What it prints is the same whichever
//! request for memory is refused.
#![tactic(auto)]
ghost use Rattle.std.specs.Prelude.{◌≡◌, ◌≤◌, length, IfSome};
ghost use Rattle.fm_model.specs.Load.{Fits};
ghost use Rattle.pub_snap.specs.Opening.{IsNamed};

use fm_base::{Arc, NoMemory};
use fm_edition::Edition;
use fm_load::load;
use fm_model::{Loaded, Op, Proto, Tally};
use fm_sample::{File, edition_of};
use pub_look::{Look, Query};
use pub_snap::{Blank, Closed, Desk, Name, Pass, Receipt, Share, prepare};
use std::alloc::Global;
use std::marker::{Brand, Model, PhantomData};
use std::process::Abort;
use std::sync::Wait;
use std::thread::{Threads, for_each_mut, join_mut, yield_now};

// How many operations are published.
const STEPS: u64 = 32;

// How often a reader looks at most, where the last operation is never published.
const LOOKS: u64 = 20_000;

// The first run, from the epoch of the collection, and the seconds between two runs.
const FIRST_RUN: i64 = 126_230_400;
const SIX_HOURS: i64 = 21_600;

// The names of four files, of one run each.
const NAMES: [&[u8]; 4] =
    [b"gfs_20240101_0000.nc", b"gfs_20240101_0600.nc", b"gfs_20240101_1200.nc", b"gfs_20240101_1800.nc"];

// The prototype of a desk.
#[derive(Drop)]
struct Over<N: Name> {
    proto: Arc<Proto>,
    of: PhantomData<N>,
}

impl<N: Name> Model for Over<N> {
    ghost use Rattle.std.specs.Prelude.{◌≡◌};
    ghost use Rattle.fm_model.specs.declared.proto.Proto.{Proto as Prototype};

    ghost Value = { Prototype };

    ghost view = { λ over. over.proto };

    ghost invariant = { λ over. over.proto ≡ N.proto };
}

impl<N: Name> Over<N> {
    // The sample as the file of a run, by the mark in its name. `None` where memory is refused.
    fn sample(&self, alloc: Global, name: &[u8]) -> Option<Arc<Loaded>>
        ensures { IfSome result (λ file. Fits file N.proto) }
    {
        let bytes = File::Sample.bytes(alloc).ok()?;
        if bytes.len() > 352 {
            return None;
        }
        let file = load(alloc, name, bytes, self.proto.get()).ok()?;
        Arc::new(alloc, file).ok()
    }
}

// What is held, as one number: the files, the best run at a valid time, and whether older runs are there. The answer
// takes no memory.
struct Sketch;

impl Query for Sketch {
    type Out = u64;

    ghost says = { λ _ _ _ _. Unit {0} };

    fn answer(&self, _alloc: Global, edition: &Edition, _revision: u64) -> Result<u64, NoMemory> {
        let files = u64::from(edition.tally().files);
        let best = match edition.best_run(FIRST_RUN, None) {
            Some(run) => run.unsigned_abs(),
            None => 0,
        };
        let older = u64::from(edition.older_than(FIRST_RUN + SIX_HOURS));
        Ok((best % 1_000_000) * 64 + (files % 16) * 4 + older)
    }
}

// Looks until all is published. No revision may fall.
fn look_on<N: Name, R: Abort>(rt: &R, alloc: Global, pass: &mut Pass<N>) {
    let mut last = 0;
    for _ in 0..LOOKS {
        if let Ok((_, revision)) = pass.ask(alloc, &Sketch) {
            assert!(rt; revision >= last, "a revision fell");
            last = revision;
        }
        if last >= STEPS {
            return;
        }
        yield_now();
    }
}

fn look_side_by_side<N: Name + Send + Sync, R: Threads + Abort + Sync>(rt: &R, alloc: Global, passes: &mut [Pass<N>]) {
    for_each_mut(rt, passes, 2, &|_: usize, pass: &mut Pass<N>| look_on(rt, alloc, pass));
}

// How many passes don't see all that is published. One of two looks may be the one that memory is refused.
fn blind<N: Name>(alloc: Global, passes: &mut [Pass<N>]) -> u64 {
    let mut count = 0u64;
    for pass in passes.iter_mut() {
        let _first = pass.ask(alloc, &Sketch);
        let _second = pass.ask(alloc, &Sketch);
        count = count.saturating_add(u64::from(pass.seen() != STEPS));
    }
    count
}

// A desk, its share, its prototype, and a pass that looks after each refusal.
#[derive(Drop)]
struct Publisher<'a, N: Name> {
    desk: &'a mut Desk<N>,
    share: &'a mut Share<N>,
    over: &'a Over<N>,
    pass: &'a mut Pass<N>,
}

// What a publisher shows: the lengths of its log and of its receipt, and what its share counted; what is held; and what
// a look answers.
fn shown<N: Name>(
    alloc: Global,
    publisher: &mut Publisher<'_, N>,
) -> (u64, u64, u64, Tally, Option<u64>) {
    let seen = match publisher.pass.ask(alloc, &Sketch) {
        Ok((answer, _)) => Some(answer),
        Err(_) => None,
    };
    let revision = publisher.desk.revision();
    let receipt = publisher.desk.receipt().revision();
    (revision, receipt, publisher.share.count(), publisher.desk.tally(), seen)
}

// Whether a file of this name was put.
fn put<N: Name, R: Wait>(rt: &R, alloc: Global, publisher: &mut Publisher<'_, N>, name: &[u8]) -> bool {
    match publisher.over.sample(alloc, name) {
        Some(file) => publisher.desk.publish(alloc, rt, publisher.share, Op::Put(file)).is_ok(),
        None => false,
    }
}

// Whether something was taken out.
fn is_out<N: Name>(answer: Result<Option<Receipt<N>>, NoMemory>) -> bool {
    matches!(answer, Ok(Some(_)))
}

// Whether a step was published: one of eight, which come again and again. Each changes the collection.
fn publish<N: Name, R: Wait>(rt: &R, alloc: Global, publisher: &mut Publisher<'_, N>, number: u64) -> bool {
    match number % 8 {
        0 | 6 => put(rt, alloc, publisher, NAMES[0]),
        1 => put(rt, alloc, publisher, NAMES[1]),
        2 => put(rt, alloc, publisher, NAMES[2]),
        3 => is_out(publisher.desk.expire(alloc, rt, publisher.share, FIRST_RUN + SIX_HOURS)),
        4 => is_out(publisher.desk.retract(alloc, rt, publisher.share, NAMES[1])),
        5 => put(rt, alloc, publisher, NAMES[3]),
        _ => is_out(publisher.desk.expire(alloc, rt, publisher.share, FIRST_RUN + 2 * SIX_HOURS)),
    }
}

// Publishes a step. Where memory is refused nothing may have changed, and it is done again.
fn write_one<N: Name, R: Wait>(rt: &R, alloc: Global, publisher: &mut Publisher<'_, N>, number: u64) -> bool {
    for _ in 0..2 {
        let before = shown(alloc, publisher);
        if publish(rt, alloc, publisher, number) {
            return true;
        }
        if shown(alloc, publisher) != before {
            return false;
        }
    }
    false
}

// Publishes all steps, and returns how many were wrong.
fn write_all<N: Name, R: Wait>(rt: &R, alloc: Global, publisher: &mut Publisher<'_, N>) -> u64 {
    let mut wrong = 0u64;
    for number in 0..STEPS {
        if !write_one(rt, alloc, publisher, number) {
            wrong = wrong.saturating_add(1);
        }
        yield_now();
    }
    wrong
}

// Publishes all steps while readers look, and returns how many steps and readers were wrong.
fn race<N: Name + Send + Sync, R: Threads + Wait + Abort + Sync>(
    rt: &R,
    alloc: Global,
    publisher: &mut Publisher<'_, N>,
    readers: &mut [Pass<N>],
) -> u64 {
    let mut looking = || look_side_by_side(rt, alloc, readers);
    let mut writing = || write_all(rt, alloc, publisher);
    let (_, steps) = join_mut(rt, &mut looking, &mut writing);
    steps.saturating_add(blind(alloc, readers))
}

// Publishes all steps over a desk while all passes but the first look, and returns how much was wrong.
fn used<N: Name + Send + Sync, R: Threads + Wait + Abort + Sync>(
    rt: &R,
    alloc: Global,
    desk: &mut Desk<N>,
    passes: &mut [Pass<N>],
    share: &mut Share<N>,
    over: &Over<N>,
) -> u64
    requires { 1 ≤ length passes.old }
{
    let (own, readers) = passes.split_at_mut(1);
    let mut publisher = Publisher { desk, share, over, pass: &mut own[0] };
    race(rt, alloc, &mut publisher, readers)
}

// Opens a desk, publishes all steps over it, and closes it. What it leaves, and how much was wrong.
fn published<N: Name + Send + Sync, R: Threads + Wait + Abort + Sync>(
    rt: &R,
    alloc: Global,
    blank: Blank,
    proto: &Arc<Proto>,
) -> Option<(Closed, u64)>
    requires named { IsNamed blank N.book N.name N.proto N.parts }
    requires one { (blank.shares ≡ 1) × (blank.passes ≡ 3) }
    requires proto { proto.now ≡ N.proto }
{
    let Ok(proto) = proto.share() else {
        return None;
    };
    let over: Over<N> = Over { proto, of: PhantomData };
    let Ok((mut desk, mut passes, mut shares)) = blank.open::<N>(alloc) else {
        return None;
    };
    let passes = passes.items.as_mut_slice();
    let wrong = used(rt, alloc, &mut desk, passes, &mut shares.items[0], &over);
    Some((desk.close(rt, shares), wrong))
}

fn run<R: Threads + Wait + Abort + Sync>(rt: &R, alloc: Global) -> Option<(Closed, u64)> {
    let edition = edition_of(alloc, File::Sample.bytes(alloc).ok()?).ok()?;
    let proto = edition.proto().share().ok()?;
    let blank = prepare(alloc, proto, 3, 1).ok()?;
    published::<Brand, R>(rt, alloc, blank, edition.proto())
}

fn main(rt: HostRuntime) {
    let alloc = rt.alloc();
    let found = match run(&rt, alloc) {
        Some(found) => Some(found),
        None => run(&rt, alloc),
    };
    let _ = match found {
        Some((closed, wrong)) => println!(rt; "{} files, {} operations, {} counted, {} wrong", closed.tally.files,
            closed.revision, closed.total, wrong),
        None => println!(rt; "refused twice"),
    };
}
PROGRAM
mkdir -p "$crate/proofs/run"
cat > "$crate/proofs/run/Invariants.antt" << 'PROOF'
-- The desk that is then opened.
use Rattle.refused_publisher.proofs.run.Given as goal

abbrev pub ghosts-published-N-Name : goal.ghosts-published-N-Name
ghosts-published-N-Name g a = record { book = a.blank.book; proto = a.blank.proto }

abbrev pub ghosts-published-N-Ledger : goal.ghosts-published-N-Ledger
ghosts-published-N-Ledger g a = record { name = a.blank.ledger; parts = a.blank.shares }
PROOF
run_crate refused_publisher
cc -shared -fPIC -O2 -Wall -o "$folder/refused.so" "$top/bench/refused_memory.c"
python3 -B "$top/bench/refused_publisher.py" "$program" "$folder"
