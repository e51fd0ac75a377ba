#!/bin/sh
# Shows how many looks a second 1, 2 and 4 readers make, with and without a thread that publishes: each through its own
# pass of a desk, and each through one Mutex round the same edition. It builds a small program in a folder of its own.
# Use: bench/looks.sh.
set -eu
. "$(dirname "$0")/common.sh"
make_folder
"$top/bench/crates.sh" "$folder" looks fm_load fm_sample pub_snap
cp "$top/HANDLES" "$folder/HANDLES"
cp "$top/bench/published_files.rt.txt" "$folder/crates/looks/src/files.rt"
mkdir -p "$folder/crates/looks/proofs/row" "$folder/crates/looks/proofs/write_on"
: > "$folder/crates/looks/proofs/Lib.antt"
cat > "$folder/crates/looks/proofs/write_on/Invariants.antt" << 'TURNS'
use Rattle.std.proofs.Common.{◌≡◌, length}
use Rattle.looks.proofs.write_on.Given as goal

abbrev pub invariant-loop-number : goal.invariant-loop-number
invariant-loop-number g l = length l.publisher.shares ≡ length l.fn.publisher.shares
TURNS
cat > "$folder/crates/looks/proofs/row/Invariants.antt" << 'PICKS'
use Rattle.looks.proofs.row.Given as goal

abbrev pub ghosts-by_passes-N-Name : goal.ghosts-by_passes-N-Name
ghosts-by_passes-N-Name g a = record { book = a.blank.book; proto = a.blank.proto }

abbrev pub ghosts-by_passes-N-Ledger : goal.ghosts-by_passes-N-Ledger
ghosts-by_passes-N-Ledger g a = record { name = a.blank.ledger; parts = a.blank.shares }
PICKS
cat > "$folder/crates/looks/src/main.rt" << 'PROGRAM'
//! Looks as fast as it can in 1, 2 and 4 threads, and prints for each number of them, without and with a thread that
//! publishes, the thousands of looks a second by passes and by a Mutex.
#![tactic(auto)]

ghost use Rattle.std.specs.Prelude.{◌≡◌, ◌≤◌, length, IfOk};
ghost use Rattle.fm_model.specs.Site.{IsPrototype};
ghost use Rattle.pub_snap.specs.Opening.{IsNamed};

mod files;

use files::Files;
use fm_base::{Arc, List, NoMemory};
use fm_edition::Edition;
use fm_model::{Op, Proto, Tally};
use fm_sample::{File, edition_of};
use pub_look::{Look, Query};
use pub_snap::{Blank, Desk, Name, Pass, Share, prepare};
use std::alloc::Global;
use std::marker::Brand;
use std::rt::Clock;
use std::sync::atomic::AtomicBool;
use std::sync::atomic::Ordering::SeqCst;
use std::sync::{Mutex, MutexGuard, Wait};
use std::test::Fail;
use std::thread::{Threads, for_each_mut, join_mut};
use std::time::Instant;

const LOOKS: u64 = 1_000_000;

const WRITES: u64 = 1_000_000_000;

// How much is held.
struct HowMuch;

impl Query for HowMuch {
    type Out = Tally;

    ghost use Rattle.std.specs.Prelude.{◌≡◌};
    ghost use Rattle.fm_model.specs.Collection.{tally};

    ghost says = { λ _ held _ out. out ≡ tally held.files };

    fn answer(&self, _alloc: Global, edition: &Edition, _revision: u64) -> Result<Tally, NoMemory> {
        Ok(edition.tally())
    }
}

// A desk with its shares, the first of which counts what is published.
struct Publisher<N: Name> {
    desk: Desk<N>,
    shares: List<Share<N>>,
    files: Files<N>,
}

fn look_often<N: Name>(alloc: Global, pass: &mut Pass<N>) {
    for _ in 0..LOOKS {
        let _ = pass.ask(alloc, &HowMuch).is_ok();
    }
}

fn look_side_by_side<N: Name + Send + Sync, R: Threads + Sync>(
    rt: &R,
    alloc: Global,
    passes: &mut List<Pass<N>>,
    ended: &AtomicBool,
) {
    let threads = passes.len();
    if threads > 0 {
        for_each_mut(
            rt,
            passes.items.as_mut_slice(),
            threads,
            &|_: usize, pass: &mut Pass<N>| look_often(alloc, pass),
        );
    }
    ended.store(true, SeqCst);
}

// Publishes until the readers have ended.
fn write_on<N: Name, R: Wait>(rt: &R, alloc: Global, publisher: &mut Publisher<N>, ended: &AtomicBool)
    requires { 1 ≤ length publisher.old.shares }
    ensures { length publisher.new.shares ≡ length publisher.old.shares }
{
    for number in 0..WRITES {
        if ended.load(SeqCst) {
            return;
        }
        write_one(rt, alloc, publisher, number);
    }
}

fn write_one<N: Name, R: Wait>(rt: &R, alloc: Global, publisher: &mut Publisher<N>, number: u64)
    requires { 1 ≤ length publisher.old.shares }
    ensures { length publisher.new.shares ≡ length publisher.old.shares }
{
    if let Ok(file) = publisher.files.put(number % 2) {
        let share = &mut publisher.shares.items[0];
        let _ = publisher.desk.publish(alloc, rt, share, Op::Put(file)).is_ok();
    }
}

fn look_and_write<N: Name + Send + Sync, R: Threads + Wait + Sync>(
    rt: &R,
    alloc: Global,
    passes: &mut List<Pass<N>>,
    publisher: &mut Publisher<N>,
)
    requires { 1 ≤ length publisher.old.shares }
    ensures { length publisher.new.shares ≡ length publisher.old.shares }
{
    let ended = AtomicBool::new(false);
    let mut looking = || look_side_by_side(rt, alloc, passes, &ended);
    let mut writing = || write_on(rt, alloc, publisher, &ended);
    join_mut(rt, &mut looking, &mut writing);
}

// The nanoseconds that all looks of `passes` passes take.
fn by_passes<N: Name + Send + Sync, R: Threads + Wait + Clock + Sync>(
    rt: &R,
    alloc: Global,
    blank: Blank,
    proto: Arc<Proto>,
    writing: bool,
) -> Result<u128, Fail>
    requires named { IsNamed blank N.book N.name N.proto N.parts }
    requires some { 1 ≤ blank.shares }
    requires proto { proto ≡ N.proto }
{
    let files: Files<N> = Files::of(alloc, proto.get()).ok_or(NoMemory)?;
    let start = Instant::now(rt)?;
    let (desk, mut passes, shares) = blank.open::<N>(alloc)?;
    let mut publisher = Publisher { desk, shares, files };
    if writing {
        look_and_write(rt, alloc, &mut passes, &mut publisher);
    } else {
        look_side_by_side(rt, alloc, &mut passes, &AtomicBool::new(false));
    }
    let took = start.elapsed(rt);
    let Publisher { desk, shares, files: _ } = publisher;
    desk.close(rt, shares);
    Ok(took?.as_nanos())
}

// An edition under a lock, and two editions that a writer puts there in turn.
#[derive(Drop)]
struct Locked {
    shown: Mutex<Arc<Edition>>,
    one: Arc<Edition>,
    two: Arc<Edition>,
    ended: AtomicBool,
}

// The same by one Mutex round the edition, and with a writer that only takes turns between two editions.
fn by_mutex<R: Threads + Wait + Clock + Sync>(
    rt: &R,
    alloc: Global,
    proto: &Arc<Proto>,
    readers: u32,
    writing: bool,
) -> Result<u128, Fail>
    requires { IsPrototype proto.now }
{
    let one = Arc::new(alloc, Edition::empty(alloc, proto.share()?)?)?;
    let two = Arc::new(alloc, Edition::empty(alloc, proto.share()?)?)?;
    let mut counts = vec![in alloc; 0u64; readers as usize]?;
    let locked = Locked {
        shown: Mutex::new(one.share()?),
        one,
        two,
        ended: AtomicBool::new(false),
    };
    let start = Instant::now(rt)?;
    if writing {
        lock_and_write(rt, alloc, &locked, &mut counts);
    } else {
        look_locked(rt, alloc, &locked, &mut counts);
    }
    Ok(start.elapsed(rt)?.as_nanos())
}

fn lock_and_write<R: Threads + Wait + Sync>(
    rt: &R,
    alloc: Global,
    locked: &Locked,
    counts: &mut Vec<u64>,
) {
    let mut looking = || look_locked(rt, alloc, locked, counts);
    let mut writing = || take_turns(rt, locked);
    join_mut(rt, &mut looking, &mut writing);
}

fn look_locked<R: Threads + Wait + Sync>(
    rt: &R,
    alloc: Global,
    locked: &Locked,
    counts: &mut Vec<u64>,
) {
    let threads = counts.len();
    if threads > 0 {
        for_each_mut(
            rt,
            counts.as_mut_slice(),
            threads,
            &|_: usize, count: &mut u64| *count = look_locked_often(rt, alloc, &locked.shown),
        );
    }
    locked.ended.store(true, SeqCst);
}

fn look_locked_often<R: Wait>(rt: &R, alloc: Global, shown: &Mutex<Arc<Edition>>) -> u64 {
    let mut count = 0u64;
    for _ in 0..LOOKS {
        let guard = shown.lock(rt);
        if HowMuch.answer(alloc, guard.get(), 0).is_ok() {
            count = count.saturating_add(1);
        }
        MutexGuard::unlock(guard);
    }
    count
}

fn take_turns<R: Wait>(rt: &R, locked: &Locked) {
    for number in 0..WRITES {
        if locked.ended.load(SeqCst) {
            return;
        }
        let next = if number % 2 == 0 { locked.one.share() } else { locked.two.share() };
        if let Ok(next) = next {
            let mut guard = locked.shown.lock(rt);
            *guard = next;
            MutexGuard::unlock(guard);
        }
    }
}

// The thousands of looks a second, by passes and by a Mutex.
fn row<R: Threads + Wait + Clock + Sync>(
    rt: &R,
    alloc: Global,
    proto: &Arc<Proto>,
    readers: u32,
    writing: bool,
) -> Result<(u128, u128), Fail>
    requires proto { IsPrototype proto.now }
    requires readers { (1 ≤ readers) × (readers ≤ 25) }
{
    let again = proto.share()?;
    let blank = prepare(alloc, proto.share()?, readers, 1)?;
    let passes = by_passes::<Brand, R>(rt, alloc, blank, again, writing)?;
    let locked = by_mutex(rt, alloc, proto, readers, writing)?;
    let looks = u128::from(LOOKS) * u128::from(readers) * 1_000_000;
    Ok((looks / passes.max(1), looks / locked.max(1)))
}

// The prototype of the sample.
fn prototype(alloc: Global) -> Result<Arc<Proto>, NoMemory>
    ensures { IfOk result IsPrototype }
{
    match edition_of(alloc, File::Sample.bytes(alloc)?) {
        Ok(edition) => edition.proto().share(),
        Err(_) => Err(NoMemory),
    }
}

fn main(rt: HostRuntime) -> Result<(), Fail> {
    let alloc = rt.alloc();
    let proto = prototype(alloc)?;
    for readers in [1u32, 2, 4] {
        for writing in [false, true] {
            let (passes, locked) = row(&rt, alloc, &proto, readers, writing)?;
            println!(rt; "{} {} {} {}", readers, writing, passes, locked)?;
        }
    }
    Ok(())
}
PROGRAM
run_crate looks
"$program" | while read -r readers writing passes locked; do
    echo "$readers readers, a writer: $writing: $passes thousand looks a second by passes, $locked by one Mutex"
done
