//! Many cases on all the machine's cores, and the shortest that differs.

use crate::chance::Chance;
use crate::shipped::{Fields, Shipped};
use crate::tally::Tally;
use degvuurel::{SheetText, SHEET};
use std::fmt;
use std::panic::{catch_unwind, AssertUnwindSafe};
use std::sync::atomic::{AtomicU64, Ordering};
use std::sync::Mutex;
use std::thread;

/// So many differing cases are shortened; then no other is tried.
const ENOUGH: usize = 8;

/// The cases that a thread takes at a time, unless there are so few that another thread would have none.
const TAKEN_AT_ONCE: u64 = 64;

/// What a thread keeps from case to case: room for a sheet, its counts, and the shipped code where that is asked too.
pub struct Bench {
    pub text: Box<SheetText>,
    pub tally: Tally,
    shipped: Option<Shipped>,
}

impl Bench {
    fn new() -> Bench {
        let text = vec![0; SHEET].into_boxed_slice().try_into().expect("the room has the length of a sheet");
        Bench { text, tally: Tally::default(), shipped: None }
    }

    /// From now on the shipped code is asked too.
    pub fn with_shipped(&mut self) -> &mut Bench {
        self.shipped.get_or_insert_with(Shipped::start);
        self
    }

    /// The shipped code, where it is asked too, answers a call as the paper does.
    pub fn ship(&mut self, what: fmt::Arguments, call: impl FnOnce() -> (Fields, Fields)) -> Result<(), String> {
        let Some(shipped) = &mut self.shipped else { return Ok(()) };
        let (call, expected) = call();
        self.tally.shipped += 1;
        shipped.answers(what, &call, &expected)
    }
}

/// A case that differs, as short as it could be made.
pub struct Found {
    pub size: usize,
    pub words: String,
}

/// What the comparison says, or that the package panicked, which is a difference too.
pub fn guarded(compare: impl FnOnce() -> Result<(), String>) -> Result<(), String> {
    catch_unwind(AssertUnwindSafe(compare)).unwrap_or_else(|_| Err("panicked".to_owned()))
}

/// Tries so many cases of a part. Where both sides agree on all of them, the counts come back; else the shortest case is printed.
pub fn run(
    part: &str,
    seed: u64,
    cases: u64,
    try_case: impl Fn(&mut Chance, &mut Bench) -> Result<(), Found> + Sync,
) -> Option<Tally> {
    println!("{part}: {cases} cases from seed {seed}");
    let at_once = (cases / TAKEN_AT_ONCE).clamp(1, TAKEN_AT_ONCE);
    let next = AtomicU64::new(0);
    let found = Mutex::new(Vec::new());
    let sum = Mutex::new(Tally::default());
    let work = || {
        let mut bench = Bench::new();
        while let Some(first) = taken(&next, at_once, &found).filter(|&first| first < cases) {
            for case in first..cases.min(first + at_once) {
                if let Err(differing) = try_case(&mut Chance::of(seed, part, case), &mut bench) {
                    found.lock().expect("no thread panics").push((case, differing));
                }
            }
        }
        sum.lock().expect("no thread panics").add(&bench.tally);
    };
    thread::scope(|scope| {
        for _ in 0..thread::available_parallelism().map_or(1, usize::from) {
            scope.spawn(work);
        }
    });
    let found = found.into_inner().expect("no thread panics");
    shown(part, seed, found).then(|| sum.into_inner().expect("no thread panics"))
}

/// The first of the next cases that a thread tries, unless enough differ.
fn taken(next: &AtomicU64, at_once: u64, found: &Mutex<Vec<(u64, Found)>>) -> Option<u64> {
    let enough = found.lock().expect("no thread panics").len() >= ENOUGH;
    (!enough).then(|| next.fetch_add(at_once, Ordering::Relaxed))
}

/// Whether nothing differs. Else the shortest of what was found is printed.
fn shown(part: &str, seed: u64, found: Vec<(u64, Found)>) -> bool {
    let number = found.len();
    let Some((case, shortest)) = found.into_iter().min_by_key(|(_, found)| found.size) else {
        return true;
    };
    println!("DIFFERENCE in {part}: {number} found, the shortest, of size {}, from case {case} of seed {seed}", shortest.size);
    println!("{}", shortest.words);
    false
}
