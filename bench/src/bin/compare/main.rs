//! Holds the proved library, as it was compiled, to the baseline on generated
//! inputs: `compare COUNT SEED [KIND..]`. Run it by `tools/compare-library`.

mod cards;
mod counts;
mod lent;
mod machine;
mod members;
mod orders;
mod raw;
mod rooms;
mod states;
mod streams;
mod texts;

use counts::Counts;
use std::process::ExitCode;
use std::sync::atomic::{AtomicUsize, Ordering};
use std::sync::Mutex;
use thymebarrel_baseline::generate::Rng;

/// What a comparison is given: where its chances come from, which input of its
/// kind it is and of how many, and where it counts what it met.
pub struct Case {
    pub rng: Rng,
    pub index: usize,
    pub count: usize,
    pub counts: Counts,
}

/// How the two sides differ, where they do.
pub type Compared = Result<(), String>;

/// One kind of input.
struct Kind {
    name: &'static str,
    /// How many of it, when a million are asked for of the plainest kinds.
    count: fn(usize) -> usize,
    compare: fn(&mut Case) -> Compared,
    /// What a long run must have met.
    must: fn() -> Vec<String>,
}

#[rustfmt::skip]
const KINDS: [Kind; 10] = [
    Kind { name: "card", count: |count| count, compare: cards::compare, must: cards::must },
    Kind { name: "json", count: |count| count, compare: texts::compare, must: texts::must },
    Kind { name: "cause", count: |count| count / 2, compare: texts::compare_cause, must: texts::all_causes },
    Kind { name: "home", count: |count| count / 2, compare: texts::compare_home, must: texts::must_at_home },
    Kind { name: "room", count: |count| count / 100, compare: rooms::compare, must: rooms::must },
    Kind { name: "member", count: |count| count, compare: members::compare, must: members::must },
    Kind { name: "stream", count: |count| count / 5, compare: streams::compare, must: streams::must },
    Kind { name: "cut", count: |count| count / 500, compare: streams::compare_cuts, must: streams::must_of_cuts },
    Kind { name: "order", count: orders::count, compare: orders::compare, must: orders::must },
    Kind { name: "state", count: |count| count, compare: states::compare, must: states::must },
];

fn main() -> ExitCode {
    let arguments: Vec<String> = std::env::args().skip(1).collect();
    let Some((count, seed, names)) = read_arguments(&arguments) else {
        eprintln!("usage: compare COUNT SEED [KIND..]; kinds: {}", KINDS.map(|kind| kind.name).join(" "));
        return ExitCode::FAILURE;
    };
    let chosen = KINDS.iter().filter(|kind| names.is_empty() || names.iter().any(|name| name == kind.name));
    // each kind is tried, whatever came of those before it
    let failed = chosen.filter(|kind| !tried(kind, count, seed)).count();
    if failed > 0 {
        println!("{failed} kinds failed");
        return ExitCode::FAILURE;
    }
    ExitCode::SUCCESS
}

fn read_arguments(arguments: &[String]) -> Option<(usize, u64, &[String])> {
    let [count, seed, names @ ..] = arguments else {
        return None;
    };
    let known = |name: &String| KINDS.iter().any(|kind| kind.name == name);
    names.iter().all(known).then_some(())?;
    Some((count.parse().ok()?, seed.parse().ok()?, names))
}

/// A run of so many inputs must meet all that it is there for; a shorter one is a
/// quick look.
const MANY: usize = 100_000;

/// Whether a kind shows no difference and meets all that it must; tells of it.
fn tried(kind: &Kind, asked: usize, seed: u64) -> bool {
    let start = std::time::Instant::now();
    let count = (kind.count)(asked);
    let counts = match compared(kind, count, seed) {
        Ok(counts) => counts,
        Err(difference) => {
            println!("{}: {difference}", kind.name);
            return false;
        }
    };
    println!("{}: {count} inputs, no difference, {:.0} s", kind.name, start.elapsed().as_secs_f64());
    counts.print();
    let missing = counts.missing((kind.must)());
    if !missing.is_empty() {
        println!("{}: never met: {}", kind.name, missing.join(", "));
    }
    missing.is_empty() || asked < MANY
}

/// The inputs stand in so many blocks, each with a seed of its own, so that they do
/// not depend on how many threads take them.
const BLOCKS: usize = 64;
const THREADS: usize = 2;

/// What was met, or the first difference that a thread came to.
fn compared(kind: &Kind, count: usize, seed: u64) -> Result<Counts, String> {
    let next = AtomicUsize::new(0);
    let whole = Mutex::new(Ok(Counts::default()));
    let work = || loop {
        let block = next.fetch_add(1, Ordering::Relaxed);
        if block >= BLOCKS {
            return;
        }
        let told = compared_block(kind, count, seed, block);
        let mut whole = whole.lock().expect("no thread has panicked");
        match (&mut *whole, told) {
            (Ok(counts), Ok(more)) => counts.add(more),
            (Ok(_), Err(difference)) => {
                *whole = Err(difference);
                next.store(BLOCKS, Ordering::Relaxed);
            }
            (Err(_), _) => {}
        }
    };
    std::thread::scope(|scope| {
        for _ in 0..THREADS {
            scope.spawn(work);
        }
    });
    whole.into_inner().expect("no thread has panicked")
}

fn compared_block(kind: &Kind, count: usize, seed: u64, block: usize) -> Result<Counts, String> {
    let rng = Rng::new(seed.wrapping_add((block as u64) << 32));
    let mut case = Case { rng, index: 0, count, counts: Counts::default() };
    for index in count * block / BLOCKS..count * (block + 1) / BLOCKS {
        case.index = index;
        (kind.compare)(&mut case)?;
    }
    Ok(case.counts)
}
