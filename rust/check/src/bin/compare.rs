//! Holds the library against the reference on any number of generated cases: `compare SEED COUNT [FIRST]`; or the
//! reference against the naive one: `compare reference SEED COUNT [FIRST]`
//! Exit status 1 at the first difference, which is printed as a table text with its seed and index.

#![forbid(unsafe_code)]

use std::process::ExitCode;
use std::sync::atomic::{AtomicU64, Ordering};
use std::sync::Mutex;
use std::time::Instant;

use cuddlelamb_check::compare::{by_reference, cases, cases_of_reference, Tally};
use cuddlelamb_check::Library;

/// How many cases one thread takes at a time.
const PART: u64 = 1024;

fn main() -> ExitCode {
    let mut words = std::env::args().skip(1).peekable();
    let of_reference = words.next_if(|word| word == "reference").is_some();
    let numbers: Option<Vec<u64>> = words.map(|word| word.parse().ok()).collect();
    let (seed, count, first) = match numbers.as_deref() {
        Some([seed, count]) => (*seed, *count, 0),
        Some([seed, count, first]) => (*seed, *count, *first),
        _ => {
            eprintln!("usage: compare [reference] SEED COUNT [FIRST]");
            return ExitCode::from(2);
        }
    };
    println!("seed {seed}, {count} cases from index {first}");
    match compare(of_reference, seed, first, count) {
        Ok(tally) => {
            println!("{} cases, {} calls: no difference", tally.cases, tally.calls);
            println!("answers by number, 0 for none refused: {:?}", tally.numbers);
            ExitCode::SUCCESS
        }
        Err(difference) => {
            println!("DIFFERENCE: {difference}");
            ExitCode::FAILURE
        }
    }
}

/// As many threads as the machine has processors, each with a library of its own, take part after part.
fn compare(of_reference: bool, seed: u64, first: u64, count: u64) -> Result<Tally, String> {
    let start = Instant::now();
    let next = AtomicU64::new(0);
    let result = Mutex::new(Ok(Tally::default()));
    let work = || {
        let mut library = (!of_reference).then(Library::open);
        loop {
            let from = next.fetch_add(PART, Ordering::Relaxed);
            if from >= count || result.lock().unwrap().is_err() {
                return;
            }
            let (from, to) = (first + from, first + count.min(from + PART));
            let told = match &mut library {
                Some(library) => cases(library, by_reference, seed, from, to),
                None => cases_of_reference(seed, from, to),
            };
            let mut result = result.lock().unwrap();
            match (&mut *result, told) {
                (Ok(all), Ok(tally)) => {
                    all.add(&tally);
                    if all.cases / (16 * PART) > (all.cases - tally.cases) / (16 * PART) {
                        println!("{} cases, {} calls, {} s", all.cases, all.calls, start.elapsed().as_secs());
                    }
                }
                (Ok(_), Err(difference)) => *result = Err(difference),
                (Err(_), _) => (),
            }
        }
    };
    std::thread::scope(|scope| {
        for _ in 0..std::thread::available_parallelism().map_or(1, usize::from) {
            scope.spawn(work);
        }
    });
    result.into_inner().unwrap()
}
