//! What a call costs, the library beside the reference, for 8, 16, 32 and 64 jobs of five families: to read a text; to
//! plan a table that has been read, with a budget beside it; to tell its rooms; and to read and plan, as for the first
//! plan of a text. It calls the library linked: with the feature `native`, which off x86-64 needs `tools/native`.
//!
//! Usage: bench                              nanoseconds
//!        bench instructions                 instructions, counted by valgrind
//!        bench WHO CALL TIMES FAMILY JOBS   so many calls, to be counted or watched from outside: WHO is library or
//!                                           reference, CALL is read, plan, rooms or "read + plan", FAMILY is 0 to 4

#![forbid(unsafe_code)]

use std::hint::black_box;
use std::process::Command;
use std::time::{Duration, Instant};

use cuddlelamb::calls;
use cuddlelamb_check::generate;
use cuddlelamb_check::linked::wrappers_table;
use cuddlelamb_check::reference::{
    self, Hold, Job, Speed, Table, HOLDS, JOBS, LAST_TIME, MOST_BUDGET, SUPPLIED_SPEEDS,
};

const SIZES: [usize; 4] = [8, 16, 32, 64];
const CALLS: [&str; 4] = ["read", "plan", "rooms", "read + plan"];
const FAMILIES: [&str; 5] = [
    "nothing waits",
    "ten times overloaded",
    "long chains, all accepted",
    "long chains, ten times overloaded",
    "random tables",
];
/// How many tables the last family has of each size: a call is one call for each, shared out.
const RANDOM_TABLES: usize = 32;

fn main() {
    let arguments: Vec<String> = std::env::args().skip(1).collect();
    match arguments.iter().map(String::as_str).collect::<Vec<_>>()[..] {
        [] => {
            println!("Nanoseconds a call, the least of seven measures.");
            println!();
            print_rows("ns", nanoseconds);
        }
        ["instructions"] => {
            println!("Instructions a call: a run of two calls less a run of one.");
            println!();
            print_rows("instructions", instructions);
        }
        [who, call, times, family, jobs] => {
            let family = FAMILIES[family.parse::<usize>().expect("a family's number")];
            let inputs = inputs(family, jobs.parse().expect("how many jobs"));
            let one = call_of(who, call);
            (0..times.parse().expect("how many times")).for_each(|_| inputs.iter().for_each(one));
        }
        _ => panic!("usage: bench | bench instructions | bench WHO CALL TIMES FAMILY JOBS"),
    }
}

/// What the calls are given: a text, and its table in the library's form and in the reference's.
struct Input {
    text: Vec<u8>,
    library: cuddlelamb::Table,
    reference: Table,
}

/// A family's inputs of a size: one, or of random tables the first of the generator that have so many jobs.
fn inputs(name: &str, jobs: usize) -> Vec<Input> {
    tables(name, jobs)
        .into_iter()
        .map(|table| Input { text: generate::text_of(&table), library: wrappers_table(&table), reference: table })
        .collect()
}

fn tables(name: &str, jobs: usize) -> Vec<Table> {
    if name == "random tables" {
        let generated = (0..).map(|index| generate::table(20_261_116, index));
        return generated.filter(|table| table.job_count == jobs).take(RANDOM_TABLES).collect();
    }
    vec![family(name, jobs)]
}

/// A call to be measured. The budget beside a table is the one that its text says: the plan is the same with and without
/// reading.
type Call = fn(&Input);

fn call_of(who: &str, call: &str) -> Call {
    match (who, call) {
        ("library", "read") => |input| _ = black_box(calls::read(black_box(&input.text))),
        ("library", "plan") => |input| plan_by_library(&input.library),
        ("library", "rooms") => |input| rooms_by_library(&input.library),
        ("library", "read + plan") => |input| plan_by_library(&calls::read(black_box(&input.text)).value),
        ("reference", "read") => |input| _ = black_box(reference::read(black_box(&input.text))),
        ("reference", "plan") => |input| plan_by_reference(&input.reference),
        ("reference", "rooms") => |input| rooms_by_reference(&input.reference),
        ("reference", "read + plan") => {
            |input| plan_by_reference(&reference::read(black_box(&input.text)).expect("a good text"))
        }
        _ => panic!("who calls, and what"),
    }
}

fn plan_by_library(table: &cuddlelamb::Table) {
    let (table, budget) = black_box((table, table.budget));
    with_buffers(|order, fates| _ = black_box(calls::plan(table, budget, order, fates)));
}

fn plan_by_reference(table: &Table) {
    let (table, budget) = black_box((table, table.budget));
    with_buffers(|order, fates| _ = black_box(reference::plan(table, budget, order, fates)));
}

fn rooms_by_library(table: &cuddlelamb::Table) {
    let (table, budget) = black_box((table, table.budget));
    with_buffers(|turns, rooms| _ = black_box(calls::rooms(table, budget, turns, rooms)));
}

fn rooms_by_reference(table: &Table) {
    let (table, budget) = black_box((table, table.budget));
    with_buffers(|turns, rooms| _ = black_box(reference::rooms(table, budget, turns, rooms)));
}

fn with_buffers(call: impl FnOnce(&mut [u64], &mut [u64])) {
    let (mut one, mut other) = ([0; JOBS], [0; JOBS]);
    call(&mut one, &mut other);
    black_box((&one, &other));
}

// ---- The families ----------------------------------------------------------------------------------------------------

/// A table of a family. At top speed, 1000 MHz, a million cycles take a millisecond.
fn family(name: &str, jobs: usize) -> Table {
    let mut table = Table { budget: MOST_BUDGET, speed_count: 7, job_count: jobs, ..Table::EMPTY };
    for (place, (mhz, cost)) in table.speeds.iter_mut().zip(SUPPLIED_SPEEDS.into_iter().zip(reference::COSTS[2])) {
        *place = Speed { mhz, cost };
    }
    for place in 0..jobs {
        let number = 100 + place as u64;
        let mixed = place as u64 * 37 % 64;
        table.jobs[place] =
            Job { number, cycles: 10, worth: 1 + mixed, critical: mixed, termination: LAST_TIME, request: 0 };
    }
    if name.starts_with("long chains") {
        make_chains(&mut table);
    }
    if name.ends_with("overloaded") {
        // A tenth of all cycles fits, but always two jobs.
        let fits = jobs as u64;
        table.jobs[..jobs].iter_mut().for_each(|job| job.termination = fits.max(20));
    }
    table.jobs[..jobs].iter_mut().for_each(|job| job.critical = job.critical.min(job.termination));
    table
}

/// The first 33 jobs are a chain, each waiting for the next, and the others wait for its second: the longest chains
/// that 32 resources allow. The far end has its turn first and the latest critical time, so that each later turn walks
/// its chain and moves all members that are planned.
fn make_chains(table: &mut Table) {
    let chain = table.job_count.min(HOLDS + 1);
    for place in 0..table.job_count {
        let on_chain = place < chain;
        let job = &mut table.jobs[place];
        (job.worth, job.critical) = if on_chain { (1 + place as u64, 1 + place as u64) } else { (1, 1) };
        job.request = match place {
            _ if !on_chain => 1,
            _ if place + 1 < chain => place as u64 + 1,
            _ => 0,
        };
    }
    table.hold_count = chain - 1;
    for place in 1..chain {
        table.holds[place - 1] = Hold { resource: place as u64, holder: table.jobs[place].number };
    }
}

/// How many jobs of a family's tables are planned, on average.
fn planned(name: &str, jobs: usize) -> usize {
    let tables = tables(name, jobs);
    let of = |table: &Table| {
        reference::plan(table, table.budget, &mut [0; JOBS], &mut [0; JOBS]).expect("a good table").count
    };
    tables.iter().map(of).sum::<usize>() / tables.len()
}

// ---- What is measured and printed ------------------------------------------------------------------------------------

/// What a call costs in the library and in the reference.
type Costs = (f64, f64);

/// A table with a row for each family, call and size; growth is against half the jobs.
fn print_rows(unit: &str, measure: impl Fn(usize, &str, usize) -> Costs) {
    println!("| family | jobs | planned | call | library, {unit} | growth | reference, {unit} | growth | ratio |");
    println!("|---|--:|--:|---|--:|--:|--:|--:|--:|");
    for (family, name) in FAMILIES.iter().enumerate() {
        for call in CALLS {
            let mut before: Option<Costs> = None;
            for jobs in SIZES {
                let (library, reference) = measure(family, call, jobs);
                let growth = |now: f64, then: Option<f64>| then.map_or("".into(), |then| format!("{:.2}", now / then));
                println!(
                    "| {name} | {jobs} | {} | {call} | {library:.0} | {} | {reference:.0} | {} | {:.2} |",
                    planned(name, jobs),
                    growth(library, before.map(|costs| costs.0)),
                    growth(reference, before.map(|costs| costs.1)),
                    library / reference
                );
                before = Some((library, reference));
            }
        }
    }
}

/// Library and reference in turns, each the least of seven measures of as many calls as take some milliseconds.
fn nanoseconds(family: usize, call: &str, jobs: usize) -> Costs {
    let inputs = inputs(FAMILIES[family], jobs);
    let (library, reference) = (call_of("library", call), call_of("reference", call));
    let timed = |one: Call, times: u32| {
        let start = Instant::now();
        (0..times).for_each(|_| inputs.iter().for_each(one));
        start.elapsed()
    };
    let mut times = 1;
    while timed(library, times) < Duration::from_millis(20) {
        times *= 2;
    }
    let (mut least, mut other_least) = (Duration::MAX, Duration::MAX);
    for _ in 0..7 {
        least = least.min(timed(library, times));
        other_least = other_least.min(timed(reference, times));
    }
    let calls = f64::from(times) * inputs.len() as f64;
    (least.as_nanos() as f64 / calls, other_least.as_nanos() as f64 / calls)
}

fn instructions(family: usize, call: &str, jobs: usize) -> Costs {
    let tables = inputs(FAMILIES[family], jobs).len() as f64;
    let of = |who| (counted(who, call, 2, family, jobs) - counted(who, call, 1, family, jobs)) / tables;
    (of("library"), of("reference"))
}

/// The instructions of a whole run of this program with so many calls.
fn counted(who: &str, call: &str, times: u64, family: usize, jobs: usize) -> f64 {
    let output = Command::new("valgrind")
        .args(["--tool=callgrind", "--callgrind-out-file=/dev/null"])
        .arg(std::env::current_exe().expect("this program"))
        .args([who, call, &times.to_string(), &family.to_string(), &jobs.to_string()])
        .output()
        .expect("valgrind starts");
    let report = String::from_utf8_lossy(&output.stderr);
    let collected = report.lines().find_map(|line| line.split_once("Collected : "));
    collected.and_then(|(_, count)| count.trim().parse().ok()).unwrap_or_else(|| panic!("no count in: {report}"))
}
