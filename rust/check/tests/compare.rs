//! The library against the reference: on generated cases, on buffers of every length around what is needed, on the ends
//! of the ranges; against the naive one on generated cases; and against itself: the rooms against the plan's own entries,
//! and where a change of the table must not change the plan.

use cuddlelamb_check::change::changes;
use cuddlelamb_check::compare::{by_naive, by_reference, cases, requests_of, Expected};
use cuddlelamb_check::generate::{self, Random};
use cuddlelamb_check::library::{Answer, Request};
use cuddlelamb_check::reference::{self, Table, JOBS, LONGEST_LISTING, MOST_BUDGET};
use cuddlelamb_check::{naive, Library};

/// Every generated case is made from this and an index.
const SEED: u64 = 20_250_102;

/// Compares requests and fails with the first difference.
fn assert_same(requests: &[Request]) {
    if let Err((at, difference)) = requests_of(&mut Library::open(), by_reference, requests) {
        panic!("request {at}: {difference}");
    }
}

/// Compares so many generated cases, among which every refusal is.
fn assert_same_cases(expected: Expected, seed: u64, count: u64) {
    println!("seed {seed}");
    let tally =
        cases(&mut Library::open(), expected, seed, 0, count).unwrap_or_else(|difference| panic!("{difference}"));
    println!("{} cases, {} calls, answers by number: {:?}", tally.cases, tally.calls, tally.numbers);
    assert!(tally.numbers.iter().all(|count| *count > 100), "{tally:?}");
}

#[test]
fn generated_cases() {
    assert_same_cases(by_reference, SEED, 5_000);
}

/// Other cases than those of the reference, so that the two together reach further.
#[test]
fn generated_cases_against_the_naive() {
    assert_same_cases(by_naive, SEED + 1, 5_000);
}

/// The text of the sheet's case S.
const CASE_S: &[u8] = b"T\t0\t2500000000\nF\t500\t700000\nF\t1000\t1000000\nJ\t1\t1000\t50\t3000\t3000\t0\n\
    J\t2\t1000\t90\t2000\t2000\t1\nJ\t3\t500\t10\t5000\t5000\t0\nJ\t4\t2000\t40\t4000\t4000\t0\n\
    J\t5\t3000\t1\t2500\t2500\t0\nH\t1\t3\n";

fn table_s() -> Table {
    reference::read(CASE_S).expect("a good text")
}

/// Listings and texts into buffers of every length up to some more than they need.
#[test]
fn room_for_listings_and_texts() {
    let mut requests = Vec::new();
    for (text, table) in [(CASE_S.to_vec(), table_s()), (b"X".to_vec(), Table::EMPTY)] {
        for length in 0..=CASE_S.len() + 9 {
            requests.push(Request::List { text: text.clone(), out: vec![9; length] });
            for budget in [2_499_999_999, MOST_BUDGET + 1] {
                requests.push(Request::ListWithBudget { text: text.clone(), budget, out: vec![9; length] });
            }
            requests.push(Request::Write { table: Box::new(table), out: vec![9; length] });
        }
    }
    println!("seed {SEED}");
    for index in 0..20 {
        let table = generate::table(SEED, index);
        let text = generate::text_of(&table);
        let listing = reference::list(&text, &mut [0; LONGEST_LISTING]).expect("room for the longest listing");
        for more in 0..10 {
            requests.push(Request::List { text: text.clone(), out: vec![9; (listing + more).saturating_sub(5)] });
            let out = vec![9; (text.len() + more).saturating_sub(5)];
            requests.push(Request::Write { table: Box::new(table), out });
        }
    }
    assert_same(&requests);
}

/// A plan into buffers of so many places.
fn planning(table: &Table, budget: u64, order: usize, fates: usize) -> Request {
    Request::Plan { table: Box::new(*table), budget, order: vec![7; order], fates: vec![8; fates] }
}

/// The rooms into buffers of so many places.
fn rooms(table: &Table, budget: u64, turns: usize, rooms: usize) -> Request {
    Request::Rooms { table: Box::new(*table), budget, turns: vec![7; turns], rooms: vec![8; rooms] }
}

/// Plans and rooms into buffers of every length up to 130 places, of a good table with and without jobs and of a bad
/// table, with a good and with a bad budget.
#[test]
fn room_for_plans_and_rooms() {
    let mut requests = Vec::new();
    let no_jobs = Table { job_count: 0, hold_count: 0, ..table_s() };
    for length in 0..=130 {
        for (one, other) in [(length, 64), (64, length), (length, length)] {
            for table in [table_s(), no_jobs, Table::EMPTY, Table { budget: MOST_BUDGET + 1, ..table_s() }] {
                for budget in [0, MOST_BUDGET, MOST_BUDGET + 1] {
                    requests.push(planning(&table, budget, one, other));
                    requests.push(rooms(&table, budget, one, other));
                }
            }
        }
    }
    assert_same(&requests);
}

/// A knob that is turned from nothing past what all jobs of a table take, in steps and at the ends of the range.
#[test]
fn one_table_and_many_budgets() {
    println!("seed {SEED}");
    let mut requests = Vec::new();
    for table in (0..50).map(|index| generate::table(SEED, index)).chain([table_s(), Table::EMPTY]) {
        let top = table.speeds[table.speed_count.saturating_sub(1)].cost;
        let all: u64 = table.jobs.iter().map(|job| job.cycles).sum();
        let steps = (0..=100).map(|step| all * top * step / 90);
        let ends = [1, MOST_BUDGET - 1, MOST_BUDGET, MOST_BUDGET + 1, 1 << 63, u64::MAX];
        for budget in steps.chain(ends) {
            requests.push(planning(&table, budget, JOBS, JOBS));
            requests.push(rooms(&table, budget, JOBS, JOBS));
        }
    }
    assert_same(&requests);
}

/// The longest text, every front part of it, and texts far longer than any valid one.
#[test]
fn long_texts() {
    let longest = generate::longest_text();
    let mut requests: Vec<Request> =
        (0..=longest.len()).map(|length| Request::Read { text: longest[..length].to_vec() }).collect();
    let far = [b"0123456789".repeat(20_000), b"\t".repeat(100_000), b"T\t0\t0\n".repeat(20_000), vec![0; 100_000]];
    for tail in far {
        let text = [&longest[..], &tail].concat();
        requests.push(Request::Read { text: tail });
        requests.push(Request::ListWithBudget { text: text.clone(), budget: 0, out: vec![9; LONGEST_LISTING] });
        requests.push(Request::List { text, out: vec![9; LONGEST_LISTING] });
    }
    assert_same(&requests);
}

#[test]
fn allocations_and_costs() {
    let means = [0, 1, 2, 100, 999_999, 1_000_000, 1_000_001, u64::MAX];
    let variances = [0, 1, 2, 100, 101, 999_999_999_999, 1_000_000_000_000, 1_000_000_000_001, 1 << 62, u64::MAX];
    let assurances = [0, 1, 500, 900, 998, 999, 1000, 1001, 1 << 32, u64::MAX];
    let mut requests: Vec<Request> =
        (0..10).chain([1 << 32, (1 << 32) + 1, u64::MAX]).map(|model| Request::Costs { model }).collect();
    for mean in means {
        for variance in variances {
            requests.extend(assurances.map(|assurance| Request::Allocate { mean, variance, assurance }));
        }
    }
    assert_same(&requests);
}

/// The library's plans of tables with budgets beside them, which must be good.
fn planned(library: &mut Library, tables: &[(Table, u64)]) -> Vec<naive::Answer> {
    let requests: Vec<Request> = tables.iter().map(|(table, budget)| planning(table, *budget, JOBS, JOBS)).collect();
    let plan = |(answer, (table, budget)): (Answer, &(Table, u64))| match answer {
        Answer::Plan { told, order, fates } if told.number == 0 => naive::Answer {
            plan: told.value,
            order: order[..told.value.count].to_vec(),
            fates: fates[..table.job_count].to_vec(),
        },
        other => panic!("{other:?} with budget {budget} for\n{}", String::from_utf8_lossy(&generate::text_of(table))),
    };
    library.answers(&requests).into_iter().zip(tables).map(plan).collect()
}

/// The library's rooms of tables with budgets beside them, which must be good.
fn rooms_told(library: &mut Library, tables: &[(Table, u64)]) -> Vec<naive::RoomsAnswer> {
    let requests: Vec<Request> = tables.iter().map(|(table, budget)| rooms(table, *budget, JOBS, JOBS)).collect();
    let rooms = |(answer, (table, budget)): (Answer, &(Table, u64))| match answer {
        Answer::Rooms { told, turns, rooms } if told.number == 0 => naive::RoomsAnswer {
            turns: turns[..told.value.turns].to_vec(),
            rooms: rooms[..told.value.turns].to_vec(),
            room: told.value.room,
        },
        other => panic!("{other:?} with budget {budget} for\n{}", String::from_utf8_lossy(&generate::text_of(table))),
    };
    library.answers(&requests).into_iter().zip(tables).map(rooms).collect()
}

/// The room after the last turn and at the end is what all entries of the plan leave, by the library's other call.
#[test]
fn rooms_are_of_the_plan() {
    println!("seed {SEED}");
    let library = &mut Library::open();
    for index in 0..5_000 {
        let table = generate::table(SEED, index);
        let budget = generate::budget_beside(&mut Random::new(SEED, !index), &table).min(MOST_BUDGET);
        let plan = planned(library, &[(table, budget)]).remove(0);
        let rooms = rooms_told(library, &[(table, budget)]).remove(0);
        let in_plan = |number: u64| plan.order.contains(&number);
        let jobs = table.jobs[..table.job_count].iter().filter(|job| in_plan(job.number));
        let left = budget - jobs.map(|job| job.cycles).sum::<u64>() * table.speeds[table.speed_count - 1].cost;
        let last = rooms.rooms.last().copied().unwrap_or(budget);
        let text = generate::text_of(&table);
        let shown = || format!("seed {SEED}, index {index}, budget {budget}:\n{}", String::from_utf8_lossy(&text));
        assert_eq!((rooms.room, last), (left, left), "{}", shown());
        assert_eq!(rooms.turns.len(), plan.fates.iter().filter(|fate| ![2, 3].contains(*fate)).count(), "{}", shown());
    }
}

/// Nor do they change the rooms.
#[test]
fn changes_that_leave_the_plan() {
    println!("seed {SEED}");
    let library = &mut Library::open();
    for index in 0..2_000 {
        let random = &mut Random::new(SEED, !index);
        let table = generate::table(SEED, index);
        let budget = generate::budget_beside(random, &table).min(MOST_BUDGET);
        let changes = changes(random, &table, budget);
        let changed = changes.iter().map(|change| (change.table, change.budget));
        let tables: Vec<(Table, u64)> = std::iter::once((table, budget)).chain(changed).collect();
        let (plans, rooms) = (planned(library, &tables), rooms_told(library, &tables));
        for (change, (plan, left)) in changes.iter().zip(plans[1..].iter().zip(&rooms[1..])) {
            assert!(
                change.leaves(&table, &plans[0], plan) && change.leaves_rooms(&table, &rooms[0], left),
                "{}, seed {SEED}, index {index}, budget {budget}:\n{}changed, budget {}:\n{}",
                change.what,
                String::from_utf8_lossy(&generate::text_of(&table)),
                change.budget,
                String::from_utf8_lossy(&generate::text_of(&change.table))
            );
        }
    }
}
