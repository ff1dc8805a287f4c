//! The wrapper by itself: each call on the sheet's examples, what a refusal leaves alone, names and words, and the
//! header that it leans on. Whether the answers are the document's is the matter of cuddlelamb-check.

use std::error::Error;
use std::mem::size_of;

use cuddlelamb::calls::Told;
use cuddlelamb::{
    allocate, costs, list, list_with_budget, plan, read, rooms, write, Fate, Hold, Job, Plan, Refusal, Refused, Rooms,
    Speed, Table, Unnamed, COSTS, HOLDS, JOBS, LISTING, SPEEDS, SUPPLIED_SPEEDS, TEXT, VERSION,
};

/// The text of the sheet's case S.
const CASE_S: &[u8] = b"T\t0\t2500000000\nF\t500\t700000\nF\t1000\t1000000\nJ\t1\t1000\t50\t3000\t3000\t0\n\
    J\t2\t1000\t90\t2000\t2000\t1\nJ\t3\t500\t10\t5000\t5000\t0\nJ\t4\t2000\t40\t4000\t4000\t0\n\
    J\t5\t3000\t1\t2500\t2500\t0\nH\t1\t3\n";

const HEADER: &str = include_str!("../../../include/cuddlelamb.h");
const CHANGES: &str = include_str!("../../../CHANGELOG.md");

/// The greatest budget.
const MOST_BUDGET: u64 = 1_000_000_000_000_000;

fn refused<Value>(refusal: Refusal, line: u64) -> Result<Value, Refused> {
    Err(Refused { number: refusal.number(), line })
}

fn table_s() -> Table {
    read(CASE_S).expect("a good text")
}

// ---- The calls -------------------------------------------------------------------------------------------------------

/// One table, planned with its own budget, with a unit less, and with its own again.
#[test]
fn plans_and_their_fates() {
    let table = table_s();
    let most = [Fate::Planned, Fate::Planned, Fate::Planned, Fate::OutOfTime, Fate::LateAlone];
    let less = [Fate::OutOfBudget, Fate::Planned, Fate::Planned, Fate::OutOfBudget, Fate::LateAlone];
    let cases = [
        (2_500_000_000, 2_500_000_000, &[3, 2, 1][..], most),
        (2_499_999_999, 1_500_000_000, &[3, 2], less),
        (table.budget, 2_500_000_000, &[3, 2, 1], most),
    ];
    for (budget, energy, expected, fates_expected) in cases {
        let (mut order, mut fates) = ([77; JOBS + 3], [77; JOBS]);
        let plan = plan(&table, budget, &mut order, &mut fates);
        assert_eq!(plan, Ok(Plan { count: expected.len(), speed: 1000, energy }));
        assert_eq!(order[..expected.len()], *expected);
        let named = [0, 1, 2, 3, 4].map(|place| Fate::try_from(fates[place]).expect("a fate"));
        assert_eq!(named, fates_expected);
        assert!(order[expected.len()..].iter().chain(&fates[5..]).all(|place| *place == 0));
    }
    assert_eq!(Ok(table), read(CASE_S));
}

/// The places beyond the counts may hold anything.
#[test]
fn a_plan_of_a_table_put_together_by_hand() {
    let mut table = table_s();
    table.speeds[table.speed_count..].fill(Speed { mhz: u64::MAX, cost: 0 });
    table.jobs[table.job_count..].fill(Job { number: 3, cycles: u64::MAX, ..Job::default() });
    table.holds[table.hold_count..].fill(Hold { resource: 1, holder: 9 });
    let (mut order, mut fates) = ([77; JOBS], [77; JOBS]);
    let energy = 2_500_000_000;
    assert_eq!(plan(&table, energy, &mut order, &mut fates), Ok(Plan { count: 3, speed: 1000, energy }));
    assert_eq!((&order[..4], &fates[..6]), (&[3, 2, 1, 0][..], &[1, 1, 1, 5, 2, 0][..]));
}

/// Job 2 brings job 3 in, which is then passed over; job 4 is dropped, and with a unit less job 1 is too; job 5 is late.
#[test]
fn rooms_after_each_turn() {
    let table = table_s();
    let cases = [
        (2_500_000_000, [1_000_000_000, 0, 0, 0]),
        (2_499_999_999, [999_999_999; 4]),
        (0, [0; 4]),
        (MOST_BUDGET, [1_500_000_000, 2_500_000_000, 2_500_000_000, 2_500_000_000].map(|taken| MOST_BUDGET - taken)),
    ];
    for (budget, expected) in cases {
        let (mut turns, mut left) = ([77; JOBS + 3], [77; JOBS]);
        let told = rooms(&table, budget, &mut turns, &mut left);
        assert_eq!(told, Ok(Rooms { turns: 4, room: expected[3] }));
        assert_eq!((&turns[..4], &left[..4]), (&[2, 1, 3, 4][..], &expected[..]));
        assert!(turns[4..].iter().chain(&left[4..]).all(|place| *place == 0));
    }
    assert_eq!(Ok(table), read(CASE_S));
}

/// No jobs, or none but late ones.
#[test]
fn rooms_without_a_turn() {
    let no_jobs = Table { job_count: 0, hold_count: 0, ..table_s() };
    for table in [no_jobs, Table { clock: 4000, job_count: 2, ..no_jobs }] {
        let (mut turns, mut left) = ([77; JOBS], [77; JOBS + 1]);
        assert_eq!(rooms(&table, 7, &mut turns, &mut left), Ok(Rooms { turns: 0, room: 7 }));
        assert_eq!((turns, left), ([0; JOBS], [0; JOBS + 1]));
    }
}

#[test]
fn a_listing() {
    let mut out = [9; LISTING];
    let expected = b"P\t1000\t2500000000\t3\nO\t3\t500\nO\t2\t1500\nO\t1\t2500\nX\t4\t5\nX\t5\t2\n";
    assert_eq!(list(CASE_S, &mut out), Ok(expected.len()));
    assert_eq!(out[..expected.len()], expected[..]);
    assert!(out[expected.len()..].iter().all(|byte| *byte == 9));
    assert_eq!(list(b"", &mut out), Ok(6));
    assert_eq!(&out[..6], b"R\t3\t1\n");
}

/// The refusal of the text comes before that of the budget, and each is a listing.
#[test]
fn listings_with_a_budget() {
    let less = &b"P\t1000\t1500000000\t2\nO\t3\t500\nO\t2\t1500\nX\t1\t6\nX\t4\t6\nX\t5\t2\n"[..];
    let cases = [
        (CASE_S, 2_499_999_999, less),
        (CASE_S, MOST_BUDGET + 1, b"R\t2\t1\n"),
        (CASE_S, u64::MAX, b"R\t2\t1\n"),
        (b"", MOST_BUDGET + 1, b"R\t3\t1\n"),
        (b"", 0, b"R\t3\t1\n"),
    ];
    for (text, budget, expected) in cases {
        let mut out = [9; LISTING];
        assert_eq!(list_with_budget(text, budget, &mut out), Ok(expected.len()));
        assert_eq!(out[..expected.len()], *expected);
        assert!(out[expected.len()..].iter().all(|byte| *byte == 9));
        let mut short = vec![9; expected.len() - 1];
        assert_eq!(list_with_budget(text, budget, &mut short), refused(Refusal::NoRoom, 0));
        assert!(short.iter().all(|byte| *byte == 9));
    }
}

#[test]
fn a_table_there_and_back() {
    let table = table_s();
    assert_eq!((table.clock, table.budget), (0, 2_500_000_000));
    assert_eq!(
        table.speeds[..table.speed_count],
        [Speed { mhz: 500, cost: 700_000 }, Speed { mhz: 1000, cost: 1_000_000 }]
    );
    let second = Job { number: 2, cycles: 1000, worth: 90, critical: 2000, termination: 2000, request: 1 };
    assert_eq!((table.job_count, table.jobs[1]), (5, second));
    assert_eq!(table.holds[..table.hold_count], [Hold { resource: 1, holder: 3 }]);
    assert!(table.jobs[5..].iter().all(|job| *job == Job::default()));
    let mut out = [9; TEXT];
    assert_eq!(write(&table, &mut out), Ok(CASE_S.len()));
    assert_eq!(out[..CASE_S.len()], *CASE_S);
    assert!(out[CASE_S.len()..].iter().all(|byte| *byte == 9));
}

#[test]
fn allocations_and_costs() {
    assert_eq!(allocate(100, 100, 900), Ok(130));
    assert_eq!(allocate(100, 101, 900), Ok(131));
    assert_eq!(costs(1), Ok(SUPPLIED_SPEEDS.map(|mhz| mhz * mhz)));
}

/// Each refusal of a text.
#[test]
fn refusals_of_texts() {
    for (text, refusal, line) in [
        (&b"T\t007\t0\n"[..], Refusal::NoShape, 1),
        (b"T\t0\t0\nF\t4001\t1\n", Refusal::OutOfRange, 2),
        (b"T\t0\t0\n", Refusal::OutOfPlace, 2),
        (b"T\t0\t0\nF\t1\t1\nJ\t1\t1\t1\t2\t1\t0\n", Refusal::CriticalAfterTermination, 3),
        (b"T\t0\t0\nF\t1\t1\nJ\t1\t1\t1\t1\t1\t0\nH\t1\t2\n", Refusal::UnknownJob, 4),
        (b"T\t0\t0\nF\t1\t1\nJ\t1\t1\t1\t1\t1\t1\nH\t1\t1\n", Refusal::RequestsOwn, 4),
    ] {
        assert_eq!(read(text), refused(refusal, line));
    }
}

/// Plans and writes a table that is refused, and asks its rooms; the lent buffers must be as they were.
fn assert_refused(table: &Table, refusal: Refusal, line: u64) {
    let (mut order, mut fates, mut out) = ([7; JOBS], [8; JOBS], [9; TEXT]);
    assert_eq!(plan(table, 0, &mut order, &mut fates), refused(refusal, line));
    assert_eq!(rooms(table, 0, &mut order, &mut fates), refused(refusal, line));
    assert_eq!(write(table, &mut out), refused(refusal, line));
    assert_eq!((order, fates, out), ([7; JOBS], [8; JOBS], [9; TEXT]));
}

/// Each refusal of a table, by the calls that plan and by the writer.
#[test]
fn refusals_of_tables() {
    let table = table_s();
    let job = |change: fn(&mut Job)| {
        let mut table = table_s();
        change(&mut table.jobs[0]);
        table
    };
    let hold = |resource, holder| {
        let mut table = table_s();
        table.holds[0] = Hold { resource, holder };
        table
    };
    let numbered = std::array::from_fn(|place| Job { number: place as u64 + 1, ..table.jobs[0] });
    for (table, refusal, line) in [
        (Table { budget: MOST_BUDGET + 1, ..table }, Refusal::OutOfRange, 1),
        (job(|job| job.cycles = 0), Refusal::OutOfRange, 4),
        (Table::default(), Refusal::OutOfPlace, 2),
        (Table { job_count: usize::MAX, jobs: numbered, ..table }, Refusal::TooMany, 4 + JOBS as u64),
        (job(|job| job.critical = 3001), Refusal::CriticalAfterTermination, 4),
        (hold(1, 6), Refusal::UnknownJob, 9),
        (hold(1, 2), Refusal::RequestsOwn, 9),
    ] {
        assert_refused(&table, refusal, line);
    }
}

/// The lent buffers come first, then the budget beside the table, then the table; for the rooms too.
#[test]
fn the_order_of_a_plans_refusals() {
    for table in [table_s(), Table::default()] {
        for (one, other) in [(JOBS - 1, JOBS), (JOBS, JOBS - 1), (0, 0)] {
            let (mut one, mut other) = (vec![7; one], vec![8; other]);
            assert_eq!(plan(&table, MOST_BUDGET + 1, &mut one, &mut other), refused(Refusal::NoRoom, 0));
            assert_eq!(rooms(&table, MOST_BUDGET + 1, &mut one, &mut other), refused(Refusal::NoRoom, 0));
            assert!(one.iter().all(|place| *place == 7) && other.iter().all(|place| *place == 8));
        }
        for budget in [MOST_BUDGET + 1, u64::MAX] {
            let (mut one, mut other) = ([7; JOBS], [8; JOBS]);
            assert_eq!(plan(&table, budget, &mut one, &mut other), refused(Refusal::OutOfRange, 1));
            assert_eq!(rooms(&table, budget, &mut one, &mut other), refused(Refusal::OutOfRange, 1));
            assert_eq!((one, other), ([7; JOBS], [8; JOBS]));
        }
    }
    assert!(plan(&table_s(), MOST_BUDGET, &mut [0; JOBS], &mut [0; JOBS]).is_ok());
    assert!(rooms(&table_s(), MOST_BUDGET, &mut [0; JOBS], &mut [0; JOBS]).is_ok());
}

#[test]
fn other_refusals() {
    assert_eq!(list(CASE_S, &mut []), refused(Refusal::NoRoom, 0));
    assert_eq!(write(&table_s(), &mut []), refused(Refusal::NoRoom, 0));
    assert_eq!(costs(4), refused(Refusal::UnknownModel, 0));
    assert_eq!(allocate(0, 0, 0), refused(Refusal::OutOfRange, 0));
    assert_eq!(allocate(1_000_000, 1, 500), refused(Refusal::TooMuchAllocated, 0));
}

/// Many threads at once, each with buffers of its own.
#[test]
fn threads() {
    std::thread::scope(|scope| {
        for _ in 0..8 {
            scope.spawn(|| (0..200).for_each(|_| plans_and_their_fates()));
            scope.spawn(|| (0..200).for_each(|_| rooms_after_each_turn()));
        }
    });
}

// ---- Names and words -------------------------------------------------------------------------------------------------

#[test]
fn numbers_and_names() {
    assert!(Fate::ALL.iter().map(|fate| u64::from(*fate)).eq(1..=6));
    assert!(Refusal::ALL.iter().map(|refusal| u64::from(*refusal)).eq(1..=10));
    assert!(Fate::ALL.iter().all(|fate| Fate::try_from(fate.number()) == Ok(*fate)));
    assert!(Refusal::ALL.iter().all(|refusal| Refusal::try_from(refusal.number()) == Ok(*refusal)));
    for number in [0, 7, 1 << 32 | 1, u64::MAX] {
        assert_eq!(Fate::try_from(number), Err(Unnamed(number)));
    }
    for number in [0, 11, 1 << 32 | 1, u64::MAX] {
        assert_eq!(Refusal::try_from(number), Err(Unnamed(number)));
        assert_eq!(Refused { number, line: 0 }.refusal(), None);
    }
}

#[test]
fn what_an_error_says() {
    let error: Box<dyn Error> = Box::new(read(b"").unwrap_err());
    let words = "the line may not stand here or its first number does not rise; \
        or the text ends before an F has been read";
    assert_eq!(error.to_string(), format!("refused 3, line 1: {words}"));
    assert_eq!(costs(4).unwrap_err().to_string(), "refused 9: a cost model other than 1, 2, 3");
    assert_eq!(Refused { number: 11, line: 0 }.to_string(), "refused 11");
    assert_eq!(Unnamed(11).to_string(), "11 has no name here");
}

// ---- The header ------------------------------------------------------------------------------------------------------

/// The header with every run of blanks and comment stars made one blank.
fn header() -> String {
    HEADER
        .split(|letter: char| letter.is_whitespace() || letter == '*')
        .filter(|word| !word.is_empty())
        .collect::<Vec<_>>()
        .join(" ")
}

#[test]
fn the_headers_sizes() {
    let sizes = [
        ("speed", size_of::<Speed>()),
        ("job", size_of::<Job>()),
        ("hold", size_of::<Hold>()),
        ("table", size_of::<Table>()),
        ("plan_answer", size_of::<Told<Plan>>()),
        ("rooms_answer", size_of::<Told<Rooms>>()),
        ("text_answer", size_of::<Told<usize>>()),
        ("table_answer", size_of::<Told<Table>>()),
        ("cycles_answer", size_of::<Told<u64>>()),
        ("costs_answer", size_of::<Told<[u64; COSTS]>>()),
    ];
    for (name, size) in sizes {
        let line = format!("CUDDLELAMB_SIZE(cuddlelamb_{name}, {size});");
        assert!(HEADER.contains(&line), "the header does not say {line}");
    }
    assert_eq!(HEADER.matches("CUDDLELAMB_SIZE(cuddlelamb_").count(), sizes.len());
}

#[test]
fn the_headers_calls() {
    let calls: Vec<&str> =
        HEADER.split("_answer cuddlelamb_").skip(1).filter_map(|rest| rest.split('(').next()).collect();
    assert_eq!(calls, ["read", "plan", "rooms", "list", "list_with_budget", "write", "allocate", "costs"]);
}

/// The name of a constant in the header, from that of an enum's value: NoShape is NO_SHAPE there.
fn constant(value: &impl std::fmt::Debug) -> String {
    let mut name = String::new();
    for letter in format!("{value:?}").chars() {
        if letter.is_uppercase() && !name.is_empty() {
            name.push('_');
        }
        name.extend(letter.to_uppercase());
    }
    name
}

#[test]
fn the_headers_constants() {
    let sizes =
        [("SPEEDS", SPEEDS), ("JOBS", JOBS), ("HOLDS", HOLDS), ("COSTS", COSTS), ("TEXT", TEXT), ("LISTING", LISTING)];
    let sizes = sizes.map(|(name, size)| (name.to_string(), size));
    let fates = Fate::ALL.iter().map(|fate| (constant(fate), fate.number() as usize));
    let refusals =
        Refusal::ALL.iter().map(|refusal| (format!("REFUSED_{}", constant(refusal)), refusal.number() as usize));
    for (name, value) in sizes.into_iter().chain(fates).chain(refusals) {
        let said = HEADER.split(&format!("CUDDLELAMB_{name} = ")).nth(1).expect(&name);
        let digits: String = said.chars().take_while(char::is_ascii_digit).collect();
        assert_eq!(digits, value.to_string(), "{name}");
    }
    assert_eq!(HEADER.matches("CUDDLELAMB_REFUSED_").count(), Refusal::ALL.len());
}

/// The words of fates and refusals are the header's, beside their constants; a fate's `planned` needs none there.
#[test]
fn the_headers_words() {
    let header = header();
    let fates = Fate::ALL[1..].iter().map(|fate| (constant(fate), fate.words()));
    for (name, words) in fates.chain(Refusal::ALL.iter().map(|refusal| (constant(refusal), refusal.words()))) {
        let beside = header.split(&format!("_{name} = ")).nth(1).expect(&name);
        let said = beside.trim_start_matches(|letter: char| letter.is_ascii_digit() || ", /".contains(letter));
        assert!(said.starts_with(words), "the header does not say of {name}: {words}");
    }
}

#[test]
fn the_headers_version() {
    let (major, minor) = VERSION.split_once('.').expect("two numbers");
    for line in [format!("_MAJOR {major}\n"), format!("_MINOR {minor}\n"), format!(" \"{VERSION}\"\n")] {
        assert!(HEADER.contains(&format!("#define CUDDLELAMB_VERSION{line}")), "the header does not say {line}");
    }
    assert!(CHANGES.starts_with(&format!("# Version {VERSION}\n")));
}
