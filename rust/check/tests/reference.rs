//! The reference against the sheet of examples, against each cause of each refusal, against the naive implementation on
//! generated cases, against document 01's one call from a text to a plan, and against itself where a change of the table
//! must not change the plan.

use cuddlelamb_check::change::changes;
use cuddlelamb_check::compare::{case, cases_of_reference};
use cuddlelamb_check::generate::{self, Random};
use cuddlelamb_check::library::Request;
use cuddlelamb_check::naive;
use cuddlelamb_check::reference::{
    allocate, costs, list, list_with_budget, plan, read, rooms, write, Hold, Plan, Refused, Speed, Table, COSTS, HOLDS,
    JOBS, LAST_TIME, LONGEST_LISTING, LONGEST_TEXT, MOST_BUDGET, MOST_COST, MOST_WORTH, SPEEDS, SUPPLIED_SPEEDS,
};

/// Every generated case is made from this and an index.
const SEED: u64 = 20_250_101;

const CASE_S: &str = "T 0 2500000000 / F 500 700000 / F 1000 1000000 / J 1 1000 50 3000 3000 0 / \
    J 2 1000 90 2000 2000 1 / J 3 500 10 5000 5000 0 / J 4 2000 40 4000 4000 0 / J 5 3000 1 2500 2500 0 / H 1 3";

/// The text of lines that are written with spaces for tabs and parted by " / ".
fn text(lines: &str) -> Vec<u8> {
    format!("{}\n", lines.replace(" / ", "\n").replace(' ', "\t")).into_bytes()
}

/// The plan, order and fates of a text with its own budget.
fn answer(text: &[u8]) -> (Plan, Vec<u64>, Vec<u64>) {
    let table = read(text).expect("a good text");
    answer_with_budget(&table, table.budget)
}

/// The plan, order and fates of a table, with the places after them checked to be 0.
fn answer_with_budget(table: &Table, budget: u64) -> (Plan, Vec<u64>, Vec<u64>) {
    let (mut order, mut fates) = ([77; JOBS + 3], [77; JOBS]);
    let plan = plan(table, budget, &mut order, &mut fates).expect("a good table and budget");
    let jobs = table.job_count;
    assert!(order[plan.count..].iter().chain(&fates[jobs..]).all(|place| *place == 0));
    (plan, order[..plan.count].to_vec(), fates[..jobs].to_vec())
}

fn listing(text: &[u8]) -> Vec<u8> {
    let mut out = [0; LONGEST_LISTING];
    let length = list(text, &mut out).expect("room for the longest listing");
    out[..length].to_vec()
}

fn listing_with_budget(text: &[u8], budget: u64) -> Vec<u8> {
    let mut out = [0; LONGEST_LISTING];
    let length = list_with_budget(text, budget, &mut out).expect("room for the longest listing");
    out[..length].to_vec()
}

/// The F lines of a supplied model.
fn model(number: u64) -> String {
    let costs = costs(number).expect("a supplied model");
    let lines: Vec<String> = SUPPLIED_SPEEDS.iter().zip(costs).map(|(mhz, cost)| format!("F {mhz} {cost}")).collect();
    lines.join(" / ")
}

fn refused(number: u64, line: u64) -> Refused {
    Refused { number, line }
}

/// A case by its seed, its index and its text, as it is printed when it fails.
fn shown(index: u64, table: &Table) -> String {
    format!("seed {SEED}, index {index}:\n{}", String::from_utf8_lossy(&generate::text_of(table)))
}

fn shown_with_budget(index: u64, table: &Table, budget: u64) -> String {
    format!("budget {budget}, {}", shown(index, table))
}

// ---- The sheet of examples -------------------------------------------------------------------------------------------

#[test]
fn case_s() {
    let (plan, order, fates) = answer(&text(CASE_S));
    assert_eq!(plan, Plan { count: 3, speed: 1000, energy: 2_500_000_000 });
    assert_eq!(order, [3, 2, 1]);
    assert_eq!(fates, [1, 1, 1, 5, 2]);
    let expected = b"P\t1000\t2500000000\t3\nO\t3\t500\nO\t2\t1500\nO\t1\t2500\nX\t4\t5\nX\t5\t2\n";
    assert_eq!(listing(&text(CASE_S)), expected);
}

#[test]
fn case_s_with_one_unit_less() {
    let less = text(&CASE_S.replace("2500000000", "2499999999"));
    let table = read(&text(CASE_S)).expect("a good text");
    for (plan, order, fates) in [answer(&less), answer_with_budget(&table, 2_499_999_999)] {
        assert_eq!(order, [3, 2]);
        assert_eq!(fates, [6, 1, 1, 6, 2]);
        assert_eq!(plan, Plan { count: 2, speed: 1000, energy: 1_500_000_000 });
    }
    assert_eq!(listing_with_budget(&text(CASE_S), 2_499_999_999), listing(&less));
}

#[test]
fn one_job_and_its_termination() {
    let cases = [(2000, 500, 1), (1999, 1000, 1), (1000, 1000, 1), (999, 500, 2)];
    for (termination, speed, fate) in cases {
        let lines =
            format!("T 0 1000000000000000 / F 500 700000 / F 1000 1000000 / J 1 1000 1 {termination} {termination} 0");
        let (plan, order, fates) = answer(&text(&lines));
        assert_eq!((plan.speed, fates), (speed, vec![fate]), "termination {termination}");
        assert_eq!(order, if fate == 1 { vec![1] } else { vec![] });
        let cost = if speed == 500 { 700_000 } else { 1_000_000 };
        assert_eq!(plan.energy, if fate == 1 { 1000 * cost } else { 0 });
    }
}

#[test]
fn the_budget_is_reckoned_at_top_speed() {
    let (plan, _, fates) = answer(&text("T 0 800000000 / F 500 700000 / F 1000 1000000 / J 1 1000 1 2000 2000 0"));
    assert_eq!(fates, [6]);
    assert_eq!(plan, Plan { count: 0, speed: 500, energy: 0 });
}

#[test]
fn the_cheapest_speed_need_not_be_the_lowest() {
    let lines = format!("T 0 1200000000 / {} / J 1 1000 1 3000 3000 0", model(3));
    let (plan, order, _) = answer(&text(&lines));
    assert_eq!(order, [1]);
    assert_eq!(plan, Plan { count: 1, speed: 820, energy: 945_957_000 });
}

#[test]
fn a_ring_of_two_and_a_worth_of_nothing() {
    let front = "T 0 2500000000 / F 500 700000 / F 1000 1000000";
    let (_, order, fates) =
        answer(&text(&format!("{front} / J 1 100 10 5000 5000 2 / J 2 100 10 5000 5000 1 / H 1 1 / H 2 2")));
    assert_eq!((order, fates), (vec![1], vec![1, 3]));
    let (plan, order, fates) = answer(&text(&format!("{front} / J 1 100 0 5000 5000 0")));
    assert_eq!((order, fates), (vec![], vec![4]));
    assert_eq!(plan, Plan { count: 0, speed: 500, energy: 0 });
}

#[test]
fn the_texts_of_the_sheet() {
    assert_eq!(read(b""), Err(refused(3, 1)));
    assert_eq!(read(b"T\t0\t0\n"), Err(refused(3, 2)));
    assert_eq!(read(b"T\t007\t0\n"), Err(refused(1, 1)));
    assert_eq!(listing(b""), b"R\t3\t1\n");
    assert_eq!(listing(b"T\t0\t0\n"), b"R\t3\t2\n");
}

#[test]
fn the_allocations_of_the_sheet() {
    assert_eq!(allocate(100, 100, 900), Ok(130));
    assert_eq!(allocate(100, 101, 900), Ok(131));
    assert_eq!(allocate(100, 100, 0), Ok(100));
    assert_eq!(allocate(1_000_000, 1, 500), Err(refused(10, 0)));
}

/// The plans by which two readings of the steps are told apart.
#[test]
fn decided_plans() {
    let lines = "T 0 1000000000000000 / F 1000 1 / J 1 10 0 500 500 1 / J 2 10 5 500 500 0 / H 1 2";
    assert_eq!(answer(&text(lines)).1, [2, 1]);
    let lines = "T 0 1000000000000000 / F 1000 1 / J 1 10 1 900 90000 1 / J 2 10 50 500 90000 2 / \
        J 3 10 40 600 90000 0 / J 4 10 35 500 90000 0 / H 1 2 / H 2 3";
    assert_eq!(answer(&text(lines)).1, [3, 4, 2, 1]);
}

// ---- The choice of a speed -------------------------------------------------------------------------------------------

/// The speed and the energy for one job of 1000 cycles, which the naive one must give too. At 500, 1000 and 2000 MHz
/// the job takes 2000, 1000 and 500 ms.
fn chosen(budget: u64, speeds: &str, termination: u64) -> (u64, u64) {
    let whole = text(&format!("T 0 {budget} / {speeds} / J 1 1000 1 {termination} {termination} 0"));
    let (plan, ..) = answer(&whole);
    assert_eq!(naive::plan(&read(&whole).expect("a good text"), budget).plan, plan);
    (plan.speed, plan.energy)
}

#[test]
fn equal_costs_take_the_lowest() {
    assert_eq!(chosen(MOST_BUDGET, "F 500 7 / F 1000 7 / F 2000 7", 2000), (500, 7_000));
    assert_eq!(chosen(MOST_BUDGET, "F 500 7 / F 1000 7 / F 2000 7", 1999), (1000, 7_000));
    assert_eq!(chosen(MOST_BUDGET, "F 500 9 / F 1000 7 / F 2000 7", 2000), (1000, 7_000));
    assert_eq!(chosen(MOST_BUDGET, "F 500 7 / F 1000 9 / F 2000 7", 2000), (500, 7_000));
    assert_eq!(chosen(MOST_BUDGET, "F 500 7 / F 1000 9 / F 2000 7", 1999), (2000, 7_000));
}

#[test]
fn a_cheaper_speed_is_not_taken_where_a_job_ends_late() {
    assert_eq!(chosen(MOST_BUDGET, "F 500 5 / F 1000 8 / F 2000 9", 2000), (500, 5_000));
    assert_eq!(chosen(MOST_BUDGET, "F 500 5 / F 1000 8 / F 2000 9", 1999), (1000, 8_000));
    assert_eq!(chosen(MOST_BUDGET, "F 500 5 / F 1000 9 / F 2000 8", 1999), (2000, 8_000));
    // The second of two jobs alone may be late: at 500 MHz they end at 2000 and 4000 ms.
    for (termination, expected) in [(4000, (500, 10_000)), (3999, (1000, 16_000))] {
        let front = "T 0 1000000000000000 / F 500 5 / F 1000 8 / F 2000 9 / J 1 1000 1 2000 2000 0";
        let (plan, order, _) = answer(&text(&format!("{front} / J 2 1000 1 {termination} {termination} 0")));
        assert_eq!((order, plan.speed, plan.energy), (vec![1, 2], expected.0, expected.1));
    }
}

/// At the seven speeds the job takes, cut to tenths, 2777.7, 1818.1, 1562.5, 1369.8, 1219.5, 1098.9 and 1000 ms.
#[test]
fn the_cheapest_speeds_of_the_supplied_models() {
    let cases = [
        (1, 2778, (360, 129_600_000)),
        (1, 2777, (550, 302_500_000)),
        (2, 2778, (550, 681_421_000)),
        (2, 1819, (550, 681_421_000)),
        (2, 1818, (640, 697_825_000)),
        (3, 2778, (820, 945_957_000)),
        (3, 1220, (820, 945_957_000)),
        (3, 1219, (910, 963_501_000)),
        (3, 1099, (910, 963_501_000)),
        (3, 1098, (1000, 1_000_000_000)),
    ];
    for (number, termination, expected) in cases {
        let given = chosen(MOST_BUDGET, &model(number), termination);
        assert_eq!(given, expected, "model {number}, termination {termination}");
    }
}

#[test]
fn falling_costs_take_the_top_speed() {
    assert_eq!(chosen(MOST_BUDGET, "F 500 9 / F 1000 8 / F 2000 7", 2000), (2000, 7_000));
    assert_eq!(chosen(7_000, "F 500 9 / F 1000 8 / F 2000 7", 2000), (2000, 7_000));
}

#[test]
fn a_dearer_speed_on_the_way_does_not_end_the_search() {
    assert_eq!(chosen(MOST_BUDGET, "F 500 7 / F 1000 9 / F 2000 6", 2000), (2000, 6_000));
}

#[test]
fn one_speed_is_taken_at_any_cost() {
    assert_eq!(chosen(MOST_BUDGET, "F 500 4000000", 2000), (500, 4_000_000_000));
    assert_eq!(chosen(3_000, "F 500 3", 2000), (500, 3_000));
}

/// Nothing costs nothing at any speed: with no job, with one that is late alone, and with one that is over the budget.
#[test]
fn an_empty_plan_takes_the_first_speed() {
    let speeds = "F 500 9 / F 1000 8 / F 2000 7";
    let (plan, ..) = answer(&text(&format!("T 0 1000000000000000 / {speeds}")));
    assert_eq!(plan, Plan { count: 0, speed: 500, energy: 0 });
    assert_eq!(chosen(MOST_BUDGET, speeds, 499), (500, 0));
    assert_eq!(chosen(6_999, speeds, 2000), (500, 0));
}

/// A plan is within budget at the top speed, and so at a cheaper one, whatever it takes at the lowest.
#[test]
fn the_cheapest_in_time_is_within_budget_where_the_lowest_is_not() {
    let speeds = "F 500 9 / F 1000 6 / F 2000 7";
    for budget in [7_000, 8_999, 9_000, MOST_BUDGET] {
        assert_eq!(chosen(budget, speeds, 2000), (1000, 6_000), "budget {budget}");
    }
    assert_eq!(chosen(6_999, speeds, 2000), (500, 0), "it is planned at the top speed's cost or not at all");
    for budget in [7_000, 8_999, 9_000] {
        assert_eq!(chosen(budget, "F 500 5 / F 1000 9 / F 2000 7", 1999), (2000, 7_000), "budget {budget}");
    }
}

// ---- Refusals --------------------------------------------------------------------------------------------------------

#[test]
fn refusals_of_the_reader() {
    let front = "T 0 0 / F 500 1 / F 1000 1";
    let job = "J 5 10 1 100 100 3";
    let cases: Vec<(String, u64, u64)> = [
        // 1: letter, field count, an empty field, a byte that is no digit, a leading zero, a 17th digit.
        ("X 0 0", 1, 1),
        ("", 1, 1),
        ("t 0 0", 1, 1),
        ("TT 0 0", 1, 1),
        ("T 0", 1, 1),
        ("T 0 0 0", 1, 1),
        ("T", 1, 1),
        ("T 0 ", 1, 1),
        ("T  0 0", 1, 1),
        ("T  0", 1, 1),
        (" T 0 0", 1, 1),
        ("T 0 0 ", 1, 1),
        ("T 0 0a", 1, 1),
        ("T -1 0", 1, 1),
        ("T +1 0", 1, 1),
        ("T 1.0 0", 1, 1),
        ("T 0 0\r", 1, 1),
        ("T 00 0", 1, 1),
        ("T 01 0", 1, 1),
        ("T 0 01", 1, 1),
        ("T 0 12345678901234567", 1, 1),
        ("T 0 00000000000000001", 1, 1),
        ("T 0 0 / ", 1, 2),
        ("T 0 0 / F 1 1 /  / F 2 1", 1, 3),
        ("T 0 0 / J 1 1 1 1 1", 1, 2),
        ("T 0 0 / J 1 1 1 1 1 0 0", 1, 2),
        ("T 0 0 / H 1", 1, 2),
        ("T 0 0 / F 1 1 1", 1, 2),
        // 1 before 2 and before 3, within one line.
        ("T 1000000001 x", 1, 1),
        ("F 0 1 1", 1, 1),
        // 2: each number below and above its range.
        ("T 1000000001 0", 2, 1),
        ("T 0 1000000000000001", 2, 1),
        ("T 9999999999999999 0", 2, 1),
        ("T 0 0 / F 0 1", 2, 2),
        ("T 0 0 / F 4001 1", 2, 2),
        ("T 0 0 / F 1 0", 2, 2),
        ("T 0 0 / F 1 4000001", 2, 2),
        // 2 before 3, and the first bad line before all later ones.
        ("F 0 1", 2, 1),
        ("T 1000000001 0 / X", 2, 1),
        ("T 0 0 / T 0 1000000000000001", 2, 2),
        ("T 0 0 / H 33 1", 2, 2),
        ("T 0 0 / J 1 1 1 2 1 33", 2, 2),
        // 3: may not stand here.
        ("F 1 1", 3, 1),
        ("J 1 1 1 1 1 0", 3, 1),
        ("H 1 1", 3, 1),
        ("T 0 0 / T 0 0", 3, 2),
        ("T 0 0 / J 1 1 1 1 1 0", 3, 2),
        ("T 0 0 / H 1 1", 3, 2),
        ("T 0 0 / F 1 1 / T 0 0", 3, 3),
        ("T 0 0 / F 1 1 / H 1 1", 3, 3),
        // 3: does not rise.
        ("T 0 0 / F 2 1 / F 2 1", 3, 3),
        ("T 0 0 / F 2 1 / F 1 1", 3, 3),
        // 3 before 5.
        ("T 0 0 / J 1 1 1 2 1 0", 3, 2),
    ]
    .iter()
    .map(|(lines, number, line)| (lines.to_string(), *number, *line))
    .chain(
        [
            ("J 0 10 1 100 100 3", 2, 5),
            ("J 10000 10 1 100 100 3", 2, 5),
            ("J 6 0 1 100 100 3", 2, 5),
            ("J 6 1000001 1 100 100 3", 2, 5),
            ("J 6 10 1000001 100 100 3", 2, 5),
            ("J 6 10 1 1000000001 1000000001 3", 2, 5),
            ("J 6 10 1 1000000001 100 3", 2, 5),
            ("J 6 10 1 100 1000000001 3", 2, 5),
            ("J 6 10 1 100 100 33", 2, 5),
            ("H 0 5", 2, 5),
            ("H 33 5", 2, 5),
            ("H 1 0", 2, 5),
            ("H 1 10000", 2, 5),
            ("J 5 10 1 100 100 3", 3, 5),
            ("J 4 10 1 100 100 3", 3, 5),
            ("J 4 10 1 101 100 3", 3, 5),
            ("F 2000 1", 3, 5),
            ("T 0 0", 3, 5),
            ("H 1 5 / H 1 5", 3, 6),
            ("H 2 5 / H 1 5", 3, 6),
            ("H 2 5 / H 1 6", 3, 6),
            ("H 2 5 / J 6 10 1 100 100 3", 3, 6),
            ("H 2 5 / F 2000 1", 3, 6),
            ("J 6 10 1 101 100 3", 5, 5),
            ("H 1 6", 6, 5),
            ("H 3 4", 6, 5),
            ("H 3 5", 7, 5),
        ]
        .iter()
        .map(|(lines, number, line)| (format!("{front} / {job} / {lines}"), *number, *line)),
    )
    .collect();
    for (lines, number, line) in cases {
        assert_eq!(read(&text(&lines)), Err(refused(number, line)), "{lines}");
        assert_eq!(naive::read(&text(&lines)), Err(refused(number, line)), "{lines}");
        assert_eq!(listing(&text(&lines)), format!("R\t{number}\t{line}\n").into_bytes(), "{lines}");
    }
}

#[test]
fn a_text_without_its_last_line_feed() {
    assert_eq!(read(b"T\t0\t0"), Err(refused(1, 1)));
    assert_eq!(read(b"T\t0\t0\nF\t1\t1"), Err(refused(1, 2)));
    assert_eq!(read(b"T\t0\t0\nF\t1\t1\nx"), Err(refused(1, 3)));
    assert_eq!(read(b"\n"), Err(refused(1, 1)));
    assert_eq!(read(b"T\t0\t0\r\nF\t1\t1\r\n"), Err(refused(1, 1)));
}

/// Every front part of a good text: it is good at the ends of lines from the first F on, and refused elsewhere.
#[test]
fn a_text_cut_anywhere() {
    let whole = generate::longest_text();
    for length in 0..whole.len() {
        let cut = &whole[..length];
        let line = cut.iter().filter(|byte| **byte == b'\n').count() as u64 + 1;
        let expected = match cut.last() {
            None => Some(refused(3, 1)),
            Some(b'\n') if line == 2 => Some(refused(3, 2)),
            Some(b'\n') => None,
            Some(_) => Some(refused(1, line)),
        };
        assert_eq!(read(cut).err(), expected, "the first {length} bytes");
    }
}

#[test]
fn too_many_lines() {
    let speeds = |count: u64| (1..=count).map(|mhz| format!("F {mhz} 1")).collect::<Vec<_>>().join(" / ");
    let jobs = |count: u64| (1..=count).map(|number| format!("J {number} 1 1 1 1 0")).collect::<Vec<_>>().join(" / ");
    let cases = [
        (format!("T 0 0 / {}", speeds(17)), 4, 18),
        (format!("T 0 0 / {} / F 16 1", speeds(16)), 3, 18),
        (format!("T 0 0 / {} / F 17 0", speeds(16)), 2, 18),
        (format!("T 0 0 / {} / {}", speeds(2), jobs(65)), 4, 68),
        (format!("T 0 0 / {} / {} / J 64 1 1 1 1 0", speeds(2), jobs(64)), 3, 68),
        (format!("T 0 0 / {} / {} / J 65 1 1 2 1 0", speeds(2), jobs(64)), 4, 68),
        (format!("T 0 0 / {} / {} / J 65 1 1 2 1 33", speeds(2), jobs(64)), 2, 68),
        (format!("T 0 0 / {} / {} / H 1 1 / J 65 1 1 1 1 0", speeds(2), jobs(64)), 3, 69),
    ];
    for (lines, number, line) in cases {
        assert_eq!(read(&text(&lines)), Err(refused(number, line)), "{lines}");
    }
    assert!(read(&text(&format!("T 0 0 / {} / {}", speeds(16), jobs(64)))).is_ok());
}

/// A small good table, to be damaged.
fn small() -> Table {
    read(&text("T 0 0 / F 500 1 / F 1000 1 / J 5 10 1 100 100 3 / H 1 5")).expect("a good text")
}

/// Writes and plans a table that is refused, and asks its rooms: where buffers and budget are good, as the writer.
fn assert_refused(table: &Table, number: u64, line: u64, shown: &str) {
    let (mut order, mut fates, mut out) = ([9; JOBS], [9; JOBS], [9; LONGEST_TEXT]);
    assert_eq!(write(table, &mut out), Err(refused(number, line)), "{shown}");
    assert_eq!(write(table, &mut []), Err(refused(number, line)), "{shown} without room");
    assert_eq!(naive::write(table), Err(refused(number, line)), "{shown}");
    for budget in [0, MOST_BUDGET] {
        assert_eq!(plan(table, budget, &mut order, &mut fates), Err(refused(number, line)), "{shown}");
        assert_eq!(naive::plan_into(table, budget, &mut order, &mut fates), Err(refused(number, line)), "{shown}");
        assert_eq!(rooms(table, budget, &mut order, &mut fates), Err(refused(number, line)), "{shown}");
        assert_eq!(naive::rooms_into(table, budget, &mut order, &mut fates), Err(refused(number, line)), "{shown}");
    }
    assert_eq!((order, fates, out), ([9; JOBS], [9; JOBS], [9; LONGEST_TEXT]));
}

#[test]
fn refusals_of_tables() {
    type Damage = fn(&mut Table);
    let cases: [(Damage, u64, u64); 26] = [
        (|table| table.clock = LAST_TIME + 1, 2, 1),
        (|table| table.budget = MOST_BUDGET + 1, 2, 1),
        (|table| (table.clock, table.speed_count) = (u64::MAX, 0), 2, 1),
        (|table| table.speed_count = 0, 3, 2),
        (|table| (table.speed_count, table.job_count) = (0, usize::MAX), 3, 2),
        (|table| *table = Table::EMPTY, 3, 2),
        (|table| table.speeds[0].mhz = 0, 2, 2),
        (|table| table.speeds[1].cost = MOST_COST + 1, 2, 3),
        (|table| table.speeds[1].mhz = 500, 3, 3),
        (|table| table.speed_count = 3, 2, 4),
        (|table| table.speed_count = 17, 2, 4),
        (|table| table.jobs[0].number = 0, 2, 4),
        (|table| table.jobs[0].cycles = 0, 2, 4),
        (|table| table.jobs[0].worth = MOST_WORTH + 1, 2, 4),
        (|table| table.jobs[0].request = 33, 2, 4),
        (|table| table.jobs[0].termination = u64::MAX, 2, 4),
        (|table| table.jobs[0].critical = 101, 5, 4),
        (|table| (table.job_count, table.jobs[1]) = (2, table.jobs[0]), 3, 5),
        (|table| table.job_count = 0, 3, 4),
        (|table| (table.job_count, table.holds[0].resource) = (0, 33), 2, 4),
        (|table| (table.job_count, table.hold_count) = (0, 33), 3, 4),
        (|table| table.holds[0].resource = 0, 2, 5),
        (|table| (table.hold_count, table.holds[1]) = (2, table.holds[0]), 3, 6),
        (|table| table.holds[0].holder = 6, 6, 5),
        (|table| table.holds[0].resource = 3, 7, 5),
        (|table| table.hold_count = usize::MAX, 2, 6),
    ];
    for (at, (damage, number, line)) in cases.iter().enumerate() {
        let mut table = small();
        damage(&mut table);
        assert_refused(&table, *number, *line, &format!("case {at}"));
    }
}

#[test]
fn counts_beyond_the_places() {
    let full = read(&generate::longest_text()).expect("a good text");
    for beyond in [1, 2, usize::MAX - JOBS] {
        let shown = format!("{beyond} beyond");
        assert_refused(&Table { speed_count: SPEEDS + beyond, ..full }, 4, 18, &shown);
        assert_refused(&Table { job_count: JOBS + beyond, ..full }, 4, 82, &shown);
        assert_refused(&Table { speed_count: 2, job_count: JOBS + beyond, ..full }, 4, 68, &shown);
        assert_refused(&Table { hold_count: HOLDS + beyond, ..full }, 3, 114, &shown);
        let mut table = small();
        for (place, hold) in table.holds.iter_mut().enumerate() {
            *hold = Hold { resource: place as u64 + 1, holder: 5 };
        }
        table.jobs[0].request = 0;
        table.hold_count = HOLDS + beyond;
        assert_refused(&table, 3, 37, &shown);
    }
}

#[test]
fn room_for_the_text() {
    let table = small();
    let whole = generate::text_of(&table);
    for length in 0..whole.len() + 5 {
        let mut out = vec![9; length];
        let answer = write(&table, &mut out);
        if length < whole.len() {
            assert_eq!(answer, Err(refused(8, 0)));
            assert!(out.iter().all(|byte| *byte == 9));
        } else {
            assert_eq!(answer, Ok(whole.len()));
            assert_eq!(out[..whole.len()], whole);
            assert!(out[whole.len()..].iter().all(|byte| *byte == 9));
        }
    }
}

/// Writes a listing into buffers of every length up to some more than it needs.
fn assert_room(whole: &[u8], list: impl Fn(&mut [u8]) -> Result<usize, Refused>) {
    for length in 0..whole.len() + 5 {
        let mut out = vec![9; length];
        let answer = list(&mut out);
        let written = if length < whole.len() { 0 } else { whole.len() };
        assert_eq!(answer, if written == 0 { Err(refused(8, 0)) } else { Ok(written) });
        assert_eq!(out[..written], whole[..written]);
        assert!(out[written..].iter().all(|byte| *byte == 9));
    }
}

#[test]
fn room_for_the_listing() {
    for lines in [CASE_S, "X"] {
        assert_room(&listing(&text(lines)), |out| list(&text(lines), out));
        for budget in [2_499_999_999, MOST_BUDGET + 1] {
            let whole = listing_with_budget(&text(lines), budget);
            assert_room(&whole, |out| list_with_budget(&text(lines), budget, out));
        }
    }
}

/// The buffers come first, then the budget beside the table, then the table, whose first record has its own budget; for
/// the rooms too.
#[test]
fn the_order_of_a_plans_refusals() {
    let tables = [small(), Table::EMPTY, Table { budget: MOST_BUDGET + 1, ..small() }];
    let expected = |order, fates, budget, table: &Table| {
        let short = order < 64 || fates < 64;
        let own = table.budget > MOST_BUDGET;
        match (short, budget > MOST_BUDGET, own, table.speed_count) {
            (true, ..) => Some(refused(8, 0)),
            (_, true, ..) => Some(refused(2, 1)),
            (_, _, true, _) => Some(refused(2, 1)),
            (_, _, _, 0) => Some(refused(3, 2)),
            _ => None,
        }
    };
    for (order, fates) in [(63, 64), (64, 63), (0, 0), (63, 1000), (1000, 0), (64, 64), (65, 70)] {
        for (table, budget) in
            tables.iter().flat_map(|table| [0, MOST_BUDGET, MOST_BUDGET + 1, u64::MAX].map(|budget| (table, budget)))
        {
            let expected = expected(order, fates, budget, table);
            let (mut order, mut fates) = (vec![9; order], vec![9; fates]);
            let (mut turns, mut left) = (order.clone(), fates.clone());
            assert_eq!(plan(table, budget, &mut order, &mut fates).err(), expected);
            assert_eq!(rooms(table, budget, &mut turns, &mut left).err(), expected);
            let places = [&order, &fates, &turns, &left];
            assert!(expected.is_none() || places.into_iter().flatten().all(|place| *place == 9));
        }
    }
}

/// The text comes before the budget beside it, and the refusal of either is a listing.
#[test]
fn refusals_in_a_listing_with_a_budget() {
    for budget in [MOST_BUDGET + 1, u64::MAX] {
        assert_eq!(listing_with_budget(&text(CASE_S), budget), b"R\t2\t1\n");
        assert_eq!(listing_with_budget(&text("X"), budget), b"R\t1\t1\n");
        assert_eq!(listing_with_budget(&text("T 0 0"), budget), b"R\t3\t2\n");
        assert_eq!(listing_with_budget(&text("T 0 1000000000000001"), 0), b"R\t2\t1\n");
    }
    assert_eq!(listing_with_budget(&text(CASE_S), 0), b"P\t500\t0\t0\nX\t1\t6\nX\t2\t6\nX\t3\t6\nX\t4\t6\nX\t5\t2\n");
}

#[test]
fn refusals_of_the_allocation() {
    let outside =
        [(0, 0, 0), (1_000_001, 0, 0), (1, 1_000_000_000_001, 0), (1, 0, 1000), (u64::MAX, u64::MAX, u64::MAX)];
    for (mean, variance, assurance) in outside {
        assert_eq!(allocate(mean, variance, assurance), Err(refused(2, 0)));
    }
    assert_eq!(allocate(1_000_000, 1_000_000_000_000, 0), Ok(1_000_000));
    assert_eq!(allocate(1, 1_000_000_000_000, 999), Err(refused(10, 0)));
    assert_eq!(allocate(999_999, 1, 500), Ok(1_000_000));
    assert_eq!(allocate(999_999, 2, 500), Err(refused(10, 0)));
}

#[test]
fn allocations_against_the_naive() {
    let random = &mut Random::new(SEED, 0);
    for _ in 0..2000 {
        let greatest_mean = random.one_of(&[10, 1000, 1_000_000]);
        let greatest_variance = random.one_of(&[10, 100_000, 1_000_000_000, 1_000_000_000_000]);
        let (mean, variance) = (random.within(1, greatest_mean), random.within(0, greatest_variance));
        let assurance = random.below(1000);
        assert_eq!(
            allocate(mean, variance, assurance),
            naive::allocate(mean, variance, assurance),
            "{mean} {variance} {assurance}"
        );
    }
}

/// The cost rule: the costs are the whole numbers at or next above the models' formulas, all over 4f.
#[test]
fn supplied_costs() {
    for (model, row) in (1..=3).zip(COSTS) {
        assert_eq!(costs(model), Ok(row));
        let (square, inverse) = [(4, 0), (3, 1), (2, 2)][model as usize - 1];
        for (f, cost) in SUPPLIED_SPEEDS.iter().zip(row) {
            assert_eq!(cost, (square * f * f * f + inverse * 1000 * 1000 * 1000).div_ceil(4 * f), "model {model}, {f}");
        }
    }
    for model in [0, 4, u64::MAX] {
        assert_eq!(costs(model), Err(refused(9, 0)));
    }
}

// ---- Reading and writing ---------------------------------------------------------------------------------------------

#[test]
fn the_longest_text() {
    let whole = generate::longest_text();
    assert_eq!(whole.len(), 3653);
    assert_eq!(LONGEST_TEXT, 3653);
    let table = read(&whole).expect("a good text");
    let mut out = [9; 3654];
    assert_eq!(write(&table, &mut out[..3652]), Err(refused(8, 0)));
    assert_eq!(write(&table, &mut out), Ok(3653));
    assert_eq!((&out[..3653], out[3653]), (&whole[..], 9));
}

#[test]
fn the_longest_listing() {
    let long = (1000..1060).map(|number| format!("J {number} 1000000 1 999999999 1000000000 0"));
    let short = (1060..1064).map(|number| format!("J {number} 1 1 1000000000 1000000000 0"));
    let jobs: Vec<String> = long.chain(short).collect();
    let lines = format!("T 984999999 1000000000000000 / F 4000 4000000 / {}", jobs.join(" / "));
    let listed = listing(&text(&lines));
    assert_eq!(listed.len(), 1118);
    assert_eq!(LONGEST_LISTING, 1118);
    assert!(listed.starts_with(b"P\t4000\t240000016000000\t64\n"));
    assert!(listed.ends_with(b"\t1000000000\n"));
}

/// Numbers of every length are read as they are written, at the end of a text and within it.
#[test]
fn numbers_of_every_length() {
    for digits in 1..=16u32 {
        for budget in [10u64.pow(digits - 1), 10u64.pow(digits) - 1, 10u64.pow(digits - 1) * 7 + 3] {
            let whole = format!("T\t0\t{budget}\nF\t1\t1\n").into_bytes();
            let expected = if budget > MOST_BUDGET { Err(refused(2, 1)) } else { Ok(budget) };
            assert_eq!(read(&whole).map(|table| table.budget), expected);
            assert_eq!(read(&whole[..whole.len() - 6]).unwrap_err().number, if budget > MOST_BUDGET { 2 } else { 3 });
        }
    }
}

#[test]
fn round_trips() {
    println!("seed {SEED}");
    let mut out = [0; LONGEST_TEXT];
    for index in 0..20_000 {
        let table = generate::table(SEED, index);
        let whole = generate::text_of(&table);
        let again = read(&whole);
        assert_eq!(again, Ok(table), "{}", shown(index, &table));
        assert_eq!(write(&table, &mut out), Ok(whole.len()), "{}", shown(index, &table));
        assert_eq!(out[..whole.len()], whole, "{}", shown(index, &table));
    }
}

#[test]
fn damaged_texts_against_the_naive() {
    println!("seed {SEED}");
    let (mut good, mut numbers) = (0, [0; 11]);
    for index in 0..40_000 {
        let damaged = generate::damaged_text(SEED, index);
        let answer = read(&damaged);
        let shown = || format!("seed {SEED}, index {index}:\n{}", String::from_utf8_lossy(&damaged));
        assert_eq!(answer, naive::read(&damaged), "{}", shown());
        match answer {
            Ok(table) => {
                good += 1;
                let mut out = vec![0; damaged.len()];
                assert_eq!(write(&table, &mut out), Ok(damaged.len()), "{}", shown());
                assert_eq!(out, damaged, "{}", shown());
            }
            Err(refused) => numbers[refused.number as usize] += 1,
        }
    }
    println!("damaged texts: {good} good ones, refusals 1 to 7: {:?}", &numbers[1..=7]);
    assert!(good > 1000 && numbers[1..=7].iter().all(|count| *count > 50), "{good} {numbers:?}");
}

#[test]
fn rough_tables_against_the_naive() {
    println!("seed {SEED}");
    let (mut good, mut numbers) = (0, [0; 11]);
    let mut out = [0; LONGEST_TEXT];
    for index in 0..40_000 {
        let table = generate::rough_table(SEED, index);
        let before = out;
        let answer = write(&table, &mut out);
        match naive::write(&table) {
            Ok(whole) => {
                good += 1;
                assert_eq!(answer, Ok(whole.len()), "{}", shown(index, &table));
                assert_eq!(out[..whole.len()], whole, "{}", shown(index, &table));
                assert_eq!(out[whole.len()..], before[whole.len()..], "{}", shown(index, &table));
                let again = read(&whole).expect("what was written can be read");
                assert!(again.same_records(&table), "{}", shown(index, &table));
            }
            Err(refused) => {
                numbers[refused.number as usize] += 1;
                assert_eq!(answer, Err(refused), "{}", shown(index, &table));
                assert_eq!(out, before, "{}", shown(index, &table));
            }
        }
    }
    println!("rough tables: {good} good ones, refusals 2 to 7: {:?}", &numbers[2..=7]);
    assert!(good > 1000 && numbers[2..=7].iter().all(|count| *count > 50), "{good} {numbers:?}");
}

// ---- Plans -----------------------------------------------------------------------------------------------------------

/// The plan of a table with its order and fates, in the form of the naive one.
fn planned(table: &Table, budget: u64) -> naive::Answer {
    let (plan, order, fates) = answer_with_budget(table, budget);
    naive::Answer { plan, order, fates }
}

/// The rooms of a table, in the form of the naive one.
fn rooms_told(table: &Table, budget: u64) -> naive::RoomsAnswer {
    let (mut turns, mut left) = ([77; JOBS], [77; JOBS]);
    let told = rooms(table, budget, &mut turns, &mut left).expect("a good table and budget");
    let [turns, rooms] = [turns, left].map(|places| places[..told.turns].to_vec());
    naive::RoomsAnswer { turns, rooms, room: told.room }
}

/// A generated table with its own budget, or with another one that is good.
fn table_and_budget(index: u64) -> (Table, u64) {
    let table = generate::table(SEED, index / 2);
    let beside = generate::budget_beside(&mut Random::new(SEED, !index), &table).min(MOST_BUDGET);
    (table, if index % 2 == 0 { table.budget } else { beside })
}

#[test]
fn plans_against_the_naive() {
    println!("seed {SEED}");
    let (mut fates, mut longest_plan) = ([0; 7], 0);
    for index in 0..60_000 {
        let (table, budget) = table_and_budget(index);
        let answer = planned(&table, budget);
        assert_eq!(answer, naive::plan(&table, budget), "{}", shown_with_budget(index / 2, &table, budget));
        answer.fates.iter().for_each(|fate| fates[*fate as usize] += 1);
        longest_plan = longest_plan.max(answer.plan.count);
    }
    println!("plans: fates 1 to 6: {:?}, longest plan {longest_plan}", &fates[1..]);
    assert!(fates[1..].iter().all(|count| *count > 1000) && longest_plan == JOBS, "{fates:?}");
}

/// How many jobs wait for one another in a row, among the planned.
fn longest_planned_chain(table: &Table, order: &[u64]) -> usize {
    let job = |number: u64| table.jobs.iter().find(|job| job.number == number && order.contains(&number));
    let holder = |request: u64| table.holds[..table.hold_count].iter().find(|hold| hold.resource == request);
    let next = |number: u64| job(number).and_then(|job| holder(job.request)).and_then(|hold| job(hold.holder));
    let length = |number: &u64| std::iter::successors(Some(*number), |at| next(*at).map(|job| job.number)).count();
    order.iter().map(length).max().unwrap_or(0)
}

/// The generator comes to the cases it is made for: long chains that are planned, several rings, ends exactly at a
/// termination, and energies that are exactly the budget.
#[test]
fn hard_cases_are_among_the_generated() {
    println!("seed {SEED}");
    let (mut long_chains, mut several_rings, mut exact_ends, mut exact_budgets) = (0, 0, 0, 0);
    for index in 0..20_000 {
        let table = generate::table(SEED, index);
        let naive::Answer { plan, order, fates } = planned(&table, table.budget);
        long_chains += u64::from(longest_planned_chain(&table, &order) == HOLDS + 1);
        several_rings += u64::from(fates.iter().filter(|fate| **fate == 3).count() > 1);
        exact_budgets += u64::from(plan.count > 0 && plan.energy == table.budget);
        let mut cycles = 0;
        exact_ends += u64::from(order.iter().any(|number| {
            let job = table.jobs.iter().find(|job| job.number == *number).expect("a planned job");
            cycles += job.cycles;
            cycles * 1000 == (job.termination - table.clock) * plan.speed
        }));
    }
    println!("of 20000 tables: {long_chains} with a planned chain of 33, {several_rings} with several rings,");
    println!("{exact_ends} with an end exactly at a termination, {exact_budgets} with exactly the budget");
    assert!(long_chains > 20 && several_rings > 500 && exact_ends > 500 && exact_budgets > 100);
}

/// The speeds at which every entry of a plan would end by a termination so many ms later, and all cycles of the plan.
fn in_time(table: &Table, order: &[u64], later: i64) -> (Vec<Speed>, u64) {
    let mut cycles = 0;
    let mut speeds = table.speeds[..table.speed_count].to_vec();
    for number in order {
        let job = table.jobs.iter().find(|job| job.number == *number).expect("a planned job");
        let ms = job.termination as i64 - table.clock as i64 + later;
        cycles += job.cycles;
        speeds.retain(|speed| cycles as i64 * 1000 <= ms * speed.mhz as i64);
    }
    (speeds, cycles)
}

/// How step 9 can be misread; the last walks up only as long as the next speed is cheaper.
const MISREADINGS: [&str; 8] = [
    "the lowest that qualifies",
    "the highest of equals in energy",
    "the cheapest of all, in time or not",
    "the cheapest of all for an empty plan",
    "the top speed always",
    "the lowest in time, whatever its energy",
    "the lowest in time, which is over the budget",
    "the first that qualifies and that the next does not undercut",
];

/// The speed that each misreading takes, worked out from the plan; none where it does not speak of this plan.
fn misread(table: &Table, order: &[u64]) -> [Option<Speed>; MISREADINGS.len()] {
    let speeds = &table.speeds[..table.speed_count];
    let cheapest = speeds.iter().min_by_key(|speed| speed.cost).copied();
    if order.is_empty() {
        return [None, None, None, cheapest, None, None, None, None];
    }
    let (in_time, cycles) = in_time(table, order, 0);
    let energy = |speed: &Speed| cycles * speed.cost;
    let qualifying: Vec<Speed> = in_time.iter().filter(|speed| energy(speed) <= table.budget).copied().collect();
    let undercuts = |pair: &[Speed]| energy(&pair[1]) < energy(&pair[0]);
    [
        qualifying.first().copied(),
        qualifying.iter().rev().min_by_key(|speed| energy(speed)).copied(),
        cheapest,
        None,
        speeds.last().copied(),
        in_time.first().copied(),
        in_time.first().filter(|speed| energy(speed) > table.budget).copied(),
        qualifying.get(qualifying.windows(2).take_while(|pair| undercuts(pair)).count()).copied(),
    ]
}

/// The generator comes to tables for which each misreading of step 9 takes another speed than the right one.
#[test]
fn misreadings_of_the_speed_are_found_out() {
    println!("seed {SEED}");
    let (mut choices, mut found_out) = (0, [0; MISREADINGS.len()]);
    for table in (0..20_000).map(|index| generate::table(SEED, index)).filter(|table| table.speed_count > 1) {
        let naive::Answer { plan, order, .. } = naive::plan(&table, table.budget);
        choices += 1;
        for (count, taken) in found_out.iter_mut().zip(misread(&table, &order)) {
            *count += u64::from(taken.is_some_and(|speed| speed.mhz != plan.speed));
        }
    }
    println!("of {choices} tables with several speeds, another one is taken by:");
    MISREADINGS.iter().zip(found_out).for_each(|(misreading, count)| println!("{misreading}: {count}"));
    assert!(found_out.iter().all(|count| count * 100 > choices), "{found_out:?}");
}

/// What makes the choice of a speed hard, and whether it does so in a table with this plan.
fn hard_choices(table: &Table, order: &[u64]) -> [(&'static str, bool); 14] {
    let speeds = &table.speeds[..table.speed_count];
    let (mhz, costs): (Vec<u64>, Vec<u64>) = speeds.iter().map(|speed| (speed.mhz, speed.cost)).unzip();
    let (last, top_cost) = (costs.len() - 1, costs[costs.len() - 1]);
    let bottom = (0..=last).min_by_key(|place| costs[*place]).expect("a table has a speed");
    let leasts = costs.iter().filter(|cost| **cost == costs[bottom]).count();
    let rise = costs.is_sorted_by(|one, other| one < other);
    let fall = costs.is_sorted_by(|one, other| one > other);
    let valley = costs[..=bottom].is_sorted_by(|one, other| one >= other) && costs[bottom..].is_sorted();
    let supplied = |model: usize| mhz == SUPPLIED_SPEEDS && costs == COSTS[model - 1];
    let (good, cycles) = in_time(table, order, 0);
    let choice = !order.is_empty() && good.len() > 1;
    let cheapest_ends = |later| bottom < last && in_time(table, order, later).0.contains(&speeds[bottom]);
    let dearer = |energy| choice && good.iter().any(|speed| speed.cost > top_cost && cycles * speed.cost == energy);
    [
        ("one speed alone", last == 0 && !order.is_empty()),
        ("costs rise", choice && rise),
        ("costs fall", choice && fall),
        ("costs fall and then rise", choice && valley && 0 < bottom && bottom < last),
        ("model 2", choice && supplied(2)),
        ("model 3", choice && supplied(3)),
        ("all costs are equal", choice && leasts == speeds.len()),
        ("some costs are the least", choice && 1 < leasts && leasts < speeds.len()),
        ("the cheapest speed is too slow", choice && bottom < last && !cheapest_ends(0)),
        ("it is so by a millisecond or less", cheapest_ends(1) && !cheapest_ends(0)),
        ("it is in time by less than that", cheapest_ends(0) && !cheapest_ends(-1)),
        ("the budget is just enough for a dearer speed than the top", dearer(table.budget)),
        ("the budget is one short of that", dearer(table.budget + 1)),
        ("an empty plan under falling costs", order.is_empty() && last > 0 && fall),
    ]
}

/// The generator comes to the speeds, times and budgets between which a choice is hard.
#[test]
fn hard_choices_are_among_the_generated() {
    println!("seed {SEED}");
    let mut counts = [0; 14];
    for table in (0..20_000).map(|index| generate::table(SEED, index)) {
        let hard = hard_choices(&table, &planned(&table, table.budget).order);
        counts.iter_mut().zip(hard).for_each(|(count, (_, is_so))| *count += u64::from(is_so));
    }
    let names = hard_choices(&small(), &[]).map(|(name, _)| name);
    println!("of 20000 tables:");
    names.iter().zip(counts).for_each(|(name, count)| println!("{name}: {count}"));
    assert!(counts.iter().all(|count| *count > 100), "{counts:?}");
}

/// Listings of texts, good and damaged; what stands behind the first 4,096 bytes does not matter. With the text's own
/// budget beside it the listing is the same, and a refused text has the same one with any.
#[test]
fn listings_against_the_naive() {
    println!("seed {SEED}");
    for index in 0..20_000 {
        let whole = text_of_either_kind(index);
        let listed = listing(&whole);
        let shown = || format!("seed {SEED}, index {index}:\n{}", String::from_utf8_lossy(&whole));
        assert_eq!(listed, naive::list(&whole), "{}", shown());
        assert_eq!(listed, listing(&whole[..whole.len().min(4096)]), "{}", shown());
        let own = read(&whole).map_or(u64::MAX - index, |table| table.budget);
        assert_eq!(listed, listing_with_budget(&whole, own), "{}", shown());
    }
}

/// Every call of the cases on which the library is compared.
#[test]
fn cases_against_the_naive() {
    println!("seed {SEED}");
    let tally = cases_of_reference(SEED, 0, 10_000).unwrap_or_else(|difference| panic!("{difference}"));
    println!("{} calls, answers by number, 0 for none refused: {:?}", tally.calls, tally.numbers);
    assert!(tally.numbers.iter().all(|count| *count > 100), "{tally:?}");
}

// ---- Reading once, planning often ------------------------------------------------------------------------------------

/// A good text, or a damaged one.
fn text_of_either_kind(index: u64) -> Vec<u8> {
    if index % 2 == 0 {
        generate::text(SEED, index)
    } else {
        generate::damaged_text(SEED, index)
    }
}

/// Document 01's planner, which takes a text: it looks at its two lent buffers, then reads, then plans with the budget
/// that the text says.
fn plan_text(text: &[u8], order: &mut [u64], fates: &mut [u64]) -> Result<Plan, Refused> {
    if order.len() < 64 || fates.len() < 64 {
        return Err(refused(8, 0));
    }
    let table = naive::read(text)?;
    let answer = naive::plan(&table, table.budget);
    for (lent, numbers) in [(order, answer.order), (fates, answer.fates)] {
        lent.fill(0);
        lent[..numbers.len()].copy_from_slice(&numbers);
    }
    Ok(answer.plan)
}

/// Reading, and then planning with the text's own budget, answers as the one call does; they differ exactly where a
/// buffer is short and the text is refused, since the buffers are looked at after reading.
#[test]
fn reading_and_planning_answer_as_one_call() {
    println!("seed {SEED}");
    let mut counts = [[0; 2]; 2];
    for index in 0..40_000 {
        let whole = text_of_either_kind(index);
        let (order, fates) = generate::buffers(SEED, index);
        let (mut by_one, mut by_two) = ((order.clone(), fates.clone()), (order.clone(), fates.clone()));
        let one = plan_text(&whole, &mut by_one.0, &mut by_one.1);
        let read = read(&whole);
        let two = read.and_then(|table| plan(&table, table.budget, &mut by_two.0, &mut by_two.1));
        let short = order.len() < JOBS || fates.len() < JOBS;
        let shown = || format!("seed {SEED}, index {index}:\n{}", String::from_utf8_lossy(&whole));
        match read {
            Err(bad) if short => assert_eq!((one, two), (Err(refused(8, 0)), Err(bad)), "{}", shown()),
            _ => assert_eq!(one, two, "{}", shown()),
        }
        assert_eq!(by_one, by_two, "{}", shown());
        assert!(two.is_ok() || by_two == (order, fates), "{}", shown());
        counts[usize::from(short)][usize::from(read.is_err())] += 1;
    }
    println!("with room: {:?} good and refused texts; without: {:?}", counts[0], counts[1]);
    assert!(counts.iter().flatten().all(|count| *count > 1000), "{counts:?}");
}

/// What the reference and the naive one make of any table with a budget, which must be the same.
fn outcome(table: &Table, budget: u64) -> (Result<Plan, Refused>, Vec<u64>, Vec<u64>) {
    let (mut lent, mut other) = ((vec![77; JOBS], vec![77; JOBS]), (vec![77; JOBS], vec![77; JOBS]));
    let planned = plan(table, budget, &mut lent.0, &mut lent.1);
    assert_eq!(planned, naive::plan_into(table, budget, &mut other.0, &mut other.1));
    assert_eq!(lent, other);
    (planned, lent.0, lent.1)
}

/// Planning a table with a budget is planning the same table with that budget in its T line: where both are in range,
/// the table's own has no say.
#[test]
fn a_budget_beside_a_table_is_as_its_own() {
    println!("seed {SEED}");
    let (mut good, mut bad) = (0, 0);
    for index in 0..40_000 {
        let table = if index % 2 == 0 { generate::table(SEED, index) } else { generate::rough_table(SEED, index) };
        let budget = generate::budget_beside(&mut Random::new(SEED, !index), &table);
        if table.budget > MOST_BUDGET || budget > MOST_BUDGET {
            let refused = Err(refused(2, 1));
            assert_eq!(outcome(&table, budget).0, refused, "{}", shown_with_budget(index, &table, budget));
            continue;
        }
        let beside = outcome(&table, budget);
        let own = outcome(&Table { budget, ..table }, budget);
        assert_eq!(beside, own, "{}", shown_with_budget(index, &table, budget));
        *(if beside.0.is_ok() { &mut good } else { &mut bad }) += 1;
    }
    println!("{good} tables planned, {bad} refused");
    assert!(good > 10_000 && bad > 5_000, "{good} {bad}");
}

/// What makes a budget beside a table hard, and whether it does so.
fn hard_budgets(table: &Table, budget: u64) -> [(&'static str, bool); 8] {
    let order = |budget: u64| planned(table, budget.min(MOST_BUDGET)).order;
    let in_range = budget <= MOST_BUDGET;
    let (with, less, more) = (order(budget), order(budget.saturating_sub(1)), order(budget.saturating_add(1)));
    [
        ("out of range", !in_range),
        ("out of range by one", budget == MOST_BUDGET + 1),
        ("the greatest", budget == MOST_BUDGET),
        ("the table's own", budget == table.budget),
        ("another plan than with the table's own", in_range && with != order(table.budget)),
        ("another plan with a unit less", in_range && with != less),
        ("another plan with a unit more", in_range && with != more),
        ("a unit less plans a job that this does not", in_range && less.iter().any(|job| !with.contains(job))),
    ]
}

/// The generator comes to the budgets by which readings of document 02 are told apart.
#[test]
fn hard_budgets_are_among_the_generated() {
    println!("seed {SEED}");
    let mut counts = [0; 8];
    for index in 0..20_000 {
        let table = generate::table(SEED, index);
        let budget = generate::budget_beside(&mut Random::new(SEED, !index), &table);
        let hard = hard_budgets(&table, budget);
        counts.iter_mut().zip(hard).for_each(|(count, (_, is_so))| *count += u64::from(is_so));
    }
    println!("of 20000 tables with a budget beside them:");
    hard_budgets(&small(), 0).iter().zip(counts).for_each(|((name, _), count)| println!("{name}: {count}"));
    assert!(counts.iter().all(|count| *count > 100), "{counts:?}");
}

fn check_room(has_room: bool) -> Result<(), Refused> {
    has_room.then_some(()).ok_or(refused(8, 0))
}

fn check_budget(budget: u64) -> Result<(), Refused> {
    (budget <= MOST_BUDGET).then_some(()).ok_or(refused(2, 1))
}

fn check_records(table: &Table) -> Result<(), Refused> {
    naive::write(table).map(|_| ())
}

/// What a reading makes of a table, the budget beside it and whether there is room: the budget that is planned with, or
/// a refusal.
type Reading = fn(&Table, u64, bool) -> Result<u64, Refused>;

/// As document 02 has it: the room, then the budget, then the table as the writer checks it.
const AS_WRITTEN: Reading =
    |table, budget, has_room| check_room(has_room).and(check_budget(budget)).and(check_records(table)).and(Ok(budget));

/// How a call that plans can be misread, be it for the plan or for the rooms.
const PLANNING_MISREAD: [(&str, Reading); 8] = [
    ("the budget is checked before the room", |table, budget, has_room| {
        check_budget(budget).and(check_room(has_room)).and(check_records(table)).and(Ok(budget))
    }),
    ("the table is checked before the budget", |table, budget, has_room| {
        check_room(has_room).and(check_records(table)).and(check_budget(budget)).and(Ok(budget))
    }),
    ("the room is checked last", |table, budget, has_room| {
        check_budget(budget).and(check_records(table)).and(check_room(has_room)).and(Ok(budget))
    }),
    ("the table's own budget is taken", |table, budget, has_room| {
        AS_WRITTEN(table, budget, has_room).and(Ok(table.budget))
    }),
    ("the lesser budget is taken", |table, budget, has_room| {
        AS_WRITTEN(table, budget, has_room).and(Ok(budget.min(table.budget)))
    }),
    ("the table's own budget is not checked", |table, budget, has_room| {
        AS_WRITTEN(&Table { budget: 0, ..*table }, budget, has_room)
    }),
    ("the budget is not checked", |table, budget, has_room| {
        check_room(has_room).and(check_records(table)).and(Ok(budget))
    }),
    ("the budget is refused with line 0", |table, budget, has_room| {
        let budget_checked = check_budget(budget).map_err(|_| refused(2, 0));
        check_room(has_room).and(budget_checked).and(check_records(table)).and(Ok(budget))
    }),
];

/// Which misreadings answer a call that plans differently: with another refusal, or with what another budget gives.
fn planning_misread<Given: PartialEq>(
    (table, budget, one, other): (&Table, u64, &[u64], &[u64]),
    given: impl Fn(u64) -> Given,
) -> [bool; PLANNING_MISREAD.len()] {
    let has_room = one.len() >= JOBS && other.len() >= JOBS;
    let right = AS_WRITTEN(table, budget, has_room);
    PLANNING_MISREAD.map(|(_, misread)| match (right, misread(table, budget, has_room)) {
        (Ok(right), Ok(misread)) => right != misread && given(right) != given(misread),
        (right, misread) => right != misread,
    })
}

/// The listing that a reading gives for a text and the budget beside it.
type ListingRead = fn(&[u8], u64) -> Vec<u8>;

/// How the call that lists with a budget can be misread.
const LISTING_MISREAD: [(&str, ListingRead); 3] = [
    ("the listing is refused for the budget before the text", |text, budget| match check_budget(budget) {
        Ok(()) => naive::list_with_budget(text, budget),
        Err(_) => b"R\t2\t1\n".to_vec(),
    }),
    ("the listing is of the text's own budget", |text, budget| match check_budget(budget) {
        Ok(()) => naive::list(text),
        Err(_) => naive::list_with_budget(text, budget),
    }),
    ("the listing is refused for the budget with line 0", |text, budget| {
        match (naive::read(text), check_budget(budget)) {
            (Ok(_), Err(_)) => b"R\t2\t0\n".to_vec(),
            _ => naive::list_with_budget(text, budget),
        }
    }),
];

/// Which misreadings answer a call differently: of the call that plans, of the one for the rooms, of the one that lists.
#[derive(Default)]
struct FoundOut {
    plan: [bool; PLANNING_MISREAD.len()],
    rooms: [bool; PLANNING_MISREAD.len()],
    listing: [bool; LISTING_MISREAD.len()],
}

impl FoundOut {
    fn by(request: &Request) -> FoundOut {
        let none = FoundOut::default();
        match request {
            Request::Plan { table, budget, order, fates } => {
                let call = (&**table, *budget, &order[..], &fates[..]);
                FoundOut { plan: planning_misread(call, |budget| planned(table, budget)), ..none }
            }
            Request::Rooms { table, budget, turns, rooms } => {
                let call = (&**table, *budget, &turns[..], &rooms[..]);
                FoundOut { rooms: planning_misread(call, |budget| rooms_told(table, budget)), ..none }
            }
            Request::ListWithBudget { text, budget, out } => {
                let listed = |listing: Vec<u8>| (listing.len() <= out.len()).then_some(listing);
                let right = listed(naive::list_with_budget(text, *budget));
                FoundOut { listing: LISTING_MISREAD.map(|misread| listed(misread.1(text, *budget)) != right), ..none }
            }
            _ => none,
        }
    }

    fn all(&self) -> Vec<bool> {
        [&self.plan[..], &self.rooms, &self.listing].concat()
    }
}

/// The cases on which the library is compared tell each misreading of the budget from the right one.
#[test]
fn misreadings_of_the_budget_are_found_out() {
    println!("seed {SEED}");
    let mut counts = vec![0; FoundOut::default().all().len()];
    for index in 0..10_000 {
        let calls: Vec<_> = case(SEED, index).iter().map(|request| FoundOut::by(request).all()).collect();
        for (misreading, count) in counts.iter_mut().enumerate() {
            *count += u64::from(calls.iter().any(|found_out| found_out[misreading]));
        }
    }
    println!("of 10000 cases, another answer is given, to the call that plans, then to the one for the rooms, where");
    let planning = PLANNING_MISREAD.map(|misread| misread.0);
    let names = [&planning[..], &planning, &LISTING_MISREAD.map(|misread| misread.0)].concat();
    names.iter().zip(&counts).for_each(|(name, count)| println!("{name}: {count}"));
    assert!(counts.iter().all(|count| *count > 200), "{counts:?}");
}

// ---- Changes that must not change the plan ---------------------------------------------------------------------------

/// Nor do they change the rooms.
#[test]
fn changes_that_leave_the_plan() {
    println!("seed {SEED}");
    for index in 0..20_000 {
        let (table, budget) = table_and_budget(index);
        let (plan, rooms) = (planned(&table, budget), rooms_told(&table, budget));
        for change in changes(&mut Random::new(SEED, !index), &table, budget) {
            let mut out = [0; LONGEST_TEXT];
            let of = |table: &Table, budget| shown_with_budget(index / 2, table, budget);
            let changed = || of(&change.table, change.budget);
            let show = || format!("{}: {}changed: {}", change.what, of(&table, budget), changed());
            let good = write(&change.table, &mut out).is_ok() && change.budget <= MOST_BUDGET;
            assert!(good, "{} makes a bad table or budget", show());
            assert!(change.leaves(&table, &plan, &planned(&change.table, change.budget)), "{}", show());
            let changed_rooms = rooms_told(&change.table, change.budget);
            assert!(change.leaves_rooms(&table, &rooms, &changed_rooms), "{}", show());
        }
    }
}
