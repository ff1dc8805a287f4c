//! How much room is left, by the reference: against examples worked out by hand, against the plan's own entries, against
//! the naive implementation and against misreadings of document 02, on generated cases.

use cuddlelamb_check::compare::case;
use cuddlelamb_check::generate::{self, Random};
use cuddlelamb_check::library::Request;
use cuddlelamb_check::naive::{self, Entry, Outcome, RoomsAnswer, Turn};
use cuddlelamb_check::reference::{plan, read, rooms, write, Table, JOBS, LONGEST_TEXT, MOST_BUDGET};

/// Every generated case is made from this and an index.
const SEED: u64 = 20_250_105;

const CASE_S: &str = "T 0 2500000000 / F 500 700000 / F 1000 1000000 / J 1 1000 50 3000 3000 0 / \
    J 2 1000 90 2000 2000 1 / J 3 500 10 5000 5000 0 / J 4 2000 40 4000 4000 0 / J 5 3000 1 2500 2500 0 / H 1 3";

/// The table of lines that are written with spaces for tabs and parted by " / ".
fn table(lines: &str) -> Table {
    let text = format!("{}\n", lines.replace(" / ", "\n").replace(' ', "\t"));
    read(text.as_bytes()).expect("a good text")
}

/// The rooms by the reference, with the places after the rows checked to be 0.
fn told(table: &Table, budget: u64) -> RoomsAnswer {
    let (mut turns, mut left) = ([77; JOBS + 3], [77; JOBS]);
    let told = rooms(table, budget, &mut turns, &mut left).expect("a good table and budget");
    assert!(turns[told.turns..].iter().chain(&left[told.turns..]).all(|place| *place == 0));
    RoomsAnswer { turns: turns[..told.turns].to_vec(), rooms: left[..told.turns].to_vec(), room: told.room }
}

/// A case by its seed, its index and its text, as it is printed when it fails.
fn shown(index: u64, table: &Table, budget: u64) -> String {
    let text = generate::text_of(table);
    format!("budget {budget}, seed {SEED}, index {index}:\n{}", String::from_utf8_lossy(&text))
}

/// A generated table with its own budget, or with another one that is good.
fn table_and_budget(index: u64) -> (Table, u64) {
    let table = generate::table(SEED, index / 2);
    let beside = generate::budget_beside(&mut Random::new(SEED, !index), &table).min(MOST_BUDGET);
    (table, if index % 2 == 0 { table.budget } else { beside })
}

// ---- Worked out by hand ----------------------------------------------------------------------------------------------

/// Checks the rows, each a job and the room after its turn; the naive one must give them too.
fn assert_rows(lines: &str, budget: u64, rows: &[(u64, u64)]) {
    let answer = told(&table(lines), budget);
    let given: Vec<(u64, u64)> = answer.turns.iter().copied().zip(answer.rooms.iter().copied()).collect();
    assert_eq!(given, rows, "budget {budget}");
    assert_eq!(answer.room, rows.last().map_or(budget, |row| row.1), "budget {budget}");
    assert_eq!(answer, naive::rooms(&table(lines), budget), "budget {budget}");
}

/// The ratios are 100 / 1500 for job 2, which job 3 comes in with, 50 / 1000 for job 1, and 1 / 50 for jobs 3 and 4. With
/// a unit less than all three take, job 1 is dropped as well.
#[test]
fn case_s() {
    assert_rows(CASE_S, 2_500_000_000, &[(2, 1_000_000_000), (1, 0), (3, 0), (4, 0)]);
    assert_rows(CASE_S, 2_499_999_999, &[2, 1, 3, 4].map(|job| (job, 999_999_999)));
    assert_rows(CASE_S, 0, &[2, 1, 3, 4].map(|job| (job, 0)));
    let (first, last) = (MOST_BUDGET - 1_500_000_000, MOST_BUDGET - 2_500_000_000);
    assert_rows(CASE_S, MOST_BUDGET, &[(2, first), (1, last), (3, last), (4, last)]);
}

/// Before the first accepted job, and where there is none, it is the whole budget: without jobs, where the one job is
/// late alone, where the ring's weaker job is gone and the other costs too much, and where the one job has no worth.
#[test]
fn the_whole_budget() {
    let speeds = "F 500 700000 / F 1000 1000000";
    assert_rows(&format!("T 0 0 / {speeds}"), 7, &[]);
    assert_rows(&format!("T 0 0 / {speeds} / J 1 1000 1 999 999 0"), 7, &[]);
    let ring = "J 1 100 10 5000 5000 2 / J 2 100 10 5000 5000 1 / H 1 1 / H 2 2";
    assert_rows(&format!("T 0 0 / {speeds} / {ring}"), 99_999_999, &[(1, 99_999_999)]);
    assert_rows(&format!("T 0 0 / {speeds} / {ring}"), 100_000_001, &[(1, 1)]);
    assert_rows(&format!("T 0 0 / {speeds} / J 1 100 0 5000 5000 0"), 7, &[(1, 7)]);
}

/// The last F is neither the dearest nor the cheapest, and the plan runs at another.
#[test]
fn the_cost_is_that_of_the_last_speed() {
    let lines = "T 0 0 / F 500 9 / F 1000 6 / F 2000 7 / J 1 1000 1 2000 2000 0";
    assert_rows(lines, 10_000, &[(1, 3_000)]);
    assert_rows(lines, 7_000, &[(1, 0)]);
    assert_rows(lines, 6_999, &[(1, 6_999)]);
}

/// Job 2 comes first and brings job 3 in, which then is passed over; job 4 is alone; the chain of job 1 leaves job 2 and
/// moves job 3, at the same key, and only job 1's own cycles are more.
#[test]
fn a_moved_member_counts_once() {
    let lines = "T 0 0 / F 1000 1 / J 1 10 1 900 90000 1 / J 2 10 50 500 90000 2 / J 3 10 40 600 90000 0 / \
        J 4 10 35 500 90000 0 / H 1 2 / H 2 3";
    assert_rows(lines, 100, &[(2, 80), (3, 80), (4, 70), (1, 60)]);
    assert_rows(lines, 40, &[(2, 20), (3, 20), (4, 10), (1, 0)]);
    assert_rows(lines, 39, &[(2, 19), (3, 19), (4, 9), (1, 9)]);
}

/// With 42, job 1 finds room for all but one of its cycles, and job 3, which would bring it in, for all but two; with 45 job
/// 3 finds none for its own. Job 4 has ratio 0, and so its turn last.
#[test]
fn a_dropped_trial_leaves_the_room() {
    let lines = "T 0 0 / F 1000 3 / J 1 10 30 900 90000 0 / J 2 5 40 500 90000 0 / J 3 1 1 600 90000 1 / \
        J 4 1 0 500 90000 0 / H 1 1";
    assert_rows(lines, 42, &[(2, 27), (1, 27), (3, 27), (4, 27)]);
    assert_rows(lines, 45, &[(2, 30), (1, 0), (3, 0), (4, 0)]);
    assert_rows(lines, 48, &[(2, 33), (1, 3), (3, 0), (4, 0)]);
}

// ---- Against the plan's own entries, and against the naive one -------------------------------------------------------

/// The rooms are those of the plan that the other call gives: each job not taken out has its turn, the room is what all
/// entries leave at top cost, and it never rises from one turn to the next.
#[test]
fn rooms_are_of_the_plan() {
    println!("seed {SEED}");
    for index in 0..60_000 {
        let (table, budget) = table_and_budget(index);
        let (mut order, mut fates) = ([0; JOBS], [0; JOBS]);
        plan(&table, budget, &mut order, &mut fates).expect("a good table and budget");
        let answer = told(&table, budget);
        let jobs = &table.jobs[..table.job_count];
        let cycles: u64 = jobs.iter().filter(|job| order.contains(&job.number)).map(|job| job.cycles).sum();
        let room = budget - cycles * table.speeds[table.speed_count - 1].cost;
        let had_turn = jobs.iter().zip(fates).filter(|(_, fate)| ![2, 3].contains(fate)).map(|(job, _)| job.number);
        let mut turns = answer.turns.clone();
        turns.sort();
        assert!(had_turn.eq(turns), "{}", shown(index / 2, &table, budget));
        assert_eq!(answer.room, room, "{}", shown(index / 2, &table, budget));
        assert_eq!(answer.rooms.last().copied().unwrap_or(budget), room, "{}", shown(index / 2, &table, budget));
        assert!(answer.rooms.iter().rev().is_sorted(), "{}", shown(index / 2, &table, budget));
    }
}

#[test]
fn rooms_against_the_naive() {
    println!("seed {SEED}");
    let (mut most_turns, mut most_rooms) = (0, 0);
    for index in 0..60_000 {
        let (table, budget) = table_and_budget(index);
        let answer = told(&table, budget);
        assert_eq!(answer, naive::rooms(&table, budget), "{}", shown(index / 2, &table, budget));
        let mut different = answer.rooms.clone();
        different.dedup();
        (most_turns, most_rooms) = (most_turns.max(answer.turns.len()), most_rooms.max(different.len()));
    }
    println!("at most {most_turns} turns and {most_rooms} different rooms");
    assert_eq!((most_turns, most_rooms), (JOBS, JOBS));
}

/// What a table is refused with, its rooms are refused with too.
#[test]
fn rooms_of_rough_tables() {
    println!("seed {SEED}");
    let (mut good, mut bad) = (0, 0);
    for index in 0..40_000 {
        let table = generate::rough_table(SEED, index);
        let budget = generate::budget_beside(&mut Random::new(SEED, !index), &table).min(MOST_BUDGET);
        let (mut turns, mut left) = ([77; JOBS], [77; JOBS]);
        let answer = rooms(&table, budget, &mut turns, &mut left);
        assert_eq!(answer.err(), write(&table, &mut [0; LONGEST_TEXT]).err(), "{}", shown(index, &table, budget));
        assert!(answer.is_ok() || (turns, left) == ([77; JOBS], [77; JOBS]), "{}", shown(index, &table, budget));
        *(if answer.is_ok() { &mut good } else { &mut bad }) += 1;
    }
    println!("rooms of {good} rough tables told, of {bad} refused");
    assert!(good > 5_000 && bad > 5_000, "{good} {bad}");
}

// ---- Misreadings -----------------------------------------------------------------------------------------------------

/// The turns of a good table with a good budget beside it, from which a reading makes its rows.
struct Taken {
    table: Table,
    budget: u64,
    turns: Vec<Turn>,
}

/// What a reading answers: for each row the job and the room, and the room at the end. A misreading may come out below 0.
#[derive(Clone, Debug, PartialEq, Eq)]
struct Read {
    rows: Vec<(u64, i128)>,
    room: i128,
}

impl Taken {
    fn new(table: &Table, budget: u64) -> Taken {
        Taken { table: *table, budget, turns: naive::take_turns(table, budget) }
    }

    /// Whether a reading answers as the reference does.
    fn is_told(&self, Read { rows, room }: &Read) -> bool {
        let told = told(&self.table, self.budget);
        let (turns, rooms): (Vec<u64>, Vec<i128>) = rows.iter().copied().unzip();
        turns == told.turns
            && told.rooms.iter().map(|room| i128::from(*room)).eq(rooms)
            && i128::from(told.room) == *room
    }

    fn job_cycles(&self, number: u64) -> i128 {
        let job = self.table.jobs[..self.table.job_count].iter().find(|job| job.number == number);
        job.expect("the job is there").cycles.into()
    }

    /// The cycles of all these entries.
    fn cycles(&self, entries: &[Entry]) -> i128 {
        entries.iter().map(|entry| self.job_cycles(entry.job)).sum()
    }

    fn costs(&self) -> Vec<i128> {
        self.table.speeds[..self.table.speed_count].iter().map(|speed| speed.cost.into()).collect()
    }

    fn top_cost(&self) -> i128 {
        self.costs()[self.table.speed_count - 1]
    }

    /// The entries before each turn, and the turn.
    fn with_before(&self) -> impl Iterator<Item = (&[Entry], &Turn)> {
        let before = std::iter::once(&[][..]).chain(self.turns.iter().map(|turn| &turn.entries[..]));
        before.zip(&self.turns)
    }

    /// The rows of a total that each turn changes by so many cycles, given the entries before it.
    fn read(&self, cost: i128, change: impl Fn(&[Entry], &Turn) -> i128) -> Read {
        let mut room = i128::from(self.budget);
        let mut after = |before: &[Entry], turn: &Turn| {
            room -= change(before, turn) * cost;
            (turn.job, room)
        };
        let rows = self.with_before().map(|(before, turn)| after(before, turn)).collect();
        Read { rows, room }
    }

    /// As it is meant: a turn changes the total by what came into the plan.
    fn right(&self) -> Read {
        self.at_cost(self.top_cost())
    }

    fn at_cost(&self, cost: i128) -> Read {
        self.read(cost, |before, turn| self.cycles(&turn.entries) - self.cycles(before))
    }

    /// The right rows of the turns that a reading has rows for.
    fn of_turns(&self, has_row: impl Fn(&Turn) -> bool) -> Read {
        let Read { rows, room } = self.right();
        Read {
            rows: rows.into_iter().zip(&self.turns).filter(|(_, turn)| has_row(turn)).map(|row| row.0).collect(),
            room,
        }
    }

    /// The right rows behind those of the jobs with this fate, which have no turn.
    fn with_rows_of_fate(&self, fate: u64) -> Read {
        let Read { rows, room } = self.right();
        let fates = naive::plan(&self.table, self.budget).fates;
        let others = self.table.jobs.iter().zip(fates).filter(|(_, other)| *other == fate);
        let before = others.map(|(job, _)| (job.number, i128::from(self.budget)));
        Read { rows: before.chain(rows).collect(), room }
    }
}

fn is_accepted(turn: &Turn) -> bool {
    matches!(turn.outcome, Outcome::Accepted { .. })
}

fn is_dropped(turn: &Turn) -> bool {
    matches!(turn.outcome, Outcome::OutOfTime { .. } | Outcome::OutOfBudget { .. })
}

/// The cycles by which a dropped trial is more than the plan, where it was dropped for this reason.
fn dropped(taken: &Taken, before: &[Entry], turn: &Turn, for_time: bool) -> i128 {
    match &turn.outcome {
        Outcome::OutOfTime { trial } if for_time => taken.cycles(trial) - taken.cycles(before),
        Outcome::OutOfBudget { trial } if !for_time => taken.cycles(trial) - taken.cycles(before),
        _ => 0,
    }
}

/// The entries of the plan to which a trial gives another key.
fn moved(before: &[Entry], trial: &[Entry]) -> Vec<Entry> {
    before.iter().filter(|entry| !trial.contains(entry)).copied().collect()
}

/// The room after each turn, but for a total to which a turn adds more than came into the plan.
fn with_more(taken: &Taken, more: impl Fn(&[Entry], &Turn) -> i128) -> Read {
    taken.read(taken.top_cost(), |before, turn| taken.cycles(&turn.entries) - taken.cycles(before) + more(before, turn))
}

/// What a reading makes of the turns.
type Reading = fn(&Taken) -> Read;

/// How A2 can be misread.
const MISREADINGS: [(&str, Reading); 24] = [
    ("a trial dropped for time counts on", |taken| with_more(taken, |before, turn| dropped(taken, before, turn, true))),
    ("a trial dropped for the budget counts on", |taken| {
        with_more(taken, |before, turn| dropped(taken, before, turn, false))
    }),
    ("the room is told before a dropped trial is undone", |taken| {
        let Read { rows, room } = taken.right();
        let of_trial = |(before, turn)| dropped(taken, before, turn, true) + dropped(taken, before, turn, false);
        let more = taken.with_before().map(of_trial);
        Read { rows: rows.iter().zip(more).map(|(row, more)| (row.0, row.1 - more * taken.top_cost())).collect(), room }
    }),
    ("a moved member counts twice", |taken| {
        with_more(taken, |before, turn| taken.cycles(&moved(before, &turn.entries)))
    }),
    ("a moved member is not counted any more", |taken| {
        with_more(taken, |before, turn| -taken.cycles(&moved(before, &turn.entries)))
    }),
    ("a job passed over counts again", |taken| {
        let is_passed_over = |turn: &Turn| turn.outcome == Outcome::PassedOver;
        with_more(taken, |_, turn| taken.job_cycles(turn.job) * i128::from(is_passed_over(turn)))
    }),
    ("members that come in with a job do not count", |taken| {
        taken.read(taken.top_cost(), |_, turn| taken.job_cycles(turn.job) * i128::from(is_accepted(turn)))
    }),
    ("the first accepted job does not count", |taken| {
        let is_first = |before: &[Entry], turn: &Turn| before.is_empty() && !turn.entries.is_empty();
        with_more(taken, |before, turn| -taken.job_cycles(turn.job) * i128::from(is_first(before, turn)))
    }),
    ("the first entry does not count", |taken| {
        let behind = |entries: &[Entry]| taken.cycles(entries.get(1..).unwrap_or(&[]));
        taken.read(taken.top_cost(), |before, turn| behind(&turn.entries) - behind(before))
    }),
    ("the first cost is taken", |taken| taken.at_cost(taken.costs()[0])),
    ("the highest cost is taken", |taken| taken.at_cost(taken.costs().into_iter().max().expect("a speed"))),
    ("the least cost is taken", |taken| taken.at_cost(taken.costs().into_iter().min().expect("a speed"))),
    ("the cost of the chosen speed is taken", |taken| {
        let chosen = naive::plan(&taken.table, taken.budget).plan.speed;
        let speed = taken.table.speeds.iter().position(|speed| speed.mhz == chosen).expect("a speed of the table");
        taken.at_cost(taken.costs()[speed])
    }),
    ("the room is told before the turn", |taken| {
        let Read { rows, room } = taken.right();
        let before = std::iter::once(taken.budget.into()).chain(rows.iter().map(|row| row.1));
        Read { rows: rows.iter().zip(before).map(|(row, before)| (row.0, before)).collect(), room }
    }),
    ("every row has the room at the end", |taken| {
        let Read { rows, room } = taken.right();
        Read { rows: rows.iter().map(|row| (row.0, room)).collect(), room }
    }),
    ("there is no room where there is no turn", |taken| {
        let Read { rows, .. } = taken.right();
        Read { room: rows.last().map_or(0, |row| row.1), rows }
    }),
    ("a job passed over has no row", |taken| taken.of_turns(|turn| turn.outcome != Outcome::PassedOver)),
    ("a job of ratio 0 has no row", |taken| taken.of_turns(|turn| turn.outcome != Outcome::NoRatio)),
    ("only accepted jobs have rows", |taken| taken.of_turns(is_accepted)),
    ("the rows are in the order of the table", |taken| {
        let Read { mut rows, room } = taken.right();
        rows.sort();
        Read { rows, room }
    }),
    ("late jobs have rows", |taken| taken.with_rows_of_fate(2)),
    ("jobs taken out of rings have rows", |taken| taken.with_rows_of_fate(3)),
    ("the table's own budget is planned with", |taken| Taken::new(&taken.table, taken.table.budget).right()),
    ("the room is of the table's own budget", |taken| {
        Taken { budget: taken.table.budget, turns: taken.turns.clone(), table: taken.table }.right()
    }),
];

/// The good calls for rooms of a case on which the library is compared.
fn good_calls(index: u64) -> impl Iterator<Item = (Table, u64)> {
    case(SEED, index).into_iter().filter_map(|request| match request {
        Request::Rooms { table, budget, mut turns, rooms: mut left } => {
            rooms(&table, budget, &mut turns, &mut left).ok().map(|_| (*table, budget))
        }
        _ => None,
    })
}

/// The cases on which the library is compared tell each misreading from the right one.
#[test]
fn misreadings_are_found_out() {
    println!("seed {SEED}");
    let mut counts = [0; MISREADINGS.len()];
    for index in 0..5_000 {
        let mut found_out = [false; MISREADINGS.len()];
        for (table, budget) in good_calls(index) {
            let taken = Taken::new(&table, budget);
            let right = taken.right();
            assert!(taken.is_told(&right), "{}", shown(index, &table, budget));
            for (found, (_, misread)) in found_out.iter_mut().zip(MISREADINGS) {
                *found |= misread(&taken) != right;
            }
        }
        counts.iter_mut().zip(found_out).for_each(|(count, found)| *count += u64::from(found));
    }
    println!("of 5000 cases, another answer is given where");
    MISREADINGS.iter().zip(counts).for_each(|((name, _), count)| println!("{name}: {count}"));
    assert!(counts.iter().all(|count| *count > 200), "{counts:?}");
}

// ---- Hard shapes -----------------------------------------------------------------------------------------------------

/// The units by which a trial is beyond the budget at top cost, where it was dropped for that.
fn beyond(taken: &Taken, turn: &Turn) -> Option<i128> {
    match &turn.outcome {
        Outcome::OutOfBudget { trial } => Some(taken.cycles(trial) * taken.top_cost() - i128::from(taken.budget)),
        _ => None,
    }
}

fn moves(before: &[Entry], trial: &[Entry]) -> bool {
    !moved(before, trial).is_empty()
}

/// Whether another comes in with the job.
fn brings(before: &[Entry], turn: &Turn) -> bool {
    turn.entries.len() > before.len() + 1
}

/// What makes the turns hard, and whether it does so.
fn hard_turns(taken: &Taken) -> [(&'static str, bool); 14] {
    let turn = |wanted: fn(&Outcome) -> bool| taken.turns.iter().any(|turn| wanted(&turn.outcome));
    let trial = |wanted: fn(&[Entry], &Turn) -> bool| taken.with_before().any(|(before, turn)| wanted(before, turn));
    let after = |first: fn(&Turn) -> bool, second: fn(&Turn) -> bool| {
        taken.turns.iter().position(first).is_some_and(|at| taken.turns[at + 1..].iter().any(second))
    };
    let late_moves =
        |before: &[Entry], turn: &Turn| matches!(&turn.outcome, Outcome::OutOfTime { trial } if moves(before, trial));
    let dear_moves =
        |before: &[Entry], turn: &Turn| matches!(&turn.outcome, Outcome::OutOfBudget { trial } if moves(before, trial));
    let planned = |job: u64| taken.turns.last().is_some_and(|last| last.entries.iter().any(|entry| entry.job == job));
    let no_ratio = |turn: &Turn| turn.outcome == Outcome::NoRatio;
    [
        ("a trial dropped for time", turn(|outcome| matches!(outcome, Outcome::OutOfTime { .. }))),
        ("a trial dropped for the budget", turn(|outcome| matches!(outcome, Outcome::OutOfBudget { .. }))),
        ("a trial accepted after a dropped one", after(is_dropped, is_accepted)),
        ("a trial dropped after an accepted one", after(is_accepted, is_dropped)),
        ("an accepted trial moves a member", trial(|before, turn| moves(before, &turn.entries))),
        ("it brings in another too", trial(|before, turn| moves(before, &turn.entries) && brings(before, turn))),
        ("a trial dropped for time moves a member", trial(late_moves)),
        ("a trial dropped for the budget moves a member", trial(dear_moves)),
        ("a job comes in with another's chain", trial(brings)),
        ("it is one whose own trial was dropped", taken.turns.iter().any(|turn| is_dropped(turn) && planned(turn.job))),
        ("a job is passed over", turn(|outcome| *outcome == Outcome::PassedOver)),
        ("a job has ratio 0", turn(|outcome| *outcome == Outcome::NoRatio)),
        ("one of ratio 0 is passed over", after(no_ratio, |turn| turn.outcome == Outcome::PassedOver)),
        ("one has ratio 0 after a dropped trial", after(is_dropped, no_ratio)),
    ]
}

/// What makes the room hard, and whether it does so.
fn hard_rooms(taken: &Taken) -> [(&'static str, bool); 14] {
    let Read { rows, room } = taken.right();
    let (costs, top) = (taken.costs(), taken.top_cost());
    let jobs = taken.table.job_count;
    let is_planned = room < i128::from(taken.budget);
    let misses = |by: i128| taken.turns.iter().any(|turn| beyond(taken, turn) == Some(by));
    let middle = costs.iter().any(|cost| *cost > top) && costs.iter().any(|cost| *cost < top);
    [
        ("the last F is neither the dearest nor the cheapest", is_planned && middle),
        ("it is the dearest", is_planned && costs[..costs.len() - 1].iter().any(|cost| *cost < top) && !middle),
        ("it is the cheapest", is_planned && costs[..costs.len() - 1].iter().any(|cost| *cost > top) && !middle),
        ("the room is 0 at the end", is_planned && room == 0),
        ("it is 0 before the last turn", is_planned && rows.iter().rev().skip(1).any(|row| row.1 == 0)),
        ("it is one unit", is_planned && room == 1),
        ("it is a unit less than a cycle's cost", is_planned && top > 2 && room == top - 1),
        ("a trial is a cycle's cost beyond it", misses(top)),
        ("a trial is a unit beyond it", misses(1)),
        ("the budget is 0", taken.budget == 0 && !rows.is_empty()),
        ("no jobs at all", jobs == 0),
        ("jobs, but no turn", jobs > 0 && rows.is_empty()),
        ("64 turns", rows.len() == JOBS),
        ("64 jobs, and some without a turn", jobs == JOBS && !rows.is_empty() && rows.len() < JOBS),
    ]
}

/// The cases on which the library is compared come to what is hard about turns and rooms.
#[test]
fn hard_shapes_are_among_the_generated() {
    println!("seed {SEED}");
    let shapes = |taken: &Taken| [hard_turns(taken), hard_rooms(taken)].concat();
    let names = shapes(&Taken::new(&table(CASE_S), 0)).into_iter().map(|shape| shape.0);
    let mut counts = vec![0; names.len()];
    for index in 0..5_000 {
        for (table, budget) in good_calls(index) {
            let found = shapes(&Taken::new(&table, budget));
            counts.iter_mut().zip(found).for_each(|(count, (_, is_so))| *count += u64::from(is_so));
        }
    }
    println!("of the calls for rooms of 5000 cases:");
    names.zip(&counts).for_each(|(name, count)| println!("{name}: {count}"));
    assert!(counts.iter().all(|count| *count > 50), "{counts:?}");
}

/// What makes the lent buffers hard, and whether it does so; the turns are those of a good table with a good budget.
fn hard_buffers(turns: usize, rooms: usize, needed: Option<usize>) -> [(&'static str, bool); 7] {
    let short = turns < JOBS || rooms < JOBS;
    [
        ("the turn buffer alone is too small", turns < JOBS && rooms >= JOBS),
        ("the room buffer alone is too small", rooms < JOBS && turns >= JOBS),
        ("both are", turns < JOBS && rooms < JOBS),
        ("too small, but as long as there are turns", short && needed.is_some_and(|count| count <= turns.min(rooms))),
        ("the turn buffer is longer than 64 places", !short && needed.is_some() && turns > JOBS),
        ("the room buffer is longer than 64 places", !short && needed.is_some() && rooms > JOBS),
        ("there is just room for every turn", (turns, rooms, needed) == (JOBS, JOBS, Some(JOBS))),
    ]
}

/// The cases on which the library is compared come to what is hard about buffers, each full of anything.
#[test]
fn hard_buffers_are_among_the_generated() {
    println!("seed {SEED}");
    let mut counts = [0; 7];
    for request in (0..5_000).flat_map(|index| case(SEED, index)) {
        if let Request::Rooms { table, budget, turns, rooms: left } = request {
            let needed = rooms(&table, budget, &mut [0; JOBS], &mut [0; JOBS]).ok().map(|told| told.turns);
            let found = hard_buffers(turns.len(), left.len(), needed);
            counts.iter_mut().zip(found).for_each(|(count, (_, is_so))| *count += u64::from(is_so));
        }
    }
    println!("of the calls for rooms of 5000 cases:");
    hard_buffers(0, 0, None).iter().zip(counts).for_each(|((name, _), count)| println!("{name}: {count}"));
    assert!(counts.iter().all(|count| *count > 50), "{counts:?}");
}
