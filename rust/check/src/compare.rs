//! The library held against the reference, or against the naive one, and the reference against the naive one: the same
//! calls to both, and everything that comes back compared, the lent buffers place by place.

use crate::generate::{self, Random};
use crate::library::{Answer, Request, Told};
use crate::naive;
use crate::reference::{
    self, Plan, Refused, Rooms, Table, LONGEST_LISTING, LONGEST_TEXT, MOST_ASSURANCE, MOST_MEAN, MOST_VARIANCE,
};
use crate::Library;

/// How many cases are put to the library at once.
const BATCH: u64 = 64;

/// What was compared: cases, calls, and how many answers had each number, 0 for none refused.
#[derive(Clone, Debug, Default, PartialEq, Eq)]
pub struct Tally {
    pub cases: u64,
    pub calls: u64,
    pub numbers: [u64; 11],
}

impl Tally {
    pub fn add(&mut self, other: &Tally) {
        self.cases += other.cases;
        self.calls += other.calls;
        self.numbers.iter_mut().zip(other.numbers).for_each(|(number, more)| *number += more);
    }
}

/// What the library is held against: `by_reference` or `by_naive`.
pub type Expected = fn(&Request) -> Answer;

/// What the reference answers.
pub fn by_reference(request: &Request) -> Answer {
    match request {
        Request::Read { text } => Answer::Table { told: Box::new(Told::of(reference::read(text), Table::EMPTY)) },
        Request::Plan { table, budget, order, fates } => {
            plan_answer(order, fates, |order, fates| reference::plan(table, *budget, order, fates))
        }
        Request::Rooms { table, budget, turns, rooms } => {
            rooms_answer(turns, rooms, |turns, rooms| reference::rooms(table, *budget, turns, rooms))
        }
        Request::List { text, out } => text_answer(out, |out| reference::list(text, out)),
        Request::ListWithBudget { text, budget, out } => {
            text_answer(out, |out| reference::list_with_budget(text, *budget, out))
        }
        Request::Write { table, out } => text_answer(out, |out| reference::write(table, out)),
        Request::Allocate { mean, variance, assurance } => {
            Answer::Cycles { told: Told::of(reference::allocate(*mean, *variance, *assurance), 0) }
        }
        Request::Costs { model } => Answer::Costs { told: Told::of(reference::costs(*model), [0; 7]) },
    }
}

/// What the naive one answers.
pub fn by_naive(request: &Request) -> Answer {
    match request {
        Request::Read { text } => Answer::Table { told: Box::new(Told::of(naive::read(text), Table::EMPTY)) },
        Request::Plan { table, budget, order, fates } => {
            plan_answer(order, fates, |order, fates| naive::plan_into(table, *budget, order, fates))
        }
        Request::Rooms { table, budget, turns, rooms } => {
            rooms_answer(turns, rooms, |turns, rooms| naive::rooms_into(table, *budget, turns, rooms))
        }
        Request::List { text, out } => text_answer(out, |out| naive::write_into(&naive::list(text), out)),
        Request::ListWithBudget { text, budget, out } => {
            text_answer(out, |out| naive::write_into(&naive::list_with_budget(text, *budget), out))
        }
        Request::Write { table, out } => {
            text_answer(out, |out| naive::write(table).and_then(|text| naive::write_into(&text, out)))
        }
        Request::Allocate { mean, variance, assurance } => {
            Answer::Cycles { told: Told::of(naive::allocate(*mean, *variance, *assurance), 0) }
        }
        Request::Costs { model } => Answer::Costs { told: Told::of(naive::costs(*model), [0; 7]) },
    }
}

/// What a call answers that plans into copies of these buffers.
fn plan_answer(
    order: &[u64],
    fates: &[u64],
    call: impl FnOnce(&mut [u64], &mut [u64]) -> Result<Plan, Refused>,
) -> Answer {
    let (mut order, mut fates) = (order.to_vec(), fates.to_vec());
    let told = Told::of(call(&mut order, &mut fates), Plan::default());
    Answer::Plan { told, order, fates }
}

/// What a call answers that tells the rooms into copies of these buffers.
fn rooms_answer(
    turns: &[u64],
    rooms: &[u64],
    call: impl FnOnce(&mut [u64], &mut [u64]) -> Result<Rooms, Refused>,
) -> Answer {
    let (mut turns, mut rooms) = (turns.to_vec(), rooms.to_vec());
    let told = Told::of(call(&mut turns, &mut rooms), Rooms::default());
    Answer::Rooms { told, turns, rooms }
}

/// What a call answers that writes into a copy of this buffer.
fn text_answer(out: &[u8], call: impl FnOnce(&mut [u8]) -> Result<usize, Refused>) -> Answer {
    let mut out = out.to_vec();
    let told = Told::of(call(&mut out), 0);
    Answer::Text { told, out }
}

/// Compares the library on the cases from one index up to another; a difference is given as it is to be printed.
pub fn cases(library: &mut Library, expected: Expected, seed: u64, from: u64, to: u64) -> Result<Tally, String> {
    compare_cases(|requests| library.answers(requests), expected, seed, from, to)
}

/// The same with the reference in the library's place, held against the naive one.
pub fn cases_of_reference(seed: u64, from: u64, to: u64) -> Result<Tally, String> {
    compare_cases(|requests| requests.iter().map(by_reference).collect(), by_naive, seed, from, to)
}

fn compare_cases(
    mut given: impl FnMut(&[Request]) -> Vec<Answer>,
    expected: Expected,
    seed: u64,
    from: u64,
    to: u64,
) -> Result<Tally, String> {
    let mut tally = Tally::default();
    for first in (from..to).step_by(BATCH as usize) {
        let batch = first..to.min(first + BATCH);
        let calls: Vec<(u64, Request)> =
            batch.flat_map(|index| case(seed, index).into_iter().map(move |request| (index, request))).collect();
        let (indices, requests): (Vec<u64>, Vec<Request>) = calls.into_iter().unzip();
        let told = compare_answers(&requests, given(&requests), expected)
            .map_err(|(at, difference)| format!("seed {seed}, index {}: {difference}", indices[at]))?;
        tally.add(&Tally { cases: to.min(first + BATCH) - first, ..told });
    }
    Ok(tally)
}

/// Compares the library on any requests; a difference is given with the place of its request.
pub fn requests_of(library: &mut Library, expected: Expected, requests: &[Request]) -> Result<Tally, (usize, String)> {
    compare_answers(requests, library.answers(requests), expected)
}

fn compare_answers(requests: &[Request], given: Vec<Answer>, expected: Expected) -> Result<Tally, (usize, String)> {
    let mut tally = Tally::default();
    for (at, (request, given)) in requests.iter().zip(given).enumerate() {
        let expected = expected(request);
        if given != expected {
            return Err((at, difference(request, &expected, &given)));
        }
        tally.calls += 1;
        tally.numbers[given.number() as usize] += 1;
    }
    Ok(tally)
}

/// The calls of one case. A valid text is read and listed, and its table planned with its own budget and with others, and
/// written. A damaged text is read and listed, and what came of it planned, which is the table without records where the
/// text is refused. A rough table is planned and written. Whatever is planned, with budgets and buffers of the same kinds
/// its rooms are asked too. An allocation and the costs of a model are asked.
pub fn case(seed: u64, index: u64) -> Vec<Request> {
    let random = &mut Random::new(seed, index ^ 1 << 63);
    let table = generate::table(seed, index);
    let text = generate::text_of(&table);
    let damaged = generate::damaged_text(seed, index);
    let read = reference::read(&damaged).unwrap_or(Table::EMPTY);
    let rough = generate::rough_table(seed, index);
    vec![
        Request::Read { text: text.clone() },
        planning(&table, table.budget, filled_buffers(random)),
        with_budget(random, &table, true, planning),
        with_budget(random, &table, false, planning),
        rooms(&table, table.budget, filled_buffers(random)),
        with_budget(random, &table, true, rooms),
        with_budget(random, &table, false, rooms),
        listing(random, &text),
        listing_with_budget(random, &text, &table),
        writing(random, &table),
        Request::Read { text: damaged.clone() },
        with_budget(random, &read, false, planning),
        with_budget(random, &read, false, rooms),
        listing(random, &damaged),
        listing_with_budget(random, &damaged, &read),
        with_budget(random, &rough, true, planning),
        with_budget(random, &rough, false, planning),
        with_budget(random, &rough, true, rooms),
        with_budget(random, &rough, false, rooms),
        writing(random, &rough),
        allocation(random),
        Request::Costs { model: if random.chance(80) { random.below(6) } else { random.number() } },
    ]
}

/// Two lent buffers of places.
type Buffers = (Vec<u64>, Vec<u64>);

fn planning(table: &Table, budget: u64, (order, fates): Buffers) -> Request {
    Request::Plan { table: Box::new(*table), budget, order, fates }
}

fn rooms(table: &Table, budget: u64, (turns, rooms): Buffers) -> Request {
    Request::Rooms { table: Box::new(*table), budget, turns, rooms }
}

/// A call that plans any table with a budget beside it, into buffers with room or into any.
fn with_budget(
    random: &mut Random,
    table: &Table,
    with_room: bool,
    call: impl FnOnce(&Table, u64, Buffers) -> Request,
) -> Request {
    let budget = generate::budget_beside(random, table);
    let buffers = if with_room { filled_buffers(random) } else { generate::buffers(random.number(), random.number()) };
    call(table, budget, buffers)
}

/// Two buffers that are long enough, full of anything.
fn filled_buffers(random: &mut Random) -> Buffers {
    let (one, other) = (random.one_of(&[64, 64, 65, 100]), random.one_of(&[64, 64, 65, 100]));
    let mut filled = |length: u64| (0..length).map(|_| random.number()).collect();
    (filled(one), filled(other))
}

/// A buffer full of anything for a text of this length: as long, longer, shorter, or empty.
fn room(random: &mut Random, needed: usize, longest: usize) -> Vec<u8> {
    let length = match random.below(8) {
        0 => needed.saturating_sub(1),
        1 => needed + 1,
        2 => random.below(needed as u64 + 1) as usize,
        3 => longest,
        4 => random.one_of(&[0, 1, longest + 1000]),
        _ => needed,
    };
    let anything = random.number().to_le_bytes();
    anything.into_iter().cycle().take(length).collect()
}

pub fn listing(random: &mut Random, text: &[u8]) -> Request {
    let needed = reference::list(text, &mut [0; LONGEST_LISTING]).unwrap_or(LONGEST_LISTING);
    Request::List { text: text.to_vec(), out: room(random, needed, LONGEST_LISTING) }
}

/// The listing of a text with a budget beside the table that was read from it.
fn listing_with_budget(random: &mut Random, text: &[u8], read: &Table) -> Request {
    let budget = generate::budget_beside(random, read);
    let needed = reference::list_with_budget(text, budget, &mut [0; LONGEST_LISTING]).unwrap_or(LONGEST_LISTING);
    Request::ListWithBudget { text: text.to_vec(), budget, out: room(random, needed, LONGEST_LISTING) }
}

pub fn writing(random: &mut Random, table: &Table) -> Request {
    let needed = reference::write(table, &mut [0; LONGEST_TEXT]).unwrap_or(LONGEST_TEXT);
    Request::Write { table: Box::new(*table), out: room(random, needed, LONGEST_TEXT) }
}

/// An allocation inside the ranges, at their ends or outside.
pub fn allocation(random: &mut Random) -> Request {
    let mut number = |most: u64| match random.below(8) {
        0 => most,
        1 => most + 1,
        2 => 0,
        3 => random.number(),
        4 => random.below(10),
        5 => random.below(most / 1000 + 1),
        _ => random.below(most + 1),
    };
    Request::Allocate { mean: number(MOST_MEAN), variance: number(MOST_VARIANCE), assurance: number(MOST_ASSURANCE) }
}

/// A request with both answers, the table as its text.
fn difference(request: &Request, expected: &Answer, given: &Answer) -> String {
    let call = match request {
        Request::Read { text } => format!("read\n{}", String::from_utf8_lossy(text)),
        Request::Plan { table, budget, order, fates } => {
            let places = (order.len(), fates.len());
            format!("plan with budget {budget} into {places:?} places, {}", shown(table))
        }
        Request::Rooms { table, budget, turns, rooms } => {
            let places = (turns.len(), rooms.len());
            format!("rooms with budget {budget} into {places:?} places, {}", shown(table))
        }
        Request::List { text, out } => format!("list into {} bytes\n{}", out.len(), String::from_utf8_lossy(text)),
        Request::ListWithBudget { text, budget, out } => {
            format!("list with budget {budget} into {} bytes\n{}", out.len(), String::from_utf8_lossy(text))
        }
        Request::Write { table, out } => format!("write into {} bytes, {}", out.len(), shown(table)),
        other => format!("{other:?}\n"),
    };
    format!("{call}expected: {expected:?}\ngiven:    {given:?}")
}

/// A table by its counts and the text of the records in their places.
fn shown(table: &Table) -> String {
    let counts = (table.speed_count, table.job_count, table.hold_count);
    format!("counts {counts:?}\n{}", String::from_utf8_lossy(&generate::text_of(table)))
}
