//! A trial by what it changes, as A4 of document 02 asks for it: the changes are noted from keys alone, the new order is
//! judged by deadlines in cycles and by what is kept of the plan, and only then anything moves. The right reading gives the
//! naive one's plan after every turn; each of the misreadings is told from it by generated tables, and by one at least of
//! the tables that the program `sheet` runs.

use std::collections::BTreeMap;
use std::fs;

use cuddlelamb_check::generate;
use cuddlelamb_check::naive::{self, Entry};
use cuddlelamb_check::reference::{read, Job, Table};

/// Every generated table is made from this and an index.
const SEED: u64 = 20_250_119;

#[derive(Clone, Copy, Debug, PartialEq, Eq)]
enum Reading {
    Right,
    LatestsNotRenewedAfterAMove,
    EntryBehindTheChangesNotLookedAt,
    ChangeBehindAnEqualKey,
    MovedMemberCountedWhereItStood,
    DeadlineRoundedUp,
}

const MISREADINGS: [Reading; 5] = [
    Reading::LatestsNotRenewedAfterAMove,
    Reading::EntryBehindTheChangesNotLookedAt,
    Reading::ChangeBehindAnEqualKey,
    Reading::MovedMemberCountedWhereItStood,
    Reading::DeadlineRoundedUp,
];

/// The plan of a table, turn by turn, and the latest beginning of each entry, by its job.
struct Planner<'a> {
    reading: Reading,
    table: &'a Table,
    remaining: Vec<u64>,
    plan: Vec<Entry>,
    latest: BTreeMap<u64, u64>,
}

impl Planner<'_> {
    fn job(&self, number: u64) -> &Job {
        self.table.jobs.iter().find(|job| job.number == number).expect("a job of the table")
    }

    fn cycles(&self, entry: &Entry) -> u64 {
        self.job(entry.job).cycles
    }

    /// The cycles that can have run by a job's termination.
    fn deadline(&self, entry: &Entry) -> u64 {
        let top = self.table.speeds[self.table.speed_count - 1].mhz;
        let thousandths = self.job(entry.job).termination.saturating_sub(self.table.clock) * top;
        match self.reading {
            Reading::DeadlineRoundedUp => thousandths.div_ceil(1000),
            _ => thousandths / 1000,
        }
    }

    fn chain(&self, number: u64) -> Vec<u64> {
        let holds = &self.table.holds[..self.table.hold_count];
        let mut chain = vec![number];
        while let Some(hold) = holds.iter().find(|hold| hold.resource == self.job(chain[chain.len() - 1]).request) {
            if !self.remaining.contains(&hold.holder) {
                break;
            }
            chain.push(hold.holder);
        }
        chain
    }

    /// Whether the chain, run alone from the far end on, gives anything.
    fn gives(&self, chain: &[u64]) -> bool {
        let top = self.table.speeds[self.table.speed_count - 1].mhz;
        let mut cycles = 0;
        chain.iter().rev().any(|number| {
            let job = self.job(*number);
            cycles += job.cycles;
            job.worth > 0 && self.table.clock * top + cycles * 1000 <= job.termination * top
        })
    }

    fn key_of(&self, number: u64) -> Option<u64> {
        self.plan.iter().find(|entry| entry.job == number).map(|entry| entry.key)
    }

    /// Step 6 from keys alone: the entries that come in or move, in the order of the chain.
    fn changes(&self, chain: &[u64]) -> Vec<Entry> {
        let mut limit = self.job(chain[0]).critical;
        let mut changes = vec![Entry { job: chain[0], key: limit }];
        for &member in &chain[1..] {
            match self.key_of(member) {
                Some(key) if key < limit => {
                    limit = key;
                    continue;
                }
                Some(_) => {}
                None => limit = limit.min(self.job(member).critical),
            }
            changes.push(Entry { job: member, key: limit });
        }
        changes
    }

    /// The new order: the changes, far end first, merged with the entries that stay.
    fn merged(&self, changes: &[Entry]) -> Vec<Entry> {
        let behind_equals = self.reading == Reading::ChangeBehindAnEqualKey;
        let mut staying = self.plan.iter().filter(|entry| !names(changes, entry.job)).peekable();
        let mut order = Vec::new();
        for change in changes.iter().rev() {
            let comes_first = |entry: &&Entry| entry.key < change.key || behind_equals && entry.key == change.key;
            while let Some(entry) = staying.next_if(comes_first) {
                order.push(*entry);
            }
            order.push(*change);
        }
        order.extend(staying);
        order
    }

    /// The cycles of the members that move and stood before an entry of the plan, or of all.
    fn moved_before(&self, changes: &[Entry], entry: Option<&Entry>) -> u64 {
        let stood_before = self.plan.iter().take_while(|stood| entry.is_none_or(|entry| entry.job != stood.job));
        stood_before.filter(|stood| names(changes, stood.job)).map(|stood| self.cycles(stood)).sum()
    }

    /// Step 7's time: what is before the end of the last change, or of the last entry that moves away, is run through; what is
    /// behind is one comparison.
    fn ends_in_time(&self, changes: &[Entry], order: &[Entry]) -> bool {
        let twice = self.reading == Reading::MovedMemberCountedWhereItStood;
        let stays = |(new, old): &(&Entry, &Entry)| new == old && !names(changes, new.job);
        let behind = order.iter().rev().zip(self.plan.iter().rev()).take_while(stays).count();
        let (front, back) = order.split_at(order.len() - behind);
        let mut run = 0;
        for entry in front {
            run += self.cycles(entry);
            let again = if twice && !names(changes, entry.job) { self.moved_before(changes, Some(entry)) } else { 0 };
            if self.deadline(entry) < run + again {
                return false;
            }
        }
        let again = if twice { self.moved_before(changes, None) } else { 0 };
        match back.first() {
            Some(entry) if self.reading != Reading::EntryBehindTheChangesNotLookedAt => {
                run + again <= self.latest[&entry.job]
            }
            _ => true,
        }
    }

    fn renew(&mut self, moved: bool) {
        let mut latest = u64::MAX;
        for entry in self.plan.clone().iter().rev() {
            latest = latest.min(self.deadline(entry)).saturating_sub(self.cycles(entry));
            if moved && self.reading == Reading::LatestsNotRenewedAfterAMove {
                self.latest.entry(entry.job).or_insert(latest);
            } else {
                self.latest.insert(entry.job, latest);
            }
        }
    }

    /// One turn, with the budget given beside the table.
    fn take_turn(&mut self, number: u64, budget: u64) {
        let chain = self.chain(number);
        if self.key_of(number).is_some() || !self.gives(&chain) {
            return;
        }
        let changes = self.changes(&chain);
        let order = self.merged(&changes);
        let cycles: u64 = order.iter().map(|entry| self.cycles(entry)).sum();
        let cost = self.table.speeds[self.table.speed_count - 1].cost;
        if self.ends_in_time(&changes, &order) && cycles * cost <= budget {
            let moved = order.len() < self.plan.len() + changes.len();
            self.plan = order;
            self.renew(moved);
        }
    }
}

fn names(changes: &[Entry], job: u64) -> bool {
    changes.iter().any(|change| change.job == job)
}

/// The plan after each turn, in one reading. Which jobs have a turn, and when, no reading changes.
fn plans(reading: Reading, table: &Table, turns: &[naive::Turn]) -> Vec<Vec<Entry>> {
    let remaining = turns.iter().map(|turn| turn.job).collect();
    let mut planner = Planner { reading, table, remaining, plan: Vec::new(), latest: BTreeMap::new() };
    let after = |turn: &naive::Turn| {
        planner.take_turn(turn.job, table.budget);
        planner.plan.clone()
    };
    turns.iter().map(after).collect()
}

/// The right reading of a table gives the naive one's plans; which misreadings give others.
fn found_out(table: &Table, shown: &str) -> [bool; MISREADINGS.len()] {
    let turns = naive::take_turns(table, table.budget);
    let right: Vec<Vec<Entry>> = turns.iter().map(|turn| turn.entries.clone()).collect();
    assert_eq!(plans(Reading::Right, table, &turns), right, "{shown}");
    MISREADINGS.map(|reading| plans(reading, table, &turns) != right)
}

#[test]
fn misreadings_are_found_out() {
    println!("seed {SEED}");
    let mut counts = [0; MISREADINGS.len()];
    for index in 0..5_000 {
        let found = found_out(&generate::table(SEED, index), &format!("seed {SEED}, index {index}"));
        counts.iter_mut().zip(found).for_each(|(count, found)| *count += u64::from(found));
    }
    println!("of 5000 tables, another plan is given where");
    MISREADINGS.iter().zip(counts).for_each(|(reading, count)| println!("{reading:?}: {count}"));
    assert!(counts.iter().all(|count| *count > 50), "{counts:?}");
}

#[test]
fn tables_of_the_sheet_tell_each_misreading() {
    let mut told_by = [0; MISREADINGS.len()];
    for file in fs::read_dir(concat!(env!("CARGO_MANIFEST_DIR"), "/../../crates/sheet/data")).expect("the tables") {
        let path = file.expect("a file").path();
        if let Ok(table) = read(&fs::read(&path).expect("a table's text")) {
            let found = found_out(&table, &path.display().to_string());
            told_by.iter_mut().zip(found).for_each(|(count, found)| *count += u64::from(found));
        }
    }
    MISREADINGS.iter().zip(told_by).for_each(|(reading, count)| println!("{reading:?}: {count} tables"));
    assert!(told_by.iter().all(|count| *count > 0), "{told_by:?}");
}
