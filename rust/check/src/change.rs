//! Changes of a table, or of the budget beside it, that must not change the plan: the same jobs, by their places, in the
//! same order, with the same fates, at the same speed; nor the rooms, but for the factor of the costs.

use crate::generate::{self, Random};
use crate::naive::{Answer, RoomsAnswer};
use crate::reference::{Speed, Table, HOLDS, LAST_NUMBER, LAST_TIME, MOST_BUDGET, MOST_COST, MOST_WORTH};

/// A changed table with the budget beside it, and what the change multiplies the plan's energy and the rooms by.
pub struct Change {
    pub what: &'static str,
    pub table: Table,
    pub budget: u64,
    pub factor: u64,
}

/// The seven changes of a valid table with a good budget beside it; each gives a valid table with a good budget.
pub fn changes(random: &mut Random, table: &Table, budget: u64) -> [Change; 7] {
    let change = |what: &'static str, table: Table| Change { what, table, budget, factor: 1 };
    let shifted = change("shifting all times", with_shifted_times(random, table));
    let scaled = change("scaling all worths", with_scaled_worths(random, table));
    let renamed = change("renaming resources", with_renamed_resources(random, table));
    let renumbered = change("renumbering jobs", with_renumbered_jobs(random, table));
    let costs = with_scaled_costs(random, table, budget);
    let own = Table { budget: random.within(0, MOST_BUDGET), ..*table };
    let own = change("giving the table another budget of its own", own);
    let mut filled = *table;
    generate::fill_unused(random, &mut filled);
    [shifted, scaled, renamed, renumbered, costs, own, change("filling unused places", filled)]
}

impl Change {
    /// Whether the changed table's plan is that of the table itself.
    pub fn leaves(&self, table: &Table, old: &Answer, new: &Answer) -> bool {
        places(table, &old.order) == places(&self.table, &new.order)
            && old.fates == new.fates
            && (old.plan.count, old.plan.speed) == (new.plan.count, new.plan.speed)
            && old.plan.energy * self.factor == new.plan.energy
    }

    /// Whether the changed table's rooms are those of the table itself.
    pub fn leaves_rooms(&self, table: &Table, old: &RoomsAnswer, new: &RoomsAnswer) -> bool {
        places(table, &old.turns) == places(&self.table, &new.turns)
            && old.rooms.iter().map(|room| room * self.factor).eq(new.rooms.iter().copied())
            && old.room * self.factor == new.room
    }
}

/// The places of the jobs with these numbers.
fn places(table: &Table, numbers: &[u64]) -> Vec<Option<usize>> {
    let jobs = &table.jobs[..table.job_count];
    numbers.iter().map(|number| jobs.iter().position(|job| job.number == *number)).collect()
}

/// All times moved by the same amount, as far as the range goes.
fn with_shifted_times(random: &mut Random, table: &Table) -> Table {
    let mut changed = *table;
    let mut times: Vec<&mut u64> = vec![&mut changed.clock];
    for job in &mut changed.jobs[..table.job_count] {
        times.push(&mut job.critical);
        times.push(&mut job.termination);
    }
    let earliest = times.iter().map(|time| **time).min().unwrap_or(0);
    let latest = times.iter().map(|time| **time).max().unwrap_or(0);
    let start = random.within(0, LAST_TIME - (latest - earliest));
    for time in times {
        *time = *time - earliest + start;
    }
    changed
}

/// All worths times the same number.
fn with_scaled_worths(random: &mut Random, table: &Table) -> Table {
    let mut changed = *table;
    let greatest = table.jobs.iter().map(|job| job.worth).max().unwrap_or(0).max(1);
    let factor = random.within(1, MOST_WORTH / greatest);
    changed.jobs.iter_mut().for_each(|job| job.worth *= factor);
    changed
}

/// All costs and the budget beside the table times the same number.
fn with_scaled_costs(random: &mut Random, table: &Table, budget: u64) -> Change {
    let mut changed = *table;
    let greatest = table.speeds.iter().map(|speed| speed.cost).max().unwrap_or(1);
    let factor = random.within(1, (MOST_COST / greatest).min(MOST_BUDGET / budget.max(1)));
    changed.speeds.iter_mut().for_each(|speed: &mut Speed| speed.cost *= factor);
    Change { what: "scaling costs with the budget", table: changed, budget: budget * factor, factor }
}

/// Every resource under another name; the H lines are put in order again.
fn with_renamed_resources(random: &mut Random, table: &Table) -> Table {
    let mut changed = *table;
    let mut names: Vec<u64> = (1..=HOLDS as u64).collect();
    random.shuffle(&mut names);
    names.insert(0, 0);
    changed.jobs.iter_mut().for_each(|job| job.request = names[job.request as usize]);
    let holds = &mut changed.holds[..table.hold_count];
    holds.iter_mut().for_each(|hold| hold.resource = names[hold.resource as usize]);
    holds.sort_by_key(|hold| hold.resource);
    changed
}

/// Every job under another number, in the same order.
fn with_renumbered_jobs(random: &mut Random, table: &Table) -> Table {
    let mut changed = *table;
    let mut numbers: Vec<u64> = (1..=LAST_NUMBER).collect();
    random.shuffle(&mut numbers);
    numbers.truncate(table.job_count);
    numbers.sort();
    for (place, number) in numbers.iter().enumerate() {
        changed.jobs[place].number = *number;
        let old = table.jobs[place].number;
        let holds = changed.holds[..table.hold_count].iter_mut().zip(table.holds);
        holds.filter(|(_, hold)| hold.holder == old).for_each(|(hold, _)| hold.holder = *number);
    }
    changed
}
