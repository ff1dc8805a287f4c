//! The library linked, called through the wrapper.

use cuddlelamb::calls;

use crate::library::{Answer, Request, Told};
use crate::reference::{Hold, Job, Plan, Rooms, Speed, Table};

/// The library, ready to be called.
pub struct Library;

impl Library {
    pub fn open() -> Library {
        Library
    }

    /// The answers of many calls.
    pub fn answers(&mut self, requests: &[Request]) -> Vec<Answer> {
        requests.iter().map(answer).collect()
    }
}

fn answer(request: &Request) -> Answer {
    match request {
        Request::Read { text } => Answer::Table { told: Box::new(told(calls::read(text), own_table)) },
        Request::Plan { table, budget, order, fates } => {
            let (mut order, mut fates) = (order.clone(), fates.clone());
            let told = told(calls::plan(&wrappers_table(table), *budget, &mut order, &mut fates), own_plan);
            Answer::Plan { told, order, fates }
        }
        Request::Rooms { table, budget, turns, rooms } => {
            let (mut turns, mut rooms) = (turns.clone(), rooms.clone());
            let told = told(calls::rooms(&wrappers_table(table), *budget, &mut turns, &mut rooms), own_rooms);
            Answer::Rooms { told, turns, rooms }
        }
        Request::List { text, out } => {
            let mut out = out.clone();
            let told = told(calls::list(text, &mut out), |length| length);
            Answer::Text { told, out }
        }
        Request::ListWithBudget { text, budget, out } => {
            let mut out = out.clone();
            let told = told(calls::list_with_budget(text, *budget, &mut out), |length| length);
            Answer::Text { told, out }
        }
        Request::Write { table, out } => {
            let mut out = out.clone();
            let told = told(calls::write(&wrappers_table(table), &mut out), |length| length);
            Answer::Text { told, out }
        }
        Request::Allocate { mean, variance, assurance } => {
            Answer::Cycles { told: told(calls::allocate(*mean, *variance, *assurance), |cycles| cycles) }
        }
        Request::Costs { model } => Answer::Costs { told: told(calls::costs(*model), |costs| costs) },
    }
}

fn told<Theirs, Own>(told: calls::Told<Theirs>, own: impl FnOnce(Theirs) -> Own) -> Told<Own> {
    Told { number: told.number, line: told.line, value: own(told.value) }
}

// The reference has types of its own, so that a field of the wrapper's that stood at the wrong place would show.

pub fn own_plan(plan: cuddlelamb::Plan) -> Plan {
    Plan { count: plan.count, speed: plan.speed, energy: plan.energy }
}

pub fn own_rooms(rooms: cuddlelamb::Rooms) -> Rooms {
    Rooms { turns: rooms.turns, room: rooms.room }
}

pub fn own_table(table: cuddlelamb::Table) -> Table {
    Table {
        clock: table.clock,
        budget: table.budget,
        speed_count: table.speed_count,
        job_count: table.job_count,
        hold_count: table.hold_count,
        speeds: table.speeds.map(|speed| Speed { mhz: speed.mhz, cost: speed.cost }),
        jobs: table.jobs.map(|job| Job {
            number: job.number,
            cycles: job.cycles,
            worth: job.worth,
            critical: job.critical,
            termination: job.termination,
            request: job.request,
        }),
        holds: table.holds.map(|hold| Hold { resource: hold.resource, holder: hold.holder }),
    }
}

pub fn wrappers_table(table: &Table) -> cuddlelamb::Table {
    cuddlelamb::Table {
        clock: table.clock,
        budget: table.budget,
        speed_count: table.speed_count,
        job_count: table.job_count,
        hold_count: table.hold_count,
        speeds: table.speeds.map(|speed| cuddlelamb::Speed { mhz: speed.mhz, cost: speed.cost }),
        jobs: table.jobs.map(|job| cuddlelamb::Job {
            number: job.number,
            cycles: job.cycles,
            worth: job.worth,
            critical: job.critical,
            termination: job.termination,
            request: job.request,
        }),
        holds: table.holds.map(|hold| cuddlelamb::Hold { resource: hold.resource, holder: hold.holder }),
    }
}
