//! Cases to try: tables, budgets beside them, texts and buffers, each made from a seed and an index alone, so that a
//! failing one can be made again. The tables lean to what goes wrong first: waiting, rings, equal ratios, keys and costs,
//! costs that are least between the lowest speed and the top, and ends that are exactly in time or within budget, or one
//! short of it. The budgets beside them lean to those with which a plan just stays, or just becomes another, and leaves
//! no room, or less than a cycle takes.

use crate::reference::{
    plan, Hold, Job, Speed, Table, COSTS, HOLDS, JOBS, LAST_NUMBER, LAST_RESOURCE, LAST_TIME, MOST_BUDGET, MOST_COST,
    MOST_CYCLES, MOST_MHZ, MOST_WORTH, SPEEDS, SUPPLIED_SPEEDS,
};

/// A row of numbers that looks random and is always the same for a seed and an index (splitmix64).
pub struct Random {
    state: u64,
}

impl Random {
    pub fn new(seed: u64, index: u64) -> Random {
        Random { state: mixed(seed.wrapping_add(mixed(index.wrapping_add(STEP)))) }
    }

    pub fn number(&mut self) -> u64 {
        self.state = self.state.wrapping_add(STEP);
        mixed(self.state)
    }

    /// A number from 0 to one less than `count`.
    pub fn below(&mut self, count: u64) -> u64 {
        ((u128::from(self.number()) * u128::from(count)) >> 64) as u64
    }

    /// A number from the least to the greatest.
    pub fn within(&mut self, least: u64, greatest: u64) -> u64 {
        least + self.below(greatest.saturating_sub(least) + 1)
    }

    pub fn chance(&mut self, percent: u64) -> bool {
        self.below(100) < percent
    }

    pub fn one_of<Thing: Copy>(&mut self, things: &[Thing]) -> Thing {
        things[self.below(things.len() as u64) as usize]
    }

    pub fn shuffle<Thing>(&mut self, things: &mut [Thing]) {
        for last in (1..things.len()).rev() {
            things.swap(last, self.below(last as u64 + 1) as usize);
        }
    }
}

const STEP: u64 = 0x9E37_79B9_7F4A_7C15;

fn mixed(number: u64) -> u64 {
    let number = (number ^ (number >> 30)).wrapping_mul(0xBF58_476D_1CE4_E5B9);
    let number = (number ^ (number >> 27)).wrapping_mul(0x94D0_49BB_1331_11EB);
    number ^ (number >> 31)
}

// ---- Valid tables ----------------------------------------------------------------------------------------------------

/// A valid table, 0 in every unused place. One in ten has long chains and few keys.
pub fn table(seed: u64, index: u64) -> Table {
    let random = &mut Random::new(seed, index);
    let mut table = Table::EMPTY;
    table.clock = clock(random);
    make_speeds(random, &mut table);
    if index % 10 == 7 {
        make_long_chains(random, &mut table);
    } else {
        make_jobs(random, &mut table);
        make_times(random, &mut table);
        make_waiting(random, &mut table);
    }
    table.budget = budget(random, &table);
    if random.chance(20) {
        make_second_chance(random, &mut table);
    }
    if random.chance(30) {
        make_choice(random, &mut table);
    }
    for _ in 0..random.one_of(&[0, 0, 1, 2, 4]) {
        make_tie(random, &mut table);
    }
    table
}

fn clock(random: &mut Random) -> u64 {
    match random.below(10) {
        0..=3 => 0,
        4 => LAST_TIME,
        5 => LAST_TIME - random.below(100_000),
        6..=7 => random.within(0, 10_000),
        _ => random.within(0, LAST_TIME),
    }
}

/// 1 to 16 speeds with their costs.
fn make_speeds(random: &mut Random, table: &mut Table) {
    let count = random.one_of(&[1, 1, 2, 3, 4, 7, 7, 16, 16]).min(random.within(1, 16));
    let round = random.one_of(&[1, 10, 125, 250]);
    let mut speeds: Vec<u64> = match random.below(6) {
        0 => (1..=count).collect(),
        1 => (MOST_MHZ + 1 - count..=MOST_MHZ).collect(),
        2 => SUPPLIED_SPEEDS.to_vec(),
        3 => vec![500, 1000],
        _ => (0..count).map(|_| round * random.within(1, MOST_MHZ / round)).collect(),
    };
    speeds.sort();
    speeds.dedup();
    let costs = costs(random, &speeds);
    table.speed_count = speeds.len();
    for (place, (mhz, cost)) in table.speeds.iter_mut().zip(speeds.into_iter().zip(costs)) {
        *place = Speed { mhz, cost };
    }
}

/// The costs of a supplied model as they stand, where the speeds are its own; or costs of two sizes, of few or of many,
/// in some shape.
fn costs(random: &mut Random, speeds: &[u64]) -> Vec<u64> {
    if *speeds == SUPPLIED_SPEEDS && random.chance(50) {
        return random.one_of(&COSTS).to_vec();
    }
    let mut costs: Vec<u64> = match random.below(5) {
        0 => speeds.iter().map(|_| random.one_of(&[1, MOST_COST])).collect(),
        1 if speeds.len() == 7 => random.one_of(&COSTS).to_vec(),
        2 => speeds.iter().map(|_| random.within(1, 3)).collect(),
        _ => speeds.iter().map(|_| random.within(1, MOST_COST)).collect(),
    };
    shape_costs(random, &mut costs);
    costs
}

/// Makes costs rise, fall, or fall and then rise, or makes them all equal, or leaves them; now and then more of them
/// become the least first.
fn shape_costs(random: &mut Random, costs: &mut [u64]) {
    let count = costs.len() as u64;
    if random.chance(10) {
        let least = costs.iter().min().copied().unwrap_or(1);
        (0..random.within(1, 3)).for_each(|_| costs[random.below(count) as usize] = least);
    }
    let rising_from = match random.below(15) {
        0..=2 => 0,
        3..=6 => costs.len(),
        7..=9 => random.within(0, count) as usize,
        10 => return costs.fill(costs[0]),
        _ => return,
    };
    costs[..rising_from].sort_by(|one, other| other.cmp(one));
    costs[rising_from..].sort();
}

/// 0 to 64 jobs with numbers, cycles and worths; times and requests are still 0.
fn make_jobs(random: &mut Random, table: &mut Table) {
    let count = match random.below(8) {
        0 => random.within(0, 2),
        1..=3 => random.within(2, 10),
        4..=5 => random.within(10, JOBS as u64),
        _ => JOBS as u64,
    };
    table.job_count = count as usize;
    let numbers = job_numbers(random, count);
    let style = random.below(7);
    let zeros = random.one_of(&[0, 0, 10, 50]);
    for (job, number) in table.jobs.iter_mut().zip(numbers) {
        job.number = number;
        (job.cycles, job.worth) = cycles_and_worth(random, style);
        if random.chance(zeros) {
            job.worth = 0;
        }
    }
}

fn job_numbers(random: &mut Random, count: u64) -> Vec<u64> {
    match random.below(4) {
        0 => (1..=count).collect(),
        1 => (LAST_NUMBER + 1 - count..=LAST_NUMBER).collect(),
        2 => (0..count).map(|place| 1 + place * 100 + random.below(100)).collect(),
        _ => {
            let mut numbers: Vec<u64> = (1..=LAST_NUMBER).collect();
            random.shuffle(&mut numbers);
            numbers.truncate(count as usize);
            numbers.sort();
            numbers
        }
    }
}

/// Of one style for a table: all the same, equal ratios of different sizes, few sizes, small, wide, or extremes.
fn cycles_and_worth(random: &mut Random, style: u64) -> (u64, u64) {
    match style {
        0 => (100, 10),
        1 => {
            let size = random.one_of(&[1, 2, 3, 5, 10, 100, 1000]);
            (size * 20, size * random.one_of(&[3, 3, 3, 4]))
        }
        2 => (random.within(1, 4) * 50, random.within(0, 3)),
        3 => (random.within(1, 30), random.within(0, 30)),
        4 => (random.within(1, MOST_CYCLES), random.within(0, MOST_WORTH)),
        5 => (random.one_of(&[1, MOST_CYCLES]), random.one_of(&[0, 1, MOST_WORTH - 1, MOST_WORTH])),
        _ => (random.within(1, 3000), random.within(1, 100)),
    }
}

/// Critical and termination times for a load that is light, just fits, or is far too much at the top speed, or now and
/// then at another; also few different times, times before now and the ends of the range.
fn make_times(random: &mut Random, table: &mut Table) {
    let speeds = &table.speeds[..table.speed_count];
    let speed = if random.chance(25) { random.one_of(speeds).mhz } else { speeds[speeds.len() - 1].mhz };
    let cycles: u64 = table.jobs[..table.job_count].iter().map(|job| job.cycles).sum();
    let all = cycles * 1000 / speed + 1;
    let percent = random.one_of(&[10, 40, 80, 100, 100, 150, 300, 1000]);
    let horizon = (all * percent / 100).clamp(1, LAST_TIME);
    let pool: Vec<u64> = (0..random.within(1, 4)).map(|_| table.clock + random.within(1, horizon)).collect();
    let style = random.below(6);
    let criticals = random.below(6);
    let clock = table.clock;
    for job in &mut table.jobs[..table.job_count] {
        let own = clock + job.cycles * 1000 / speed;
        let termination = match style {
            0 => random.one_of(&pool),
            1 => LAST_TIME,
            2 => clock + horizon + random.below(10),
            3 => own + random.below(3),
            _ => own + random.below(horizon + 1),
        };
        job.termination = termination.min(LAST_TIME);
        if random.chance(3) {
            job.termination = random.one_of(&[0, clock / 2, clock.saturating_sub(1), clock, LAST_TIME]);
        }
        job.critical = match criticals {
            0 => job.termination,
            1 => random.one_of(&pool),
            2 => random.below(job.termination + 1),
            3 => random.one_of(&[0, clock.saturating_sub(1), clock, clock + 1, job.termination]),
            4 => clock + random.below(4),
            _ => random.within(clock, job.termination),
        };
        job.critical = job.critical.min(job.termination);
    }
}

/// Who requests and who holds what, by places in the table.
struct Waiting {
    requests: [u64; JOBS],
    holders: [Option<usize>; HOLDS + 1],
}

impl Waiting {
    /// Makes a job wait for another, over a resource that this one holds or now gets, if there is any left.
    fn wait(&mut self, random: &mut Random, waiting: usize, holder: usize) {
        let free = |resource: &u64| self.holders[*resource as usize].is_none();
        let held = |resource: &u64| self.holders[*resource as usize] == Some(holder);
        let mut resources: Vec<u64> = (1..=LAST_RESOURCE).collect();
        random.shuffle(&mut resources);
        let known = resources.iter().find(|resource| held(resource)).copied();
        let fresh = resources.iter().find(|resource| free(resource)).copied();
        let resource = if random.chance(10) { fresh.or(known) } else { known.or(fresh) };
        if let Some(resource) = resource {
            self.holders[resource as usize] = Some(holder);
            self.requests[waiting] = resource;
        }
    }

    /// Each job waits for the next.
    fn chain(&mut self, random: &mut Random, members: &[usize]) {
        for pair in members.windows(2) {
            self.wait(random, pair[0], pair[1]);
        }
    }

    /// A chain whose last waits for its first.
    fn ring(&mut self, random: &mut Random, members: &[usize]) {
        self.chain(random, members);
        if members.len() > 1 {
            self.wait(random, members[members.len() - 1], members[0]);
        }
    }
}

/// Requests and H lines: nothing, long chains, several chains, rings, rings with tails, many that wait for few, or
/// anything.
fn make_waiting(random: &mut Random, table: &mut Table) {
    let mut waiting = Waiting { requests: [0; JOBS], holders: [None; HOLDS + 1] };
    let mut places: Vec<usize> = (0..table.job_count).collect();
    random.shuffle(&mut places);
    if random.chance(15) {
        places.sort();
    } else if random.chance(15) {
        places.sort_by_key(|place| std::cmp::Reverse(table.jobs[*place].critical));
    }
    let style = if places.is_empty() { 0 } else { random.below(10) };
    match style {
        0 => (),
        1..=2 => waiting.chain(random, &places[..places.len().min(HOLDS + 1)]),
        3..=4 => {
            let length = random.within(2, 12) as usize;
            places.chunks(length).for_each(|members| waiting.chain(random, members));
        }
        5 => {
            let length = random.within(2, HOLDS as u64) as usize;
            places.chunks(length).for_each(|members| waiting.ring(random, members));
        }
        6 => make_tailed_rings(random, &mut waiting, &places),
        7 => {
            let few = places.len().min(random.within(1, 3) as usize);
            places[few..].iter().for_each(|place| {
                let holder = random.one_of(&places[..few]);
                waiting.wait(random, *place, holder);
            });
        }
        _ => places.iter().for_each(|place| {
            let holder = random.one_of(&places);
            waiting.wait(random, *place, holder);
        }),
    }
    if style > 0 && random.chance(50) {
        make_more_waiting(random, &mut waiting, &places);
    }
    keep_waiting(&waiting, table);
}

/// More than 33 jobs with few critical times: a chain of 33 and others that wait for its members, so that trials move what
/// stands side by side with one key, and put members before others that have it too.
fn make_long_chains(random: &mut Random, table: &mut Table) {
    table.job_count = random.within(HOLDS as u64 + 2, JOBS as u64) as usize;
    let keys: Vec<u64> = (0..random.within(1, 4)).map(|_| table.clock + random.within(0, 5_000)).collect();
    let spans = random.one_of(&[[0, 0, 1_000], [10, 100, 1_000], [1_000, 10_000, 100_000], [0, 5_000, LAST_TIME]]);
    for place in 0..table.job_count {
        let critical = random.one_of(&keys).min(LAST_TIME);
        table.jobs[place] = Job {
            number: 1 + place as u64,
            cycles: random.within(1, 20),
            worth: random.within(0, 50),
            critical,
            termination: (critical + random.one_of(&spans)).min(LAST_TIME),
            request: 0,
        };
    }
    let mut waiting = Waiting { requests: [0; JOBS], holders: [None; HOLDS + 1] };
    let mut places: Vec<usize> = (0..table.job_count).collect();
    random.shuffle(&mut places);
    let (chain, others) = places.split_at(HOLDS + 1);
    waiting.chain(random, chain);
    others.iter().for_each(|place| {
        let holder = random.one_of(chain);
        waiting.wait(random, *place, holder);
    });
    keep_waiting(&waiting, table);
}

/// Short rings, and chains of others that lead to them.
fn make_tailed_rings(random: &mut Random, waiting: &mut Waiting, places: &[usize]) {
    let (ring, tail) = (random.within(2, 5) as usize, random.within(0, 5) as usize);
    for members in places.chunks(ring + tail) {
        let (ring, tail) = members.split_at(ring.min(members.len()));
        waiting.ring(random, ring);
        waiting.chain(random, tail);
        if let Some(last) = tail.last() {
            let first = random.one_of(ring);
            waiting.wait(random, *last, first);
        }
    }
}

/// Requests of any resource, held or free, by those that have none, and holders of what is still free.
fn make_more_waiting(random: &mut Random, waiting: &mut Waiting, places: &[usize]) {
    let percent = random.one_of(&[10, 50, 100]);
    for place in places {
        if waiting.requests[*place] == 0 && random.chance(percent) {
            waiting.requests[*place] = random.within(1, LAST_RESOURCE);
        }
    }
    for resource in 1..=HOLDS {
        if waiting.holders[resource].is_none() && random.chance(percent / 2) {
            waiting.holders[resource] = Some(random.one_of(places));
        }
    }
}

/// Puts the waiting into the table; nobody requests what it holds.
fn keep_waiting(waiting: &Waiting, table: &mut Table) {
    for (place, request) in waiting.requests.iter().enumerate().take(table.job_count) {
        let own = waiting.holders[*request as usize] == Some(place);
        table.jobs[place].request = if own { 0 } else { *request };
    }
    table.hold_count = 0;
    for (resource, holder) in waiting.holders.iter().enumerate() {
        if let Some(place) = holder {
            table.holds[table.hold_count] = Hold { resource: resource as u64, holder: table.jobs[*place].number };
            table.hold_count += 1;
        }
    }
}

/// All there is, enough, too little, or what a number of jobs takes at some speed, or one unit less.
fn budget(random: &mut Random, table: &Table) -> u64 {
    let jobs = &table.jobs[..table.job_count];
    let speed = random.one_of(&table.speeds[..table.speed_count]);
    let taken: u64 = jobs.iter().filter(|_| random.chance(60)).map(|job| job.cycles).sum();
    match random.below(8) {
        0..=3 => MOST_BUDGET,
        4 => taken * speed.cost,
        5 => (taken * speed.cost).saturating_sub(1),
        6 => random.one_of(&[0, 1, MOST_BUDGET]),
        _ => random.below(taken * speed.cost + 1),
    }
}

/// Makes a job be dropped for time in its own turn and come in with another: it ends in time at the front alone, where
/// the plan of the table so far has another; one that waits for it, is urgent, and has its turn later, having no worth,
/// takes it there. Who is planned gets time for both.
fn make_second_chance(random: &mut Random, table: &mut Table) {
    let order = planned(table, table.budget).expect("a valid table");
    let holds = &table.holds[..table.hold_count];
    let idle = |place: usize| holds.iter().all(|hold| hold.holder != table.jobs[place].number);
    let free = (1..=LAST_RESOURCE).find(|resource| holds.iter().all(|hold| hold.resource != *resource));
    let mut places: Vec<usize> =
        (0..table.job_count).filter(|place| order.first() != Some(&table.jobs[*place].number)).collect();
    random.shuffle(&mut places);
    let waiting = places.iter().position(|place| idle(*place)).map(|at| places.remove(at));
    let second = places.iter().copied().find(|place| order.contains(&table.jobs[*place].number));
    let (Some(resource), Some(waiting), Some(second)) = (free, waiting, second) else {
        return;
    };
    let mhz = table.speeds[table.speed_count - 1].mhz;
    let Job { number, cycles, .. } = table.jobs[second];
    let in_time = table.clock + (cycles * 1000).div_ceil(mhz);
    for job in table.jobs.iter_mut().filter(|job| order.contains(&job.number)) {
        job.termination = (job.termination + ((cycles + 1) * 1000).div_ceil(mhz)).min(LAST_TIME);
        if job.number == order[0] {
            job.critical = job.critical.min(in_time - 1);
        }
    }
    let job = &mut table.jobs[second];
    (job.critical, job.termination, job.request) = (in_time, in_time, 0);
    let job = &mut table.jobs[waiting];
    *job = Job { cycles: 1, worth: 0, critical: 0, termination: LAST_TIME, request: resource, ..*job };
    table.holds[table.hold_count] = Hold { resource, holder: number };
    table.hold_count += 1;
    table.holds[..table.hold_count].sort_by_key(|hold| hold.resource);
}

/// Leaves the plan of the table so far a choice between speeds: each of its jobs that has less time than it needs at
/// one of them gets that much.
fn make_choice(random: &mut Random, table: &mut Table) {
    let order = planned(table, table.budget).expect("a valid table");
    let speed = random.one_of(&table.speeds[..table.speed_count]);
    let mut cycles = 0;
    for number in &order {
        if let Some(job) = table.jobs.iter_mut().find(|job| job.number == *number) {
            cycles += job.cycles;
            let end = table.clock + (cycles * 1000).div_ceil(speed.mhz);
            job.termination = job.termination.max(end).min(LAST_TIME);
        }
    }
}

/// Moves one bound to where the plan of the table so far just meets it at some speed, or misses it by one: the
/// termination of a planned job, often at a cheapest speed, or the budget, often at a speed that costs more than the
/// top speed, so that the plan stays.
fn make_tie(random: &mut Random, table: &mut Table) {
    let order = planned(table, table.budget).expect("a valid table");
    if order.is_empty() {
        return;
    }
    let upto = if random.chance(50) { order.len() - 1 } else { random.below(order.len() as u64) as usize };
    let place = |number: u64| table.jobs[..table.job_count].iter().position(|job| job.number == number);
    let places: Vec<usize> = order[..=upto].iter().filter_map(|number| place(*number)).collect();
    let cycles: u64 = places.iter().map(|place| table.jobs[*place].cycles).sum();
    let speeds = &table.speeds[..table.speed_count];
    let least = speeds.iter().map(|speed| speed.cost).min();
    let short = random.below(2);
    if random.chance(60) {
        let speed = often(random, speeds, |speed| Some(speed.cost) == least);
        let job = &mut table.jobs[places[upto]];
        job.termination = (table.clock + (cycles * 1000).div_ceil(speed.mhz) - short).min(LAST_TIME);
        job.critical = job.critical.min(job.termination);
    } else {
        let speed = often(random, speeds, |speed| speed.cost > speeds[speeds.len() - 1].cost);
        table.budget = cycles * speed.cost - short;
    }
}

/// Half the time one of the wanted speeds, if there is any; else any speed.
fn often(random: &mut Random, speeds: &[Speed], wanted: impl Fn(&Speed) -> bool) -> Speed {
    let wanted: Vec<Speed> = speeds.iter().filter(|speed| wanted(speed)).copied().collect();
    let any = wanted.is_empty() || random.chance(50);
    random.one_of(if any { speeds } else { &wanted })
}

/// The planned jobs, where the table is not refused with this budget.
fn planned(table: &Table, budget: u64) -> Option<Vec<u64>> {
    let mut order = [0; JOBS];
    let plan = plan(table, budget, &mut order, &mut [0; JOBS]).ok()?;
    Some(order[..plan.count].to_vec())
}

// ---- Budgets beside a table ------------------------------------------------------------------------------------------

/// A budget to be given beside any table: its own, another table's, an end of the range or what lies beyond it, or, most
/// often, what decides about a job.
pub fn budget_beside(random: &mut Random, table: &Table) -> u64 {
    match random.below(10) {
        0..=1 => table.budget,
        2 => self::table(random.number(), random.number()).budget,
        3 => random.one_of(&[0, 1, MOST_BUDGET - 1, MOST_BUDGET]),
        4 => budget_beyond(random),
        _ => deciding_budget(random, table).unwrap_or_else(|| random.below(MOST_BUDGET + 1)),
    }
}

/// A budget out of its range, by one or by more.
fn budget_beyond(random: &mut Random) -> u64 {
    match random.below(4) {
        0..=1 => MOST_BUDGET + 1,
        2 => random.one_of(&[u64::MAX, u64::MAX - 1, 1 << 63, 1 << 62, 10 * MOST_BUDGET]),
        _ => random.within(MOST_BUDGET + 1, u64::MAX),
    }
}

/// What all cycles of a plan of a good table take, often with those of a job that is not in it: at the top speed, as a
/// trial is reckoned, or now and then at another; just that, or off by one unit, by a cycle's cost or by one unit less
/// than that.
fn deciding_budget(random: &mut Random, table: &Table) -> Option<u64> {
    let most = planned(table, MOST_BUDGET)?;
    let (jobs, speeds) = (&table.jobs[..table.job_count], &table.speeds[..table.speed_count]);
    let top = speeds[speeds.len() - 1];
    let all: u64 = jobs.iter().map(|job| job.cycles).sum();
    let order = if random.chance(30) { most } else { planned(table, random.below(all * top.cost + 1))? };
    let (inside, outside): (Vec<Job>, Vec<Job>) = jobs.iter().copied().partition(|job| order.contains(&job.number));
    let mut cycles: u64 = inside.iter().map(|job| job.cycles).sum();
    if !outside.is_empty() && random.chance(50) {
        cycles += random.one_of(&outside).cycles;
    }
    let speed = if random.chance(80) { top } else { random.one_of(speeds) };
    let exact = cycles * speed.cost;
    Some(match random.below(10) {
        0..=3 => exact,
        4..=5 => exact.saturating_sub(1),
        6 => exact + 1,
        7..=8 => exact.saturating_sub(speed.cost),
        _ => exact + speed.cost - 1,
    })
}

// ---- Texts -----------------------------------------------------------------------------------------------------------

/// The text of the records that are in their places, whatever they hold.
pub fn text_of(table: &Table) -> Vec<u8> {
    let mut text = format!("T\t{}\t{}\n", table.clock, table.budget);
    for speed in table.speeds.iter().take(table.speed_count) {
        text.push_str(&format!("F\t{}\t{}\n", speed.mhz, speed.cost));
    }
    for job in table.jobs.iter().take(table.job_count) {
        let Job { number, cycles, worth, critical, termination, request } = job;
        text.push_str(&format!("J\t{number}\t{cycles}\t{worth}\t{critical}\t{termination}\t{request}\n"));
    }
    for hold in table.holds.iter().take(table.hold_count) {
        text.push_str(&format!("H\t{}\t{}\n", hold.resource, hold.holder));
    }
    text.into_bytes()
}

/// The text of the valid table with this seed and index.
pub fn text(seed: u64, index: u64) -> Vec<u8> {
    text_of(&table(seed, index))
}

/// The text of a valid or damaged table with one to three damages done to it; now and then it is still valid.
pub fn damaged_text(seed: u64, index: u64) -> Vec<u8> {
    let random = &mut Random::new(seed, index);
    let mut text = match random.below(10) {
        0 => longest_text(),
        1..=3 => text_of(&rough_table(seed, random.number())),
        _ => text_of(&table(seed, random.number())),
    };
    for _ in 0..random.one_of(&[1, 1, 1, 2, 3]) {
        damage(random, &mut text);
    }
    text
}

/// A valid text of the greatest length, 3,653 bytes.
pub fn longest_text() -> Vec<u8> {
    let mut table = Table { clock: LAST_TIME, budget: MOST_BUDGET, ..Table::EMPTY };
    (table.speed_count, table.job_count, table.hold_count) = (SPEEDS, JOBS, HOLDS);
    for (place, speed) in table.speeds.iter_mut().enumerate() {
        *speed = Speed { mhz: 1000 + 200 * place as u64, cost: MOST_COST };
    }
    for (place, job) in table.jobs.iter_mut().enumerate() {
        *job = Job {
            number: 1000 + 100 * place as u64,
            cycles: MOST_CYCLES,
            worth: MOST_WORTH,
            critical: LAST_TIME,
            termination: LAST_TIME,
            request: LAST_RESOURCE,
        };
    }
    table.jobs[JOBS - 1].request = LAST_RESOURCE - 1;
    for (place, hold) in table.holds.iter_mut().enumerate() {
        *hold = Hold { resource: place as u64 + 1, holder: 1000 };
    }
    table.holds[HOLDS - 1].holder = table.jobs[JOBS - 1].number;
    text_of(&table)
}

/// Does one damage to a text.
fn damage(random: &mut Random, text: &mut Vec<u8>) {
    match random.below(5) {
        0 => damage_bytes(random, text),
        1 => damage_lines(random, text),
        2 => damage_field(random, text),
        3 => add_line(random, text),
        _ => damage_whole(random, text),
    }
}

/// A byte that matters in a table text, or any byte.
fn byte(random: &mut Random) -> u8 {
    if random.chance(20) {
        return random.below(256) as u8;
    }
    random.one_of(b"0123456789\t\n\r TFJHXtfjh-+.,/:\0")
}

/// Changes, takes out or puts in one byte.
fn damage_bytes(random: &mut Random, text: &mut Vec<u8>) {
    let at = random.below(text.len() as u64 + 1) as usize;
    let byte = byte(random);
    match random.below(3) {
        0 => text.insert(at, byte),
        1 if at < text.len() => drop(text.remove(at)),
        _ if at < text.len() => text[at] = byte,
        _ => text.push(byte),
    }
}

/// Doubles, takes out, exchanges or moves whole lines.
fn damage_lines(random: &mut Random, text: &mut Vec<u8>) {
    let mut lines: Vec<Vec<u8>> = text.split_inclusive(|byte| *byte == b'\n').map(<[u8]>::to_vec).collect();
    if lines.is_empty() {
        return;
    }
    let one = random.below(lines.len() as u64) as usize;
    let other = random.below(lines.len() as u64) as usize;
    match random.below(5) {
        0 => lines.insert(one, lines[one].clone()),
        1 => drop(lines.remove(one)),
        2 => lines.swap(one, other),
        3 => lines.insert(other, lines[one].clone()),
        _ => lines.insert(one, b"\n".to_vec()),
    }
    *text = lines.concat();
}

/// Adds a line that has its shape and is in place: one more F or J, or the H of a job that requests what it holds.
fn add_line(random: &mut Random, text: &mut Vec<u8>) {
    let mut lines: Vec<Vec<u8>> = text.split_inclusive(|byte| *byte == b'\n').map(<[u8]>::to_vec).collect();
    let after = |letter: u8| lines.iter().rposition(|line| line.first() == Some(&letter)).map_or(0, |at| at + 1);
    let (after_speeds, after_jobs) = (after(b'F'), after(b'J'));
    match random.below(3) {
        0 => lines.insert(after_speeds, b"F\t4000\t1\n".to_vec()),
        1 => lines.insert(after_jobs, b"J\t9999\t1\t1\t1\t1\t0\n".to_vec()),
        _ => {
            let job = lines[after_jobs.saturating_sub(1)..].first().cloned().unwrap_or_default();
            let job = String::from_utf8_lossy(&job).into_owned();
            let fields: Vec<&str> = job.trim_end().split('\t').collect();
            if let ["J", number, .., request] = fields[..] {
                lines.insert(after_jobs, format!("H\t{request}\t{number}\n").into_bytes());
            }
        }
    }
    *text = lines.concat();
}

/// Puts something else in the place of one field: too many digits, leading zeros, nothing, the ends of the ranges and
/// one beyond them, signs and other forms of numbers, two fields for one.
fn damage_field(random: &mut Random, text: &mut Vec<u8>) {
    let edges = [0, 1, 32, 9_999, 4_000, 1_000_000, 4_000_000, 1_000_000_000, MOST_BUDGET];
    let ends = |byte: &u8| *byte == b'\t' || *byte == b'\n';
    let tabs: Vec<usize> = (0..text.len()).filter(|at| text[*at] == b'\t').collect();
    if tabs.is_empty() {
        return;
    }
    let start = random.one_of(&tabs) + 1;
    let length = text[start..].iter().position(ends).unwrap_or(text.len() - start);
    let old = String::from_utf8_lossy(&text[start..start + length]).into_owned();
    let digits =
        |random: &mut Random, count: u64| random.within(10u64.pow(count as u32 - 1), 10u64.pow(count as u32) - 1);
    let new = match random.below(10) {
        0 => digits(random, 16).to_string(),
        1 => digits(random, 17).to_string(),
        2 => format!("{}{old}", random.one_of(&["0", "00", "-", "+", " ", "\t"])),
        3 => format!("{old}{}", random.one_of(&["0", "\t", "\t0", " ", "\r", ".0"])),
        4 => String::new(),
        5 => random.one_of(&edges).to_string(),
        6 => (random.one_of(&edges) + 1).to_string(),
        7 => random.number().to_string(),
        8 => format!("{old}{old}"),
        _ => random.below(100).to_string(),
    };
    text.splice(start..start + length, new.into_bytes());
}

/// Cuts the text, empties it, changes every line end, fills it with anything or makes it long.
fn damage_whole(random: &mut Random, text: &mut Vec<u8>) {
    match random.below(9) {
        0..=2 => text.truncate(random.below(text.len() as u64 + 1) as usize),
        3 => drop(text.pop()),
        4 if random.chance(20) => text.clear(),
        5 => *text = String::from_utf8_lossy(text).replace('\n', "\r\n").into_bytes(),
        6 => *text = (0..random.below(60)).map(|_| byte(random)).collect(),
        7 => {
            let more = random.one_of(&[5, 1000, 5000]);
            text.extend((0..more).map(|_| random.one_of(b"0123456789\t\n")));
        }
        _ => {
            let again = text.clone();
            while text.len() <= 4096 && !again.is_empty() {
                text.extend_from_slice(&again);
            }
        }
    }
}

// ---- Tables as they may be handed to the planner and to the writer ---------------------------------------------------

/// Any table: a valid one with anything in its unused places and, more often than not, with damaged fields, with
/// counts that do not belong to it, or with a budget of its own that is out of range.
pub fn rough_table(seed: u64, index: u64) -> Table {
    let random = &mut Random::new(seed, index);
    let mut table = table(seed, random.number());
    fill_unused(random, &mut table);
    if random.chance(40) {
        for _ in 0..random.within(1, 3) {
            damage_record(random, &mut table);
        }
    }
    if random.chance(40) {
        damage_counts(random, &mut table);
    }
    if random.chance(15) {
        table.budget = budget_beyond(random);
    }
    table
}

/// Any number, most often a likely one.
fn rubbish(random: &mut Random) -> u64 {
    match random.below(4) {
        0 => random.number(),
        1 => random.one_of(&[0, 1, u64::MAX, 1 << 63, 10_000_000_000_000_000, 1 << 32]),
        _ => random.below(40),
    }
}

/// Fills the places beyond the counts with anything, which is now and then good records.
pub fn fill_unused(random: &mut Random, table: &mut Table) {
    let good = random.chance(30);
    for (place, speed) in table.speeds.iter_mut().enumerate().skip(table.speed_count) {
        *speed = Speed { mhz: rubbish(random), cost: rubbish(random) };
        if good {
            *speed = Speed { mhz: MOST_MHZ - SPEEDS as u64 + 1 + place as u64, cost: 1 };
        }
    }
    for (place, job) in table.jobs.iter_mut().enumerate().skip(table.job_count) {
        let [number, cycles, worth, critical, termination, request] = [(); 6].map(|()| rubbish(random));
        *job = Job { number, cycles, worth, critical, termination, request };
        if good {
            let number = LAST_NUMBER - JOBS as u64 + 1 + place as u64;
            *job = Job { number, cycles: 1, worth: 1, critical: 0, termination: LAST_TIME, request: 0 };
        }
    }
    for (place, hold) in table.holds.iter_mut().enumerate().skip(table.hold_count) {
        *hold = Hold { resource: rubbish(random), holder: rubbish(random) };
        if good {
            *hold = Hold { resource: place as u64 + 1, holder: table.jobs[0].number };
        }
    }
}

/// Changes one field of one record, or the T line.
fn damage_record(random: &mut Random, table: &mut Table) {
    let edges = [0, 1, 33, LAST_NUMBER + 1, MOST_MHZ + 1, MOST_CYCLES + 1, MOST_COST + 1, LAST_TIME, LAST_TIME + 1];
    let value = if random.chance(50) { random.one_of(&edges) } else { rubbish(random) };
    let speed = random.below(table.speed_count.max(1) as u64) as usize;
    let job = random.below(table.job_count.max(1) as u64) as usize;
    let hold = random.below(table.hold_count.max(1) as u64) as usize;
    let other = random.below(table.job_count.max(1) as u64) as usize;
    match random.below(14) {
        0 => table.clock = value,
        1 => table.budget = random.one_of(&[value, MOST_BUDGET, MOST_BUDGET + 1]),
        2 => table.speeds[speed].mhz = value,
        3 => table.speeds[speed].cost = value,
        4 => table.jobs[job].number = value,
        5 => table.jobs[job].number = table.jobs[other].number,
        6 => table.jobs[job].cycles = value,
        7 => table.jobs[job].worth = value,
        8 => table.jobs[job].critical = value,
        9 => table.jobs[job].termination = value,
        10 => table.jobs[job].request = value,
        11 => table.holds[hold].resource = value,
        12 => table.holds[hold].holder = value,
        _ => table.jobs[job].request = table.holds[hold].resource,
    }
}

/// Changes one or more counts, also to what is far beyond the places.
fn damage_counts(random: &mut Random, table: &mut Table) {
    let changed = random.within(1, 7);
    let mut count = |places: usize| match random.below(6) {
        0 => 0,
        1 => places,
        2 => places + 1,
        3 => usize::MAX,
        4 => usize::MAX - random.below(200) as usize,
        _ => random.below(2 * places as u64) as usize,
    };
    if changed & 1 != 0 {
        table.speed_count = count(SPEEDS);
    }
    if changed & 2 != 0 {
        table.job_count = count(JOBS);
    }
    if changed & 4 != 0 {
        table.hold_count = count(HOLDS);
    }
}

// ---- Buffers ---------------------------------------------------------------------------------------------------------

/// Two lent buffers, for the order and for the fates, or for the turns and for the rooms, shorter or longer than 64 places
/// or just as long, full of anything.
pub fn buffers(seed: u64, index: u64) -> (Vec<u64>, Vec<u64>) {
    let random = &mut Random::new(seed, index);
    let mut length = || match random.below(8) {
        0 => 0,
        1 => 63,
        2 => 65,
        3 => random.below(64),
        4 => random.within(64, 200),
        _ => 64,
    };
    let (one, other) = (length(), length());
    let mut filled = |length: u64| (0..length).map(|_| random.number()).collect();
    (filled(one), filled(other))
}
