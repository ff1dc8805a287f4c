//! Tables, plans and rooms, laid out as the structs of include/cuddlelamb.h.

/// Places for F lines in a table.
pub const SPEEDS: usize = 16;
/// Places for J lines in a table, and the least length of an order, fate, turn or room buffer.
pub const JOBS: usize = 64;
/// Places for H lines in a table.
pub const HOLDS: usize = 32;
/// How many speeds and costs a supplied energy model has: see [`costs`](crate::costs).
pub const COSTS: usize = 7;
/// Bytes of the longest valid text: room enough for [`write`](crate::write).
pub const TEXT: usize = 3653;
/// Bytes of the longest listing: room enough for [`list`](crate::list) and
/// [`list_with_budget`](crate::list_with_budget).
pub const LISTING: usize = 1118;

/// The speeds, in MHz, to which the costs of a supplied model belong.
pub const SUPPLIED_SPEEDS: [u64; COSTS] = [360, 550, 640, 730, 820, 910, 1000];

/// A speed of the processor and what it costs: an F line.
#[repr(C)]
#[derive(Clone, Copy, Debug, Default, PartialEq, Eq, Hash)]
pub struct Speed {
    /// 1..=4,000 MHz.
    pub mhz: u64,
    /// 1..=4,000,000 units per million cycles.
    pub cost: u64,
}

/// A job: a J line.
#[repr(C)]
#[derive(Clone, Copy, Debug, Default, PartialEq, Eq, Hash)]
pub struct Job {
    /// What it is called by, 1..=9,999.
    pub number: u64,
    /// How much it has to run: 1..=1,000,000 million cycles.
    pub cycles: u64,
    /// What it is worth if it ends in time, 0..=1,000,000.
    pub worth: u64,
    /// 0..=1,000,000,000 ms, at most the termination: where in the plan the job is put in. To end after it is not late.
    pub critical: u64,
    /// 0..=1,000,000,000 ms: the time after which the job ends late.
    pub termination: u64,
    /// The requested resource, 0..=32; 0 asks for nothing.
    pub request: u64,
}

/// A resource and the job that holds it: an H line. A job that requests the resource waits for that job.
#[repr(C)]
#[derive(Clone, Copy, Debug, Default, PartialEq, Eq, Hash)]
pub struct Hold {
    /// The number of the resource, 1..=32.
    pub resource: u64,
    /// The number of the job that holds it, 1..=9,999.
    pub holder: u64,
}

/// A table: the T line, the counts of the other lines, and of each letter the first so many places.
///
/// `==` compares the unused places too; they are 0 in what [`read`](crate::read) gives.
#[repr(C)]
#[derive(Clone, Copy, Debug, PartialEq, Eq, Hash)]
pub struct Table {
    /// Now, 0..=1,000,000,000 ms.
    pub clock: u64,
    /// 0..=10^15 units. [`plan`](crate::plan) and [`rooms`](crate::rooms) check it and then plan with the budget given
    /// beside the table.
    pub budget: u64,
    /// How many F lines.
    pub speed_count: usize,
    /// How many J lines.
    pub job_count: usize,
    /// How many H lines.
    pub hold_count: usize,
    /// The F lines, speeds rising.
    pub speeds: [Speed; SPEEDS],
    /// The J lines, numbers rising.
    pub jobs: [Job; JOBS],
    /// The H lines, resources rising.
    pub holds: [Hold; HOLDS],
}

impl Table {
    /// The table without records. It has no speed, so that every call that takes a table refuses it.
    pub const EMPTY: Table = Table {
        clock: 0,
        budget: 0,
        speed_count: 0,
        job_count: 0,
        hold_count: 0,
        speeds: [Speed { mhz: 0, cost: 0 }; SPEEDS],
        jobs: [Job { number: 0, cycles: 0, worth: 0, critical: 0, termination: 0, request: 0 }; JOBS],
        holds: [Hold { resource: 0, holder: 0 }; HOLDS],
    };
}

impl Default for Table {
    fn default() -> Table {
        Table::EMPTY
    }
}

/// What a plan is beside its order and fates, which [`plan`](crate::plan) writes to the lent buffers. Where nothing is
/// planned, the speed is the first and the energy 0.
#[repr(C)]
#[derive(Clone, Copy, Debug, Default, PartialEq, Eq, Hash)]
pub struct Plan {
    /// How many jobs are planned.
    pub count: usize,
    /// MHz: of the speeds at which every planned job ends by its termination and the energy is within budget, the one
    /// with the least energy, among equals the lowest.
    pub speed: u64,
    /// Units: what all planned cycles cost at this speed.
    pub energy: u64,
}

/// What the rooms are beside those after each turn, which [`rooms`](crate::rooms) writes to the lent buffers.
#[repr(C)]
#[derive(Clone, Copy, Debug, Default, PartialEq, Eq, Hash)]
pub struct Rooms {
    /// How many jobs had a turn: all that are neither late alone nor taken out of a ring.
    pub turns: usize,
    /// Units: what the plan leaves of the budget at the end, at top cost; where nothing is planned, the whole budget.
    pub room: u64,
}
