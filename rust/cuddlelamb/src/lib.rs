//! One planning decision, from a job table and a budget to an ordered plan, a fate for each job, a speed and an energy:
//! a safe wrapper of the proved library.
//!
//! A table is read once and planned as often as the budget changes:
//!
//! ```
//! use cuddlelamb::JOBS;
//! # use cuddlelamb::Refused;
//! # let text = b"T\t0\t99\nF\t1000\t1\nJ\t7\t10\t5\t400\t400\t0\nJ\t8\t20\t4\t500\t500\t0\n";
//! let table = cuddlelamb::read(text)?; // or Err(Refused { number, line })
//! let (mut order, mut fates) = ([0; JOBS], [0; JOBS]);
//! for budget in [table.budget, 29] {
//!     let plan = cuddlelamb::plan(&table, budget, &mut order, &mut fates)?;
//!     println!("{:?} at {} MHz for {} units", &order[..plan.count], plan.speed, plan.energy);
//! #   let expected = if budget == 29 { (&[7][..], [1, 6]) } else { (&[7, 8][..], [1, 1]) };
//! #   assert_eq!((&order[..plan.count], [fates[0], fates[1]]), expected);
//! }
//! # Ok::<(), Refused>(())
//! ```
//!
//! How much of the budget the plan leaves at top cost is told after each job's turn:
//!
//! ```
//! # use cuddlelamb::{Refused, JOBS};
//! # let text = b"T\t0\t99\nF\t1000\t1\nJ\t7\t10\t5\t400\t400\t0\nJ\t8\t20\t4\t500\t500\t0\n";
//! # let table = cuddlelamb::read(text)?;
//! let (mut turns, mut rooms) = ([0; JOBS], [0; JOBS]);
//! let told = cuddlelamb::rooms(&table, table.budget, &mut turns, &mut rooms)?;
//! for (job, room) in turns.iter().zip(rooms).take(told.turns) {
//!     println!("after the turn of job {job}: {room} units");
//! }
//! println!("at the end: {} units", told.room);
//! # assert_eq!((&turns[..told.turns], &rooms[..told.turns], told.room), (&[7, 8][..], &[89, 69][..], 69));
//! # Ok::<(), Refused>(())
//! ```
//!
//! Eight calls: [`read`], [`plan`], [`rooms`], [`list`], [`list_with_budget`], [`write()`], [`allocate`] and [`costs`].
//! What each keeps:
//!
//! - It takes any bytes, any numbers and any lengths, and does not panic.
//! - A refusal names its number and the line it means; no byte and no place of a lent buffer has then changed.
//! - It answers the same for the same input. It keeps nothing from one call to the next, does not use the heap, and may
//!   be called from several threads at once.
//! - It takes at most 16,000 bytes of stack: measured, not proved.
//!
//! # The text
//!
//! Lines of fields parted by one tab, each line ended by a line feed: a T with now and the budget; 1 to 16 F, a [`Speed`]
//! each, rising; up to 64 J, a [`Job`] each, by rising numbers; then H, a [`Hold`] each, by rising resources. The fields of
//! a line are those of its struct, in their order. A number is decimal digits, at most 16, with no leading zero.
//!
//! # Words
//!
//! - **Chain**: a job, the job that holds what it requests, the job that one waits for, and so on.
//! - **Ring**: jobs that wait for each other in a circle; one of them is taken out.
//! - **Turn**: the one time that a job is looked at: it and its chain are tried in the plan and stay, or do not.
//! - **Top speed**: the last F; **top cost** is its cost.
//! - **Room**: what the plan, reckoned at top cost, leaves of the budget.
//! - **Unit**: what budget, cost and energy are counted in; the cost of a speed is units per million cycles.
//!
//! # Linking
//!
//! The library is linked, always: no environment variable is read, and no other process answers. On x86-64 it is the
//! archive that `tools/archive` makes; elsewhere, with the feature `native`, the one that `tools/native` makes of the same
//! crate.

#![deny(unsafe_code)]
#![deny(missing_docs)]

#[cfg(not(all(target_os = "linux", target_pointer_width = "64", any(target_arch = "x86_64", feature = "native"))))]
compile_error!(
    "cuddlelamb: there is no library to link for this machine: the archive is for x86-64 Linux. On another 64-bit Linux, \
     run tools/native and build with --features native"
);

pub mod calls;
mod named;
mod table;

pub use named::{Fate, Refusal, Refused, Unnamed};
pub use table::{Hold, Job, Plan, Rooms, Speed, Table, COSTS, HOLDS, JOBS, LISTING, SPEEDS, SUPPLIED_SPEEDS, TEXT};

/// The version of the crate and of the library that it links, as `CUDDLELAMB_VERSION` of include/cuddlelamb.h.
/// CHANGELOG.md says what each version holds.
pub const VERSION: &str = concat!(env!("CARGO_PKG_VERSION_MAJOR"), ".", env!("CARGO_PKG_VERSION_MINOR"));

/// Reads a text: the table has the text's records, which are its lines, in their order, and 0 in every unused place.
///
/// # Errors
///
/// The first bad line decides, and within it the lowest number: [`Refusal::NoShape`] to [`Refusal::RequestsOwn`].
pub fn read(text: &[u8]) -> Result<Table, Refused> {
    calls::read(text).result()
}

/// Plans a table with the budget given beside it, in the place of the table's own. The first `count` places of `order`
/// become the planned jobs' numbers in the order in which they run, the places of `fates` the fates of the jobs in the
/// order of the J lines (see [`Fate`]); all places after them become 0.
///
/// The table may be any, from [`read`] or put together by hand, and its unused places may hold anything. It stays as it
/// is and may be planned again with other budgets.
///
/// # Errors
///
/// In this order: [`Refusal::NoRoom`], line 0, where `order` or `fates` has fewer than [`JOBS`] places;
/// [`Refusal::OutOfRange`], line 1, where the budget is above 10^15; then the table is refused as [`write()`] refuses its
/// records, which counts the table's own budget in.
pub fn plan(table: &Table, budget: u64, order: &mut [u64], fates: &mut [u64]) -> Result<Plan, Refused> {
    calls::plan(table, budget, order, fates).result()
}

/// Plans a table as [`plan`] does and tells how much room is left after each turn: the budget given beside the table less
/// what all cycles of the plan, as it then stands, cost at top speed. Each job that is neither late alone nor taken out of
/// a ring has a turn. The first places of `turns`, as many as [`Rooms::turns`] says, become these jobs' numbers in the
/// order of their turns, and as many of `rooms` the room after each; all places after them become 0.
///
/// A turn in which nothing comes into the plan leaves the room as it was, be it that the job is planned already, that its
/// chain gives no worth, or that it would be out of time or of budget.
///
/// # Errors
///
/// As for [`plan`], in the same order: [`Refusal::NoRoom`], line 0, where `turns` or `rooms` has fewer than [`JOBS`]
/// places; [`Refusal::OutOfRange`], line 1, where the budget is above 10^15; then the table is refused as [`write()`]
/// refuses its records.
pub fn rooms(table: &Table, budget: u64, turns: &mut [u64], rooms: &mut [u64]) -> Result<Rooms, Refused> {
    calls::rooms(table, budget, turns, rooms).result()
}

/// Plans a text with its own budget, writes the listing to the front of `out` and gives its length; [`LISTING`] bytes are
/// room enough.
///
/// The listing is a line `P speed energy count`, for each planned job in order a line `O job finish`, and for each other
/// job in the order of the J lines a line `X job fate`, with one tab between fields and a line feed after each line. A
/// finish is in ms and rounded up. A text that is refused has a listing too, the one line `R number line`.
///
/// # Errors
///
/// [`Refusal::NoRoom`] where the listing is longer than `out`.
pub fn list(text: &[u8], out: &mut [u8]) -> Result<usize, Refused> {
    calls::list(text, out).result()
}

/// The same as [`list`], but the text is planned with the budget given beside it, in the place of its own. Where the text
/// is not refused and this budget is above 10^15, the listing is the one line `R 2 1`.
///
/// # Errors
///
/// [`Refusal::NoRoom`] where the listing is longer than `out`.
pub fn list_with_budget(text: &[u8], budget: u64, out: &mut [u8]) -> Result<usize, Refused> {
    calls::list_with_budget(text, budget, out).result()
}

/// Writes a table's text to the front of `out` and gives its length; [`TEXT`] bytes are room enough. What [`read`] makes
/// of that text is a table with the same records. Unused places may hold anything.
///
/// # Errors
///
/// First for a record, with the line it would have had: [`Refusal::OutOfRange`] to [`Refusal::RequestsOwn`]; a table
/// without speeds is [`Refusal::OutOfPlace`], line 2; where a count is beyond the table's places, the first record
/// beyond is [`Refusal::TooMany`] for F and J, [`Refusal::OutOfPlace`] for H. Then [`Refusal::NoRoom`] where the text is
/// longer than `out`.
pub fn write(table: &Table, out: &mut [u8]) -> Result<usize, Refused> {
    calls::write(table, out).result()
}

/// Allocates cycles to a job that needs now more, now less: as many as are enough with the assurance asked for, in
/// thousandths, however the need is spread around its mean. It is the least whole c, the mean or more, with
/// (c − mean)² × (1000 − assurance) ≥ assurance × variance.
///
/// # Errors
///
/// [`Refusal::OutOfRange`] where the mean is not in 1..=1,000,000, the variance not in 0..=10^12 or the assurance (in
/// thousandths) not in 0..=999; [`Refusal::TooMuchAllocated`] where c would be above 1,000,000.
pub fn allocate(mean: u64, variance: u64, assurance: u64) -> Result<u64, Refused> {
    calls::allocate(mean, variance, assurance).result()
}

/// The costs of the energy model 1, 2 or 3, in units per million cycles, for the [`SUPPLIED_SPEEDS`] in their order.
///
/// # Errors
///
/// [`Refusal::UnknownModel`] for any other model.
pub fn costs(model: u64) -> Result<[u64; COSTS], Refused> {
    calls::costs(model).result()
}
