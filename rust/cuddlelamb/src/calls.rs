//! The eight calls as the archive answers them, in numbers: the one module with unsafe code. include/cuddlelamb.h is what
//! it leans on. Its functions are safe to call; those at the top of the crate say the same with a `Result`.
//!
//! What the calls ask of a buffer, a slice of Rust is: its pointer is never null and is aligned, also where it is empty;
//! it is at most `isize::MAX` bytes long and holds something everywhere; and two that are lent at once do not overlap,
//! where one of them is `&mut`. A call keeps no pointer and writes only to what is lent as `&mut`.
#![allow(unsafe_code)]

use std::mem::{align_of, offset_of, size_of};

use crate::{Hold, Job, Plan, Refused, Rooms, Speed, Table, COSTS};

/// What a call tells, as the structs of include/cuddlelamb.h whose names end in `_answer`: number and line, both 0 where
/// nothing is refused, and a value, which is zeros in a refusal.
#[repr(C)]
#[derive(Clone, Copy, Debug, PartialEq, Eq, Hash)]
pub struct Told<Value> {
    /// The refusal's number, or 0.
    pub number: u64,
    /// The line that the refusal names, or 0.
    pub line: u64,
    /// What the call was asked for.
    pub value: Value,
}

impl<Value> Told<Value> {
    /// The value, or the refusal.
    pub fn result(self) -> Result<Value, Refused> {
        match self {
            Told { number: 0, value, .. } => Ok(value),
            Told { number, line, .. } => Err(Refused { number, line }),
        }
    }
}

// The structs of include/cuddlelamb.h: their sizes, and every field at its place. All of their fields are 64 bits wide,
// so that none has a gap.
const _: () = {
    assert!(size_of::<usize>() == size_of::<u64>() && align_of::<Told<Table>>() == align_of::<u64>());
    assert!(size_of::<Speed>() == 16 && offset_of!(Speed, mhz) == 0 && offset_of!(Speed, cost) == 8);
    assert!(size_of::<Job>() == 48 && offset_of!(Job, number) == 0 && offset_of!(Job, cycles) == 8);
    assert!(offset_of!(Job, worth) == 16 && offset_of!(Job, critical) == 24);
    assert!(offset_of!(Job, termination) == 32 && offset_of!(Job, request) == 40);
    assert!(size_of::<Hold>() == 16 && offset_of!(Hold, resource) == 0 && offset_of!(Hold, holder) == 8);
    assert!(size_of::<Table>() == 3880 && offset_of!(Table, clock) == 0 && offset_of!(Table, budget) == 8);
    assert!(offset_of!(Table, speed_count) == 16 && offset_of!(Table, job_count) == 24);
    assert!(offset_of!(Table, hold_count) == 32 && offset_of!(Table, speeds) == 40);
    assert!(offset_of!(Table, jobs) == 296 && offset_of!(Table, holds) == 3368);
    assert!(size_of::<Plan>() == 24 && offset_of!(Plan, count) == 0);
    assert!(offset_of!(Plan, speed) == 8 && offset_of!(Plan, energy) == 16);
    assert!(size_of::<Told<Plan>>() == 40 && offset_of!(Told<Plan>, value) == 16);
    assert!(offset_of!(Told<Plan>, number) == 0 && offset_of!(Told<Plan>, line) == 8);
    assert!(size_of::<Rooms>() == 16 && offset_of!(Rooms, turns) == 0 && offset_of!(Rooms, room) == 8);
    assert!(size_of::<Told<Rooms>>() == 32 && offset_of!(Told<Rooms>, value) == 16);
    assert!(size_of::<Told<usize>>() == 24 && size_of::<Told<u64>>() == 24);
    assert!(size_of::<Told<Table>>() == 3896 && offset_of!(Told<Table>, value) == 16);
    assert!(size_of::<Told<[u64; COSTS]>>() == 72 && offset_of!(Told<[u64; COSTS]>, value) == 16);
};

extern "C" {
    fn cuddlelamb_read(text: *const u8, text_length: usize) -> Told<Table>;
    fn cuddlelamb_plan(
        table: Table,
        budget: u64,
        order: *mut u64,
        order_length: usize,
        fates: *mut u64,
        fates_length: usize,
    ) -> Told<Plan>;
    fn cuddlelamb_rooms(
        table: Table,
        budget: u64,
        turns: *mut u64,
        turns_length: usize,
        rooms: *mut u64,
        rooms_length: usize,
    ) -> Told<Rooms>;
    fn cuddlelamb_list(text: *const u8, text_length: usize, out: *mut u8, out_length: usize) -> Told<usize>;
    fn cuddlelamb_list_with_budget(
        text: *const u8,
        text_length: usize,
        budget: u64,
        out: *mut u8,
        out_length: usize,
    ) -> Told<usize>;
    fn cuddlelamb_write(table: Table, out: *mut u8, out_length: usize) -> Told<usize>;
    fn cuddlelamb_allocate(mean: u64, variance: u64, assurance: u64) -> Told<u64>;
    fn cuddlelamb_costs(model: u64) -> Told<[u64; COSTS]>;
}

/// See [`read`](crate::read).
pub fn read(text: &[u8]) -> Told<Table> {
    // SAFETY: pointer and length are those of a slice, which is only read.
    unsafe { cuddlelamb_read(text.as_ptr(), text.len()) }
}

/// See [`plan`](crate::plan).
pub fn plan(table: &Table, budget: u64, order: &mut [u64], fates: &mut [u64]) -> Told<Plan> {
    let (order, order_length) = (order.as_mut_ptr(), order.len());
    let (fates, fates_length) = (fates.as_mut_ptr(), fates.len());
    // SAFETY: each pointer and its length are those of a slice that is lent as `&mut`; the table is a copy, and it and
    // the budget may hold any numbers.
    unsafe { cuddlelamb_plan(*table, budget, order, order_length, fates, fates_length) }
}

/// See [`rooms`](crate::rooms).
pub fn rooms(table: &Table, budget: u64, turns: &mut [u64], rooms: &mut [u64]) -> Told<Rooms> {
    let (turns, turns_length) = (turns.as_mut_ptr(), turns.len());
    let (rooms, rooms_length) = (rooms.as_mut_ptr(), rooms.len());
    // SAFETY: as for `plan`: two slices that are lent as `&mut`, a copy of the table, and any numbers.
    unsafe { cuddlelamb_rooms(*table, budget, turns, turns_length, rooms, rooms_length) }
}

/// See [`list`](crate::list).
pub fn list(text: &[u8], out: &mut [u8]) -> Told<usize> {
    // SAFETY: each pointer and its length are those of a slice, of which the second is lent as `&mut`.
    unsafe { cuddlelamb_list(text.as_ptr(), text.len(), out.as_mut_ptr(), out.len()) }
}

/// See [`list_with_budget`](crate::list_with_budget).
pub fn list_with_budget(text: &[u8], budget: u64, out: &mut [u8]) -> Told<usize> {
    // SAFETY: each pointer and its length are those of a slice, of which the second is lent as `&mut`; any budget will do.
    unsafe { cuddlelamb_list_with_budget(text.as_ptr(), text.len(), budget, out.as_mut_ptr(), out.len()) }
}

/// See [`write`](crate::write).
pub fn write(table: &Table, out: &mut [u8]) -> Told<usize> {
    // SAFETY: pointer and length are those of a slice that is lent as `&mut`; the table is a copy and may hold any numbers.
    unsafe { cuddlelamb_write(*table, out.as_mut_ptr(), out.len()) }
}

/// See [`allocate`](crate::allocate).
pub fn allocate(mean: u64, variance: u64, assurance: u64) -> Told<u64> {
    // SAFETY: nothing is lent, and any numbers will do.
    unsafe { cuddlelamb_allocate(mean, variance, assurance) }
}

/// See [`costs`](crate::costs).
pub fn costs(model: u64) -> Told<[u64; COSTS]> {
    // SAFETY: nothing is lent, and any number will do.
    unsafe { cuddlelamb_costs(model) }
}
