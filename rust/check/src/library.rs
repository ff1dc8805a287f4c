//! The library's calls as data: what is asked, and what is told, with the buffers before and after.

use crate::reference::{Plan, Refused, Rooms, Table};

/// What a call tells: number and line, both 0 where nothing is refused, and a value, which is zeros in a refusal.
#[derive(Clone, Copy, Debug, PartialEq, Eq)]
pub struct Told<Value> {
    pub number: u64,
    pub line: u64,
    pub value: Value,
}

impl<Value> Told<Value> {
    /// How the library tells a result; `zeros` is the value of a refusal.
    pub fn of(result: Result<Value, Refused>, zeros: Value) -> Told<Value> {
        match result {
            Ok(value) => Told { number: 0, line: 0, value },
            Err(Refused { number, line }) => Told { number, line, value: zeros },
        }
    }
}

/// A call, with the buffers as they are lent.
#[derive(Clone, Debug, PartialEq, Eq)]
pub enum Request {
    Read { text: Vec<u8> },
    Plan { table: Box<Table>, budget: u64, order: Vec<u64>, fates: Vec<u64> },
    Rooms { table: Box<Table>, budget: u64, turns: Vec<u64>, rooms: Vec<u64> },
    List { text: Vec<u8>, out: Vec<u8> },
    ListWithBudget { text: Vec<u8>, budget: u64, out: Vec<u8> },
    Write { table: Box<Table>, out: Vec<u8> },
    Allocate { mean: u64, variance: u64, assurance: u64 },
    Costs { model: u64 },
}

/// What a call told, with the buffers as it left them.
#[derive(Clone, Debug, PartialEq, Eq)]
pub enum Answer {
    Table { told: Box<Told<Table>> },
    Plan { told: Told<Plan>, order: Vec<u64>, fates: Vec<u64> },
    Rooms { told: Told<Rooms>, turns: Vec<u64>, rooms: Vec<u64> },
    Text { told: Told<usize>, out: Vec<u8> },
    Cycles { told: Told<u64> },
    Costs { told: Told<[u64; 7]> },
}

impl Answer {
    /// The refusal's number, or 0.
    pub fn number(&self) -> u64 {
        match self {
            Answer::Table { told } => told.number,
            Answer::Plan { told, .. } => told.number,
            Answer::Rooms { told, .. } => told.number,
            Answer::Text { told, .. } => told.number,
            Answer::Cycles { told } => told.number,
            Answer::Costs { told } => told.number,
        }
    }
}
