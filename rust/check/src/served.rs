//! The library's calls, asked of a server process, for a machine that cannot link the archive: check/server/serve.c,
//! which says how requests and answers are laid out.

use std::io::{Read, Write};
use std::process::{Child, Command, Stdio};

use crate::library::{Answer, Request, Told};
use crate::reference::{Hold, Job, Plan, Rooms, Speed, Table};

/// Runs what tools/c-build has made of the archive.
const RUN: &str = concat!(env!("CARGO_MANIFEST_DIR"), "/../../tools/c-run");

/// The library, ready to be called.
pub struct Library {
    process: Child,
}

impl Library {
    /// Starts the server that `tools/c-build serve rust/check/server/serve.c` has built.
    pub fn open() -> Library {
        let mut command = Command::new(RUN);
        command.arg("serve").stdin(Stdio::piped()).stdout(Stdio::piped());
        Library { process: command.spawn().expect("the server starts") }
    }

    /// The answers of many calls, in one exchange: a frame with all requests, and a frame with all answers.
    pub fn answers(&mut self, requests: &[Request]) -> Vec<Answer> {
        let mut frame = vec![0; 8];
        requests.iter().for_each(|request| put_request(&mut frame, request));
        let length = frame.len() as u64 - 8;
        frame[..8].copy_from_slice(&length.to_le_bytes());
        let input = self.process.stdin.as_mut().expect("the server's input");
        input.write_all(&frame).and_then(|()| input.flush()).expect("the server takes requests");
        let output = self.process.stdout.as_mut().expect("the server's output");
        let mut length = [0; 8];
        output.read_exact(&mut length).expect("the server answers, if tools/c-build has built it");
        let mut frame = vec![0; u64::from_le_bytes(length) as usize];
        output.read_exact(&mut frame).expect("the server answers whole");
        let mut rest = Rest { bytes: &frame };
        let answers = requests.iter().map(|request| rest.answer(request)).collect();
        assert!(rest.bytes.is_empty(), "the server answers more than it was asked");
        answers
    }
}

impl Drop for Library {
    /// The server ends when its input does.
    fn drop(&mut self) {
        drop(self.process.stdin.take());
        self.process.wait().ok();
    }
}

fn put_numbers(frame: &mut Vec<u8>, numbers: &[u64]) {
    numbers.iter().for_each(|number| frame.extend_from_slice(&number.to_le_bytes()));
}

fn put_request(frame: &mut Vec<u8>, request: &Request) {
    match request {
        Request::Read { text } => {
            put_numbers(frame, &[1, text.len() as u64]);
            frame.extend_from_slice(text);
        }
        Request::Plan { table, budget, order, fates } => {
            put_numbers(frame, &[2]);
            put_planning(frame, table, *budget, order, fates);
        }
        Request::Rooms { table, budget, turns, rooms } => {
            put_numbers(frame, &[3]);
            put_planning(frame, table, *budget, turns, rooms);
        }
        Request::List { text, out } => {
            put_numbers(frame, &[4, text.len() as u64, out.len() as u64]);
            frame.extend_from_slice(text);
            frame.extend_from_slice(out);
        }
        Request::ListWithBudget { text, budget, out } => {
            put_numbers(frame, &[5, *budget, text.len() as u64, out.len() as u64]);
            frame.extend_from_slice(text);
            frame.extend_from_slice(out);
        }
        Request::Write { table, out } => {
            put_numbers(frame, &[6]);
            put_table(frame, table);
            put_numbers(frame, &[out.len() as u64]);
            frame.extend_from_slice(out);
        }
        Request::Allocate { mean, variance, assurance } => put_numbers(frame, &[7, *mean, *variance, *assurance]),
        Request::Costs { model } => put_numbers(frame, &[8, *model]),
    }
}

/// What follows the number of a call that plans into two lent buffers.
fn put_planning(frame: &mut Vec<u8>, table: &Table, budget: u64, one: &[u64], other: &[u64]) {
    put_table(frame, table);
    put_numbers(frame, &[budget, one.len() as u64, other.len() as u64]);
    put_numbers(frame, one);
    put_numbers(frame, other);
}

fn put_table(frame: &mut Vec<u8>, table: &Table) {
    let counts = [table.speed_count, table.job_count, table.hold_count].map(|count| count as u64);
    put_numbers(frame, &[table.clock, table.budget]);
    put_numbers(frame, &counts);
    table.speeds.iter().for_each(|speed| put_numbers(frame, &[speed.mhz, speed.cost]));
    for job in &table.jobs {
        put_numbers(frame, &[job.number, job.cycles, job.worth, job.critical, job.termination, job.request]);
    }
    table.holds.iter().for_each(|hold| put_numbers(frame, &[hold.resource, hold.holder]));
}

/// What is left of a frame of answers.
struct Rest<'frame> {
    bytes: &'frame [u8],
}

impl Rest<'_> {
    fn bytes(&mut self, length: usize) -> Vec<u8> {
        let (front, rest) = self.bytes.split_at(length);
        self.bytes = rest;
        front.to_vec()
    }

    fn number(&mut self) -> u64 {
        let (front, rest) = self.bytes.split_first_chunk().expect("a whole number");
        self.bytes = rest;
        u64::from_le_bytes(*front)
    }

    fn numbers(&mut self, count: usize) -> Vec<u64> {
        (0..count).map(|_| self.number()).collect()
    }

    fn told<Value>(&mut self, value: impl FnOnce(&mut Self) -> Value) -> Told<Value> {
        let (number, line) = (self.number(), self.number());
        Told { number, line, value: value(self) }
    }

    fn answer(&mut self, request: &Request) -> Answer {
        match request {
            Request::Read { .. } => Answer::Table { told: Box::new(self.told(Self::table)) },
            Request::Plan { order, fates, .. } => Answer::Plan {
                told: self.told(|rest| Plan {
                    count: rest.number() as usize,
                    speed: rest.number(),
                    energy: rest.number(),
                }),
                order: self.numbers(order.len()),
                fates: self.numbers(fates.len()),
            },
            Request::Rooms { turns, rooms, .. } => Answer::Rooms {
                told: self.told(|rest| Rooms { turns: rest.number() as usize, room: rest.number() }),
                turns: self.numbers(turns.len()),
                rooms: self.numbers(rooms.len()),
            },
            Request::List { out, .. } | Request::ListWithBudget { out, .. } | Request::Write { out, .. } => {
                Answer::Text { told: self.told(|rest| rest.number() as usize), out: self.bytes(out.len()) }
            }
            Request::Allocate { .. } => Answer::Cycles { told: self.told(Self::number) },
            Request::Costs { .. } => Answer::Costs { told: self.told(|rest| std::array::from_fn(|_| rest.number())) },
        }
    }

    fn table(&mut self) -> Table {
        Table {
            clock: self.number(),
            budget: self.number(),
            speed_count: self.number() as usize,
            job_count: self.number() as usize,
            hold_count: self.number() as usize,
            speeds: std::array::from_fn(|_| Speed { mhz: self.number(), cost: self.number() }),
            jobs: std::array::from_fn(|_| Job {
                number: self.number(),
                cycles: self.number(),
                worth: self.number(),
                critical: self.number(),
                termination: self.number(),
                request: self.number(),
            }),
            holds: std::array::from_fn(|_| Hold { resource: self.number(), holder: self.number() }),
        }
    }
}
