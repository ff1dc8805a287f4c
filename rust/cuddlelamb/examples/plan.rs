//! Reads a table once and plans it with each budget named: plan FILE [BUDGET ..], where FILE - is standard input. Without
//! a budget it takes the table's own. It prints what examples/plan.c prints: the plans with the fates and the rooms, the
//! listings, then what a call says that refuses, an allocation and a cost table. On standard error it says refusals and
//! fates in words.
//! Exit status: 1 where the table or a budget was refused; 2 where there is no table to read, where a budget is no
//! number, and where the output cannot be written. A Rust program takes a closed standard stream for /dev/null.

use std::ffi::OsStr;
use std::fs::File;
use std::io::{self, Read, Write};
use std::process::ExitCode;

use cuddlelamb::{Fate, Refused, Table, JOBS, LISTING};

/// As many bytes as are read; a valid text is shorter.
const MOST_READ: u64 = 4096;

fn main() -> ExitCode {
    let mut words = std::env::args_os().skip(1);
    let file = words.next();
    let budgets: Option<Vec<u64>> = words.map(|word| number(word.to_str()?)).collect();
    let (Some(file), Some(budgets)) = (file, budgets) else {
        eprintln!("usage: plan FILE [BUDGET ..]");
        return ExitCode::from(2);
    };
    let text = match read_text(&file) {
        Ok(text) => text,
        Err(error) => {
            let name = if file == "-" { "standard input".into() } else { file.to_string_lossy() };
            eprintln!("{name}: {error}");
            return ExitCode::from(2);
        }
    };
    let out = &mut io::stdout().lock();
    let printed = print_all(out, &text, &budgets).and_then(|good| out.flush().map(|()| good));
    match printed {
        Ok(good) => ExitCode::from(if good { 0 } else { 1 }),
        Err(error) => {
            eprintln!("plan: the output cannot be written: {error}");
            ExitCode::from(2)
        }
    }
}

/// A number is digits with no leading zero, and at most `u64::MAX`.
fn number(word: &str) -> Option<u64> {
    word.parse().ok().filter(|number: &u64| number.to_string() == word)
}

/// The front of a file or of standard input. Where reading fails, what came before is no table.
fn read_text(file: &OsStr) -> io::Result<Vec<u8>> {
    let mut text = Vec::new();
    if file == "-" {
        io::stdin().take(MOST_READ).read_to_end(&mut text)?;
    } else {
        File::open(file)?.take(MOST_READ).read_to_end(&mut text)?;
    }
    Ok(text)
}

/// Everything about one text; whether neither it nor a budget was refused.
fn print_all(out: &mut impl Write, text: &[u8], budgets: &[u64]) -> io::Result<bool> {
    let read = cuddlelamb::read(text);
    let good = match &read {
        Ok(table) => print_plans(out, table, budgets)?,
        Err(refused) => {
            writeln!(out, "read: {}", numbers(*refused))?;
            eprintln!("{refused}");
            false
        }
    };
    print_listing(out, text)?;
    if let Some(last) = budgets.last() {
        print_listing_with_budget(out, text, *last)?;
    }
    print_short_buffer(out, &read.unwrap_or_default())?;
    print_allocation(out, 100, 100, 900)?;
    print_allocation(out, 1_000_000, 1, 500)?;
    print_costs(out, 3)?;
    print_costs(out, 4)?;
    Ok(good)
}

fn numbers(Refused { number, line }: Refused) -> String {
    format!("refused {number}, line {line}")
}

fn places(places: &[u64]) -> String {
    places.iter().map(|place| format!(" {place}")).collect()
}

/// Plan and rooms for each budget, or for the table's own where none is named; whether none was refused.
fn print_plans(out: &mut impl Write, table: &Table, budgets: &[u64]) -> io::Result<bool> {
    let own = [table.budget];
    let mut good = true;
    for budget in if budgets.is_empty() { &own } else { budgets } {
        good &= print_plan(out, table, *budget)?;
        good &= print_rooms(out, table, *budget)?;
    }
    Ok(good)
}

/// The plan and the fates with one budget, or its refusal; a fate belongs to the job at its place in the table.
fn print_plan(out: &mut impl Write, table: &Table, budget: u64) -> io::Result<bool> {
    let (mut order, mut fates) = ([0; JOBS], [0; JOBS]);
    let plan = match cuddlelamb::plan(table, budget, &mut order, &mut fates) {
        Ok(plan) => plan,
        Err(refused) => {
            writeln!(out, "plan with budget {budget}: {}", numbers(refused))?;
            eprintln!("{refused}");
            return Ok(false);
        }
    };
    let (count, speed, energy) = (plan.count, plan.speed, plan.energy);
    writeln!(out, "plan with budget {budget}: {count} jobs at {speed} MHz for {energy} units")?;
    writeln!(out, "order:{}", places(&order[..count]))?;
    for (job, fate) in table.jobs[..table.job_count].iter().zip(fates) {
        writeln!(out, "job {}: fate {fate}", job.number)?;
        match Fate::try_from(fate) {
            Ok(Fate::Planned) | Err(_) => (),
            Ok(why) => eprintln!("job {}: {why}", job.number),
        }
    }
    Ok(true)
}

/// How much of one budget the plan leaves at top cost, after each turn and at the end, or its refusal.
fn print_rooms(out: &mut impl Write, table: &Table, budget: u64) -> io::Result<bool> {
    let (mut turns, mut rooms) = ([0; JOBS], [0; JOBS]);
    let told = match cuddlelamb::rooms(table, budget, &mut turns, &mut rooms) {
        Ok(told) => told,
        Err(refused) => {
            writeln!(out, "rooms with budget {budget}: {}", numbers(refused))?;
            return Ok(false);
        }
    };
    writeln!(out, "rooms with budget {budget}: {} turns, {} units left", told.turns, told.room)?;
    for (job, room) in turns.iter().zip(rooms).take(told.turns) {
        writeln!(out, "after the turn of job {job}: {room}")?;
    }
    Ok(true)
}

fn print_listing(out: &mut impl Write, text: &[u8]) -> io::Result<()> {
    let mut listing = [0; LISTING];
    let length = cuddlelamb::list(text, &mut listing).expect("room for the longest listing");
    writeln!(out, "listing: {length} bytes")?;
    out.write_all(&listing[..length])
}

/// A refused budget has a listing too, as a refused text has.
fn print_listing_with_budget(out: &mut impl Write, text: &[u8], budget: u64) -> io::Result<()> {
    let mut listing = [0; LISTING];
    let length = cuddlelamb::list_with_budget(text, budget, &mut listing).expect("room for the longest listing");
    writeln!(out, "listing with budget {budget}: {length} bytes")?;
    out.write_all(&listing[..length])
}

/// A refusal changes nothing in the lent buffers.
fn print_short_buffer(out: &mut impl Write, table: &Table) -> io::Result<()> {
    let mut order = [7, 8, 9];
    if let Err(refused) = cuddlelamb::plan(table, table.budget, &mut order, &mut [0; JOBS]) {
        writeln!(out, "plan with an order buffer of 3 places: {}", numbers(refused))?;
    }
    writeln!(out, "the buffer:{}", places(&order))
}

fn print_allocation(out: &mut impl Write, mean: u64, variance: u64, assurance: u64) -> io::Result<()> {
    let answer = cuddlelamb::allocate(mean, variance, assurance);
    let said = answer.map_or_else(numbers, |cycles| cycles.to_string());
    writeln!(out, "allocation of {mean}, {variance}, {assurance}: {said}")
}

fn print_costs(out: &mut impl Write, model: u64) -> io::Result<()> {
    let said = cuddlelamb::costs(model).map_or_else(|refused| format!(" {}", numbers(refused)), |costs| places(&costs));
    writeln!(out, "costs of model {model}:{said}")
}
