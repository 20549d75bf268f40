//! The papers' rules as a plain program: the three records, the plain check, the strict check, the run and the report of
//! lateness.
//!
//! The numbers in the comments are the paper's. Each number is tried over all its rows before the next one.

mod form;
mod machine;
mod page;
pub mod readings;

use form::{plan_length, read_choice, read_model, read_plan, Chosen, Model};
use machine::{write_plan, Machine};
use page::Page;

/// A refusal: its number and its place, 0 where none is named.
#[derive(Clone, Copy, Debug, PartialEq, Eq)]
pub struct Refusal {
    pub number: u32,
    pub a: u32,
    pub b: u32,
}

/// What a pass answers.
#[derive(Clone, Copy, Debug, PartialEq, Eq)]
pub struct Figures {
    /// The core ticks of the grid: each one counts as many as its activity is wide.
    pub usage: u32,
    /// Cores times horizon.
    pub capacity: u32,
    /// The greatest end less the least release over all threads.
    pub makespan: u32,
}

/// The plain check: 1 to 14 with 51 to 53 and 57, then 21 to 29.
pub fn check_plain(model: &[u8], plan: &[u8]) -> Result<Figures, Refusal> {
    let model = read_model(model)?;
    let plan = read_plan(&model, plan)?;
    let page = Page::new(&model, &plan);
    page.plain()?;
    Ok(page.figures())
}

/// The strict check: the plain check, then 30 and 31.
pub fn check_strict(model: &[u8], plan: &[u8]) -> Result<Figures, Refusal> {
    let model = read_model(model)?;
    let plan = read_plan(&model, plan)?;
    let page = Page::new(&model, &plan);
    page.plain()?;
    page.free_core()?;
    page.tie_order()?;
    Ok(page.figures())
}

/// The form rules of a model alone: 1 to 7 with 51 to 53 and 57.
pub fn form(model: &[u8]) -> Result<(), Refusal> {
    read_model(model).map(|_| ())
}

/// The form rules of a model, and then those of a plan: 8 to 12 and 14.
pub fn well_formed(model: &[u8], plan: &[u8]) -> Result<(), Refusal> {
    let model = read_model(model)?;
    read_plan(&model, plan).map(|_| ())
}

/// efe of each activity, for a plan that passes 8 to 14.
pub fn earliest_starts(model: &[u8], plan: &[u8]) -> Result<Vec<u32>, Refusal> {
    let model = read_model(model)?;
    let plan = read_plan(&model, plan)?;
    Ok(Page::new(&model, &plan).efe)
}

/// The run: on success the plan is in the first bytes of `out`, and its length is answered with the figures.
pub fn run(model: &[u8], choice: &[u8], out: &mut [u8]) -> Result<(Figures, u32), Refusal> {
    let model = read_model(model)?;
    let choice = read_choice(&model, choice)?;
    let length = plan_length(&model);
    if out.len() < length {
        return refuse(41, length, 0);
    }
    let machine = Machine::run(&model, &choice);
    let answer = machine.judge(&model, &choice);
    match answer {
        Ok(_) => write_plan(&model, &choice, &machine, &mut out[..length]),
        Err(_) => out[..length].fill(0),
    }
    answer
}

/// The least rows of a list for the report, whatever the model's m.
const LEAST_ROWS: usize = 32;
/// The row of an activity whose thread has no period.
const NO_PERIOD: i32 = -2147483648;

/// The report of lateness, which "answers as the run does": for success and for 43 the row of each activity is "the
/// deadline less its end", and "for every other answer no row is written".
pub fn lateness(model: &[u8], choice: &[u8], rows: &mut [i32]) -> Result<(Figures, u32), Refusal> {
    let model = read_model(model)?;
    let choice = read_choice(&model, choice)?;
    if rows.len() < LEAST_ROWS {
        return refuse(50, 0, 0);
    }
    let machine = Machine::run(&model, &choice);
    // Before the first row, since 42 writes none.
    machine.all_ended()?;
    for (a, activity) in model.activities.iter().enumerate() {
        rows[a] = match choice.threads[activity.thread].deadline() {
            Some(deadline) => deadline as i32 - machine.end[a] as i32,
            None => NO_PERIOD,
        };
    }
    machine.judge(&model, &choice)
}

fn refuse<T>(number: u32, a: usize, b: usize) -> Result<T, Refusal> {
    Err(Refusal { number, a: a as u32, b: b as u32 })
}

/// What a pass answers of these words, ends and releases; usage "is counted in core ticks" (02).
fn figures(model: &Model, words: &[u32], end: &[u32], threads: &[Chosen]) -> Figures {
    let usage = words.iter().map(|&word| model.load(word)).sum();
    let greatest_end = end.iter().copied().max().unwrap_or(0);
    let least_release = threads.iter().map(|thread| thread.release).min().unwrap_or(0);
    Figures { usage, capacity: model.cores * model.horizon, makespan: greatest_end - least_release }
}
