//! An independent program of the papers' rules (`reference`, `edits`, `keeping` and `exchange`), the exports of the proved
//! code (`proved`) and what is needed to compare them. From this package's folder, where `rt` makes the archive as part of
//! the build:
//!
//! - `cargo test --release`: the paper's cases, pages of several rounds, gangs, edited plans, edits asked and kept, wrapped
//!   models and the solutions of source document 000, with both programs, every grid of small models with gangs, and random
//!   pages and edits beside readings that are nearly the paper's
//! - `cargo run --release --bin compare`: many pairs of records, lists of edits and files, with a table of the answers reached
//! - `cargo run --release --bin bench`: the times of both

pub mod cases;
pub mod claims;
pub mod edits;
pub mod exchange;
pub mod files;
pub mod keeping;
pub mod proved;
pub mod random;
pub mod records;
pub mod reference;

use exchange::Standing;
use reference::{Figures, Refusal};

/// The answer of an export. `number` is 0 for a pass, then come usage, cores times horizon, makespan and the length of
/// the plan (0 for a check and for an ask), or four zeros for an edit and for a keep; otherwise it is the number of the refusal
/// or of the rule that an ask tells, then come A, B, 0 and 0.
#[repr(C)]
#[derive(Clone, Copy, Debug, PartialEq, Eq)]
pub struct Answer {
    pub number: u32,
    pub first: u32,
    pub second: u32,
    pub third: u32,
    pub length: u32,
}

impl Answer {
    pub fn accepted(usage: u32, capacity: u32, makespan: u32, length: u32) -> Answer {
        Answer { number: 0, first: usage, second: capacity, third: makespan, length }
    }

    pub fn refused(number: u32, a: u32, b: u32) -> Answer {
        Answer { number, first: a, second: b, third: 0, length: 0 }
    }
}

impl From<Result<Figures, Refusal>> for Answer {
    fn from(result: Result<Figures, Refusal>) -> Answer {
        result.map(|figures| (figures, 0)).into()
    }
}

impl From<Result<(Figures, u32), Refusal>> for Answer {
    fn from(result: Result<(Figures, u32), Refusal>) -> Answer {
        match result {
            Ok((figures, length)) => Answer::accepted(figures.usage, figures.capacity, figures.makespan, length),
            Err(refusal) => Answer::refused(refusal.number, refusal.a, refusal.b),
        }
    }
}

impl From<Result<(), Refusal>> for Answer {
    fn from(result: Result<(), Refusal>) -> Answer {
        match result {
            Ok(()) => Answer::accepted(0, 0, 0, 0),
            Err(refusal) => Answer::refused(refusal.number, refusal.a, refusal.b),
        }
    }
}

/// The editing state that goes through all calls that edit a plan. `asked` is 1 where a mark is asked and 2 where a clear is,
/// with its activity and its tick; with any other number nothing is asked, which a call writes as three zeros. An editor
/// begins with zeros alone. `total` and `counts` are handed back as they were given.
#[repr(C)]
#[derive(Clone, Copy, Debug, Default, PartialEq, Eq)]
pub struct Editing {
    pub asked: u32,
    pub activity: u32,
    pub tick: u32,
    pub total: u32,
    pub counts: [u32; 32],
}

/// The answer of an export that edits a plan, and the state that it hands back.
#[repr(C)]
#[derive(Clone, Copy, Debug, PartialEq, Eq)]
pub struct Step {
    pub answer: Answer,
    pub state: Editing,
}

/// The answer of an export about wrapped records. `number` is 0 where a record stands, then come its number from 0, its
/// first byte in its argument and its length; otherwise it is the refusal's number, then come A, 0 and 0. `zero` is 0.
#[repr(C)]
#[derive(Clone, Copy, Debug, PartialEq, Eq)]
pub struct Part {
    pub number: u32,
    pub zero: u32,
    pub record: u64,
    pub offset: u64,
    pub length: u64,
}

impl Part {
    pub fn standing(record: u64, offset: u64, length: u64) -> Part {
        Part { number: 0, zero: 0, record, offset, length }
    }

    pub fn refused(number: u32, a: u64) -> Part {
        Part { number, zero: 0, record: a, offset: 0, length: 0 }
    }
}

impl From<Result<Standing, Refusal>> for Part {
    fn from(result: Result<Standing, Refusal>) -> Part {
        match result {
            Ok(Standing { record, offset, length }) => Part::standing(record as u64, offset as u64, length as u64),
            Err(refusal) => Part::refused(refusal.number, refusal.a.into()),
        }
    }
}
