//! Models wrapped for exchange, request U6 of 02: which of two wrapped records stands, and which one of a file.
//!
//! A wrapper is "4-byte length, version byte 1, series (4 bytes), issue (2), withdrawn (0 or 1), then the model record".
//! Like every length, its own counts the whole record.

use crate::reference::{self, Refusal};

/// What stands before the model.
const HEAD: usize = 12;

/// The record that stands: its number from 0, its first byte in its argument and its length.
#[derive(Clone, Copy, Debug, PartialEq, Eq)]
pub struct Standing {
    pub record: usize,
    pub offset: usize,
    pub length: usize,
}

/// Which of two wrapped records stands, "the first where both are equal".
pub fn stands(first: &[u8], second: &[u8]) -> Result<Standing, Refusal> {
    for (r, given) in [first, second].into_iter().enumerate() {
        if length(given) != Some(given.len()) || !sound(given) {
            return refuse(54, r);
        }
    }
    if replaces(first, second, 1)? {
        Ok(Standing { record: 1, offset: 0, length: second.len() })
    } else {
        Ok(Standing { record: 0, offset: 0, length: first.len() })
    }
}

/// Which record of a file stands: "choose along it, each against the one standing so far, and stop at the first refusal".
pub fn choose(file: &[u8]) -> Result<Standing, Refusal> {
    let mut standing = first_record(file, 0)?;
    let mut chosen = Standing { record: 0, offset: 0, length: standing.len() };
    let mut next = standing.len();
    let mut r = 1;
    while next < file.len() {
        let record = first_record(&file[next..], r)?;
        if replaces(standing, record, r)? {
            standing = record;
            chosen = Standing { record: r, offset: next, length: record.len() };
        }
        next += record.len();
        r += 1;
    }
    Ok(chosen)
}

fn refuse<T>(number: u32, r: usize) -> Result<T, Refusal> {
    Err(Refusal { number, a: r as u32, b: 0 })
}

/// The wrapper's length; none where it is "under 12 or unreadable".
fn length(bytes: &[u8]) -> Option<usize> {
    let length = bytes.first_chunk().map(|four| u32::from_be_bytes(*four) as usize);
    length.filter(|&length| length >= HEAD)
}

/// Version, flag and model of a record that has its own length.
fn sound(record: &[u8]) -> bool {
    record[4] == 1 && record[11] <= 1 && reference::form(&record[HEAD..]).is_ok()
}

/// Record `r`, with which these bytes begin; 54 where there is none.
fn first_record(bytes: &[u8], r: usize) -> Result<&[u8], Refusal> {
    match length(bytes).and_then(|length| bytes.get(..length)) {
        Some(record) if sound(record) => Ok(record),
        _ => refuse(54, r),
    }
}

fn series(record: &[u8]) -> &[u8] {
    &record[5..9]
}

/// "The higher issue stands; at equal issue the withdrawn one".
fn rank(record: &[u8]) -> (u16, u8) {
    (u16::from_be_bytes([record[9], record[10]]), record[11])
}

/// Whether record `r` stands over the one standing so far; 55 and 56.
fn replaces(standing: &[u8], record: &[u8], r: usize) -> Result<bool, Refusal> {
    if series(standing) != series(record) {
        return refuse(55, r);
    }
    if rank(standing) == rank(record) && standing != record {
        return refuse(56, r);
    }
    Ok(rank(record) > rank(standing))
}
