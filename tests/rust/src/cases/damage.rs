//! Damaged records.

use super::pages::{gang_page, no_habits, page, Page};
use super::{no_case, plan_case, run_case, Case};
use crate::random::Random;
use crate::records::{set_length, Model, ThreadRow};

pub(super) fn random_bytes(random: &mut Random) -> Case {
    let length = random.below(80);
    let mut model = random.bytes(length);
    if model.len() >= 10 && !random.one_in(4) {
        let n = random.within(0, 3);
        let m = random.within(0, 3);
        let version = random.within(1, 3) as u8;
        if !random.one_in(4) {
            model.resize(first_row(version) + 10 * n + row_length(version) * m, 0);
        }
        let cores = random.within(0, 9) as u8;
        let head = [0, 0, 0, 0, version, cores, n as u8, m as u8, 0, random.below(9) as u8];
        model[..10].copy_from_slice(&head);
        if version > 1 && model.len() > 10 {
            model[10] = random.within(0, 5) as u8;
        }
        set_length(&mut model);
    }
    let length = random.below(60);
    let mut second = random.bytes(length);
    if second.len() >= 4 && random.one_in(2) {
        set_length(&mut second);
    }
    let length = random.below(60);
    let buffer = Some(random.bytes(length));
    Case { model, page: None, second, checked: true, buffer, ..no_case() }
}

/// Where the rows of a model of this version begin.
fn first_row(version: u8) -> usize {
    if version == 1 {
        10
    } else {
        11
    }
}

/// The bytes of an activity row of this version.
fn row_length(version: u8) -> usize {
    14 + usize::from(version)
}

/// A sound page as a run or as a plan.
pub(super) fn sound_case(random: &mut Random) -> (Page, Case) {
    let page = page(random, no_habits);
    let case = if random.one_in(2) { run_case(random, &page.model, &page.choice) } else { plan_case(&page) };
    (page, case)
}

pub(super) fn damaged_model(random: &mut Random) -> Case {
    let (page, mut case) = sound_case(random);
    for _ in 0..random.pick(&[1, 1, 2, 3]) {
        let number = random.pick(FORM_RULES);
        damage_model(random, number, &page.model, &mut case.model);
    }
    case.page = None;
    match random.below(6) {
        0 => case.second.clear(),
        1 => damage_second_head(random, &mut case.second),
        _ => {}
    }
    case
}

/// A model with a gang, of which one width or two are damaged, and now and then another part.
pub(super) fn damaged_width(random: &mut Random) -> Case {
    let page = gang_page(random, no_habits);
    let mut case = if random.one_in(2) { run_case(random, &page.model, &page.choice) } else { plan_case(&page) };
    let other = random.pick(FORM_RULES);
    for number in random.pick(&[&[57][..], &[57, 57], &[57, other]]) {
        damage_model(random, *number, &page.model, &mut case.model);
    }
    case.page = None;
    case
}

/// The form rules of a model, in their order.
pub(crate) const FORM_RULES: &[usize] = &[1, 2, 3, 4, 51, 5, 52, 6, 53, 57, 7];

/// Breaks the form rule of this number, most of the time; 51 to 53 from version 2 on, 57 in version 3.
pub(crate) fn damage_model(random: &mut Random, number: usize, model: &Model, bytes: &mut Vec<u8>) {
    let n = model.threads.len();
    let m = model.activities.len();
    let version = model.version();
    let (head, length) = (first_row(version), row_length(version));
    // An earlier damage may have changed the length.
    if bytes.len() != head + 10 * n + length * m {
        return;
    }
    let thread_row = head + 10 * random.below(n);
    let a = random.below(m);
    let activity_row = head + 10 * n + length * a;
    match number {
        1 => damage_length(random, bytes),
        2 => bytes[4] = random.pick(&[0, version % 3 + 1, 4, 255]),
        3 => match random.below(4) {
            0 => bytes[5] = random.pick(&[0, 9, 255]),
            1 => bytes[6] = random.pick(&[0, 9, 255]),
            2 => bytes[7] = random.pick(&[0, 33, 255]),
            _ => {
                let horizon: u16 = random.pick(&[0, 4097, 65535]);
                bytes[8..10].copy_from_slice(&horizon.to_be_bytes());
            }
        },
        4 => match random.below(4) {
            0 => bytes[6] = random.within(1, 8) as u8,
            1 => bytes[7] = random.within(1, 32) as u8,
            _ => resize_with_length(random, bytes, 10),
        },
        5 => match random.below(3) {
            0 => put_pair(bytes, thread_row, (8, 7)),
            1 => put_pair(bytes, thread_row + 4, (1, 0)),
            _ => put_pair(bytes, thread_row, (0, random.pick(&[1, 256, 65535]))),
        },
        6 => match random.below(3) {
            0 => bytes[activity_row] = random.pick(&[n as u8, n as u8 + 1, 255]),
            1 => put_pair(bytes, activity_row + 1, (0, random.pick(&[0, 1, 256]))),
            _ => put_pair(bytes, activity_row + 1, random.pick(&[(2, 1), (256, 255)])),
        },
        7 => {
            let bit = if random.one_in(2) { a } else { random.within(a, 31) };
            let mask = activity_row + random.pick(&[7, 11]);
            bytes[mask + 3 - bit / 8] |= 1 << (bit % 8);
        }
        _ if version == 1 => {}
        51 => bytes[10] = random.pick(&[0, 5, 255, 8 / n as u8 + 1, 32 / m as u8 + 1]),
        52 => damage_moved_range(random, model.rounds(), &mut bytes[thread_row..]),
        53 => bytes[activity_row + 15] = random.pick(&[m as u8, m as u8 + 1, 254]),
        _ if version == 2 => {}
        _ => bytes[activity_row + 16] = random.pick(&[0, model.cores + 1, 255]),
    }
}

/// Unequal period ends, or a most release that is moved to 65535 or just above.
fn damage_moved_range(random: &mut Random, rounds: usize, row: &mut [u8]) {
    match random.below(4) {
        0 => put_pair(row, 0, random.pick(&[(1, 2), (255, 256), (1, 65535)])),
        _ => {
            let period = random.pick(&[1, 2, 256, 16384, 21845]);
            let most = 65535 - (rounds as u16 - 1) * period;
            put_pair(row, 0, (period, period));
            put_pair(row, 4, (0, most.saturating_add(random.pick(&[0, 1, 1, 2]))));
        }
    }
}

fn put_pair(bytes: &mut [u8], at: usize, pair: (u16, u16)) {
    bytes[at..at + 2].copy_from_slice(&pair.0.to_be_bytes());
    bytes[at + 2..at + 4].copy_from_slice(&pair.1.to_be_bytes());
}

/// Parts the length field from the bytes given, or leaves too few bytes.
fn damage_length(random: &mut Random, bytes: &mut Vec<u8>) {
    match random.below(6) {
        0 => bytes.truncate(random.below(bytes.len())),
        1 => bytes.truncate(random.below(10)),
        2 => {
            bytes.truncate(random.within(4, 10));
            set_length(bytes);
        }
        3 => bytes.push(0),
        4 => bytes[random.below(3)] ^= 1 << random.below(8),
        _ => bytes[3] ^= 1 << random.below(8),
    }
}

/// Another length than the formula's, told truly by the length field.
fn resize_with_length(random: &mut Random, bytes: &mut Vec<u8>, least: usize) {
    let other = random.pick(&[1, 2, 15, 16]);
    let length = random.pick(&[least, bytes.len() - 1, bytes.len() + 1, bytes.len() + other]);
    bytes.resize(length.max(least), 0);
    set_length(bytes);
}

/// Breaks one or two of 8 to 11, most of the time.
pub(super) fn damage_second_head(random: &mut Random, bytes: &mut Vec<u8>) {
    for _ in 0..random.within(1, 2) {
        // The first damage may have left too few bytes.
        if bytes.len() < 9 {
            return;
        }
        match random.below(4) {
            0 => damage_length(random, bytes),
            1 => bytes[4] = random.pick(&[0, 2, 255]),
            2 => {
                let at = random.within(5, 8);
                bytes[at] = bytes[at].wrapping_add(random.pick(&[1, 255, 8]));
            }
            _ => resize_with_length(random, bytes, 9),
        }
    }
}

/// A value just outside of the range, where there is one.
fn outside(random: &mut Random, range: (u16, u16)) -> u16 {
    let below = range.0.checked_sub(1);
    let above = range.1.checked_add(1);
    if random.one_in(2) { below.or(above) } else { above.or(below) }.unwrap_or(0)
}

/// Puts the release or the period of a thread, of any round, outside of its range.
fn damage_chosen(random: &mut Random, model: &Model, threads: &mut [(u16, u16)]) {
    let j = random.below(threads.len());
    let ThreadRow { release, period, .. } = model.unrolled().threads[j];
    if random.one_in(2) {
        threads[j].0 = outside(random, release);
    } else {
        threads[j].1 = outside(random, period);
    }
}

/// What of a second record is damaged: head, thread rows, what stands behind them; one or two of the three.
fn damaged_parts(random: &mut Random) -> [bool; 3] {
    let mut parts = [false; 3];
    for _ in 0..random.within(1, 2) {
        parts[random.below(3)] = true;
    }
    parts
}

pub(super) fn damaged_choice(random: &mut Random) -> Case {
    let mut page = page(random, no_habits);
    let [head, threads, durations] = damaged_parts(random);
    if threads {
        damage_chosen(random, &page.model, &mut page.choice.threads);
    }
    if durations {
        for _ in 0..random.within(1, 2) {
            let a = random.below(page.choice.durations.len());
            let row = a % page.model.activities.len();
            page.choice.durations[a] = outside(random, page.model.activities[row].duration);
        }
    }
    let mut case = run_case(random, &page.model, &page.choice);
    if head {
        damage_second_head(random, &mut case.second);
    }
    case
}

pub(super) fn damaged_plan(random: &mut Random) -> Case {
    let mut page = page(random, no_habits);
    let [head, threads, words] = damaged_parts(random);
    if threads {
        damage_chosen(random, &page.model, &mut page.plan.threads);
    }
    let m = page.plan.rows.len();
    if words && m < 32 {
        for _ in 0..random.within(1, 2) {
            let t = random.below(page.plan.words.len());
            page.plan.words[t] |= 1 << random.pick(&[m, 31]);
        }
    }
    let mut case = plan_case(&page);
    if head {
        damage_second_head(random, &mut case.second);
    }
    case
}
