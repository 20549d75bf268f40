//! Wrapped models for the comparison: pairs and files of one series, with the alterations that 55 and 56 are for, damaged
//! records, and bytes behind the last one or fewer of them. Files have one record to some dozens.

use crate::cases;
use crate::random::Random;
use crate::records::{set_length, Model, Wrapped};
use crate::reference;

/// The two records of a pair, or a file.
#[derive(Clone, Debug)]
pub enum Given {
    Pair(Vec<u8>, Vec<u8>),
    File(Vec<u8>),
}

pub struct Case {
    pub kind: &'static str,
    pub given: Given,
}

type Alter = fn(&mut Random, &mut Sheaf);

/// Each kind of case with its share.
const KINDS: &[(usize, &str, &[Alter])] = &[
    (8, "sound", &[]),
    (4, "other bytes", &[other_bytes]),
    (3, "another series", &[another_series]),
    (6, "damaged", &[damaged]),
    (2, "ends", &[ends]),
    (2, "two damaged", &[damaged, damaged]),
    (2, "other bytes and another series", &[other_bytes, another_series]),
    (2, "other bytes and damaged", &[other_bytes, damaged]),
    (2, "another series and damaged", &[another_series, damaged]),
    (1, "other bytes and ends", &[other_bytes, ends]),
    (1, "random bytes", &[random_bytes]),
];

/// The case of this number: a pair for an even one, a file for an odd one.
pub fn make(seed: u64, number: u64) -> Case {
    let random = &mut Random::of_case(seed, number);
    let total = KINDS.iter().map(|kind| kind.0).sum();
    let mut left = random.below(total);
    for &(share, kind, alterations) in KINDS {
        if left < share {
            let pair = number.is_multiple_of(2);
            let count = if pair { 2 } else { count(random) };
            let mut sheaf = sheaf(random, count);
            for alter in alterations {
                alter(random, &mut sheaf);
            }
            return Case { kind, given: given(random, pair, &sheaf.bytes) };
        }
        left -= share;
    }
    unreachable!()
}

/// The records, end to end for a file; a few files have none.
fn given(random: &mut Random, pair: bool, bytes: &[Vec<u8>]) -> Given {
    match bytes {
        [first, second] if pair => Given::Pair(first.clone(), second.clone()),
        _ if random.one_in(200) => Given::File(Vec::new()),
        _ => Given::File(bytes.concat()),
    }
}

/// How many records a file has.
fn count(random: &mut Random) -> usize {
    match random.below(20) {
        0 => random.within(20, 60),
        1..=2 => random.within(6, 12),
        3..=4 => 1,
        _ => random.within(2, 5),
    }
}

// Sound records

/// Wrapped records, and the bytes that are given of them.
struct Sheaf {
    records: Vec<Wrapped>,
    /// The model that the texts of the records were made from.
    model: Model,
    bytes: Vec<Vec<u8>>,
}

/// The smallest model, or one as the other cases have it.
fn model(random: &mut Random) -> Model {
    let mut model = cases::model(random);
    if !random.one_in(4) {
        model.threads.truncate(1);
        model.activities.truncate(1);
        model.activities[0].thread = 0;
        if let Some(rounds) = &mut model.rounds {
            rounds.loops = vec![random.pick(&[0, 255])];
            rounds.widths.iter_mut().for_each(|widths| widths.truncate(1));
        }
    }
    model
}

/// Another text of the same shape that meets the form rules: one byte is another, the last one now and then.
fn altered(random: &mut Random, text: &[u8]) -> Vec<u8> {
    loop {
        let mut other = text.to_vec();
        let at = if random.one_in(8) { other.len() - 1 } else { random.below(other.len()) };
        other[at] = if random.one_in(3) { random.pick(&[0, 255]) } else { other[at] ^ 1 << random.below(8) };
        if other != text && reference::form(&other).is_ok() {
            return other;
        }
    }
}

fn issues(random: &mut Random) -> Vec<u16> {
    match random.below(6) {
        0 => vec![random.draw() as u16],
        1 => vec![0, 1, 255, 256, 257, 511, 512],
        2 => vec![0, 255, 256, 32767, 32768, 65280, 65535],
        3 => (0..8).collect(),
        _ => vec![1, 2, 3],
    }
}

/// Records of one series of which none is refused: one of the rank of the one standing so far is a copy of it.
fn sheaf(random: &mut Random, count: usize) -> Sheaf {
    let model = model(random);
    let mut texts = vec![model.bytes()];
    for _ in 0..random.below(3) {
        texts.push(altered(random, &texts[0]));
    }
    let issues = issues(random);
    let series = if random.one_in(2) { random.draw() as u32 } else { random.below(3) as u32 };
    let withdrawals = random.pick(&[2, 2, 3, 6]);
    let mut records: Vec<Wrapped> = Vec::new();
    let mut standing = 0;
    for r in 0..count {
        let withdrawn = u8::from(random.one_in(withdrawals));
        let text = random.below(texts.len());
        let mut record = Wrapped { series, issue: random.pick(&issues), withdrawn, model: texts[text].clone() };
        if r > 0 {
            let rank = |record: &Wrapped| (record.issue, record.withdrawn);
            if rank(&record) == rank(&records[standing]) {
                record = records[standing].clone();
            } else if rank(&record) > rank(&records[standing]) {
                standing = r;
            }
        }
        records.push(record);
    }
    let bytes = records.iter().map(Wrapped::bytes).collect();
    Sheaf { records, model, bytes }
}

// Alterations

/// The number of a record; more often an early one, so that the others follow a refusal.
fn one_of(random: &mut Random, sheaf: &Sheaf) -> usize {
    let count = sheaf.records.len();
    let limit = random.within(1, count);
    random.below(limit)
}

/// Another text for a record, or a copy of a record with another text behind it: 56 where the record stands.
fn other_bytes(random: &mut Random, sheaf: &mut Sheaf) {
    for _ in 0..random.pick(&[1, 1, 2]) {
        let r = one_of(random, sheaf);
        let mut record = sheaf.records[r].clone();
        record.model = if random.one_in(6) { model(random).bytes() } else { altered(random, &record.model) };
        let at = if random.one_in(2) { r } else { random.within(r, sheaf.bytes.len() - 1) };
        sheaf.bytes[at] = record.bytes();
    }
}

/// One bit of a record's series is another.
fn another_series(random: &mut Random, sheaf: &mut Sheaf) {
    for _ in 0..random.pick(&[1, 1, 2]) {
        let r = one_of(random, sheaf);
        if let Some(byte) = sheaf.bytes[r].get_mut(random.within(5, 8)) {
            *byte ^= 1 << random.below(8);
        }
    }
}

/// Breaks 54 in one record, most of the time.
fn damaged(random: &mut Random, sheaf: &mut Sheaf) {
    let r = one_of(random, sheaf);
    let bytes = &mut sheaf.bytes[r];
    // An earlier damage may have left too few bytes.
    if bytes.len() < 12 {
        return;
    }
    match random.below(7) {
        0 => damage_length(random, bytes),
        1 => bytes[4] = random.pick(&[0, 2, 3, 255]),
        2 => bytes[11] = random.pick(&[2, 3, 128, 254, 255]),
        3 => damage_model_length(random, bytes),
        4 => {
            bytes.truncate(random.pick(&[4, 5, 11, 12, 12, 13, 21, 22]));
            set_length(bytes);
        }
        _ => {
            let mut text = bytes.split_off(12);
            let number = random.pick(cases::FORM_RULES);
            cases::damage_model(random, number, &sheaf.model, &mut text);
            bytes.extend(text);
            set_length(bytes);
        }
    }
}

/// Parts the wrapper's length from the bytes of its record.
fn damage_length(random: &mut Random, bytes: &mut Vec<u8>) {
    let length = bytes.len() as u32;
    let other = match random.below(8) {
        0 => length - 1,
        1 => length + 1,
        2 => random.below(13) as u32,
        3 => length + random.below(100) as u32,
        4 => length ^ 1 << random.below(32),
        5 => random.pick(&[u32::MAX, length.wrapping_neg(), 1 << 31]),
        6 => return bytes.push(random.draw() as u8),
        _ => return bytes.truncate(random.below(bytes.len())),
    };
    bytes[..4].copy_from_slice(&other.to_be_bytes());
}

/// Parts the model's length from what is behind the head; the wrapper's length is true.
fn damage_model_length(random: &mut Random, bytes: &mut Vec<u8>) {
    match random.below(4) {
        0 => bytes.push(0),
        1 => bytes.truncate(bytes.len() - 1),
        2 => bytes.extend_from_within(12..),
        _ if bytes.len() < 16 => {}
        _ => bytes[random.within(12, 15)] ^= 1 << random.below(8),
    }
    set_length(bytes);
}

/// Bytes behind the last record, or fewer than it has.
fn ends(random: &mut Random, sheaf: &mut Sheaf) {
    let first = sheaf.bytes[0].clone();
    let Some(last) = sheaf.bytes.last_mut() else {
        return;
    };
    match random.below(5) {
        0 => last.truncate(random.below(last.len())),
        1 => last.truncate(last.len().saturating_sub(random.within(1, 3))),
        2 => last.extend(vec![random.pick(&[0, 255]); random.within(1, 16)]),
        3 => last.extend(&first[..random.below(first.len())]),
        _ => {
            let length = random.within(4, 14);
            let mut behind = random.bytes(length);
            set_length(&mut behind);
            last.extend(behind);
        }
    }
}

/// Bytes that begin like a record now and then.
fn random_bytes(random: &mut Random, sheaf: &mut Sheaf) {
    for bytes in &mut sheaf.bytes {
        let length = random.below(60);
        *bytes = random.bytes(length);
        if bytes.len() >= 12 && random.one_in(2) {
            bytes[4] = 1;
            bytes[11] = random.below(2) as u8;
            set_length(bytes);
        }
    }
}
