//! What 02 says of every pair and of every file of wrapped records, asked of an answer, in `edits` what it says of every list
//! of mark and clear calls, and in `keeping` of every list with asks and keeps among them; the first claim that does not hold
//! is named. The calls are arguments, so that both programs can be asked.

pub mod edits;
pub mod keeping;

use crate::Part;

/// The two calls of a program.
#[derive(Clone, Copy)]
pub struct Calls {
    pub stands: fn(&[u8], &[u8]) -> Part,
    pub choose: fn(&[u8]) -> Part,
}

type Claim = Result<(), &'static str>;

fn claim(holds: bool, text: &'static str) -> Claim {
    if holds {
        Ok(())
    } else {
        Err(text)
    }
}

/// The pieces with which a file begins, each as long as its length says, as far as that goes.
pub fn pieces(file: &[u8]) -> Vec<&[u8]> {
    let mut pieces = Vec::new();
    let mut rest = file;
    while rest.len() >= 12 {
        let length = u64::from(rest[0]) << 24 | u64::from(rest[1]) << 16 | u64::from(rest[2]) << 8 | u64::from(rest[3]);
        if length < 12 || length > rest.len() as u64 {
            break;
        }
        let (piece, behind) = rest.split_at(length as usize);
        pieces.push(piece);
        rest = behind;
    }
    pieces
}

fn series(piece: &[u8]) -> u64 {
    piece[5..9].iter().fold(0, |number, &byte| number << 8 | u64::from(byte))
}

fn issue(piece: &[u8]) -> u32 {
    u32::from(piece[9]) * 256 + u32::from(piece[10])
}

fn withdrawn(piece: &[u8]) -> bool {
    piece[11] == 1
}

/// "The higher issue stands; at equal issue the withdrawn one stands over the live one."
fn outranks(one: &[u8], other: &[u8]) -> bool {
    issue(one) > issue(other) || issue(one) == issue(other) && withdrawn(one) && !withdrawn(other)
}

fn of_equal_rank(one: &[u8], other: &[u8]) -> bool {
    !outranks(one, other) && !outranks(other, one)
}

/// What is said of the answer for a file.
pub fn of_file(calls: Calls, file: &[u8], answer: Part) -> Claim {
    let pieces = pieces(file);
    match answer.number {
        0 => {
            chosen_from(file, &pieces, answer)?;
            along_it(calls, &pieces, answer)
        }
        _ => refused_file(calls, file, &pieces, answer),
    }
}

/// The answer names one of the records that lie end to end, and that one stands.
fn chosen_from(file: &[u8], pieces: &[&[u8]], answer: Part) -> Claim {
    let record = answer.record as usize;
    let before: usize = pieces.iter().take(record).map(|piece| piece.len()).sum();
    claim(pieces.concat() == file, "the records lie end to end")?;
    claim(record < pieces.len(), "the one chosen is a record of the file")?;
    let chosen = pieces[record];
    let place = Part::standing(answer.record, before as u64, chosen.len() as u64);
    claim(answer == place, "the part handed back is the record")?;
    for (r, piece) in pieces.iter().enumerate() {
        claim(series(piece) == series(chosen), "one series")?;
        claim(!outranks(piece, chosen), "the one chosen is outranked by none")?;
        claim(r >= record || outranks(chosen, piece), "the one chosen is the first of the greatest")?;
        claim(!of_equal_rank(piece, chosen) || *piece == chosen, "of equal rank there are equal copies only")?;
        claim(
            r == record || !withdrawn(piece) || issue(chosen) > issue(piece) || *piece == chosen,
            "a withdrawn page is passed over only for a higher issue or an equal copy",
        )?;
    }
    Ok(())
}

/// Each record stands alone, and choosing along the file is asking of each pair.
fn along_it(calls: Calls, pieces: &[&[u8]], answer: Part) -> Claim {
    let mut record = 0;
    for (r, piece) in pieces.iter().enumerate() {
        let alone = Part::standing(0, 0, piece.len() as u64);
        claim((calls.choose)(piece) == alone, "each record is chosen from a file of its own")?;
        let pair = (calls.stands)(pieces[record], piece);
        claim(pair.number == 0, "each record against the one standing so far is not refused")?;
        if pair.record == 1 {
            record = r;
        }
    }
    claim(record == answer.record as usize, "each record is chosen against the one standing so far")
}

/// What lies before the record tried is not refused, and what lies behind it does not matter.
fn refused_file(calls: Calls, file: &[u8], pieces: &[&[u8]], answer: Part) -> Claim {
    let Part { number, record, .. } = answer;
    let tried = record as usize;
    claim((54..=56).contains(&number), "the number is 54, 55 or 56")?;
    claim(answer == Part::refused(number, record), "a refusal hands back an empty part")?;
    claim(tried <= pieces.len(), "the records before the one tried can be told apart")?;
    let before = pieces[..tried].concat();
    if number == 54 {
        let rest = (calls.choose)(&file[before.len()..]);
        claim(rest == Part::refused(54, 0), "from the record tried on, the file is refused at once")?;
    }
    if tried == 0 {
        return claim(number == 54, "a first record is refused by 54 alone");
    }
    let standing = (calls.choose)(&before);
    claim(standing.number == 0, "what lies before the record tried is not refused")?;
    if number == 54 {
        return Ok(());
    }
    claim(tried < pieces.len(), "the record tried has its length")?;
    let piece = pieces[tried];
    let pair = (calls.stands)(pieces[standing.record as usize], piece);
    claim(pair == Part::refused(number, 1), "the record tried is refused against the one standing so far")?;
    claim((calls.choose)(&[&before, piece].concat()) == answer, "what lies behind the record tried does not matter")
}

/// What is said of the answer for a pair.
pub fn of_pair(calls: Calls, first: &[u8], second: &[u8], answer: Part) -> Claim {
    let both = [first, second];
    let unsound = both.iter().position(|given| (calls.stands)(given, given).number != 0);
    let swapped = (calls.stands)(second, first);
    match (unsound, answer.number) {
        (Some(r), _) => {
            claim(answer == Part::refused(54, r as u64), "the lower of the unsound records is named")?;
            return claim(swapped.number == 54, "an unsound record is refused in both places");
        }
        (None, 0) => {
            let record = answer.record as usize;
            claim(record < 2, "one of the two stands")?;
            let (stands, other) = (both[record], both[1 - record]);
            let part = Part::standing(answer.record, 0, stands.len() as u64);
            claim(answer == part, "the part handed back is the whole record")?;
            claim(series(first) == series(second), "one series")?;
            claim(!outranks(other, stands), "the one that stands is not outranked")?;
            claim(!of_equal_rank(first, second) || first == second && record == 0, "the first where both are equal")?;
            claim(swapped.number == 0, "the pair turned round is not refused")?;
            claim(both[1 - swapped.record as usize] == stands, "the same bytes stand in the pair turned round")?;
        }
        (None, 55) => claim(series(first) != series(second), "55 is for two series")?,
        (None, 56) => {
            claim(series(first) == series(second), "56 is for equal series")?;
            claim(of_equal_rank(first, second) && first != second, "56 is for equal rank with other bytes")?;
        }
        (None, _) => return Err("the number is 0, 55 or 56 for two sound records"),
    }
    if answer.number != 0 {
        claim(answer == Part::refused(answer.number, 1), "a refusal hands back an empty part")?;
        claim(swapped == answer, "the pair turned round is refused alike")?;
    }
    let offset = if answer.number == 0 && answer.record == 1 { first.len() as u64 } else { 0 };
    let file = (calls.choose)(&[first, second].concat());
    claim(file == Part { offset, ..answer }, "a file of the two is answered alike")
}
