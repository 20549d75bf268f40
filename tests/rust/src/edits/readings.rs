//! Readings of request U8 (02) that differ from the paper's in the things named, to see which cases tell them apart. With no
//! difference named this is the paper's once more.

use super::Stroke;
use crate::reference::{self, Refusal};
use Difference::*;

/// A thing in which a reading may differ.
#[derive(Clone, Copy, Debug, PartialEq, Eq)]
pub enum Difference {
    /// The end is the last marked tick.
    EndWithoutOne,
    /// The old row is trusted: a mark widens it, and a clear looks for marks inside it alone.
    OldRowTrusted,
    /// With no tick marked the row stays as it was.
    EmptyRowStays,
    /// The row is counted from the words as they were before the call.
    RowOfTheOldWords,
    /// Every activity's row is counted.
    AllRows,
    /// The row is counted by a call that 60 refuses, too.
    RowAfterARefusal,
    /// A call on a bit that is already so turns it.
    Toggles,
    /// A call on a bit that is already so is not refused.
    AlreadySoAccepted,
    /// 59 before 58.
    TickBeforeActivity,
    /// 60 before 59: no tick outside H is marked.
    BitBeforeTick,
    /// 60 before 58: no tick of an activity outside m is marked.
    BitBeforeActivity,
    /// 58 to 60 name the activity and the tick.
    PlaceNamed,
    /// m is that of one round.
    CountOfOneRound,
    /// An activity's number is its last byte.
    ActivityOfOneByte,
    /// A tick's number is its last two bytes.
    TickOfTwoBytes,
    /// A plan that breaks one of 21 to 29 is turned away.
    RulesBefore,
    /// An edit that leaves one of 21 to 29 broken is turned away.
    RulesAfter,
}

/// Each difference alone.
pub const DIFFERENCES: [Difference; 17] = [
    EndWithoutOne,
    OldRowTrusted,
    EmptyRowStays,
    RowOfTheOldWords,
    AllRows,
    RowAfterARefusal,
    Toggles,
    AlreadySoAccepted,
    TickBeforeActivity,
    BitBeforeTick,
    BitBeforeActivity,
    PlaceNamed,
    CountOfOneRound,
    ActivityOfOneByte,
    TickOfTwoBytes,
    RulesBefore,
    RulesAfter,
];

/// A call in a reading.
pub fn edit(model: &[u8], plan: &mut [u8], stroke: Stroke, reading: &[Difference]) -> Result<(), Refusal> {
    reference::well_formed(model, plan)?;
    if reading.contains(&RulesBefore) {
        reference::check_plain(model, plan)?;
    }
    let mut page = Page::read(plan, reading);
    let stroke = page.as_read(stroke);
    let refused = page.refused(model, stroke);
    match refused {
        Ok(()) => page.make(stroke),
        Err(Refusal { number: 60, .. }) if page.reads(RowAfterARefusal) => page.count(stroke),
        Err(_) => {}
    }
    let edited = page.written(plan);
    if reading.contains(&RulesAfter) && refused.is_ok() {
        reference::check_plain(model, &edited)?;
    }
    plan.copy_from_slice(&edited);
    refused
}

/// The rows and words of a plan, in a reading.
struct Page<'a> {
    /// Start and end of each activity.
    rows: Vec<(u16, u16)>,
    words: Vec<u32>,
    reading: &'a [Difference],
}

impl Page<'_> {
    /// Of a plan that passes 8 to 14.
    fn read<'a>(plan: &[u8], reading: &'a [Difference]) -> Page<'a> {
        let (rows, words) = plan[9 + 4 * usize::from(plan[5])..].split_at(4 * usize::from(plan[6]));
        let row = |row: &[u8]| (u16::from_be_bytes([row[0], row[1]]), u16::from_be_bytes([row[2], row[3]]));
        let word = |word: &[u8]| u32::from_be_bytes([word[0], word[1], word[2], word[3]]);
        Page { rows: rows.chunks(4).map(row).collect(), words: words.chunks(4).map(word).collect(), reading }
    }

    /// The plan with these rows and words.
    fn written(&self, plan: &[u8]) -> Vec<u8> {
        let mut bytes = plan[..9 + 4 * usize::from(plan[5])].to_vec();
        for (start, end) in &self.rows {
            bytes.extend(start.to_be_bytes());
            bytes.extend(end.to_be_bytes());
        }
        bytes.extend(self.words.iter().flat_map(|word| word.to_be_bytes()));
        bytes
    }

    fn reads(&self, difference: Difference) -> bool {
        self.reading.contains(&difference)
    }

    fn as_read(&self, stroke: Stroke) -> Stroke {
        Stroke {
            activity: if self.reads(ActivityOfOneByte) { stroke.activity % 256 } else { stroke.activity },
            tick: if self.reads(TickOfTwoBytes) { stroke.tick % 65536 } else { stroke.tick },
            ..stroke
        }
    }

    /// Whether the bit is set; none is outside of m or H.
    fn is_marked(&self, activity: u32, tick: u32) -> bool {
        let word = self.words.get(tick as usize).copied().unwrap_or(0);
        word.checked_shr(activity).unwrap_or(0) & 1 == 1
    }

    /// 58 to 60, in the order of the reading.
    fn refused(&self, model: &[u8], Stroke { marks, activity, tick }: Stroke) -> Result<(), Refusal> {
        let m = if self.reads(CountOfOneRound) { model[7].into() } else { self.rows.len() };
        let no_bit_refused = self.reads(Toggles) || self.reads(AlreadySoAccepted);
        let order = match () {
            _ if self.reads(TickBeforeActivity) => [59, 58, 60],
            _ if self.reads(BitBeforeTick) => [58, 60, 59],
            _ if self.reads(BitBeforeActivity) => [60, 58, 59],
            _ => [58, 59, 60],
        };
        let applies = |number: &u32| match number {
            58 => activity as usize >= m,
            59 => tick as usize >= self.words.len(),
            _ => self.is_marked(activity, tick) == marks && !no_bit_refused,
        };
        let (a, b) = if self.reads(PlaceNamed) { (activity, tick) } else { (0, 0) };
        order.into_iter().find(applies).map_or(Ok(()), |number| Err(Refusal { number, a, b }))
    }

    /// Sets or clears the bit and counts the row.
    fn make(&mut self, stroke: Stroke) {
        let Stroke { marks, activity, tick } = stroke;
        if self.reads(RowOfTheOldWords) {
            self.count(stroke);
        }
        if self.is_marked(activity, tick) != marks || self.reads(Toggles) {
            self.words[tick as usize] ^= 1 << activity;
        }
        if !self.reads(RowOfTheOldWords) {
            self.count(stroke);
        }
    }

    /// Counts the activity's row, or every one.
    fn count(&mut self, stroke: Stroke) {
        if self.reads(AllRows) {
            self.rows = (0..self.rows.len() as u32).map(|a| self.window(Stroke { activity: a, ..stroke })).collect();
        } else {
            self.rows[stroke.activity as usize] = self.window(stroke);
        }
    }

    /// The row that the activity gets.
    fn window(&self, Stroke { marks, activity, tick }: Stroke) -> (u16, u16) {
        let (start, end) = self.rows[activity as usize];
        let (tick, horizon) = (tick as u16, self.words.len() as u16);
        match () {
            _ if self.reads(OldRowTrusted) && marks && (start, end) == (0, 0) => (tick, tick + 1),
            _ if self.reads(OldRowTrusted) && marks => (start.min(tick), end.max(tick + 1)),
            _ if self.reads(OldRowTrusted) => self.marked_within(activity, start, end).unwrap_or((0, 0)),
            _ if self.reads(EmptyRowStays) => self.marked_within(activity, 0, horizon).unwrap_or((start, end)),
            _ => self.marked_within(activity, 0, horizon).unwrap_or((0, 0)),
        }
    }

    /// The first tick from `start` to `end` - 1 that is marked, and the last plus 1.
    fn marked_within(&self, activity: u32, start: u16, end: u16) -> Option<(u16, u16)> {
        let marked = |t: &u16| self.is_marked(activity, (*t).into());
        let (first, last) = ((start..end).find(marked)?, (start..end).rfind(marked)?);
        Some((first, if self.reads(EndWithoutOne) { last } else { last + 1 }))
    }
}
