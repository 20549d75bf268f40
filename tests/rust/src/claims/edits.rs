//! What 02 says of every list of mark and clear calls over one model, asked of the answers and of the plan afterwards.

use super::{claim, Claim};
use crate::edits::{self, Stroke};
use crate::{proved, reference, Answer};

type Edit = fn(&[u8], &mut [u8], u32, u32) -> Answer;

/// The two calls of a program, and its plain check.
#[derive(Clone, Copy)]
pub struct Calls {
    pub mark: Edit,
    pub clear: Edit,
    pub check_plain: fn(&[u8], &[u8]) -> Answer,
}

pub const REFERENCE: Calls = Calls {
    mark: |model, plan, activity, tick| edits::mark(model, plan, activity, tick).into(),
    clear: |model, plan, activity, tick| edits::clear(model, plan, activity, tick).into(),
    check_plain: |model, plan| reference::check_plain(model, plan).into(),
};
pub const EXPORTS: Calls = Calls { mark: proved::mark, clear: proved::clear, check_plain: proved::check_plain };

impl Calls {
    pub fn make(self, model: &[u8], plan: &mut [u8], stroke: Stroke) -> Answer {
        let edit = if stroke.marks { self.mark } else { self.clear };
        edit(model, plan, stroke.activity, stroke.tick)
    }
}

/// A list of calls, each with its answer, and the plan before the first and after the last of them.
#[derive(Clone, Copy)]
pub struct List<'a> {
    pub model: &'a [u8],
    pub before: &'a [u8],
    pub calls: &'a [(Stroke, Answer)],
    pub after: &'a [u8],
}

/// What is said of a list.
pub fn of_list(program: Calls, list: List) -> Claim {
    let checked = (program.check_plain)(list.model, list.before);
    if of_form(checked) {
        let alike = list.calls.iter().all(|(_, answer)| *answer == checked);
        claim(alike, "what 1 to 14 refuse of a check they refuse of every call")?;
        return claim(list.after == list.before, "a refused call changes nothing");
    }
    claim(list.after.len() == list.before.len(), "the plan has its old length")?;
    claim(!of_form((program.check_plain)(list.model, list.after)), "a plan that passes 8 to 14 still does")?;
    let page = Page::of(list);
    page.answers()?;
    page.bits()?;
    page.rows()
}

/// Whether a record was refused, by 1 to 14, 51 to 53 or 57.
pub(super) fn of_form(answer: Answer) -> bool {
    (1..=14).contains(&answer.number) || (51..=53).contains(&answer.number) || answer.number == 57
}

/// A list over a plan that passes 8 to 14, and the places of the plan's parts.
struct Page<'a> {
    list: List<'a>,
    /// Where the rows begin.
    rows: usize,
    /// Where the words begin.
    grid: usize,
    activities: u32,
    horizon: u32,
}

fn number(bytes: &[u8]) -> u32 {
    bytes.iter().fold(0, |number, &byte| number << 8 | u32::from(byte))
}

impl Page<'_> {
    fn of(list: List) -> Page {
        let (n, m) = (usize::from(list.before[5]), usize::from(list.before[6]));
        let rows = 9 + 4 * n;
        Page { list, rows, grid: rows + 4 * m, activities: m as u32, horizon: number(&list.before[7..9]) }
    }

    fn word(&self, plan: &[u8], t: u32) -> u32 {
        let at = self.grid + 4 * t as usize;
        number(&plan[at..at + 4])
    }

    fn bit(&self, plan: &[u8], a: u32, t: u32) -> bool {
        self.word(plan, t) >> a & 1 == 1
    }

    /// The unrefused calls among the first ones of the list.
    fn made(&self, first: usize) -> impl DoubleEndedIterator<Item = Stroke> + '_ {
        self.list.calls[..first].iter().filter(|(_, answer)| answer.number == 0).map(|(stroke, _)| *stroke)
    }

    /// The bit of the last unrefused call on it among the first calls of the list, or the old one.
    fn bit_after(&self, first: usize, a: u32, t: u32) -> bool {
        let last = self.made(first).rfind(|stroke| stroke.activity == a && stroke.tick == t);
        last.map_or_else(|| self.bit(self.list.before, a, t), |stroke| stroke.marks)
    }

    /// Each answer is told by the bit that the calls before have left.
    fn answers(&self) -> Claim {
        for (i, &(Stroke { marks, activity, tick }, answer)) in self.list.calls.iter().enumerate() {
            let refused = |number| answer == Answer::refused(number, 0, 0);
            if activity >= self.activities {
                claim(refused(58), "58 is for an activity outside m")?;
            } else if tick >= self.horizon {
                claim(refused(59), "59 is for a tick outside H")?;
            } else if self.bit_after(i, activity, tick) == marks {
                claim(refused(60), "60 is for a bit already so")?;
            } else {
                claim(answer == Answer::accepted(0, 0, 0, 0), "any other call is not refused, and answers no figure")?;
            }
        }
        Ok(())
    }

    /// "Each bit afterwards is that of the last unrefused call on it, or the old one."
    fn bits(&self) -> Claim {
        let List { before, calls, after, .. } = self.list;
        for t in 0..self.horizon {
            let here = self.made(calls.len()).filter(|stroke| stroke.tick == t);
            let called = here.fold(0, |bits, stroke| bits | 1 << stroke.activity);
            let changed = self.word(before, t) ^ self.word(after, t);
            claim(changed & !called == 0, "a bit without an unrefused call is the old one")?;
        }
        for Stroke { activity, tick, .. } in self.made(calls.len()) {
            let last = self.bit_after(calls.len(), activity, tick);
            claim(self.bit(after, activity, tick) == last, "a bit is that of the last unrefused call on it")?;
        }
        Ok(())
    }

    /// "Header, releases, periods and the rows of activities without an unrefused call are the old bytes", and the other
    /// rows are those of the words.
    fn rows(&self) -> Claim {
        let List { before, calls, after, .. } = self.list;
        claim(before[..self.rows] == after[..self.rows], "header, releases and periods are the old bytes")?;
        for a in 0..self.activities {
            let at = self.rows + 4 * a as usize;
            let (old, row) = (&before[at..at + 4], &after[at..at + 4]);
            if self.made(calls.len()).all(|stroke| stroke.activity != a) {
                claim(row == old, "the row of an activity without an unrefused call is the old bytes")?;
                continue;
            }
            let marked = |t: &u32| self.bit(after, a, *t);
            let start = (0..self.horizon).find(marked).unwrap_or(0);
            let end = (0..self.horizon).rfind(marked).map_or(0, |last| last + 1);
            claim(number(&row[..2]) == start, "a start is the first marked tick, or 0")?;
            claim(number(&row[2..]) == end, "an end is the last marked tick plus 1, or 0")?;
        }
        Ok(())
    }
}
