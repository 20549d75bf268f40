//! Editing a grid by pencil, request U8 of 02: single ticks of a lent plan are marked and cleared.
//!
//! "After each unrefused call that activity's start is its first marked tick and its end its last plus 1, or both 0 when
//! none is marked." A refused call changes no byte. The editing state that goes through these calls since U9 is in
//! `keeping`; the edit itself asks nothing of it.

pub mod by_hand;
pub mod readings;

use crate::reference::{self, Refusal};

/// One call of a list.
#[derive(Clone, Copy, Debug, PartialEq, Eq)]
pub struct Stroke {
    /// Whether the tick is marked; it is cleared otherwise.
    pub marks: bool,
    pub activity: u32,
    pub tick: u32,
}

pub fn mark(model: &[u8], plan: &mut [u8], activity: u32, tick: u32) -> Result<(), Refusal> {
    edit(model, plan, Stroke { marks: true, activity, tick })
}

pub fn clear(model: &[u8], plan: &mut [u8], activity: u32, tick: u32) -> Result<(), Refusal> {
    edit(model, plan, Stroke { marks: false, activity, tick })
}

/// 1 to 14 with 51 to 53 and 57, then 58 to 60; then the bit and the activity's row are written.
pub fn edit(model: &[u8], plan: &mut [u8], stroke: Stroke) -> Result<(), Refusal> {
    reference::well_formed(model, plan)?;
    // By 10 these are the counts of the unrolled model.
    let (n, m) = (usize::from(plan[5]), usize::from(plan[6]));
    let horizon = usize::from(u16::from_be_bytes([plan[7], plan[8]]));
    let (a, t) = (stroke.activity as usize, stroke.tick as usize);
    if a >= m {
        return refuse(58);
    }
    if t >= horizon {
        return refuse(59);
    }
    let (rows, grid) = plan[9 + 4 * n..].split_at_mut(4 * m);
    let word = &mut grid[4 * t..4 * t + 4];
    if is_marked(word, a) == stroke.marks {
        return refuse(60);
    }
    word[3 - a / 8] ^= 1 << (a % 8);
    let (start, end) = window(grid, a);
    rows[4 * a..4 * a + 2].copy_from_slice(&start.to_be_bytes());
    rows[4 * a + 2..4 * a + 4].copy_from_slice(&end.to_be_bytes());
    Ok(())
}

/// None of the three names a place.
fn refuse<T>(number: u32) -> Result<T, Refusal> {
    Err(Refusal { number, a: 0, b: 0 })
}

/// Bit `a` of a tick's word; the most significant of its four bytes stands first.
fn is_marked(word: &[u8], a: usize) -> bool {
    word[3 - a / 8] >> (a % 8) & 1 == 1
}

/// The first marked tick of an activity and the last plus 1, 0 and 0 for none.
fn window(grid: &[u8], a: usize) -> (u16, u16) {
    let words = || grid.chunks_exact(4);
    let marked = |word: &[u8]| is_marked(word, a);
    match (words().position(marked), words().rposition(marked)) {
        (Some(first), Some(last)) => (first as u16, last as u16 + 1),
        _ => (0, 0),
    }
}
