//! Try, then keep, request U9 of 02: an edit is asked before it counts, and kept by a call of its own. "An editing state, which
//! begins with nothing asked, goes through all these calls and the direct edits."

pub mod lists;
pub mod readings;

use crate::edits::{self, Stroke};
use crate::reference::{self, Figures, Refusal};
use crate::{Answer, Editing};

/// One call of a list.
#[derive(Clone, Copy, Debug, PartialEq, Eq)]
pub enum Call {
    Ask(Stroke),
    Keep,
    /// A direct edit.
    Edit(Stroke),
}

impl Editing {
    /// The edit that is asked.
    pub fn asked_edit(&self) -> Option<Stroke> {
        let stroke = |marks| Stroke { marks, activity: self.activity, tick: self.tick };
        match self.asked {
            1 => Some(stroke(true)),
            2 => Some(stroke(false)),
            _ => None,
        }
    }

    /// This state with another edit asked, or with nothing.
    pub fn asking(self, edit: Option<Stroke>) -> Editing {
        let (asked, activity, tick) = match edit {
            Some(Stroke { marks: true, activity, tick }) => (1, activity, tick),
            Some(Stroke { marks: false, activity, tick }) => (2, activity, tick),
            None => (0, 0, 0),
        };
        Editing { asked, activity, tick, ..self }
    }
}

/// "The plain verdict that the plan would have"; no byte of it changes. "A new ask replaces the old one; a refused ask leaves
/// nothing asked", and "21 to 29 is a verdict, no refused ask".
pub fn ask(state: &mut Editing, model: &[u8], plan: &[u8], stroke: Stroke) -> Result<Figures, Refusal> {
    let mut edited = plan.to_vec();
    let refused = edits::edit(model, &mut edited, stroke);
    *state = state.asking(refused.is_ok().then_some(stroke));
    refused?;
    reference::check_plain(model, &edited)
}

/// "Keeping applies that one edit and answers as a direct one." With nothing asked it is 61, "tried between 14 and 58"; a kept
/// edit has left nothing asked. "A refused keep changes nothing", the state included.
pub fn keep(state: &mut Editing, model: &[u8], plan: &mut [u8]) -> Result<(), Refusal> {
    reference::well_formed(model, plan)?;
    match state.asked_edit() {
        Some(stroke) => edit(state, model, plan, stroke),
        None => Err(Refusal { number: 61, a: 0, b: 0 }),
    }
}

/// A direct edit: "unrefused direct edits are kept edits", and after one of these nothing is asked.
pub fn edit(state: &mut Editing, model: &[u8], plan: &mut [u8], stroke: Stroke) -> Result<(), Refusal> {
    edits::edit(model, plan, stroke)?;
    *state = state.asking(None);
    Ok(())
}

pub fn mark(state: &mut Editing, model: &[u8], plan: &mut [u8], activity: u32, tick: u32) -> Result<(), Refusal> {
    edit(state, model, plan, Stroke { marks: true, activity, tick })
}

pub fn clear(state: &mut Editing, model: &[u8], plan: &mut [u8], activity: u32, tick: u32) -> Result<(), Refusal> {
    edit(state, model, plan, Stroke { marks: false, activity, tick })
}

/// A call of a list.
pub fn make(state: &mut Editing, model: &[u8], plan: &mut [u8], call: Call) -> Answer {
    match call {
        Call::Ask(stroke) => ask(state, model, plan, stroke).into(),
        Call::Keep => keep(state, model, plan).into(),
        Call::Edit(stroke) => edit(state, model, plan, stroke).into(),
    }
}
