//! Lists of calls with an editing state, and what is lent to them.

use std::ops::Range;

use super::Call;
use crate::{Answer, Editing};

/// A call of a list, and what was changed elsewhere before it.
#[derive(Clone, Debug)]
pub struct Turn {
    pub elsewhere: Option<Elsewhere>,
    pub call: Call,
}

/// A call that was made, with its answer and the plan after it.
#[derive(Clone, Debug, PartialEq, Eq)]
pub struct Made {
    pub call: Call,
    pub answer: Answer,
    pub plan: Vec<u8>,
}

/// A change by somebody else.
#[derive(Clone, Debug)]
pub enum Elsewhere {
    /// Bits of the plan are turned: the place of each byte, and its bits. One outside of the plan turns nothing.
    Turned(Vec<(usize, u8)>),
    /// Another model is lent from here on.
    Model(Vec<u8>),
    /// Another model and another plan are lent from here on.
    Page(Vec<u8>, Vec<u8>),
}

/// The bytes on each side of a lent plan, to see that nothing outside of it is written.
const MARGIN: [u8; 64] = [0x5c; 64];

/// What is lent to the calls of a list, and the state that goes through them.
#[derive(Clone, Debug, PartialEq, Eq)]
pub struct Lent {
    pub model: Vec<u8>,
    /// The plan between two margins.
    space: Vec<u8>,
    pub state: Editing,
}

impl Lent {
    pub fn new(model: &[u8], plan: &[u8], state: Editing) -> Lent {
        Lent { model: model.to_vec(), space: [&MARGIN, plan, &MARGIN].concat(), state }
    }

    fn place(&self) -> Range<usize> {
        MARGIN.len()..self.space.len() - MARGIN.len()
    }

    pub fn plan(&self) -> &[u8] {
        &self.space[self.place()]
    }

    /// The plan and the bytes on each side of it.
    pub fn space(&self) -> &[u8] {
        &self.space
    }

    /// Whether nothing beside the plan was written.
    pub fn has_margins(&self) -> bool {
        self.space.starts_with(&MARGIN) && self.space.ends_with(&MARGIN)
    }

    /// Makes the call of a turn by a program, after what was changed elsewhere.
    pub fn make(
        &mut self,
        turn: &Turn,
        program: impl FnOnce(&mut Editing, &[u8], &mut [u8], Call) -> Answer,
    ) -> Answer {
        if let Some(change) = &turn.elsewhere {
            self.change(change);
        }
        let place = self.place();
        program(&mut self.state, &self.model, &mut self.space[place], turn.call)
    }

    /// Makes the calls of a list.
    pub fn make_all(
        &mut self,
        turns: &[Turn],
        mut program: impl FnMut(&mut Editing, &[u8], &mut [u8], Call) -> Answer,
    ) -> Vec<Made> {
        let mut made = |turn: &Turn| {
            let answer = self.make(turn, &mut program);
            Made { call: turn.call, answer, plan: self.plan().to_vec() }
        };
        turns.iter().map(&mut made).collect()
    }

    fn change(&mut self, change: &Elsewhere) {
        match change {
            Elsewhere::Turned(bytes) => {
                let place = self.place();
                let plan = &mut self.space[place];
                for &(at, bits) in bytes {
                    if let Some(byte) = plan.get_mut(at) {
                        *byte ^= bits;
                    }
                }
            }
            Elsewhere::Model(model) => self.model.clone_from(model),
            Elsewhere::Page(model, plan) => *self = Lent::new(model, plan, self.state),
        }
    }
}
