//! What 02 says of every list of asks, keeps and direct edits over one model, from a state with nothing asked. It is asked of
//! the calls, the answers and the plans alone; what a call hands back as the state is asked in `of_state`.

use super::edits::{self, of_form};
use super::{claim, Claim};
use crate::edits::Stroke;
use crate::keeping::lists::{Lent, Made, Turn};
use crate::keeping::{self, Call};
use crate::{proved, Answer, Editing};

type Edit = fn(&mut Editing, &[u8], &mut [u8], u32, u32) -> Answer;

/// The calls of a program through which the editing state goes, and its calls without one.
#[derive(Clone, Copy)]
pub struct Calls {
    pub ask: fn(&mut Editing, &[u8], &[u8], Stroke) -> Answer,
    pub keep: fn(&mut Editing, &[u8], &mut [u8]) -> Answer,
    pub mark: Edit,
    pub clear: Edit,
    pub stateless: edits::Calls,
}

pub const REFERENCE: Calls = Calls {
    ask: |state, model, plan, stroke| keeping::ask(state, model, plan, stroke).into(),
    keep: |state, model, plan| keeping::keep(state, model, plan).into(),
    mark: |state, model, plan, activity, tick| keeping::mark(state, model, plan, activity, tick).into(),
    clear: |state, model, plan, activity, tick| keeping::clear(state, model, plan, activity, tick).into(),
    stateless: edits::REFERENCE,
};
pub const EXPORTS: Calls = Calls {
    ask: |state, model, plan, Stroke { marks, activity, tick }| {
        proved::edit_ask(state, model, plan, marks, activity, tick)
    },
    keep: proved::edit_keep,
    mark: proved::edit_mark,
    clear: proved::edit_clear,
    stateless: edits::EXPORTS,
};

impl Calls {
    /// A direct edit.
    pub fn edit(self, state: &mut Editing, model: &[u8], plan: &mut [u8], stroke: Stroke) -> Answer {
        let edit = if stroke.marks { self.mark } else { self.clear };
        edit(state, model, plan, stroke.activity, stroke.tick)
    }

    pub fn make(self, state: &mut Editing, model: &[u8], plan: &mut [u8], call: Call) -> Answer {
        match call {
            Call::Ask(stroke) => (self.ask)(state, model, plan, stroke),
            Call::Keep => (self.keep)(state, model, plan),
            Call::Edit(stroke) => self.edit(state, model, plan, stroke),
        }
    }
}

const DONE: Answer = Answer { number: 0, first: 0, second: 0, third: 0, length: 0 };

/// Whether an ask with this answer was refused: figures and 21 to 29 are verdicts.
pub fn is_refused_ask(answer: Answer) -> bool {
    answer.number != 0 && !(21..=29).contains(&answer.number)
}

/// Makes the calls of a list by a program. What is said of the state after each of them is so, and what is said of every list,
/// unless something was asked before it began or changed elsewhere.
pub fn of_turns(program: Calls, lent: &mut Lent, turns: &[Turn]) -> Result<Vec<Made>, &'static str> {
    let before = lent.clone();
    let mut states = Ok(());
    let list = lent.make_all(turns, |state, model, plan, call| {
        let given = *state;
        let answer = program.make(state, model, plan, call);
        states = states.and(of_state(given, call, answer, *state));
        answer
    });
    states?;
    claim(lent.has_margins(), "nothing beside the plan is written")?;
    if before.state.asked_edit().is_none() && turns.iter().all(|turn| turn.elsewhere.is_none()) {
        of_list(program, &before.model, before.plan(), &list)?;
    }
    Ok(list)
}

/// What is said of a list over a plan, each call handed the state and the plan as last left.
pub fn of_list(program: Calls, model: &[u8], before: &[u8], list: &[Made]) -> Claim {
    let checked = (program.stateless.check_plain)(model, before);
    if of_form(checked) {
        let alike = list.iter().all(|made| made.answer == checked);
        claim(alike, "what 1 to 14 refuse of a check they refuse of every call")?;
        return claim(list.iter().all(|made| made.plan == before), "a refused call changes nothing");
    }
    let mut page = Page { program, model, plan: before.to_vec(), kept: Vec::new(), standing: None };
    for &Made { call, answer, ref plan } in list {
        match call {
            Call::Ask(stroke) => page.ask(stroke, answer)?,
            Call::Keep => page.keep(answer)?,
            Call::Edit(stroke) => page.edit(stroke, answer)?,
        }
        claim(*plan == page.plan, "the plan is that of the kept edits alone")?;
    }
    edits::of_list(program.stateless, edits::List { model, before, calls: &page.kept, after: &page.plan })
}

/// A list so far.
struct Page<'a> {
    program: Calls,
    model: &'a [u8],
    /// What the kept edits alone make of the plan.
    plan: Vec<u8>,
    /// The kept edits, each with the answer to it as a direct edit alone.
    kept: Vec<(Stroke, Answer)>,
    /// The latest ask, if it was not refused and no edit was kept since, and what it told.
    standing: Option<(Stroke, Answer)>,
}

impl Page<'_> {
    /// A direct edit of the plan by a new editor, and the plan after it.
    fn alone(&self, stroke: Stroke) -> (Answer, Vec<u8>) {
        let mut plan = self.plan.clone();
        (self.program.edit(&mut Editing::default(), self.model, &mut plan, stroke), plan)
    }

    fn verdict(&self, plan: &[u8]) -> Answer {
        (self.program.stateless.check_plain)(self.model, plan)
    }

    fn ask(&mut self, stroke: Stroke, answer: Answer) -> Claim {
        let (edited, plan) = self.alone(stroke);
        let told = if edited == DONE { self.verdict(&plan) } else { edited };
        claim(answer == told, "an ask tells the refusal of the edit, or the plain verdict that the plan would have")?;
        self.standing = Some((stroke, answer)).filter(|_| !is_refused_ask(answer));
        Ok(())
    }

    fn keep(&mut self, answer: Answer) -> Claim {
        let Some((stroke, told)) = self.standing else {
            return claim(answer == Answer::refused(61, 0, 0), "a keep without an ask that stands is 61");
        };
        claim(answer == DONE, "a keep of an ask that stands is done, and answers no figure")?;
        self.kept(stroke)?;
        claim(self.verdict(&self.plan) == told, "the ask told the plain verdict that the kept plan has")
    }

    fn edit(&mut self, stroke: Stroke, answer: Answer) -> Claim {
        let (alone, _) = self.alone(stroke);
        claim(answer == alone, "a direct edit answers as it does to a new editor")?;
        if answer == DONE {
            self.kept(stroke)?;
        }
        Ok(())
    }

    /// No ask stands after a kept edit.
    fn kept(&mut self, stroke: Stroke) -> Claim {
        let (answer, plan) = self.alone(stroke);
        self.kept.push((stroke, answer));
        self.plan = plan;
        self.standing = None;
        claim(answer == DONE, "a kept edit is one that is not refused directly")
    }
}

/// What is said of the state that a call hands back: after an ask the edit is asked, or nothing where it is refused; a kept edit
/// leaves nothing asked; a refused keep or direct edit hands back what it was given. The figures are handed back as given.
pub fn of_state(before: Editing, call: Call, answer: Answer, after: Editing) -> Claim {
    let nothing = Editing { asked: 0, activity: 0, tick: 0, ..before };
    match call {
        Call::Ask(_) if is_refused_ask(answer) => claim(after == nothing, "a refused ask leaves nothing asked"),
        Call::Ask(Stroke { marks, activity, tick }) => {
            let asked = if marks { 1 } else { 2 };
            claim(after == Editing { asked, activity, tick, ..before }, "an ask that is not refused is asked")
        }
        _ if answer == DONE => claim(after == nothing, "a kept edit leaves nothing asked"),
        _ => claim(after == before, "a refused keep or direct edit hands back the state as it was given"),
    }
}
