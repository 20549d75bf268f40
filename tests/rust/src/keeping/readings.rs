//! Readings of request U9 (02) that differ from the paper's in the things named, to see which lists tell them apart. With no
//! difference named this is the paper's once more.

use super::lists::{Lent, Made, Turn};
use super::Call;
use crate::edits::{self, readings as edit_readings, Stroke};
use crate::reference::{self, Figures, Refusal};
use crate::{Answer, Editing};
use Difference::*;

/// A thing in which a reading may differ.
#[derive(Clone, Copy, Debug, PartialEq, Eq)]
pub enum Difference {
    /// An ask makes the edit in the lent plan and takes it back: the row stays counted.
    AskTakenBack,
    /// An ask tells the verdict of the plan as it is.
    VerdictAsItIs,
    /// An ask tells the verdict with the activity's old row.
    VerdictWithTheOldRow,
    /// An ask tells the verdict with every activity's row counted.
    VerdictWithAllRows,
    /// An ask tells the strict verdict.
    StrictVerdict,
    /// An accepted ask tells no figure.
    FiguresNotTold,
    /// 21 to 29 is a refused ask.
    BrokenRuleRefusesTheAsk,
    /// An edit that leaves one of 21 to 29 broken is not kept.
    BrokenRuleRefusesTheKeep,
    /// 60 is tried at the keep alone; an ask for a bit already so tells the verdict of the plan as it is.
    AlreadySoAtTheKeep,
    /// After an ask that 58 to 60 refuse the older one stands.
    RefusedAskLeavesTheOlder,
    /// After an ask that 1 to 14 refuse the older one stands.
    RefusedRecordLeavesTheOlder,
    /// A new ask does not replace the one that stands.
    OlderAskStands,
    /// 61 before the records.
    NothingAskedFirst,
    /// 61 behind the model and before the plan.
    NothingAskedBeforeThePlan,
    /// 61 behind 58 to 60 of the edit that was asked last.
    NothingAskedLast,
    /// After a direct edit the ask stands.
    EditLeavesTheAsk,
    /// After a direct edit of another activity the ask stands.
    EditOfAnotherLeavesTheAsk,
    /// After a refused direct edit nothing is asked.
    RefusedEditEndsTheAsk,
    /// After a keep its ask stands.
    KeepLeavesTheAsk,
    /// After a refused keep nothing is asked.
    RefusedKeepEndsTheAsk,
    /// A keep is 61 where the model or the plan is not that of the ask.
    ChangedElsewhereIs61,
    /// A keep turns a bit that is already so.
    KeepTurnsTheBit,
    /// A keep tells the verdict.
    KeepTellsTheVerdict,
    /// What is asked is told by the last byte of its number.
    AskedOfOneByte,
}

/// Each difference alone.
pub const DIFFERENCES: [Difference; 24] = [
    AskTakenBack,
    VerdictAsItIs,
    VerdictWithTheOldRow,
    VerdictWithAllRows,
    StrictVerdict,
    FiguresNotTold,
    BrokenRuleRefusesTheAsk,
    BrokenRuleRefusesTheKeep,
    AlreadySoAtTheKeep,
    RefusedAskLeavesTheOlder,
    RefusedRecordLeavesTheOlder,
    OlderAskStands,
    NothingAskedFirst,
    NothingAskedBeforeThePlan,
    NothingAskedLast,
    EditLeavesTheAsk,
    EditOfAnotherLeavesTheAsk,
    RefusedEditEndsTheAsk,
    KeepLeavesTheAsk,
    RefusedKeepEndsTheAsk,
    ChangedElsewhereIs61,
    KeepTurnsTheBit,
    KeepTellsTheVerdict,
    AskedOfOneByte,
];

/// What a reading makes of a list.
pub fn make_all(lent: &mut Lent, turns: &[Turn], reading: &[Difference]) -> Vec<Made> {
    let mut reader = Reader { reading, latest: None };
    lent.make_all(turns, |state, model, plan, call| reader.make(state, model, plan, call))
}

/// A program in a reading, with what it remembers besides the state.
struct Reader<'a> {
    reading: &'a [Difference],
    latest: Option<Asked>,
}

/// The latest ask, refused or not, and what was lent to it.
struct Asked {
    stroke: Stroke,
    model: Vec<u8>,
    plan: Vec<u8>,
}

impl Reader<'_> {
    fn make(&mut self, state: &mut Editing, model: &[u8], plan: &mut [u8], call: Call) -> Answer {
        match call {
            Call::Ask(stroke) => self.ask(state, model, plan, stroke).into(),
            Call::Keep => self.keep(state, model, plan),
            Call::Edit(stroke) => self.edit(state, model, plan, stroke).into(),
        }
    }

    fn reads(&self, difference: Difference) -> bool {
        self.reading.contains(&difference)
    }

    fn asked(&self, state: &Editing) -> Option<Stroke> {
        let asked = if self.reads(AskedOfOneByte) { state.asked % 256 } else { state.asked };
        Editing { asked, ..*state }.asked_edit()
    }

    fn ask(&mut self, state: &mut Editing, model: &[u8], plan: &mut [u8], stroke: Stroke) -> Result<Figures, Refusal> {
        let mut edited = plan.to_vec();
        let refused = match edits::edit(model, &mut edited, stroke) {
            Err(Refusal { number: 60, .. }) if self.reads(AlreadySoAtTheKeep) => Ok(()),
            refused => refused,
        };
        let told = refused.and_then(|()| self.verdict(model, plan, edited, stroke));
        let older = self.asked(state);
        let asked = match refused {
            Err(refusal) => older.filter(|_| self.leaves_the_older(refusal)),
            Ok(()) if self.reads(OlderAskStands) && older.is_some() => older,
            Ok(()) if self.reads(BrokenRuleRefusesTheAsk) && told.is_err() => None,
            Ok(()) => Some(stroke),
        };
        *state = state.asking(asked);
        self.latest = Some(Asked { stroke, model: model.to_vec(), plan: plan.to_vec() });
        if self.reads(AskTakenBack) {
            refused?;
            edits::edit(model, plan, stroke)?;
            edits::edit(model, plan, opposite(stroke))?;
        }
        told
    }

    fn leaves_the_older(&self, refusal: Refusal) -> bool {
        self.reads(if (58..=60).contains(&refusal.number) {
            RefusedAskLeavesTheOlder
        } else {
            RefusedRecordLeavesTheOlder
        })
    }

    fn verdict(&self, model: &[u8], plan: &[u8], edited: Vec<u8>, stroke: Stroke) -> Result<Figures, Refusal> {
        let mut judged = edited;
        let rows_end = 9 + 4 * usize::from(plan[5]) + 4 * usize::from(plan[6]);
        match () {
            _ if self.reads(VerdictAsItIs) => judged.copy_from_slice(plan),
            _ if self.reads(VerdictWithTheOldRow) => judged[..rows_end].copy_from_slice(&plan[..rows_end]),
            _ if self.reads(VerdictWithAllRows) => {
                judged.copy_from_slice(plan);
                edit_readings::edit(model, &mut judged, stroke, &[edit_readings::Difference::AllRows])?;
            }
            _ => {}
        }
        let check = if self.reads(StrictVerdict) { reference::check_strict } else { reference::check_plain };
        let figures = check(model, &judged)?;
        Ok(if self.reads(FiguresNotTold) { Figures { usage: 0, capacity: 0, makespan: 0 } } else { figures })
    }

    fn keep(&self, state: &mut Editing, model: &[u8], plan: &mut [u8]) -> Answer {
        let kept = self.kept(state, model, plan);
        let stands = if kept.is_ok() { self.reads(KeepLeavesTheAsk) } else { !self.reads(RefusedKeepEndsTheAsk) };
        if !stands {
            *state = state.asking(None);
        }
        if kept.is_ok() && self.reads(KeepTellsTheVerdict) {
            return reference::check_plain(model, plan).into();
        }
        kept.into()
    }

    fn kept(&self, state: &Editing, model: &[u8], plan: &mut [u8]) -> Result<(), Refusal> {
        let nothing_asked = Err(Refusal { number: 61, a: 0, b: 0 });
        let asked = self.asked(state);
        if asked.is_none() && self.reads(NothingAskedFirst) {
            return nothing_asked;
        }
        if asked.is_none() && self.reads(NothingAskedBeforeThePlan) {
            return reference::form(model).and(nothing_asked);
        }
        reference::well_formed(model, plan)?;
        let mut edited = plan.to_vec();
        let Some(stroke) = asked else {
            let latest = self.latest.iter().filter(|_| self.reads(NothingAskedLast));
            latest.map(|latest| latest.stroke).try_for_each(|stroke| edits::edit(model, &mut edited, stroke))?;
            return nothing_asked;
        };
        if self.reads(ChangedElsewhereIs61) && self.is_changed(model, plan) {
            return nothing_asked;
        }
        match edits::edit(model, &mut edited, stroke) {
            Err(Refusal { number: 60, .. }) if self.reads(KeepTurnsTheBit) => {
                edits::edit(model, &mut edited, opposite(stroke))?
            }
            refused => refused?,
        }
        if self.reads(BrokenRuleRefusesTheKeep) {
            reference::check_plain(model, &edited)?;
        }
        plan.copy_from_slice(&edited);
        Ok(())
    }

    /// Whether other records are lent than to the latest ask.
    fn is_changed(&self, model: &[u8], plan: &[u8]) -> bool {
        self.latest.as_ref().is_some_and(|latest| latest.model != model || latest.plan != plan)
    }

    fn edit(&self, state: &mut Editing, model: &[u8], plan: &mut [u8], stroke: Stroke) -> Result<(), Refusal> {
        let refused = edits::edit(model, plan, stroke);
        let of_another = self.asked(state).is_some_and(|asked| asked.activity != stroke.activity);
        let stands = match refused {
            Ok(()) => self.reads(EditLeavesTheAsk) || self.reads(EditOfAnotherLeavesTheAsk) && of_another,
            Err(_) => !self.reads(RefusedEditEndsTheAsk),
        };
        if !stands {
            *state = state.asking(None);
        }
        refused
    }
}

fn opposite(stroke: Stroke) -> Stroke {
    Stroke { marks: !stroke.marks, ..stroke }
}
