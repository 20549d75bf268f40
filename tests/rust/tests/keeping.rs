//! Try, then keep, request U9 of 02: lists of asks, keeps and direct edits worked out by hand with both programs, and the state
//! after each call. What 02 says of every list is asked of each of them.
//!
//! A list that is worked out here names the readings under which an answer or the plan after a call would be another.

use grid_tests::claims::keeping::{of_turns, EXPORTS, REFERENCE};
use grid_tests::edits::by_hand::{clear, mark, put, S, S_PLAN};
use grid_tests::edits::Stroke;
use grid_tests::keeping::lists::Elsewhere::{self, Page, Turned};
use grid_tests::keeping::lists::{Lent, Turn};
use grid_tests::keeping::readings::{self, Difference, Difference::*};
use grid_tests::keeping::Call;
use grid_tests::records::{set_length, ActivityRow, Model, Plan, Rounds, ThreadRow, NO_LOOP};
use grid_tests::{Answer, Editing, Step};

// Lists: each turn with its answer

type Told = (Turn, Answer);

fn told(call: Call, answer: Answer) -> Told {
    (Turn { elsewhere: None, call }, answer)
}

/// An ask that tells these figures.
fn figures(stroke: Stroke, usage: u32, capacity: u32, makespan: u32) -> Told {
    told(Call::Ask(stroke), Answer::accepted(usage, capacity, makespan, 0))
}

/// An ask that tells the break of a rule, or is refused.
fn ask(stroke: Stroke, number: u32, a: u32, b: u32) -> Told {
    told(Call::Ask(stroke), Answer::refused(number, a, b))
}

/// A keep with this number and zeros; 0 where it is done.
fn keep(number: u32) -> Told {
    told(Call::Keep, Answer::refused(number, 0, 0))
}

/// A direct edit with this number and zeros; 0 where it is done.
fn edit(stroke: Stroke, number: u32) -> Told {
    told(Call::Edit(stroke), Answer::refused(number, 0, 0))
}

/// This turn, with a change elsewhere before it.
fn after(change: Elsewhere, (turn, answer): Told) -> Told {
    (Turn { elsewhere: Some(change), ..turn }, answer)
}

/// S's own page again.
fn back() -> Elsewhere {
    Page(S.to_vec(), S_PLAN.to_vec())
}

/// S's own model again.
fn same_model() -> Elsewhere {
    Elsewhere::Model(S.to_vec())
}

// How a list is tried

/// States with nothing asked.
const NOTHING_ASKED: [Editing; 5] = [
    Editing { asked: 0, activity: 0, tick: 0, total: 0, counts: [0; 32] },
    Editing { asked: 0, activity: 1, tick: 2, total: 3, counts: [4; 32] },
    Editing { asked: 3, activity: 0, tick: 4, total: 0, counts: [1; 32] },
    Editing { asked: 7, activity: 3, tick: 8, total: 5, counts: [u32::MAX; 32] },
    Editing { asked: u32::MAX, activity: u32::MAX, tick: u32::MAX, total: u32::MAX, counts: [0; 32] },
];

/// The answers that both programs must give from this state, the plan that they must leave, and the readings under which an
/// answer or the plan after a call is another; the state in the end.
fn list_from(
    state: Editing,
    model: &[u8],
    plan: &[u8],
    list: &[Told],
    left: &[u8],
    told_apart: &[Difference],
) -> Editing {
    let (turns, answers): (Vec<Turn>, Vec<Answer>) = list.iter().cloned().unzip();
    let lent = || Lent::new(model, plan, state);
    let mut paper_left = lent();
    let paper = readings::make_all(&mut paper_left, &turns, &[]);
    assert_eq!(paper.iter().map(|made| made.answer).collect::<Vec<_>>(), answers, "{turns:?}");
    assert_eq!(paper_left.plan(), left, "{turns:?}");
    for program in [REFERENCE, EXPORTS] {
        let mut lent = lent();
        let made = of_turns(program, &mut lent, &turns);
        assert_eq!((made.as_ref(), &lent), (Ok(&paper), &paper_left), "{turns:?}");
    }
    for &difference in told_apart {
        assert_ne!(readings::make_all(&mut lent(), &turns, &[difference]), paper, "{difference:?}, {turns:?}");
    }
    paper_left.state
}

/// The same from each state with nothing asked.
fn list(model: &[u8], plan: &[u8], list: &[Told], left: &[u8], told_apart: &[Difference]) {
    for state in NOTHING_ASKED {
        list_from(state, model, plan, list, left, told_apart);
    }
}

/// A list on S and its plan, with the bytes of the plan that are changed in the end.
fn on_s(calls: &[Told], changes: &[(usize, u8)], told_apart: &[Difference]) {
    list(&S, &S_PLAN, calls, &put(&S_PLAN, changes), told_apart);
}

// The lists

/// Without tick 2 of activity 0 the plan is accepted with usage 4; only the strict check goes on to 30 2 1. With tick 4 the
/// activity has three ticks, which breaks 22.
#[test]
fn ask_and_keep() {
    let verdicts = [VerdictAsItIs, VerdictWithTheOldRow, StrictVerdict, FiguresNotTold];
    on_s(&[figures(clear(0, 2), 4, 8, 6)], &[], &verdicts);
    on_s(&[figures(clear(0, 2), 4, 8, 6), keep(0)], &[(20, 2), (40, 0)], &[KeepTellsTheVerdict]);
    let broken = [VerdictAsItIs, BrokenRuleRefusesTheAsk, BrokenRuleRefusesTheKeep, KeepTellsTheVerdict];
    on_s(&[ask(mark(0, 4), 22, 0, 0)], &[], &[VerdictAsItIs]);
    on_s(&[ask(mark(0, 4), 22, 0, 0), keep(0)], &[(20, 5), (48, 1)], &broken);
    // One after another.
    let steps = [
        figures(clear(0, 1), 4, 8, 6),
        keep(0),
        ask(mark(1, 1), 29, 1, 0),
        keep(0),
        ask(mark(0, 1), 28, 1, 0),
        figures(clear(1, 1), 4, 8, 6),
        keep(0),
        figures(mark(0, 1), 5, 8, 6),
        keep(0),
    ];
    on_s(&steps[..4], &[(18, 2), (36, 2)], &[BrokenRuleRefusesTheAsk]);
    on_s(&steps, &[], &[OlderAskStands]);
}

#[test]
fn a_new_ask_replaces() {
    let asks = [figures(clear(0, 2), 4, 8, 6), ask(mark(1, 4), 25, 2, 1)];
    on_s(&[&asks[..], &[keep(0)]].concat(), &[(24, 5), (48, 2)], &[OlderAskStands]);
    on_s(&[&asks[..], &[keep(0), keep(61)]].concat(), &[(24, 5), (48, 2)], &[OlderAskStands, KeepLeavesTheAsk]);
    let turned = [asks[1].clone(), asks[0].clone(), keep(0)];
    on_s(&turned, &[(20, 2), (40, 0)], &[OlderAskStands]);
    // The same bit, and the same edit.
    let opposite = [ask(mark(0, 4), 22, 0, 0), ask(clear(0, 4), 60, 0, 0), ask(mark(0, 4), 22, 0, 0), keep(0)];
    on_s(&opposite, &[(20, 5), (48, 1)], &[AlreadySoAtTheKeep]);
    let twice = [asks[0].clone(), asks[0].clone(), keep(0), keep(61)];
    on_s(&twice, &[(20, 2), (40, 0)], &[KeepLeavesTheAsk]);
}

#[test]
fn a_refused_ask_leaves_nothing_asked() {
    for refused in [ask(mark(0, 1), 60, 0, 0), ask(mark(3, 1), 58, 0, 0), ask(clear(0, 8), 59, 0, 0)] {
        let calls = [figures(clear(0, 2), 4, 8, 6), refused.clone(), keep(61)];
        on_s(&calls, &[], &[RefusedAskLeavesTheOlder, NothingAskedLast]);
        let asked_again = [&calls[..], &[ask(mark(1, 4), 25, 2, 1), keep(0), keep(61)]].concat();
        on_s(&asked_again, &[(24, 5), (48, 2)], &[RefusedAskLeavesTheOlder, KeepLeavesTheAsk]);
        on_s(&[refused, keep(61)], &[], &[NothingAskedLast]);
    }
    let already_so = [figures(clear(0, 2), 4, 8, 6), ask(clear(0, 0), 60, 0, 0), keep(61)];
    on_s(&already_so, &[], &[AlreadySoAtTheKeep, RefusedAskLeavesTheOlder]);
}

#[test]
fn a_direct_edit_ends_the_ask() {
    let told_apart = [EditLeavesTheAsk, EditOfAnotherLeavesTheAsk];
    let calls = [figures(clear(0, 2), 4, 8, 6), edit(mark(1, 4), 0), keep(61)];
    on_s(&calls, &[(24, 5), (48, 2)], &told_apart);
    // Of the same activity.
    let calls = [figures(clear(0, 2), 4, 8, 6), edit(clear(0, 1), 0), keep(61)];
    on_s(&calls, &[(18, 2), (36, 0)], &[EditLeavesTheAsk]);
    // The same edit: 61 before 60.
    let calls = [figures(clear(0, 2), 4, 8, 6), edit(clear(0, 2), 0), keep(61), keep(61)];
    on_s(&calls, &[(20, 2), (40, 0)], &[EditLeavesTheAsk, NothingAskedLast]);
    // The plan is then as it was when the edit was asked.
    let calls = [figures(clear(0, 2), 4, 8, 6), edit(clear(0, 2), 0), edit(mark(0, 2), 0), keep(61)];
    on_s(&calls, &[], &[EditLeavesTheAsk]);
    let calls = [figures(clear(0, 2), 4, 8, 6), edit(mark(2, 6), 0), edit(clear(2, 6), 0), keep(61)];
    on_s(&calls, &[], &told_apart);
    // Asked again behind it.
    let calls = [figures(clear(0, 2), 4, 8, 6), edit(mark(1, 4), 0), ask(clear(0, 2), 25, 2, 1), keep(0)];
    on_s(&calls, &[(20, 2), (24, 5), (40, 0), (48, 2)], &[BrokenRuleRefusesTheAsk]);
    // An edit before the ask does not matter.
    let calls = [edit(mark(1, 4), 0), ask(clear(0, 2), 25, 2, 1), keep(0), keep(61)];
    on_s(&calls, &[(20, 2), (24, 5), (40, 0), (48, 2)], &[KeepLeavesTheAsk]);
}

#[test]
fn a_refused_direct_edit_leaves_the_ask() {
    for refused in [edit(mark(0, 1), 60), edit(clear(0, 0), 60), edit(mark(3, 1), 58), edit(clear(0, 8), 59)] {
        let calls = [figures(clear(0, 2), 4, 8, 6), refused.clone(), keep(0), refused, keep(61)];
        on_s(&calls, &[(20, 2), (40, 0)], &[RefusedEditEndsTheAsk, KeepLeavesTheAsk]);
    }
}

#[test]
fn keeps_with_nothing_asked() {
    on_s(&[keep(61)], &[], &[]);
    on_s(&[keep(61), keep(61), figures(clear(0, 2), 4, 8, 6), keep(0)], &[(20, 2), (40, 0)], &[]);
    let told_apart = [KeepLeavesTheAsk, NothingAskedLast];
    on_s(&[figures(clear(0, 2), 4, 8, 6), keep(0), keep(61)], &[(20, 2), (40, 0)], &told_apart);
    on_s(&[edit(mark(0, 4), 0), keep(61)], &[(20, 5), (48, 1)], &[]);
    // The opposite of what was kept is no part of the ask.
    let calls = [figures(clear(0, 2), 4, 8, 6), keep(0), edit(mark(0, 2), 0), keep(61)];
    on_s(&calls, &[], &[]);
}

// Changed elsewhere

#[test]
fn a_plan_changed_elsewhere() {
    let told_apart = [ChangedElsewhereIs61, KeepTurnsTheBit, RefusedKeepEndsTheAsk];
    // The bit is marked elsewhere, and cleared again.
    let turned = || Turned(vec![(48, 1)]);
    let calls = [ask(mark(0, 4), 22, 0, 0), after(turned(), keep(60)), after(turned(), keep(0)), keep(61)];
    on_s(&calls, &[(20, 5), (48, 1)], &told_apart);
    on_s(&calls[..2], &[(48, 1)], &told_apart[..2]);
    // A bit at or above m, and a release outside of its range.
    for (at, bits, number, a) in [(60, 8, 14, 7), (29, 128, 14, 0), (10, 2, 12, 0), (4, 2, 9, 0), (3, 1, 8, 0)] {
        let turned = || Turned(vec![(at, bits)]);
        let refused = told(Call::Keep, Answer::refused(number, a, 0));
        let calls = [figures(clear(0, 2), 4, 8, 6), after(turned(), refused), after(turned(), keep(0)), keep(61)];
        on_s(&calls, &[(20, 2), (40, 0)], &[RefusedKeepEndsTheAsk]);
        // A refused direct edit, and a refused ask.
        let refused = told(Call::Edit(mark(1, 4)), Answer::refused(number, a, 0));
        let calls = [figures(clear(0, 2), 4, 8, 6), after(turned(), refused), after(turned(), keep(0))];
        on_s(&calls, &[(20, 2), (40, 0)], &[RefusedEditEndsTheAsk]);
        let refused = ask(clear(0, 2), number, a, 0);
        let calls = [figures(clear(0, 2), 4, 8, 6), after(turned(), refused), after(turned(), keep(61))];
        on_s(&calls, &[], &[RefusedRecordLeavesTheOlder]);
    }
}

#[test]
fn a_plan_changed_elsewhere_where_the_keep_applies() {
    // Activity 2 is moved to tick 6, and its row is not.
    let moved = || Turned(vec![(52, 4), (56, 4)]);
    let calls = [ask(mark(0, 4), 22, 0, 0), after(moved(), keep(0))];
    on_s(&calls, &[(20, 5), (48, 1), (52, 0), (56, 4)], &[ChangedElsewhereIs61]);
    // Activity 0 has tick 7 besides: its row is counted at the keep.
    let calls = [ask(mark(0, 4), 22, 0, 0), after(Turned(vec![(60, 1)]), keep(0))];
    on_s(&calls, &[(20, 8), (48, 1), (60, 1)], &[ChangedElsewhereIs61]);
    // An ask that is refused, and would not be at the keep.
    let calls = [ask(mark(0, 1), 60, 0, 0), after(Turned(vec![(36, 1)]), keep(61))];
    on_s(&calls, &[(36, 0)], &[AlreadySoAtTheKeep]);
    // The edit that is asked is made elsewhere, and its opposite is asked and kept: the row is that of the words again.
    let calls = [figures(clear(0, 2), 4, 8, 6), after(Turned(vec![(40, 1)]), figures(mark(0, 2), 5, 8, 6)), keep(0)];
    on_s(&calls, &[], &[VerdictAsItIs, OlderAskStands]);
}

/// S without activity 2, and its plan.
fn fewer_activities() -> (Vec<u8>, Vec<u8>) {
    let plan = [
        0, 0, 0, 57, 1, 2, 2, 0, 8, // length, version, n, m, H
        0, 1, 0, 0, 0, 0, 0, 8, // release and period of each thread
        0, 1, 0, 3, 0, 0, 0, 4, // start and end of each activity
        0, 0, 0, 2, 0, 0, 0, 1, 0, 0, 0, 1, 0, 0, 0, 2, // ticks 0 to 3
        0, 0, 0, 0, 0, 0, 0, 0, 0, 0, 0, 0, 0, 0, 0, 0, // ticks 4 to 7
    ];
    (put(&S[..60], &[(3, 60), (7, 2)]), plan.to_vec())
}

/// A page with ticks 0 to 5 of one with eight.
fn fewer_ticks((model, plan): (Vec<u8>, Vec<u8>)) -> (Vec<u8>, Vec<u8>) {
    let shorter = plan.len() - 8;
    (put(&model, &[(9, 6)]), put(&plan[..shorter], &[(3, shorter as u8), (8, 6)]))
}

#[test]
fn another_page_lent() {
    let s = (S.to_vec(), S_PLAN.to_vec());
    let pages = [(fewer_activities(), 58), (fewer_ticks(s), 59), (fewer_ticks(fewer_activities()), 58)];
    for ((model, plan), number) in pages {
        let other = || Page(model.clone(), plan.clone());
        let calls = [ask(mark(2, 6), 22, 2, 0), after(other(), keep(number)), after(back(), keep(0))];
        on_s(&calls, &[(28, 7), (56, 4)], &[ChangedElsewhereIs61, RefusedKeepEndsTheAsk]);
        // Nothing is asked: 61 before 58 and 59.
        let calls = [ask(mark(2, 6), 22, 2, 0), edit(mark(2, 7), 0), after(other(), keep(61)), after(back(), keep(61))];
        on_s(&calls, &[], &[NothingAskedLast, EditLeavesTheAsk]);
        // The ask is replaced on the other page.
        let calls = [ask(mark(2, 6), 22, 2, 0), after(other(), ask(mark(2, 6), number, 0, 0)), after(back(), keep(61))];
        on_s(&calls, &[], &[RefusedAskLeavesTheOlder]);
    }
}

#[test]
fn another_model_lent() {
    // With two cores the plan is accepted at once, and the keep applies all the same.
    let two_cores = || Elsewhere::Model(put(&S, &[(5, 2)]));
    let calls = [ask(mark(1, 1), 28, 1, 0), after(two_cores(), keep(0))];
    on_s(&calls, &[(36, 3)], &[ChangedElsewhereIs61]);
    let calls = [ask(mark(1, 1), 28, 1, 0), after(two_cores(), figures(mark(1, 1), 6, 16, 6)), keep(0)];
    on_s(&calls, &[(36, 3)], &[]);
    // A model that is refused, and one that is not of this plan.
    let (fewer, _) = fewer_activities();
    for (model, number) in [(put(&S, &[(5, 0)]), 3), (put(&S, &[(4, 4)]), 2), (fewer, 10)] {
        let other = || Elsewhere::Model(model.clone());
        let calls = [ask(mark(1, 1), 28, 1, 0), after(other(), keep(number)), after(same_model(), keep(0))];
        on_s(&calls, &[(36, 3)], &[RefusedKeepEndsTheAsk]);
        let refused = ask(mark(1, 1), number, 0, 0);
        let calls = [ask(mark(1, 1), 28, 1, 0), after(other(), refused), after(same_model(), keep(61))];
        on_s(&calls, &[], &[RefusedRecordLeavesTheOlder]);
        let told_apart: &[Difference] =
            if number == 10 { &[NothingAskedFirst, NothingAskedBeforeThePlan] } else { &[NothingAskedFirst] };
        on_s(&[after(other(), keep(number))], &[], told_apart);
    }
}

// Verdicts

/// An ask with this verdict and its keep, which changes these bytes.
fn verdict(model: &[u8], plan: &[u8], asked: Told, changes: &[(usize, u8)], told_apart: &[Difference]) {
    let calls = [asked, keep(0)];
    list(model, plan, &calls[..1], plan, &[]);
    list(model, plan, &calls, &put(plan, changes), told_apart);
}

#[test]
fn verdict_of_each_rule() {
    let broken = [VerdictAsItIs, BrokenRuleRefusesTheAsk, BrokenRuleRefusesTheKeep];
    // Activity 2 has no tick left; activity 0 has three; activity 2 begins before 1 has ended and its delay is over.
    verdict(&S, &S_PLAN, ask(clear(2, 5), 21, 2, 0), &[(26, 0), (28, 0), (52, 0)], &broken);
    verdict(&S, &S_PLAN, ask(mark(0, 4), 22, 0, 0), &[(20, 5), (48, 1)], &broken);
    verdict(&S, &S_PLAN, ask(clear(1, 0), 22, 1, 0), &[(22, 3), (32, 0)], &broken);
    verdict(&S, &S_PLAN, ask(mark(1, 4), 25, 2, 1), &[(24, 5), (48, 2)], &broken);
    // Two at tick 1.
    verdict(&S, &S_PLAN, ask(mark(1, 1), 28, 1, 0), &[(36, 3)], &broken);
    // Thread 1 has the period 6, and activity 1 ends at 7.
    let (shorter, plan) = (put(&S, &[(21, 5)]), put(&S_PLAN, &[(16, 6)]));
    verdict(&shorter, &plan, ask(mark(1, 6), 23, 1, 0), &[(24, 7), (56, 2)], &broken);
    // Activity 0 at tick 1 alone: it then ends at 7, or begins before its release.
    let at_1 = put(&S_PLAN, &[(20, 2), (40, 0)]);
    verdict(&S, &at_1, ask(mark(0, 6), 26, 2, 0), &[(20, 7), (56, 1)], &broken);
    verdict(&S, &at_1, ask(mark(0, 0), 27, 0, 0), &[(18, 0), (32, 3)], &broken);
    // Activity 0 at tick 2 alone: it waits at tick 1.
    let at_2 = put(&S_PLAN, &[(18, 2), (36, 0)]);
    verdict(&S, &at_2, ask(mark(1, 1), 29, 1, 0), &[(36, 2)], &broken);
}

#[test]
fn verdicts_with_figures() {
    let told_apart = [VerdictAsItIs, FiguresNotTold, KeepTellsTheVerdict];
    verdict(&S, &S_PLAN, figures(clear(0, 2), 4, 8, 6), &[(20, 2), (40, 0)], &told_apart);
    verdict(&S, &S_PLAN, figures(clear(0, 1), 4, 8, 6), &[(18, 2), (36, 0)], &told_apart);
    // Activity 2 at tick 6 alone: the page is longer by a tick, then activity 0 has another.
    let at_6 = put(&S_PLAN, &[(26, 6), (28, 7), (52, 0), (56, 4)]);
    verdict(&S, &at_6, figures(clear(0, 2), 4, 8, 7), &[(20, 2), (40, 0)], &told_apart);
    verdict(&S, &at_6, figures(mark(1, 4), 6, 8, 7), &[(24, 5), (48, 2)], &told_apart);
    // What was broken before the edit is accepted after it, and the other way round.
    let two = put(&S_PLAN, &[(36, 3)]);
    verdict(&S, &two, figures(clear(1, 1), 5, 8, 6), &[(36, 1)], &told_apart);
    let none = put(&S_PLAN, &[(26, 0), (28, 0), (52, 0)]);
    verdict(&S, &none, figures(mark(2, 5), 5, 8, 6), &[(26, 5), (28, 6), (52, 4)], &told_apart);
    verdict(&S, &none, figures(mark(2, 7), 5, 8, 8), &[(26, 7), (28, 8), (60, 4)], &told_apart);
    // Whatever else is wrong counts, and the first break is told.
    verdict(&S, &none, ask(mark(0, 4), 21, 2, 0), &[(20, 5), (48, 1)], &[]);
    verdict(&S, &two, ask(mark(0, 4), 22, 0, 0), &[(20, 5), (48, 1)], &[VerdictAsItIs]);
    verdict(&S, &two, ask(clear(0, 2), 28, 1, 0), &[(20, 2), (40, 0)], &[VerdictWithTheOldRow]);
}

#[test]
fn rows_that_disagree_with_the_words() {
    // The row of activity 0 is 4660 and 22136.
    let wrong = put(&S_PLAN, &[(17, 0x12), (18, 0x34), (19, 0x56), (20, 0x78)]);
    let row = [(17, 0), (18, 1), (19, 0)];
    let counted = |changes: &[(usize, u8)]| [&row[..], changes].concat();
    let told_apart = [AskTakenBack, VerdictAsItIs, VerdictWithTheOldRow];
    verdict(&S, &wrong, figures(clear(0, 2), 4, 8, 6), &counted(&[(20, 2), (40, 0)]), &told_apart);
    verdict(&S, &wrong, ask(mark(0, 4), 22, 0, 0), &counted(&[(20, 5), (48, 1)]), &told_apart);
    list(&S, &wrong, &[figures(clear(0, 2), 4, 8, 6)], &wrong, &told_apart);
    list(&S, &wrong, &[ask(mark(0, 1), 60, 0, 0), keep(61)], &wrong, &[AlreadySoAtTheKeep]);
    // The row of an activity that is not edited counts as it is.
    verdict(&S, &wrong, ask(mark(1, 1), 21, 0, 0), &[(36, 3)], &[VerdictWithAllRows]);
    verdict(&S, &wrong, ask(clear(2, 5), 21, 0, 0), &[(26, 0), (28, 0), (52, 0)], &[VerdictWithAllRows]);
    // Too wide by a tick, too narrow by one, and 0 and 0 with ticks marked.
    for (start, end) in [(0, 3), (1, 4), (2, 3), (1, 2), (0, 0), (3, 1)] {
        let wrong = put(&S_PLAN, &[(18, start), (20, end)]);
        let calls = [figures(clear(0, 1), 4, 8, 6), figures(clear(0, 2), 4, 8, 6), ask(mark(1, 1), 21, 0, 0)];
        list(&S, &wrong, &calls, &wrong, &[AskTakenBack, VerdictWithAllRows]);
        list(&S, &wrong, &[calls[0].clone(), keep(0)], &put(&wrong, &[(18, 2), (20, 3), (36, 0)]), &[AskTakenBack]);
    }
    // A window without a tick.
    let window = put(&S_PLAN, &[(52, 0)]);
    verdict(&S, &window, figures(mark(2, 6), 5, 8, 7), &[(26, 6), (28, 7), (56, 4)], &[AskTakenBack]);
}

/// One thread without a period, and activities without predecessors.
fn page(cores: u8, horizon: u16, m: usize, rounds: Option<Rounds>) -> Model {
    let activity = ActivityRow { thread: 0, duration: (1, 9), delay: 0, temporal: 0, data: 0 };
    Model {
        cores,
        horizon,
        threads: vec![ThreadRow { period: (0, 0), release: (0, 0), priority: 3 }],
        activities: vec![activity; m],
        rounds,
    }
}

/// The plan of these words, for as many threads and activities.
fn plan_of(threads: usize, m: usize, words: &[u32]) -> Vec<u8> {
    Plan::of_words(vec![(0, 0); threads], m, words.to_vec()).bytes()
}

#[test]
fn pages_of_two_rounds() {
    let rounds = |loops: Vec<u8>| Some(Rounds { count: 2, loops, widths: None });
    let looped = page(1, 5, 2, rounds(vec![NO_LOOP, 1]));
    // Four activities of a tick each: rows from byte 17 on, and the last byte of word t is byte 36 + 4t.
    let plan = plan_of(2, 4, &[1, 2, 4, 8, 0]);
    for model in [looped.bytes(), looped.unrolled().bytes()] {
        // Activity 1 is a predecessor of itself in round 1, which is activity 3.
        verdict(&model, &plan, ask(mark(1, 4), 25, 3, 1), &[(24, 5), (52, 2)], &[VerdictAsItIs]);
        verdict(&model, &plan, figures(mark(3, 4), 5, 5, 5), &[(32, 5), (52, 8)], &[VerdictAsItIs]);
        verdict(&model, &plan, ask(clear(2, 2), 21, 2, 0), &[(26, 0), (28, 0), (44, 0)], &[BrokenRuleRefusesTheAsk]);
        let refused = [figures(mark(3, 4), 5, 5, 5), ask(mark(4, 4), 58, 0, 0), keep(61)];
        list(&model, &plan, &refused, &plan, &[RefusedAskLeavesTheOlder]);
        let calls = [figures(mark(2, 4), 5, 5, 5), edit(clear(3, 0), 60), edit(mark(3, 5), 59), keep(0), keep(61)];
        list(&model, &plan, &calls, &put(&plan, &[(28, 5), (52, 4)]), &[RefusedEditEndsTheAsk]);
    }
    let free = page(1, 5, 2, rounds(vec![NO_LOOP; 2])).bytes();
    verdict(&free, &plan, figures(mark(1, 4), 5, 5, 5), &[(24, 5), (52, 2)], &[FiguresNotTold]);
    // The plan of the page without rounds is another.
    let one = (page(1, 5, 2, None).bytes(), plan_of(1, 2, &[1, 2, 0, 0, 0]));
    let calls = [
        figures(mark(3, 4), 5, 5, 5),
        after(Page(one.0, one.1), keep(58)),
        after(Page(looped.bytes(), plan.clone()), keep(0)),
    ];
    list(&looped.bytes(), &plan, &calls, &put(&plan, &[(32, 5), (52, 8)]), &[RefusedKeepEndsTheAsk]);
}

#[test]
fn pages_with_gangs() {
    let rounds = |widths: Vec<u8>| Some(Rounds { count: 1, loops: vec![NO_LOOP; 3], widths: Some(widths) });
    let gang = page(2, 3, 3, rounds(vec![1, 2, 1]));
    // Activities 0 and 2 at tick 0 and the gang at tick 1: rows from byte 13 on, and the last byte of word t is byte 28 + 4t.
    let plan = plan_of(1, 3, &[5, 2, 0]);
    // Usage is counted in core ticks.
    verdict(&gang.bytes(), &plan, figures(mark(1, 2), 6, 6, 3), &[(20, 3), (36, 2)], &[FiguresNotTold]);
    verdict(&gang.bytes(), &plan, ask(mark(0, 1), 28, 1, 0), &[(16, 2), (32, 3)], &[VerdictAsItIs]);
    verdict(&gang.bytes(), &plan, ask(mark(1, 0), 28, 0, 0), &[(18, 0), (28, 7)], &[VerdictAsItIs]);
    let narrow = page(2, 3, 3, rounds(vec![1, 1, 1])).bytes();
    verdict(&narrow, &plan, figures(mark(1, 2), 4, 6, 3), &[(20, 3), (36, 2)], &[FiguresNotTold]);
    verdict(&narrow, &plan, figures(mark(0, 1), 4, 6, 2), &[(16, 2), (32, 3)], &[FiguresNotTold]);
    // Activity 0 is a gang of the more urgent thread at tick 1. It waits at tick 0, which is full with 1 and 2.
    let mut urgent = page(2, 3, 3, rounds(vec![2, 1, 1]));
    urgent.threads.push(ThreadRow { priority: 5, ..urgent.threads[0].clone() });
    urgent.activities[0].thread = 1;
    let plan = plan_of(2, 3, &[2, 1, 4]);
    verdict(&urgent.bytes(), &plan, ask(mark(2, 0), 29, 0, 0), &[(26, 0), (32, 6)], &[VerdictAsItIs]);
    verdict(&urgent.bytes(), &plan, ask(mark(0, 2), 28, 2, 0), &[(20, 3), (40, 5)], &[VerdictAsItIs]);
    verdict(&urgent.bytes(), &plan, figures(mark(1, 2), 5, 6, 3), &[(24, 3), (40, 6)], &[FiguresNotTold]);
}

#[test]
fn the_largest_numbers() {
    // The row is in bytes 13 to 16, and the last byte of word t is byte 20 + 4t.
    let (model, plan) = (page(1, 4096, 1, None).bytes(), plan_of(1, 1, &[0; 4096]));
    let changes = [(13, 15), (14, 255), (15, 16), (16, 0), (16_400, 1)];
    verdict(&model, &plan, figures(mark(0, 4095), 1, 4096, 4096), &changes, &[VerdictAsItIs]);
    // 69631 is 4095 and 65536.
    for refused in [ask(mark(0, 4096), 59, 0, 0), ask(mark(0, 69_631), 59, 0, 0), ask(mark(256, 4095), 58, 0, 0)] {
        let calls = [figures(mark(0, 4095), 1, 4096, 4096), refused, keep(61)];
        list(&model, &plan, &calls, &plan, &[RefusedAskLeavesTheOlder]);
    }
    // Eight of 32 activities at each of four ticks. Row a begins at byte 13 + 4a, and word t at byte 141 + 4t.
    let model = page(8, 4, 32, None).bytes();
    let plan = plan_of(1, 32, &[0xff, 0xff00, 0xff_0000, 0xff00_0000]);
    verdict(&model, &plan, ask(clear(31, 3), 21, 31, 0), &[(138, 0), (140, 0), (153, 127)], &[VerdictAsItIs]);
    verdict(&model, &plan, ask(mark(31, 0), 28, 0, 0), &[(138, 0), (141, 128)], &[VerdictAsItIs]);
    let calls = [edit(clear(0, 0), 0), ask(mark(31, 0), 21, 0, 0), edit(mark(32, 1), 58), keep(0), keep(61)];
    let left = put(&plan, &[(16, 0), (138, 0), (141, 128), (144, 254)]);
    list(&model, &plan, &calls, &left, &[RefusedEditEndsTheAsk, BrokenRuleRefusesTheAsk]);
}

// Records that are turned away

/// A record with a byte more, and the length that it then has.
fn longer(record: &[u8]) -> Vec<u8> {
    let mut record = [record, &[0]].concat();
    set_length(&mut record);
    record
}

/// Records that every call must refuse, whatever is asked; the readings are told apart by a keep with nothing asked.
fn turned_away(model: &[u8], plan: &[u8], number: u32, a: u32, told_apart: &[Difference]) {
    let answer = Answer::refused(number, a, 0);
    let strokes = [mark(0, 4), clear(0, 2), mark(0, 1), mark(3, 8), clear(u32::MAX, u32::MAX)];
    for stroke in strokes {
        let calls = [told(Call::Keep, answer), told(Call::Ask(stroke), answer), told(Call::Edit(stroke), answer)];
        list(model, plan, &calls, plan, told_apart);
        for state in NOTHING_ASKED {
            list_from(state.asking(Some(stroke)), model, plan, &calls, plan, &[]);
        }
    }
}

#[test]
fn models_turned_away() {
    let rounds = Rounds { count: 2, loops: vec![NO_LOOP; 3], widths: Some(vec![1, 2, 1]) };
    let damaged = |damage: &dyn Fn(&mut Model)| {
        let mut model = page(2, 6, 3, Some(rounds.clone()));
        damage(&mut model);
        model.bytes()
    };
    let models = [
        (S[..74].to_vec(), 1, 0),
        (vec![], 1, 0),
        (put(&S, &[(4, 4)]), 2, 0),
        (put(&S, &[(5, 0)]), 3, 0),
        (longer(&S), 4, 0),
        (damaged(&|model| model.rounds.as_mut().unwrap().count = 5), 51, 0),
        (put(&S, &[(25, 1)]), 5, 1),
        (damaged(&|model| model.threads[0].period = (1, 2)), 52, 0),
        (put(&S, &[(30, 2)]), 6, 0),
        (damaged(&|model| model.rounds.as_mut().unwrap().loops[2] = 3), 53, 2),
        (damaged(&|model| model.rounds.as_mut().unwrap().widths = Some(vec![1, 3, 1])), 57, 1),
        (put(&S, &[(55, 2)]), 7, 1),
    ];
    for (model, number, a) in models {
        for plan in [S_PLAN.to_vec(), vec![], put(&S_PLAN, &[(4, 0), (60, 8)])] {
            turned_away(&model, &plan, number, a, &[NothingAskedFirst]);
        }
    }
}

#[test]
fn plans_turned_away() {
    let plans = [
        (vec![], 8, 0),
        (S_PLAN[..60].to_vec(), 8, 0),
        (put(&S_PLAN, &[(3, 62)]), 8, 0),
        (put(&S_PLAN, &[(4, 2)]), 9, 0),
        (put(&S_PLAN, &[(6, 2)]), 10, 0),
        (put(&S_PLAN, &[(8, 9)]), 10, 0),
        (longer(&S_PLAN), 11, 0),
        (put(&S_PLAN, &[(10, 3)]), 12, 0),
        (put(&S_PLAN, &[(16, 7)]), 12, 1),
        (put(&S_PLAN, &[(60, 8)]), 14, 7),
        (put(&S_PLAN, &[(29, 128)]), 14, 0),
    ];
    for (plan, number, a) in plans {
        turned_away(&S, &plan, number, a, &[NothingAskedFirst, NothingAskedBeforeThePlan]);
    }
}

// The state

const FIGURES: Editing = Editing { asked: 0, activity: 0, tick: 0, total: 4_000_000_000, counts: [77; 32] };

/// The state after one call on S and its plan.
fn state_after(state: Editing, call: Told, changes: &[(usize, u8)], told_apart: &[Difference]) -> Editing {
    list_from(state, &S, &S_PLAN, &[call], &put(&S_PLAN, changes), told_apart)
}

#[test]
fn size_of_the_state() {
    assert_eq!(std::mem::size_of::<Editing>(), 144);
    assert_eq!(std::mem::size_of::<Step>(), 164);
    assert_eq!(Editing::default(), Editing { asked: 0, activity: 0, tick: 0, total: 0, counts: [0; 32] });
}

#[test]
fn numbers_of_the_state() {
    let asked = |asked, activity, tick| Editing { asked, activity, tick, ..FIGURES };
    let states = NOTHING_ASKED.into_iter().chain([asked(1, 0, 4), asked(2, 0, 2), asked(1, 9, 9), asked(257, 0, 4)]);
    for state in states {
        let figures_of = |numbers: Editing| Editing { total: state.total, counts: state.counts, ..numbers };
        // An ask: a mark is 1 and a clear 2, and nothing asked is zeros.
        let mark_asked = state_after(state, ask(mark(1, 4), 25, 2, 1), &[], &[]);
        assert_eq!(mark_asked, figures_of(asked(1, 1, 4)));
        let clear_asked = state_after(state, figures(clear(0, 2), 4, 8, 6), &[], &[]);
        assert_eq!(clear_asked, figures_of(asked(2, 0, 2)));
        for refused in [ask(mark(0, 1), 60, 0, 0), ask(mark(7, 1), 58, 0, 0), ask(mark(0, 99), 59, 0, 0)] {
            assert_eq!(state_after(state, refused, &[], &[]), figures_of(asked(0, 0, 0)));
        }
        // A direct edit: zeros, or what was given.
        let edited = state_after(state, edit(mark(1, 4), 0), &[(24, 5), (48, 2)], &[]);
        assert_eq!(edited, figures_of(asked(0, 0, 0)));
        for refused in [edit(mark(0, 1), 60), edit(clear(3, 0), 58), edit(clear(0, 8), 59)] {
            assert_eq!(state_after(state, refused, &[], &[]), state);
        }
    }
}

/// A state that was never asked for is a state all the same.
#[test]
fn keeps_of_a_state() {
    let asked = |asked, activity, tick| Editing { asked, activity, tick, ..FIGURES };
    assert_eq!(state_after(asked(1, 0, 4), keep(0), &[(20, 5), (48, 1)], &[BrokenRuleRefusesTheKeep]), FIGURES);
    assert_eq!(state_after(asked(2, 0, 2), keep(0), &[(20, 2), (40, 0)], &[KeepTellsTheVerdict]), FIGURES);
    let refused = [
        (asked(1, 0, 1), 60),
        (asked(2, 0, 4), 60),
        (asked(1, 3, 4), 58),
        (asked(2, u32::MAX, 8), 58),
        (asked(1, 0, 8), 59),
        (asked(2, 2, u32::MAX), 59),
        (asked(0, 0, 4), 61),
        (asked(3, 0, 4), 61),
        (asked(7, 3, 8), 61),
        (asked(u32::MAX, 0, 1), 61),
        (asked(1 << 31 | 1, 0, 4), 61),
    ];
    for (state, number) in refused {
        assert_eq!(state_after(state, keep(number), &[], &[]), state);
    }
    for state in [asked(257, 0, 4), asked(258, 0, 2), asked(65537, 0, 1), asked(1 << 24 | 2, 3, 2)] {
        assert_eq!(state_after(state, keep(61), &[], &[AskedOfOneByte]), state);
    }
    // The edit that is asked already is replaced, ended and left as one that a call asked.
    let state = asked(1, 0, 4);
    let kept = [(24, 5), (48, 2)];
    let calls = [ask(mark(1, 4), 25, 2, 1), keep(0), keep(61)];
    assert_eq!(list_from(state, &S, &S_PLAN, &calls, &put(&S_PLAN, &kept), &[OlderAskStands]), FIGURES);
    let calls = [ask(mark(0, 1), 60, 0, 0), keep(61)];
    assert_eq!(list_from(state, &S, &S_PLAN, &calls, &S_PLAN, &[RefusedAskLeavesTheOlder]), FIGURES);
    let calls = [edit(mark(1, 4), 0), keep(61)];
    assert_eq!(list_from(state, &S, &S_PLAN, &calls, &put(&S_PLAN, &kept), &[EditLeavesTheAsk]), FIGURES);
    let calls = [edit(mark(0, 1), 60), keep(0)];
    let kept = put(&S_PLAN, &[(20, 5), (48, 1)]);
    assert_eq!(list_from(state, &S, &S_PLAN, &calls, &kept, &[RefusedEditEndsTheAsk]), FIGURES);
}
