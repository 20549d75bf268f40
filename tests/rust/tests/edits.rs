//! Editing a grid by pencil, request U8 of 02: calls worked out by hand with both programs, the order of the refusals, what
//! 02 says of every list, asked of the reference on many, and many calls beside readings that are nearly the paper's.
//!
//! A call that is worked out here names the readings under which its answer or the plan would be another. It is made without an
//! editing state, and with several (U9), none of which plays a part in the edit.

use grid_tests::cases::{self, Case};
use grid_tests::claims::edits::{of_list, Calls, List, EXPORTS, REFERENCE};
use grid_tests::claims::keeping::{self, of_state};
use grid_tests::edits::by_hand::{clear, mark, put, S, S_PLAN};
use grid_tests::edits::readings::{self, Difference, Difference::*, DIFFERENCES};
use grid_tests::edits::Stroke;
use grid_tests::keeping::Call;
use grid_tests::records::{set_length, ActivityRow, Model, Plan, Rounds, ThreadRow, NO_LOOP};
use grid_tests::{Answer, Editing};

const MADE: Answer = Answer { number: 0, first: 0, second: 0, third: 0, length: 0 };

/// States to begin with: nothing asked, in two ways, and a mark and a clear asked; most with figures.
const STATES: [Editing; 4] = [
    Editing { asked: 0, activity: 0, tick: 0, total: 0, counts: [0; 32] },
    Editing { asked: 7, activity: 1, tick: 6, total: 5, counts: [9; 32] },
    Editing { asked: 1, activity: 0, tick: 4, total: u32::MAX, counts: [u32::MAX; 32] },
    Editing { asked: 2, activity: u32::MAX, tick: u32::MAX, total: 1, counts: [256; 32] },
];

/// A program's answers to these calls, made one after another on a plan between other bytes, and the plan afterwards; what
/// 02 says of every list is so.
fn answers(program: Calls, model: &[u8], plan: &[u8], strokes: &[Stroke]) -> (Vec<Answer>, Vec<u8>) {
    let mut space = [&[0x5c; 8], plan, &[0x5c; 8]].concat();
    let lent = 8..8 + plan.len();
    let call = |&stroke: &Stroke| (stroke, program.make(model, &mut space[lent.clone()], stroke));
    let calls: Vec<(Stroke, Answer)> = strokes.iter().map(call).collect();
    assert!(space[..8] == [0x5c; 8] && space[lent.end..] == [0x5c; 8]);
    let after = space[lent].to_vec();
    assert_eq!(of_list(program, List { model, before: plan, calls: &calls, after: &after }), Ok(()));
    (calls.into_iter().map(|(_, answer)| answer).collect(), after)
}

/// The same with the calls that take an editing state, beginning with this one; what 02 says of the state after each call is
/// so too.
fn with_state(
    program: keeping::Calls,
    mut state: Editing,
    model: &[u8],
    plan: &[u8],
    strokes: &[Stroke],
) -> (Vec<Answer>, Vec<u8>) {
    let mut space = [&[0x5c; 8], plan, &[0x5c; 8]].concat();
    let lent = 8..8 + plan.len();
    let call = |&stroke: &Stroke| {
        let before = state;
        let answer = program.edit(&mut state, model, &mut space[lent.clone()], stroke);
        assert_eq!(of_state(before, Call::Edit(stroke), answer, state), Ok(()));
        (stroke, answer)
    };
    let calls: Vec<(Stroke, Answer)> = strokes.iter().map(call).collect();
    assert!(space[..8] == [0x5c; 8] && space[lent.end..] == [0x5c; 8]);
    let after = space[lent].to_vec();
    assert_eq!(of_list(program.stateless, List { model, before: plan, calls: &calls, after: &after }), Ok(()));
    (calls.into_iter().map(|(_, answer)| answer).collect(), after)
}

/// The answers that both programs must give to these calls from each state, and the plan that they must leave.
fn from_each_state(model: &[u8], plan: &[u8], strokes: &[Stroke], expected: &(Vec<Answer>, Vec<u8>)) {
    for program in [keeping::REFERENCE, keeping::EXPORTS] {
        for state in STATES {
            assert_eq!(with_state(program, state, model, plan, strokes), *expected, "{strokes:?}, {state:?}");
        }
    }
}

/// A reading's answer to a call, and the plan afterwards.
fn of_reading(model: &[u8], plan: &[u8], stroke: Stroke, reading: &[Difference]) -> (Answer, Vec<u8>) {
    let mut plan = plan.to_vec();
    (readings::edit(model, &mut plan, stroke, reading).into(), plan)
}

/// The answer that both programs must give to a call, the plan that they must leave, and the readings that would give or
/// leave another.
fn edit(model: &[u8], plan: &[u8], stroke: Stroke, answer: Answer, after: &[u8], told_apart: &[Difference]) {
    for program in [REFERENCE, EXPORTS] {
        assert_eq!(answers(program, model, plan, &[stroke]), (vec![answer], after.to_vec()), "{stroke:?}");
    }
    from_each_state(model, plan, &[stroke], &(vec![answer], after.to_vec()));
    let paper = of_reading(model, plan, stroke, &[]);
    assert_eq!(paper, (answer, after.to_vec()));
    for &difference in told_apart {
        assert_ne!(of_reading(model, plan, stroke, &[difference]), paper, "{difference:?}, {stroke:?}");
    }
}

/// A call that is not refused, and the bytes that it must change; the plan afterwards.
fn made(model: &[u8], plan: &[u8], stroke: Stroke, changes: &[(usize, u8)], told_apart: &[Difference]) -> Vec<u8> {
    let after = put(plan, changes);
    edit(model, plan, stroke, MADE, &after, told_apart);
    after
}

/// A call that must be refused by 58, 59 or 60.
fn refused(model: &[u8], plan: &[u8], stroke: Stroke, number: u32, told_apart: &[Difference]) {
    edit(model, plan, stroke, Answer::refused(number, 0, 0), plan, told_apart);
}

/// Both a mark and a clear.
fn both_refused(model: &[u8], plan: &[u8], activity: u32, tick: u32, number: u32) {
    refused(model, plan, mark(activity, tick), number, &[]);
    refused(model, plan, clear(activity, tick), number, &[]);
}

#[test]
fn bytes_of_an_edit() {
    // Activity 0 has ticks 1, 2 and now 4.
    let after = [
        0, 0, 0, 61, 1, 2, 3, 0, 8, //
        0, 1, 0, 0, 0, 0, 0, 8, //
        0, 1, 0, 5, 0, 0, 0, 4, 0, 5, 0, 6, //
        0, 0, 0, 2, 0, 0, 0, 1, 0, 0, 0, 1, 0, 0, 0, 2, //
        0, 0, 0, 1, 0, 0, 0, 4, 0, 0, 0, 0, 0, 0, 0, 0, //
    ];
    edit(&S, &S_PLAN, mark(0, 4), MADE, &after, &[EndWithoutOne, RowOfTheOldWords, RulesAfter]);
    edit(&S, &after, clear(0, 4), MADE, &S_PLAN, &[EndWithoutOne, RowOfTheOldWords, RulesBefore]);
}

/// Activity 0 has ticks 1 and 2, activity 1 has 0 and 3, activity 2 has 5.
#[test]
fn marks() {
    // Before the first, behind the last, and between them.
    made(&S, &S_PLAN, mark(0, 0), &[(18, 0), (32, 3)], &[EndWithoutOne, RowOfTheOldWords]);
    made(&S, &S_PLAN, mark(0, 7), &[(20, 8), (60, 1)], &[EndWithoutOne, RowOfTheOldWords]);
    made(&S, &S_PLAN, mark(1, 1), &[(36, 3)], &[EndWithoutOne]);
    made(&S, &S_PLAN, mark(2, 4), &[(26, 4), (48, 4)], &[]);
    made(&S, &S_PLAN, mark(2, 6), &[(28, 7), (56, 4)], &[]);
    // The first one of an activity.
    let without = put(&S_PLAN, &[(26, 0), (28, 0), (52, 0)]);
    made(&S, &without, mark(2, 7), &[(26, 7), (28, 8), (60, 4)], &[EndWithoutOne, RowOfTheOldWords]);
    made(&S, &without, mark(2, 0), &[(28, 1), (32, 6)], &[EndWithoutOne, RowOfTheOldWords]);
    // Of an empty grid.
    let empty = put(&without, &[(18, 0), (20, 0), (24, 0), (32, 0), (36, 0), (40, 0), (44, 0)]);
    made(&S, &empty, mark(1, 3), &[(22, 3), (24, 4), (44, 2)], &[RulesBefore]);
}

#[test]
fn clears() {
    // The only tick.
    made(&S, &S_PLAN, clear(2, 5), &[(26, 0), (28, 0), (52, 0)], &[EmptyRowStays, RowOfTheOldWords]);
    // The first and the last, with the next one beside it, and with a gap.
    made(&S, &S_PLAN, clear(0, 1), &[(18, 2), (36, 0)], &[EndWithoutOne, RowOfTheOldWords]);
    made(&S, &S_PLAN, clear(0, 2), &[(20, 2), (40, 0)], &[EndWithoutOne, RowOfTheOldWords]);
    made(&S, &S_PLAN, clear(1, 0), &[(22, 3), (32, 0)], &[EndWithoutOne, RowOfTheOldWords]);
    made(&S, &S_PLAN, clear(1, 3), &[(24, 1), (44, 0)], &[EndWithoutOne, RowOfTheOldWords]);
    // One between them.
    let wider = made(&S, &S_PLAN, mark(1, 1), &[(36, 3)], &[]);
    made(&S, &wider, clear(1, 1), &[(36, 1)], &[EndWithoutOne]);
    // Another activity's bit in the same word stays.
    made(&S, &wider, clear(0, 1), &[(18, 2), (36, 2)], &[]);
    // The only tick of a grid.
    let mut alone = S_PLAN;
    alone[17..].fill(0);
    let alone = put(&alone, &[(28, 1), (32, 4)]);
    made(&S, &alone, clear(2, 0), &[(28, 0), (32, 0)], &[EmptyRowStays]);
}

#[test]
fn rows_that_disagree_with_the_words() {
    // The row of activity 0 is 4660 and 22136.
    let wrong = put(&S_PLAN, &[(17, 0x12), (18, 0x34), (19, 0x56), (20, 0x78)]);
    let old_row = [OldRowTrusted, RulesBefore];
    made(&S, &wrong, mark(0, 4), &[(17, 0), (18, 1), (19, 0), (20, 5), (48, 1)], &old_row);
    made(&S, &wrong, clear(0, 1), &[(17, 0), (18, 2), (19, 0), (20, 3), (36, 0)], &old_row);
    // Another activity's row is left alone, and so is a refused call's.
    made(&S, &wrong, mark(1, 1), &[(36, 3)], &[AllRows, RulesBefore]);
    made(&S, &wrong, clear(2, 5), &[(26, 0), (28, 0), (52, 0)], &[AllRows]);
    refused(&S, &wrong, mark(0, 1), 60, &[RowAfterARefusal, AlreadySoAccepted, Toggles]);
    refused(&S, &wrong, clear(0, 0), 60, &[RowAfterARefusal, AlreadySoAccepted, Toggles]);
    both_refused(&S, &wrong, 0, 8, 59);
    // 0 and 0 with ticks marked, and a window without any.
    let none = put(&S_PLAN, &[(18, 0), (20, 0)]);
    made(&S, &none, mark(0, 4), &[(18, 1), (20, 5), (48, 1)], &[OldRowTrusted]);
    made(&S, &none, clear(0, 2), &[(18, 1), (20, 2), (40, 0)], &[OldRowTrusted]);
    let window = put(&S_PLAN, &[(26, 2), (28, 7), (52, 0)]);
    made(&S, &window, mark(2, 4), &[(26, 4), (28, 5), (48, 4)], &[OldRowTrusted]);
    // Too wide by a tick, too narrow by one, and the wrong way round.
    let wide = put(&S_PLAN, &[(18, 0), (20, 4)]);
    made(&S, &wide, mark(0, 7), &[(18, 1), (20, 8), (60, 1)], &[OldRowTrusted]);
    let narrow = put(&S_PLAN, &[(22, 1), (24, 3)]);
    made(&S, &narrow, clear(1, 0), &[(22, 3), (24, 4), (32, 0)], &[OldRowTrusted]);
    let turned = put(&S_PLAN, &[(18, 3), (20, 1)]);
    made(&S, &turned, clear(0, 2), &[(18, 1), (20, 2), (40, 0)], &[OldRowTrusted]);
    let greatest = put(&S_PLAN, &[(25, 255), (26, 255), (27, 255), (28, 255)]);
    made(&S, &greatest, clear(2, 5), &[(25, 0), (26, 0), (27, 0), (28, 0), (52, 0)], &[EmptyRowStays]);
}

/// A page without predecessors and loops; every thread has release 0 and no period.
fn page(cores: u8, horizon: u16, n: usize, m: usize, rounds: Option<(u8, Option<Vec<u8>>)>) -> Model {
    let activity = |a: usize| ActivityRow { thread: (a % n) as u8, duration: (1, 9), delay: 0, temporal: 0, data: 0 };
    Model {
        cores,
        horizon,
        threads: vec![ThreadRow { period: (0, 0), release: (0, 0), priority: 1 }; n],
        activities: (0..m).map(activity).collect(),
        rounds: rounds.map(|(count, widths)| Rounds { count, loops: vec![NO_LOOP; m], widths }),
    }
}

/// A plan of that page without a mark.
fn blank(model: &Model) -> Vec<u8> {
    let model = model.unrolled();
    let threads = vec![(0, 0); model.threads.len()];
    Plan::of_words(threads, model.activities.len(), vec![0; model.horizon.into()]).bytes()
}

#[test]
fn activities_of_two_rounds() {
    let model = page(1, 4, 1, 2, Some((2, None)));
    // Four activities: rows from byte 17 on, and the last byte of word t is byte 36 + 4t.
    let plan = [
        0, 0, 0, 49, 1, 2, 4, 0, 4, // length, version, n, m, H
        0, 0, 0, 0, 0, 0, 0, 0, // release and period of each thread
        0, 0, 0, 1, 0, 1, 0, 2, 0, 2, 0, 3, 0, 3, 0, 4, // start and end of each activity
        0, 0, 0, 1, 0, 0, 0, 2, 0, 0, 0, 4, 0, 0, 0, 8, // ticks 0 to 3
    ];
    for bytes in [model.bytes(), model.unrolled().bytes()] {
        let both = made(&bytes, &plan, mark(2, 0), &[(26, 0), (36, 5)], &[]);
        made(&bytes, &both, clear(2, 2), &[(28, 1), (44, 0)], &[]);
        made(&bytes, &plan, clear(3, 3), &[(30, 0), (32, 0), (48, 0)], &[]);
        made(&bytes, &plan, clear(0, 0), &[(20, 0), (36, 0)], &[]);
        refused(&bytes, &plan, mark(3, 3), 60, &[]);
        both_refused(&bytes, &plan, 4, 3, 58);
        both_refused(&bytes, &plan, 3, 4, 59);
    }
    let told_apart = [CountOfOneRound];
    made(&model.bytes(), &plan, mark(2, 3), &[(28, 4), (48, 12)], &told_apart);
    refused(&model.bytes(), &plan, clear(3, 0), 60, &told_apart);
}

/// An activity that takes several cores has one bit all the same, and nothing is asked of the cores.
#[test]
fn activities_with_widths() {
    let model = page(2, 3, 1, 3, Some((1, Some(vec![1, 2, 1]))));
    // Rows from byte 13 on, and the last byte of word t is byte 28 + 4t.
    let plan = [
        0, 0, 0, 37, 1, 1, 3, 0, 3, // length, version, n, m, H
        0, 0, 0, 0, // release and period
        0, 0, 0, 1, 0, 1, 0, 2, 0, 0, 0, 1, // start and end of each activity
        0, 0, 0, 5, 0, 0, 0, 2, 0, 0, 0, 0, // ticks 0 to 2
    ];
    for bytes in [model.bytes(), Model { rounds: None, ..model }.bytes()] {
        // More at tick 0 than there are cores.
        let full = made(&bytes, &plan, mark(1, 0), &[(18, 0), (28, 7)], &[RulesAfter]);
        let less = made(&bytes, &full, clear(0, 0), &[(16, 0), (28, 6)], &[RulesBefore]);
        made(&bytes, &less, clear(1, 1), &[(20, 1), (32, 0)], &[]);
        made(&bytes, &plan, clear(1, 1), &[(18, 0), (20, 0), (32, 0)], &[]);
        refused(&bytes, &plan, mark(1, 1), 60, &[]);
    }
    // In rounds: activity 4 is activity 1 in round 1. Rows from byte 17 on.
    let model = page(2, 2, 1, 3, Some((2, Some(vec![1, 2, 1]))));
    let plan = blank(&model);
    let one = made(&model.bytes(), &plan, mark(4, 1), &[(34, 1), (36, 2), (48, 16)], &[CountOfOneRound]);
    assert_eq!(one.len(), 49);
    made(&model.unrolled().bytes(), &one, clear(4, 1), &[(34, 0), (36, 0), (48, 0)], &[]);
}

#[test]
fn activities_of_every_byte() {
    let pages = [page(8, 2, 1, 32, None), page(8, 2, 1, 16, Some((2, None))), page(8, 2, 1, 8, Some((4, None)))];
    for model in pages {
        let (n, bytes, plan) = (model.rounds(), model.bytes(), blank(&model));
        let rows = 9 + 4 * n;
        let grid = rows + 128;
        let one = made(&bytes, &plan, mark(31, 1), &[(rows + 125, 1), (rows + 127, 2), (grid + 4, 128)], &[]);
        refused(&bytes, &one, mark(31, 1), 60, &[Toggles, AlreadySoAccepted]);
        made(&bytes, &one, mark(31, 0), &[(rows + 125, 0), (grid, 128)], &[EndWithoutOne]);
        made(&bytes, &one, mark(30, 1), &[(rows + 121, 1), (rows + 123, 2), (grid + 4, 192)], &[]);
        made(&bytes, &one, clear(31, 1), &[(rows + 125, 0), (rows + 127, 0), (grid + 4, 0)], &[]);
        both_refused(&bytes, &one, 32, 1, 58);
        for (a, at, bit) in [(0, 3, 1), (7, 3, 128), (8, 2, 1), (15, 2, 128), (16, 1, 1), (23, 1, 128), (24, 0, 1)] {
            let row = rows + 4 * a as usize;
            made(&bytes, &plan, mark(a, 0), &[(row + 3, 1), (grid + at, bit)], &[EndWithoutOne]);
            made(&bytes, &plan, mark(a, 1), &[(row + 1, 1), (row + 3, 2), (grid + 4 + at, bit)], &[]);
        }
    }
}

#[test]
fn ticks_of_two_bytes() {
    let model = page(1, 4096, 1, 1, None);
    let (bytes, plan) = (model.bytes(), blank(&model));
    assert_eq!(plan.len(), 16_401);
    // The row is in bytes 13 to 16, and the last byte of word t is byte 20 + 4t.
    let last = made(&bytes, &plan, mark(0, 4095), &[(13, 15), (14, 255), (15, 16), (16_400, 1)], &[EndWithoutOne]);
    let two = made(&bytes, &last, mark(0, 255), &[(13, 0), (14, 255), (1_040, 1)], &[]);
    let three = made(&bytes, &two, mark(0, 256), &[(1_044, 1)], &[]);
    let next = made(&bytes, &three, clear(0, 255), &[(13, 1), (14, 0), (1_040, 0)], &[]);
    let alone = made(&bytes, &next, clear(0, 4095), &[(15, 1), (16, 1), (16_400, 0)], &[EndWithoutOne]);
    made(&bytes, &alone, clear(0, 256), &[(13, 0), (15, 0), (16, 0), (1_044, 0)], &[EmptyRowStays]);
    both_refused(&bytes, &last, 0, 4096, 59);
    both_refused(&bytes, &last, 0, 65535, 59);
    // 69631 is 4095 and 65536.
    refused(&bytes, &last, mark(0, 69_631), 59, &[TickOfTwoBytes]);
    refused(&bytes, &last, clear(0, 69_631), 59, &[TickOfTwoBytes, BitBeforeTick]);
    // The smallest page.
    let model = page(1, 1, 1, 1, None);
    let (bytes, plan) = (model.bytes(), blank(&model));
    let one = made(&bytes, &plan, mark(0, 0), &[(16, 1), (20, 1)], &[EndWithoutOne, RowOfTheOldWords]);
    made(&bytes, &one, clear(0, 0), &[(16, 0), (20, 0)], &[EmptyRowStays]);
    both_refused(&bytes, &one, 0, 1, 59);
    both_refused(&bytes, &one, 1, 0, 58);
}

#[test]
fn activities_outside() {
    for activity in [3, 4, 7, 8, 31, 32, 33, 35, 63, 64, 255, 256, 258, 65535, 65536, 1 << 31, u32::MAX - 1, u32::MAX] {
        both_refused(&S, &S_PLAN, activity, 0, 58);
        both_refused(&S, &S_PLAN, activity, 5, 58);
        refused(&S, &S_PLAN, clear(activity, 7), 58, &[PlaceNamed, BitBeforeActivity]);
    }
    refused(&S, &S_PLAN, mark(256, 0), 58, &[ActivityOfOneByte]);
    refused(&S, &S_PLAN, clear(257, 0), 58, &[ActivityOfOneByte, BitBeforeActivity]);
}

#[test]
fn ticks_outside() {
    for tick in [8, 9, 255, 256, 4095, 4096, 4097, 65535, 65536, 65537, 1 << 31, u32::MAX - 1, u32::MAX] {
        for activity in [0, 1, 2] {
            refused(&S, &S_PLAN, mark(activity, tick), 59, &[PlaceNamed]);
            refused(&S, &S_PLAN, clear(activity, tick), 59, &[PlaceNamed, BitBeforeTick]);
        }
    }
    refused(&S, &S_PLAN, mark(0, 65536), 59, &[TickOfTwoBytes]);
    refused(&S, &S_PLAN, clear(0, 65537), 59, &[TickOfTwoBytes, BitBeforeTick]);
}

#[test]
fn bits_already_so() {
    let told_apart = [PlaceNamed, Toggles, AlreadySoAccepted];
    for (activity, tick) in [(0, 1), (0, 2), (1, 0), (1, 3), (2, 5)] {
        refused(&S, &S_PLAN, mark(activity, tick), 60, &told_apart);
    }
    for (activity, tick) in [(0, 3), (0, 7), (1, 1), (1, 7), (2, 0), (2, 4), (2, 6)] {
        refused(&S, &S_PLAN, clear(activity, tick), 60, &told_apart);
    }
    refused(&S, &S_PLAN, clear(0, 0), 60, &[Toggles, AlreadySoAccepted]);
}

/// "Activity outside m is 58, then tick outside H is 59, then a bit already so is 60."
#[test]
fn order_of_the_refusals() {
    refused(&S, &S_PLAN, mark(3, 8), 58, &[TickBeforeActivity, PlaceNamed]);
    refused(&S, &S_PLAN, clear(3, 8), 58, &[TickBeforeActivity, BitBeforeActivity]);
    refused(&S, &S_PLAN, clear(u32::MAX, u32::MAX), 58, &[TickBeforeActivity, BitBeforeActivity]);
    refused(&S, &S_PLAN, clear(0, 8), 59, &[BitBeforeTick, BitBeforeActivity]);
    refused(&S, &S_PLAN, clear(3, 0), 58, &[BitBeforeActivity]);
    // Nothing is asked of the plan's rules: activity 2 is at tick 4, where 25 is broken.
    let early = put(&S_PLAN, &[(26, 4), (28, 5), (48, 4), (52, 0)]);
    refused(&S, &early, mark(3, 0), 58, &[RulesBefore]);
    refused(&S, &early, mark(2, 4), 60, &[RulesBefore]);
    made(&S, &early, mark(2, 5), &[(28, 6), (52, 4)], &[RulesBefore]);
}

/// Records that must be refused whatever the activity and the tick: a call that would be made, one for 58 and one for 60.
fn turned_away(model: &[u8], plan: &[u8], number: u32, a: u32) {
    for stroke in [mark(0, 0), clear(0, 1), mark(3, 8), clear(u32::MAX, u32::MAX), mark(0, 1), clear(0, 0)] {
        edit(model, plan, stroke, Answer::refused(number, a, 0), plan, &[]);
    }
}

/// A page of version 3 with this many rounds.
fn version_3(count: u8) -> Model {
    page(2, 6, 2, 3, Some((count, Some(vec![1, 2, 1]))))
}

/// A record with a byte more, and the length that it then has.
fn longer(record: &[u8]) -> Vec<u8> {
    let mut record = [record, &[0]].concat();
    set_length(&mut record);
    record
}

#[test]
fn models_turned_away() {
    let mut widths = version_3(2);
    widths.rounds.as_mut().unwrap().widths = Some(vec![1, 3, 1]);
    let mut loops = version_3(2);
    loops.rounds.as_mut().unwrap().loops[2] = 3;
    let mut periods = version_3(2);
    periods.threads[1].period = (1, 2);
    let models = [
        (S[..74].to_vec(), 1, 0),
        (vec![], 1, 0),
        (put(&S, &[(4, 4)]), 2, 0),
        (put(&S, &[(5, 0)]), 3, 0),
        (longer(&S), 4, 0),
        (version_3(0).bytes(), 51, 0),
        (version_3(5).bytes(), 51, 0),
        (put(&S, &[(25, 1)]), 5, 1),
        (periods.bytes(), 52, 1),
        (put(&S, &[(30, 2)]), 6, 0),
        (loops.bytes(), 53, 2),
        (widths.bytes(), 57, 1),
        (put(&S, &[(55, 2)]), 7, 1),
    ];
    for (model, number, a) in models {
        turned_away(&model, &S_PLAN, number, a);
        turned_away(&model, &[], number, a);
        turned_away(&model, &put(&S_PLAN, &[(4, 0), (60, 8)]), number, a);
    }
}

#[test]
fn plans_turned_away() {
    let plans = [
        (vec![], 8, 0),
        (S_PLAN[..8].to_vec(), 8, 0),
        (S_PLAN[..60].to_vec(), 8, 0),
        (put(&S_PLAN, &[(3, 62)]), 8, 0),
        (put(&S_PLAN, &[(4, 2)]), 9, 0),
        (put(&S_PLAN, &[(5, 1)]), 10, 0),
        (put(&S_PLAN, &[(6, 2)]), 10, 0),
        (put(&S_PLAN, &[(6, 4)]), 10, 0),
        (put(&S_PLAN, &[(8, 7)]), 10, 0),
        (put(&S_PLAN, &[(8, 9)]), 10, 0),
        (longer(&S_PLAN), 11, 0),
        (put(&S_PLAN, &[(10, 3)]), 12, 0),
        (put(&S_PLAN, &[(16, 7)]), 12, 1),
        (put(&S_PLAN, &[(60, 8)]), 14, 7),
        (put(&S_PLAN, &[(29, 128)]), 14, 0),
        // Of two broken rules the earlier one.
        (put(&S_PLAN, &[(16, 7), (29, 128)]), 12, 1),
        (longer(&put(&S_PLAN, &[(10, 3)])), 11, 0),
        (put(&S_PLAN, &[(4, 2), (8, 7)]), 9, 0),
    ];
    for (plan, number, a) in plans {
        turned_away(&S, &plan, number, a);
    }
    // The plan of one round for a page of two, and the other way round.
    let (one, two) = (page(1, 2, 1, 2, None), page(1, 2, 1, 2, Some((2, None))));
    turned_away(&two.bytes(), &blank(&one), 10, 0);
    turned_away(&one.bytes(), &blank(&two), 10, 0);
}

/// The number that both programs must answer to each call of a list, with zeros, and the plan that they must leave.
fn list(model: &[u8], plan: &[u8], calls: &[(Stroke, u32)], after: &[u8]) {
    let strokes: Vec<Stroke> = calls.iter().map(|call| call.0).collect();
    let expected: Vec<Answer> = calls.iter().map(|call| Answer::refused(call.1, 0, 0)).collect();
    for program in [REFERENCE, EXPORTS] {
        assert_eq!(answers(program, model, plan, &strokes), (expected.clone(), after.to_vec()));
    }
    from_each_state(model, plan, &strokes, &(expected, after.to_vec()));
}

#[test]
fn lists_with_refused_calls() {
    let calls = [
        (mark(0, 4), 0),
        (mark(0, 4), 60),
        (clear(0, 1), 0),
        (mark(3, 1), 58),
        (clear(0, 8), 59),
        (clear(0, 1), 60),
        (mark(0, 1), 0),
        (clear(1, 0), 0),
        (clear(1, 0), 60),
        (clear(1, 3), 0),
        (mark(2, 5), 60),
        (mark(1, 6), 0),
        (clear(2, 4), 60),
        (mark(4_294_967_295, 6), 58),
    ];
    // Activity 0 has ticks 1, 2 and 4, activity 1 has 6, and activity 2 has 5 still.
    let after = [
        0, 0, 0, 61, 1, 2, 3, 0, 8, //
        0, 1, 0, 0, 0, 0, 0, 8, //
        0, 1, 0, 5, 0, 6, 0, 7, 0, 5, 0, 6, //
        0, 0, 0, 0, 0, 0, 0, 1, 0, 0, 0, 1, 0, 0, 0, 0, //
        0, 0, 0, 1, 0, 0, 0, 4, 0, 0, 0, 2, 0, 0, 0, 0, //
    ];
    list(&S, &S_PLAN, &calls, &after);
    // The same with a wrong row of each activity: 2 keeps its own.
    let rows = [(17, 9), (18, 9), (19, 9), (20, 9), (22, 7), (24, 7), (25, 7), (28, 7)];
    list(&S, &put(&S_PLAN, &rows), &calls, &put(&after, &[(25, 7), (28, 7)]));
    // With refused calls alone nothing changes.
    let refused =
        [(mark(0, 1), 60), (mark(3, 1), 58), (clear(0, 8), 59), (clear(1, 1), 60), (mark(2, 5), 60), (clear(2, 4), 60)];
    list(&S, &put(&S_PLAN, &rows), &refused, &put(&S_PLAN, &rows));
}

#[test]
fn lists_that_come_back() {
    // A bit turned many times, and one that ends as it was not.
    let there_and_back = [(mark(2, 0), 0), (clear(2, 0), 0)].repeat(9);
    list(&S, &S_PLAN, &there_and_back, &S_PLAN);
    list(&S, &S_PLAN, &there_and_back[..17], &put(&S_PLAN, &[(26, 0), (32, 6)]));
    // Everything cleared, and marked again in another order.
    let ticks = [(0, 1), (0, 2), (1, 0), (1, 3), (2, 5)];
    let cleared: Vec<(Stroke, u32)> = ticks.iter().map(|&(a, t)| (clear(a, t), 0)).collect();
    let marked: Vec<(Stroke, u32)> = ticks.iter().rev().map(|&(a, t)| (mark(a, t), 0)).collect();
    let mut empty = S_PLAN;
    empty[17..].fill(0);
    list(&S, &S_PLAN, &cleared, &empty);
    list(&S, &empty, &marked, &S_PLAN);
    list(&S, &S_PLAN, &[cleared.clone(), cleared.iter().map(|call| (call.0, 60)).collect(), marked].concat(), &S_PLAN);
    // Every bit of the grid.
    let every: Vec<(u32, u32)> = (0..3).flat_map(|a| (0..8).map(move |t| (a, t))).collect();
    let is_marked = |bit: &(u32, u32)| ticks.contains(bit);
    let full: Vec<(Stroke, u32)> =
        every.iter().map(|bit| (mark(bit.0, bit.1), if is_marked(bit) { 60 } else { 0 })).collect();
    let all = [
        0, 0, 0, 61, 1, 2, 3, 0, 8, //
        0, 1, 0, 0, 0, 0, 0, 8, //
        0, 0, 0, 8, 0, 0, 0, 8, 0, 0, 0, 8, //
        0, 0, 0, 7, 0, 0, 0, 7, 0, 0, 0, 7, 0, 0, 0, 7, //
        0, 0, 0, 7, 0, 0, 0, 7, 0, 0, 0, 7, 0, 0, 0, 7, //
    ];
    list(&S, &S_PLAN, &full, &all);
    let emptied: Vec<(Stroke, u32)> = every.iter().map(|bit| (clear(bit.0, bit.1), 0)).collect();
    list(&S, &all, &emptied, &empty);
}

const SEED: u64 = 8;
const CASES: u64 = 60_000;
/// How often each thing must occur.
const LEAST: usize = 100;

/// The random cases that have a list.
fn listed() -> impl Iterator<Item = Case> {
    (0..CASES).map(|number| cases::make(SEED, number)).filter(|case| !case.strokes.is_empty())
}

/// With no difference a reading is the reference. How often each difference is told apart is printed, and must be often.
#[test]
fn readings_beside_the_reference() {
    let mut told_apart = [0; DIFFERENCES.len()];
    for case in listed() {
        let mut plan = case.second.clone();
        let mut state = case.state;
        for &stroke in &case.strokes {
            let before = plan.clone();
            let answer = REFERENCE.make(&case.model, &mut plan, stroke);
            let mut beside = before.clone();
            let answer_beside = keeping::REFERENCE.edit(&mut state, &case.model, &mut beside, stroke);
            assert_eq!((answer_beside, &beside), (answer, &plan), "{stroke:?}, {}", case.kind);
            let of_reading = |reading: &[Difference]| of_reading(&case.model, &before, stroke, reading);
            let paper = of_reading(&[]);
            assert_eq!(paper, (answer, plan.clone()), "{stroke:?}, {}", case.kind);
            for (count, difference) in told_apart.iter_mut().zip(DIFFERENCES) {
                *count += usize::from(of_reading(&[difference]) != paper);
            }
        }
    }
    let counts: Vec<_> = DIFFERENCES.into_iter().zip(told_apart).collect();
    println!("told apart: {counts:?}");
    assert!(told_apart.into_iter().all(|count| count >= LEAST), "{counts:?}");
}

/// What the random lists must have.
#[derive(Debug, Default)]
struct Reached {
    first_marks: usize,
    marks_before: usize,
    marks_between: usize,
    marks_behind: usize,
    only_ticks: usize,
    first_ticks: usize,
    ticks_between: usize,
    last_ticks: usize,
    wrong_rows_counted: usize,
    wrong_rows_of_refused_calls: usize,
    wrong_rows_of_others: usize,
    bits_turned_again: usize,
    refused_in_between: usize,
    wiped_and_marked_again: usize,
    later_rounds: usize,
    gangs: usize,
    bit_31: usize,
    tick_4095: usize,
    both_outside: usize,
}

/// The ticks of an activity in a plan that passes 8 to 14.
fn ticks(plan: &[u8], a: usize) -> Vec<u32> {
    let grid = 9 + 4 * usize::from(plan[5]) + 4 * usize::from(plan[6]);
    let is_marked = |(_, word): &(u32, &[u8])| word[3 - a / 8] >> (a % 8) & 1 == 1;
    (0..).zip(plan[grid..].chunks_exact(4)).filter(is_marked).map(|(t, _)| t).collect()
}

/// Whether the row of an activity is not that of its ticks.
fn is_wrong(plan: &[u8], a: usize) -> bool {
    let at = 9 + 4 * usize::from(plan[5]) + 4 * a;
    let number = |at: usize| u32::from(plan[at]) << 8 | u32::from(plan[at + 1]);
    let ticks = ticks(plan, a);
    let row = ticks.first().zip(ticks.last()).map_or((0, 0), |(&first, &last)| (first, last + 1));
    (number(at), number(at + 2)) != row
}

impl Reached {
    /// A list over a plan that passes 8 to 14.
    fn list(&mut self, page: &Model, case: &Case, calls: &[(Stroke, Answer)]) {
        let mut plan = case.second.clone();
        for (i, &(stroke, answer)) in calls.iter().enumerate() {
            let (earlier, later) = calls.split_at(i);
            let any_made = |calls: &[(Stroke, Answer)], is: &dyn Fn(Stroke) -> bool| {
                calls.iter().any(|&(stroke, answer)| answer == MADE && is(stroke))
            };
            let same_activity = |other: Stroke| other.activity == stroke.activity;
            let same_bit = |other: Stroke| same_activity(other) && other.tick == stroke.tick;
            if answer == MADE {
                let wiped = || ticks(&plan, stroke.activity as usize).is_empty();
                self.wiped_and_marked_again += usize::from(any_made(earlier, &same_activity) && wiped());
                self.bits_turned_again += usize::from(any_made(earlier, &same_bit));
                self.made(page, &plan, stroke);
            } else {
                self.refused_in_between += usize::from(any_made(earlier, &same_bit) && any_made(later, &same_bit));
                self.refused(&plan, stroke, answer);
            }
            REFERENCE.make(&case.model, &mut plan, stroke);
        }
    }

    /// A call that was not refused, over this plan.
    fn made(&mut self, page: &Model, plan: &[u8], Stroke { marks, activity, tick }: Stroke) {
        let a = activity as usize;
        let ticks = ticks(plan, a);
        let count = match (ticks.first(), ticks.last()) {
            (None, _) => &mut self.first_marks,
            (Some(&first), _) if marks && tick < first => &mut self.marks_before,
            (_, Some(&last)) if marks && tick > last => &mut self.marks_behind,
            _ if marks => &mut self.marks_between,
            _ if ticks.len() == 1 => &mut self.only_ticks,
            (Some(&first), _) if tick == first => &mut self.first_ticks,
            (_, Some(&last)) if tick == last => &mut self.last_ticks,
            _ => &mut self.ticks_between,
        };
        *count += 1;
        let mut others = (0..usize::from(plan[6])).filter(|&b| b != a);
        self.wrong_rows_counted += usize::from(is_wrong(plan, a));
        self.wrong_rows_of_others += usize::from(others.any(|b| is_wrong(plan, b)));
        self.later_rounds += usize::from(a >= page.activities.len());
        self.gangs += usize::from(page.width(a % page.activities.len()) > 1);
        self.bit_31 += usize::from(a == 31);
        self.tick_4095 += usize::from(tick == 4095);
    }

    fn refused(&mut self, plan: &[u8], stroke: Stroke, answer: Answer) {
        let horizon = u32::from(plan[7]) << 8 | u32::from(plan[8]);
        let wrong = || is_wrong(plan, stroke.activity as usize);
        self.both_outside += usize::from(answer.number == 58 && stroke.tick >= horizon);
        self.wrong_rows_of_refused_calls += usize::from(answer.number == 60 && wrong());
    }

    fn least(&self) -> usize {
        let marks = [self.first_marks, self.marks_before, self.marks_between, self.marks_behind];
        let clears = [self.only_ticks, self.first_ticks, self.ticks_between, self.last_ticks];
        let rows = [self.wrong_rows_counted, self.wrong_rows_of_refused_calls, self.wrong_rows_of_others];
        let lists = [self.bits_turned_again, self.refused_in_between, self.wiped_and_marked_again];
        let pages = [self.later_rounds, self.gangs, self.bit_31, self.tick_4095, self.both_outside];
        marks.into_iter().chain(clears).chain(rows).chain(lists).chain(pages).min().unwrap_or(0)
    }
}

/// What 02 says of every list holds of the reference too, a page is edited as its unrolled model is, and the random lists
/// reach what they are for.
#[test]
fn claims_of_the_reference() {
    let mut reached = Reached::default();
    for case in listed() {
        let (answered, after) = answers(REFERENCE, &case.model, &case.second, &case.strokes);
        let beside = |model: &[u8]| with_state(keeping::REFERENCE, case.state, model, &case.second, &case.strokes);
        assert_eq!(beside(&case.model), (answered.clone(), after.clone()), "{}", case.kind);
        for other in case.alike() {
            let alike = answers(REFERENCE, &other, &case.second, &case.strokes);
            assert_eq!(alike, (answered.clone(), after.clone()), "{}", case.kind);
            assert_eq!(beside(&other), alike, "{}", case.kind);
        }
        let calls: Vec<(Stroke, Answer)> = case.strokes.iter().copied().zip(answered).collect();
        if let Some(page) = case.page.as_ref().filter(|_| [0, 58, 59, 60].contains(&calls[0].1.number)) {
            reached.list(page, &case, &calls);
        }
    }
    println!("{reached:?}");
    assert!(reached.least() >= LEAST, "{reached:?}");
}
