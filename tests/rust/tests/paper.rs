//! The paper's cases of model S and its neighbours, and those of the report of lateness, tried with the reference and with
//! the exports.

use grid_tests::records::{ActivityRow, Choice, Model, Plan, ThreadRow};
use grid_tests::{proved, reference, Answer};

fn accepted(usage: u32, capacity: u32, makespan: u32) -> Answer {
    Answer::accepted(usage, capacity, makespan, 0)
}

fn refused(number: u32, a: u32, b: u32) -> Answer {
    Answer::refused(number, a, b)
}

fn model() -> Model {
    Model {
        cores: 1,
        horizon: 8,
        threads: vec![
            ThreadRow { period: (0, 0), release: (0, 2), priority: 5 },
            ThreadRow { period: (8, 8), release: (0, 0), priority: 3 },
        ],
        activities: vec![
            ActivityRow { thread: 0, duration: (1, 2), delay: 0, temporal: 0, data: 0 },
            ActivityRow { thread: 1, duration: (2, 3), delay: 1, temporal: 0, data: 0 },
            ActivityRow { thread: 1, duration: (1, 1), delay: 0, temporal: 2, data: 1 },
        ],
        rounds: None,
    }
}

fn choice() -> Choice {
    Choice { threads: vec![(1, 0), (0, 8)], durations: vec![2, 2, 1] }
}

/// The plan of these active ticks of each activity.
fn plan(model: &Model, ticks: [&[usize]; 3]) -> Plan {
    let mut words = vec![0; model.horizon.into()];
    for (a, ticks) in ticks.iter().enumerate() {
        for &t in *ticks {
            words[t] |= 1 << a;
        }
    }
    Plan::of_words(choice().threads, 3, words)
}

fn check(model: &Model, plan: &Plan, plain: Answer, strict: Answer) {
    let (model, plan) = (model.bytes(), plan.bytes());
    assert_eq!(plain, reference::check_plain(&model, &plan).into());
    assert_eq!(strict, reference::check_strict(&model, &plan).into());
    assert_eq!(plain, proved::check_plain(&model, &plan));
    assert_eq!(strict, proved::check_strict(&model, &plan));
}

/// Runs over a buffer of this length and gives it back; both programs must answer and write the same.
fn run(model: &Model, choice: &Choice, length: usize, answer: Answer) -> Vec<u8> {
    let (model, choice) = (model.bytes(), choice.bytes());
    let mut ours = vec![0xaa; length];
    let mut theirs = ours.clone();
    assert_eq!(answer, reference::run(&model, &choice, &mut ours).into());
    assert_eq!(answer, proved::run(&model, &choice, &mut theirs));
    assert_eq!(ours, theirs);
    ours
}

/// A run that must write this grid, and a plan that passes both checks.
fn run_accepted(model: &Model, choice: &Choice, words: &[u32], figures: Answer) {
    let length = model.plan_length();
    let answer = Answer { length: length as u32, ..figures };
    let buffer = run(model, choice, length + 3, answer);
    let plan = Plan::of_words(choice.threads.clone(), 3, words.to_vec());
    assert_eq!(buffer[..length], plan.bytes());
    assert_eq!(buffer[length..], [0xaa; 3]);
    check(model, &plan, figures, figures);
}

/// A run that must be refused, with this many bytes set to 0 and the others kept.
fn run_refused(model: &Model, choice: &Choice, length: usize, answer: Answer, cleared: usize) {
    let buffer = run(model, choice, length, answer);
    assert!(buffer[..cleared].iter().all(|&byte| byte == 0));
    assert!(buffer[cleared..].iter().all(|&byte| byte == 0xaa));
}

/// The row of an activity whose thread has no period.
const DASH: i32 = -2147483648;

/// A list of this length before a call.
fn list(length: usize) -> Vec<i32> {
    (0..length).map(|a| if a % 2 == 0 { 1000 + a as i32 } else { -7 - a as i32 }).collect()
}

/// Reports over a list of this length; both programs must give this answer, write these rows and keep all others.
fn lateness(model: &Model, choice: &Choice, length: usize, answer: Answer, rows: &[i32]) {
    let (model, choice) = (model.bytes(), choice.bytes());
    let mut expected = list(length);
    expected[..rows.len()].copy_from_slice(rows);
    let mut ours = list(length);
    let mut theirs = list(length);
    assert_eq!(answer, reference::lateness(&model, &choice, &mut ours).into());
    assert_eq!(answer, proved::lateness(&model, &choice, &mut theirs));
    assert_eq!(ours, expected);
    assert_eq!(theirs, expected);
}

#[test]
fn run_of_s() {
    run_accepted(&model(), &choice(), &[2, 1, 1, 2, 0, 4, 0, 0], accepted(5, 8, 6));
}

#[test]
fn plan_of_s() {
    let plan = plan(&model(), [&[1, 2], &[0, 3], &[5]]);
    assert_eq!(plan.rows, [(1, 3), (0, 4), (5, 6)]);
    assert_eq!(reference::earliest_starts(&model().bytes(), &plan.bytes()), Ok(vec![1, 0, 3]));
    check(&model(), &plan, accepted(5, 8, 6), accepted(5, 8, 6));
}

#[test]
fn activity_2_moved() {
    let early = plan(&model(), [&[1, 2], &[0, 3], &[4]]);
    check(&model(), &early, refused(25, 2, 1), refused(25, 2, 1));
    let late = plan(&model(), [&[1, 2], &[0, 3], &[6]]);
    check(&model(), &late, accepted(5, 8, 7), refused(30, 5, 2));
}

#[test]
fn activity_1_first() {
    let first = plan(&model(), [&[2, 3], &[0, 1], &[5]]);
    check(&model(), &first, refused(29, 1, 0), refused(29, 1, 0));
    let mut equal = model();
    equal.threads[0].priority = 4;
    equal.threads[1].priority = 4;
    check(&equal, &first, accepted(5, 8, 6), refused(30, 4, 2));
    let early = plan(&model(), [&[2, 3], &[0, 1], &[4]]);
    check(&equal, &early, accepted(5, 8, 5), refused(31, 1, 0));
}

#[test]
fn two_cores() {
    let mut model = model();
    model.cores = 2;
    run_accepted(&model, &choice(), &[2, 3, 1, 4, 0, 0, 0, 0], accepted(5, 16, 4));
}

#[test]
fn two_active_on_one_core() {
    let both = plan(&model(), [&[1, 2], &[0, 2], &[5]]);
    check(&model(), &both, refused(28, 2, 0), refused(28, 2, 0));
}

#[test]
fn choices_outside_the_ranges() {
    let mut release = choice();
    release.threads[0].0 = 3;
    run_refused(&model(), &release, 61, refused(12, 0, 0), 0);
    let mut released = plan(&model(), [&[1, 2], &[0, 3], &[5]]);
    released.threads[0].0 = 3;
    check(&model(), &released, refused(12, 0, 0), refused(12, 0, 0));
    let mut duration = choice();
    duration.durations[0] = 3;
    run_refused(&model(), &duration, 61, refused(13, 0, 0), 0);
}

#[test]
fn other_horizons() {
    let mut model = model();
    model.horizon = 6;
    run_accepted(&model, &choice(), &[2, 1, 1, 2, 0, 4], accepted(5, 6, 6));
    model.horizon = 5;
    run_refused(&model, &choice(), 64, refused(42, 2, 0), 49);
}

#[test]
fn other_periods() {
    let mut model = model();
    model.threads[1].period = (5, 8);
    let mut choice = choice();
    choice.threads[1].1 = 6;
    run_accepted(&model, &choice, &[2, 1, 1, 2, 0, 4, 0, 0], accepted(5, 8, 6));
    choice.threads[1].1 = 5;
    run_refused(&model, &choice, 64, refused(43, 2, 0), 61);
}

#[test]
fn buffers() {
    run(&model(), &choice(), 61, Answer::accepted(5, 8, 6, 61));
    run_refused(&model(), &choice(), 60, refused(41, 61, 0), 0);
    run_refused(&model(), &choice(), 0, refused(41, 61, 0), 0);
}

#[test]
fn lateness_of_s() {
    let answer = Answer::accepted(5, 8, 6, 61);
    for length in [32, 33, 100] {
        lateness(&model(), &choice(), length, answer, &[DASH, 4, 2]);
    }
}

#[test]
fn lateness_of_other_periods() {
    let mut model = model();
    model.threads[1].period = (5, 8);
    let mut choice = choice();
    choice.threads[1].1 = 6;
    lateness(&model, &choice, 32, Answer::accepted(5, 8, 6, 61), &[DASH, 2, 0]);
    choice.threads[1].1 = 5;
    lateness(&model, &choice, 32, refused(43, 2, 0), &[DASH, 1, -1]);
    // Later rows are filled too where an earlier one is late.
    model.threads[1].period = (1, 8);
    choice.threads[1].1 = 1;
    lateness(&model, &choice, 33, refused(43, 1, 0), &[DASH, -3, -5]);
}

#[test]
fn lateness_of_something_owed() {
    let mut model = model();
    model.horizon = 6;
    lateness(&model, &choice(), 32, Answer::accepted(5, 6, 6, 53), &[DASH, 4, 2]);
    model.horizon = 5;
    lateness(&model, &choice(), 32, refused(42, 2, 0), &[]);
}

#[test]
fn lateness_of_32_activities() {
    let mut model = model();
    model.horizon = 32;
    model.threads[1].period = (16, 32);
    model.activities =
        (0..32).map(|a| ActivityRow { thread: a % 2, duration: (1, 1), delay: 0, temporal: 0, data: 0 }).collect();
    let mut choice = Choice { threads: vec![(0, 0), (0, 32)], durations: vec![1; 32] };
    // The even activities go first, then odd activity a ends at 17 + a / 2.
    let rows = |period: i32| (0..32).map(|a| if a % 2 == 0 { DASH } else { period - 17 - a / 2 }).collect::<Vec<_>>();
    lateness(&model, &choice, 32, Answer::accepted(32, 32, 32, 273), &rows(32));
    lateness(&model, &choice, 34, Answer::accepted(32, 32, 32, 273), &rows(32));
    choice.threads[1].1 = 31;
    lateness(&model, &choice, 32, refused(43, 31, 0), &rows(31));
    choice.threads[1].1 = 16;
    lateness(&model, &choice, 32, refused(43, 1, 0), &rows(16));
}

#[test]
fn lists_too_short() {
    for length in [0, 1, 2, 3, 31] {
        lateness(&model(), &choice(), length, refused(50, 0, 0), &[]);
    }
    // Before 42 and 43, after the input.
    let mut owed = model();
    owed.horizon = 5;
    lateness(&owed, &choice(), 31, refused(50, 0, 0), &[]);
    let mut late = model();
    late.threads[1].period = (5, 8);
    let mut chosen = choice();
    chosen.threads[1].1 = 5;
    lateness(&late, &chosen, 31, refused(50, 0, 0), &[]);
    let mut release = choice();
    release.threads[0].0 = 3;
    lateness(&model(), &release, 31, refused(12, 0, 0), &[]);
    lateness(&model(), &release, 32, refused(12, 0, 0), &[]);
    let mut duration = choice();
    duration.durations[0] = 3;
    lateness(&model(), &duration, 0, refused(13, 0, 0), &[]);
    lateness(&model(), &duration, 32, refused(13, 0, 0), &[]);
}

#[test]
fn own_bit_in_a_mask() {
    let mut model = model();
    let plan = plan(&model, [&[1, 2], &[0, 3], &[5]]);
    model.activities[1].temporal = 2;
    check(&model, &plan, refused(7, 1, 0), refused(7, 1, 0));
    run_refused(&model, &choice(), 61, refused(7, 1, 0), 0);
    lateness(&model, &choice(), 32, refused(7, 1, 0), &[]);
}

#[test]
fn empty_records() {
    let mut out = [0xaa; 70];
    assert_eq!(proved::run(&[], &[], &mut out), refused(1, 0, 0));
    assert_eq!(proved::run(&model().bytes(), &[], &mut out), refused(8, 0, 0));
    assert_eq!(proved::check_plain(&model().bytes(), &[]), refused(8, 0, 0));
    assert_eq!(proved::check_strict(&[], &[]), refused(1, 0, 0));
    assert_eq!(out, [0xaa; 70]);
    let mut rows = list(32);
    assert_eq!(proved::lateness(&[], &[], &mut rows), refused(1, 0, 0));
    assert_eq!(proved::lateness(&model().bytes(), &[], &mut rows), refused(8, 0, 0));
    assert_eq!(rows, list(32));
}
