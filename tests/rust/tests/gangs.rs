//! Activities that take several cores, request U7 of 02: pages worked out by hand with both programs, the form rules of
//! version 3, and the reference on many pages beside readings that are nearly the paper's.
//!
//! A page that is worked out here names the readings under which its answer would be another.

use grid_tests::records::{ActivityRow, Choice, Model, Plan, Rounds, ThreadRow, NO_LOOP};
use grid_tests::reference::readings::{self, Difference, Difference::*};
use grid_tests::{proved, reference, Answer};

fn thread(period: u16, priority: u16) -> ThreadRow {
    ThreadRow { period: (period, period), release: (0, 0), priority }
}

/// An activity of this thread, with its ticks and its width.
type Row = (u8, u16, u8);

/// A page of this many rounds without loops; each thread has its priority, release 0 and no period.
fn page(cores: u8, horizon: u16, count: u8, priorities: &[u16], rows: &[Row]) -> Model {
    let activity =
        |&(thread, ticks, _): &Row| ActivityRow { thread, duration: (ticks, ticks), delay: 0, temporal: 0, data: 0 };
    Model {
        cores,
        horizon,
        threads: priorities.iter().map(|&priority| thread(0, priority)).collect(),
        activities: rows.iter().map(activity).collect(),
        rounds: Some(Rounds {
            count,
            loops: vec![NO_LOOP; rows.len()],
            widths: Some(rows.iter().map(|row| row.2).collect()),
        }),
    }
}

fn gangs(cores: u8, horizon: u16, priorities: &[u16], rows: &[Row]) -> Model {
    page(cores, horizon, 1, priorities, rows)
}

fn loops(model: &mut Model) -> &mut Vec<u8> {
    &mut model.rounds.as_mut().unwrap().loops
}

fn widths(model: &mut Model) -> &mut Vec<u8> {
    model.rounds.as_mut().unwrap().widths.as_mut().unwrap()
}

fn accepted(usage: u32, capacity: u32, makespan: u32) -> Answer {
    Answer::accepted(usage, capacity, makespan, 0)
}

fn refused(number: u32, a: u32, b: u32) -> Answer {
    Answer::refused(number, a, b)
}

/// Each thread released as early as it can be, each activity with its one duration.
fn choice(model: &Model) -> Choice {
    let model = model.unrolled();
    Choice {
        threads: model.threads.iter().map(|thread| (thread.release.0, thread.period.0)).collect(),
        durations: model.activities.iter().map(|activity| activity.duration.0).collect(),
    }
}

fn plan(model: &Model, words: &[u32]) -> Plan {
    let choice = choice(model);
    Plan::of_words(choice.threads, choice.durations.len(), words.to_vec())
}

/// The answers that both programs must give of this grid, and the readings that would give another, of the grid or of the
/// run.
fn checked(model: &Model, words: &[u32], plain: Answer, strict: Answer, told_apart: &[Difference]) {
    let (bytes, plan) = (model.bytes(), plan(model, words).bytes());
    assert_eq!(plain, reference::check_plain(&bytes, &plan).into());
    assert_eq!(strict, reference::check_strict(&bytes, &plan).into());
    assert_eq!(plain, proved::check_plain(&bytes, &plan));
    assert_eq!(strict, proved::check_strict(&bytes, &plan));
    let choice = choice(model).bytes();
    let answers =
        |reading: &[Difference]| (readings::check(&bytes, &plan, reading), readings::run(&bytes, &choice, reading));
    for &difference in told_apart {
        assert_ne!(answers(&[]), answers(&[difference]), "{difference:?}");
    }
}

/// The answer of a run that both programs must give; the buffer afterwards.
fn run(model: &Model, choice: &Choice, answer: Answer) -> Vec<u8> {
    let (model, choice) = (model.bytes(), choice.bytes());
    let (mut ours, mut theirs) = (vec![0xaa; 200], vec![0xaa; 200]);
    assert_eq!(answer, reference::run(&model, &choice, &mut ours).into());
    assert_eq!(answer, proved::run(&model, &choice, &mut theirs));
    assert_eq!(ours, theirs);
    ours
}

/// A grid that the run must write and both checks accept with these figures: usage, capacity and makespan.
fn written(model: &Model, words: &[u32], figures: (u32, u32, u32), told_apart: &[Difference]) {
    let answer = accepted(figures.0, figures.1, figures.2);
    checked(model, words, answer, answer, told_apart);
    let plan = plan(model, words).bytes();
    let buffer = run(model, &choice(model), Answer { length: plan.len() as u32, ..answer });
    assert_eq!(buffer[..plan.len()], plan);
    assert!(buffer[plan.len()..].iter().all(|&byte| byte == 0xaa));
}

/// The answer and the rows of the report that both programs must give.
fn lateness(model: &Model, answer: Answer, rows: &[i32]) {
    let (model, choice) = (model.bytes(), choice(model).bytes());
    let mut lists = [[7; 33]; 2];
    assert_eq!(answer, reference::lateness(&model, &choice, &mut lists[0]).into());
    assert_eq!(answer, proved::lateness(&model, &choice, &mut lists[1]));
    for list in lists {
        assert_eq!(list[..rows.len()], *rows);
        assert!(list[rows.len()..].iter().all(|&row| row == 7));
    }
}

/// Two cores, three threads of falling priority; activity 1 needs both cores.
fn misfit(horizon: u16) -> Model {
    gangs(2, horizon, &[3, 2, 1], &[(0, 2, 1), (1, 1, 2), (2, 2, 1)])
}

#[test]
fn bytes_of_version_3() {
    let model = page(2, 3, 2, &[5], &[(0, 1, 2)]);
    let bytes = [
        0, 0, 0, 38, 3, 2, 1, 1, 0, 3, 2, // length, version, c, n, m, H, i
        0, 0, 0, 0, 0, 0, 0, 0, 0, 5, // thread 0
        0, 0, 1, 0, 1, 0, 0, 0, 0, 0, 0, 0, 0, 0, 0, 255, 2, // activity 0, its loop byte and its width
    ];
    assert_eq!(model.bytes(), bytes);
    written(&model, &[1, 2, 0], (4, 6, 2), &[OnesInUsage, WidthsOfRound0]);
}

/// Activity 0 takes a core, 1 finds one of the two that it needs, and 2 takes it: at 0 and 1. Then comes 1.
#[test]
fn a_misfit_is_passed_over() {
    // Usage 2 + 1 · 2 + 2, where the words have five ones.
    written(
        &misfit(4),
        &[5, 5, 2, 0],
        (6, 8, 3),
        &[StopsAtMisfit, FirstOfTheReady, WidestFirst, OnesInUsage, EveryWaitingCounts],
    );
    // A walk that ends at activity 1. At tick 0 a core is free and 2 fits beside 0; 1 waits and does not count.
    let plain = accepted(6, 10, 5);
    checked(&misfit(5), &[1, 1, 2, 4, 4], plain, refused(30, 0, 2), &[EveryWaitingCounts, WaitingTakesToo]);
    // Five cores: 0 takes two, 1 would need four, 2 takes two, 3 would need two, 4 takes the last.
    let model = gangs(5, 2, &[1], &[(0, 1, 2), (0, 1, 4), (0, 1, 2), (0, 1, 2), (0, 1, 1)]);
    // At tick 1 there are 1 with four and 3 with two: only 1 fits, and 3 is owed.
    run(&model, &choice(&model), refused(42, 3, 0));
    let model = gangs(5, 3, &[1], &[(0, 1, 2), (0, 1, 4), (0, 1, 2), (0, 1, 2), (0, 1, 1)]);
    written(&model, &[0b10101, 0b00010, 0b01000], (11, 15, 3), &[StopsAtMisfit, FirstOfTheReady]);
}

#[test]
fn ones_for_widths_in_28() {
    // Widths 2 and 1 at once on two cores.
    let model = gangs(2, 2, &[1], &[(0, 1, 2), (0, 1, 1)]);
    checked(&model, &[3, 0], refused(28, 0, 0), refused(28, 0, 0), &[OnesIn28]);
    // The same on three.
    let model = gangs(3, 2, &[1], &[(0, 1, 2), (0, 1, 1)]);
    written(&model, &[3, 0], (3, 6, 1), &[OnesInUsage]);
    // Width 8 and one more at tick 1, where tick 0 has load 8.
    let model = gangs(8, 2, &[1], &[(0, 2, 8), (0, 1, 1)]);
    checked(&model, &[1, 3], refused(28, 1, 0), refused(28, 1, 0), &[OnesIn28]);
    // What is active takes more than there is, and activity 2 waits; tick 1 has a load of exactly 2, and a breach of 29.
    let model = gangs(2, 3, &[1, 2], &[(0, 1, 2), (0, 1, 2), (1, 1, 1)]);
    checked(&model, &[3, 0, 4], refused(28, 0, 0), refused(28, 0, 0), &[OnesIn28]);
    checked(&model, &[2, 5, 0], refused(28, 1, 0), refused(28, 1, 0), &[OnesIn28]);
}

#[test]
fn ones_for_widths_in_29() {
    // Activity 0, of the lower priority, has both cores; 1 would need one, and nothing active ranks before it.
    let model = gangs(2, 2, &[1, 2], &[(0, 1, 2), (1, 1, 1)]);
    checked(&model, &[1, 2], refused(29, 0, 1), refused(29, 0, 1), &[OnesIn29, FitsBesideAll, BeforeByNumberAlone]);
    written(&model, &[2, 1], (3, 4, 2), &[BeforeByNumberAlone, OnesInUsage]);
    // Two narrow ones in front of a gang of a higher priority, which fits with both away.
    let model = gangs(2, 3, &[1, 2], &[(0, 2, 1), (0, 2, 1), (1, 1, 2)]);
    checked(&model, &[3, 3, 4], refused(29, 0, 2), refused(29, 0, 2), &[FitsBesideAll, WidthBelowWhatIsLeft]);
}

#[test]
fn what_ranks_before_in_29() {
    // Four cores. Activity 0 has two; 1 waits with two left for it, and 2, of a lower priority, has them.
    let rows = |width| [(0, 1, 2), (1, 1, width), (2, 1, 2)];
    let model = gangs(4, 2, &[3, 2, 1], &rows(2));
    checked(&model, &[5, 2], refused(29, 0, 1), refused(29, 0, 1), &[OnesIn29, FitsBesideAll, WidthBelowWhatIsLeft]);
    // With width 3 it does not fit beside 0, whether or not 2 is there.
    let model = gangs(4, 2, &[3, 2, 1], &rows(3));
    written(&model, &[5, 2], (7, 8, 2), &[EveryWaitingCounts, StopsAtMisfit, WidestFirst]);
    // The lowest B that counts: 1 does not fit beside 0, and 2 does.
    let model = gangs(3, 3, &[3, 2, 1], &[(0, 1, 2), (1, 1, 2), (1, 1, 1), (2, 1, 1)]);
    checked(&model, &[9, 6, 0], refused(29, 0, 2), refused(29, 0, 2), &[EveryWaitingCounts, WaitingTakesToo, OnesIn29]);
    // 29 is not tried with a core free, even where a gang of a higher priority waits.
    let model = gangs(2, 2, &[2, 1], &[(0, 1, 2), (1, 1, 1)]);
    checked(&model, &[2, 1], accepted(3, 4, 2), refused(30, 0, 0), &[Rule29WithFreeCores]);
}

#[test]
fn what_ranks_before_in_30() {
    // A gang that fits if the less urgent one is away.
    let model = gangs(2, 2, &[2, 1], &[(0, 1, 2), (1, 1, 1)]);
    checked(&model, &[2, 1], accepted(3, 4, 2), refused(30, 0, 0), &[FitsBesideAll, WidthBelowWhatIsLeft]);
    // One that does not fit beside a more urgent one, which has the lower number or the higher.
    let model = gangs(2, 3, &[2, 1], &[(0, 2, 1), (1, 1, 2)]);
    written(&model, &[1, 1, 2], (4, 6, 3), &[EveryWaitingCounts, WidestFirst]);
    let model = gangs(2, 3, &[1, 2], &[(0, 1, 2), (1, 2, 1)]);
    written(&model, &[2, 2, 1], (4, 6, 3), &[EveryWaitingCounts, BeforeByNumberAlone]);
    // Of equal priority the lower number ranks before.
    let model = gangs(2, 3, &[1], &[(0, 2, 1), (0, 1, 2)]);
    written(&model, &[1, 1, 2], (4, 6, 3), &[BeforeByPriorityAlone, EveryWaitingCounts]);
    let model = gangs(2, 3, &[1], &[(0, 1, 2), (0, 2, 1)]);
    checked(&model, &[2, 1, 2], accepted(4, 6, 3), refused(30, 0, 0), &[BeforeAtEqualPriority, FitsBesideAll]);
    written(&model, &[1, 2, 2], (4, 6, 3), &[FirstOfTheReady, OnesInUsage]);
}

#[test]
fn ones_for_widths_in_30_and_31() {
    // Activity 1 has both cores and one bit in the word; 0, of the same priority, would need one.
    let model = gangs(2, 2, &[1], &[(0, 1, 1), (0, 1, 2)]);
    let told_apart = [OnesIn30, OnesIn31, FitsBesideAll, BeforeAtEqualPriority];
    checked(&model, &[2, 1], accepted(3, 4, 2), refused(31, 0, 0), &told_apart);
    written(&model, &[1, 2], (3, 4, 2), &[BeforeByPriorityAlone]);
    // A gang of the same priority that fits with the other two away.
    let model = gangs(3, 2, &[1], &[(0, 1, 3), (0, 1, 1), (0, 1, 2)]);
    checked(&model, &[6, 1], accepted(6, 6, 2), refused(31, 0, 0), &[OnesIn31, FitsBesideAll, WidthBelowWhatIsLeft]);
}

#[test]
fn what_ranks_before_in_31() {
    // Three cores of one priority: 1 waits and does not fit beside 0; 2 takes what is left.
    let model = gangs(3, 2, &[1], &[(0, 1, 2), (0, 1, 2), (0, 1, 1)]);
    written(&model, &[5, 2], (5, 6, 2), &[BeforeByPriorityAlone, EveryWaitingCounts, StopsAtMisfit]);
    // The lowest B that counts: 1 does not fit beside 0, and 2 does.
    let model = gangs(3, 3, &[1], &[(0, 1, 2), (0, 1, 2), (0, 1, 1), (0, 1, 1)]);
    let told_apart = [EveryWaitingCounts, BeforeByPriorityAlone, WaitingTakesToo, OnesIn31];
    checked(&model, &[9, 6, 0], accepted(6, 9, 2), refused(31, 0, 2), &told_apart);
    // 2 has the cores of 0 and 1; both would fit, and 0 is the lower.
    let model = gangs(2, 2, &[1], &[(0, 1, 1), (0, 1, 1), (0, 1, 2)]);
    checked(&model, &[4, 3], accepted(4, 4, 2), refused(31, 0, 0), &[OnesIn31]);
}

#[test]
fn as_wide_as_the_machine() {
    // Nothing runs beside activity 0, of width 8.
    let model = gangs(8, 3, &[1], &[(0, 1, 8), (0, 1, 1), (0, 1, 8)]);
    written(&model, &[1, 2, 4], (17, 24, 3), &[OnesInUsage]);
    // Nothing is left for activity 1 beside 0.
    let model = gangs(2, 2, &[2, 1], &[(0, 1, 2), (1, 1, 1)]);
    written(&model, &[1, 2], (3, 4, 2), &[FirstOfTheReady]);
    // One core, width 1.
    written(&gangs(1, 2, &[1], &[(0, 1, 1), (0, 1, 1)]), &[1, 2], (2, 2, 2), &[]);
    // 32 cores' worth of activities on 8 cores: four ticks, each with a gang of 7 and one of 1.
    let rows: Vec<Row> = (0..8).map(|a| (0, 1, if a % 2 == 0 { 7 } else { 1 })).collect();
    written(&gangs(8, 4, &[1], &rows), &[3, 12, 48, 192], (32, 32, 4), &[FirstOfTheReady]);
}

#[test]
fn durations_count_ticks() {
    let model = gangs(2, 3, &[1], &[(0, 2, 2)]);
    written(&model, &[1, 1, 0], (4, 6, 2), &[DurationsInCoreTicks, OnesInUsage]);
    // Activity 1 comes after 0, whose one tick takes both cores.
    let mut model = gangs(2, 2, &[1], &[(0, 1, 2), (0, 1, 1)]);
    model.activities[1].data = 1;
    written(&model, &[1, 2], (3, 4, 2), &[EfeInCoreTicks]);
    model.activities[1].data = 0;
    model.activities[1].temporal = 1;
    model.activities[0].delay = 1;
    model.horizon = 3;
    written(&model, &[1, 0, 2], (3, 6, 3), &[EfeInCoreTicks]);
}

/// Two rounds of a gang that comes after itself with delay 1, and of a narrow activity without a loop; no period.
fn rounds_and_loop(horizon: u16) -> Model {
    let mut model = page(2, horizon, 2, &[1], &[(0, 1, 2), (0, 2, 1)]);
    model.activities[0].delay = 1;
    loops(&mut model)[0] = 0;
    model
}

#[test]
fn gangs_in_rounds_with_loops() {
    // 0 has both cores; 1 and 3 follow, 3 being 1 in round 1. At tick 2 the gang of round 1 is ready behind 1, does not fit,
    // and is passed over for 3. It comes at tick 3.
    let model = rounds_and_loop(4);
    written(&model, &[1, 10, 10, 4], (8, 8, 4), &[StopsAtMisfit, WidthsOfRound0, EveryWaitingCounts]);
    written(&model.unrolled(), &[1, 10, 10, 4], (8, 8, 4), &[StopsAtMisfit]);
    // Periods: round 1 is released at 4.
    let mut model = page(2, 8, 2, &[1], &[(0, 1, 2), (0, 2, 1)]);
    model.threads[0] = thread(4, 1);
    written(&model, &[1, 2, 2, 0, 4, 8, 8, 0], (8, 16, 7), &[WidthsOfRound0]);
    // A gang of round 1 beside a narrow one of round 1: three cores' worth on two.
    checked(&model, &[1, 2, 2, 0, 12, 8, 0, 0], refused(28, 4, 0), refused(28, 4, 0), &[WidthsOfRound0, OnesIn28]);
    // Row 0 after row 1 of the round before, with delay 3: at 3 + 3. Activity 3 is ready at 4.
    model.activities[1].delay = 3;
    loops(&mut model)[0] = 1;
    written(&model, &[1, 2, 2, 0, 8, 8, 4, 0], (8, 16, 7), &[]);
    // The narrow one has period 3, so that activity 3 is released at 3. The gang of round 1 is ready at 2, does not fit
    // beside 1, and takes the cores at 3 before 3.
    let mut model = page(2, 6, 2, &[1, 1], &[(0, 1, 2), (1, 2, 1)]);
    model.threads[1] = thread(3, 1);
    model.activities[0].delay = 1;
    loops(&mut model)[0] = 0;
    written(&model, &[1, 2, 2, 4, 8, 8], (8, 12, 6), &[WidthsOfRound0, EveryWaitingCounts, BeforeByPriorityAlone]);
    // With activity 3 at tick 3 the gang counts: 3 ranks behind it.
    let told_apart = [FitsBesideAll, BeforeAtEqualPriority, WidthBelowWhatIsLeft];
    checked(&model, &[1, 2, 2, 8, 4, 8], accepted(8, 12, 6), refused(30, 3, 2), &told_apart);
    // Four rounds of a gang of both cores and a narrow one.
    let model = page(2, 8, 4, &[1], &[(0, 1, 2), (0, 1, 1)]);
    written(&model, &[1, 10, 4, 16, 160, 64, 0, 0], (12, 16, 6), &[StopsAtMisfit, WidthsOfRound0]);
}

#[test]
fn lateness_of_gangs() {
    const DASH: i32 = i32::MIN;
    // Ends 2, 3 and 2.
    let mut model = misfit(4);
    model.threads[1] = thread(3, 2);
    lateness(&model, Answer::accepted(6, 8, 3, 49), &[DASH, 0, DASH]);
    model.threads[1] = thread(2, 2);
    lateness(&model, refused(43, 1, 0), &[DASH, -1, DASH]);
    run(&model, &choice(&model), refused(43, 1, 0));
    // A walk that ends at the misfit would owe something.
    model.threads[2] = thread(2, 1);
    lateness(&model, refused(43, 1, 0), &[DASH, -1, 0]);
    model.horizon = 2;
    lateness(&model, refused(42, 1, 0), &[]);
    *widths(&mut model) = vec![1, 3, 1];
    lateness(&model, refused(57, 1, 0), &[]);
}

/// The number and A with which both programs refuse this model without a second record; 8 where it meets its form rules.
fn form(model: &[u8], number: u32, a: u32) {
    let answer = refused(number, a, 0);
    let mut out = [0xaa; 8];
    assert_eq!(answer, reference::check_plain(model, &[]).into());
    assert_eq!(answer, reference::run(model, &[], &mut out).into());
    assert_eq!(answer, reference::lateness(model, &[], &mut [0; 32]).into());
    assert_eq!(answer, proved::check_plain(model, &[]));
    assert_eq!(answer, proved::check_strict(model, &[]));
    assert_eq!(answer, proved::run(model, &[], &mut out));
    assert_eq!(answer, proved::lateness(model, &[], &mut [0; 32]));
    assert_eq!(out, [0xaa; 8]);
}

/// Three activities of width 1, of this many rounds.
fn three(cores: u8, count: u8) -> Model {
    page(cores, 4, count, &[1], &[(0, 1, 1); 3])
}

#[test]
fn widths_of_0_and_above_the_cores() {
    for (cores, width, number) in [
        (1, 0, 57),
        (1, 1, 8),
        (1, 2, 57),
        (2, 0, 57),
        (2, 2, 8),
        (2, 3, 57),
        (2, 8, 57),
        (7, 8, 57),
        (8, 8, 8),
        (8, 9, 57),
        (8, 128, 57),
        (8, 255, 57),
    ] {
        for count in [1, 2] {
            let mut model = three(cores, count);
            widths(&mut model)[1] = width;
            form(&model.bytes(), number, if number == 57 { 1 } else { 0 });
        }
    }
    // The lowest row, and the last one.
    let mut model = three(2, 4);
    *widths(&mut model) = vec![2, 3, 0];
    form(&model.bytes(), 57, 1);
    *widths(&mut model) = vec![2, 2, 0];
    form(&model.bytes(), 57, 2);
}

/// "57, after 53", and before 7.
#[test]
fn order_of_the_form_rules() {
    let mut model = three(2, 5);
    widths(&mut model)[0] = 0;
    form(&model.bytes(), 51, 0);
    model.rounds.as_mut().unwrap().count = 2;
    model.threads[0].period = (1, 2);
    form(&model.bytes(), 52, 0);
    model.threads[0].period = (2, 1);
    form(&model.bytes(), 5, 0);
    model.threads[0].period = (0, 0);
    model.activities[2].thread = 1;
    form(&model.bytes(), 6, 2);
    model.activities[2].thread = 0;
    loops(&mut model)[2] = 3;
    form(&model.bytes(), 53, 2);
    loops(&mut model)[2] = 2;
    model.activities[0].temporal = 1;
    *widths(&mut model) = vec![1, 1, 3];
    form(&model.bytes(), 57, 2);
    widths(&mut model)[2] = 2;
    form(&model.bytes(), 7, 0);
    model.activities[0].temporal = 0;
    form(&model.bytes(), 8, 0);
}

#[test]
fn versions_and_lengths() {
    let model = misfit(4).bytes();
    assert_eq!(model.len(), 11 + 3 * 10 + 3 * 17);
    let with_version = |version: u8| [&model[..4], &[version], &model[5..]].concat();
    for (version, number) in [(0, 2), (1, 4), (2, 4), (3, 8), (4, 2), (255, 2)] {
        form(&with_version(version), number, 0);
    }
    // Records of the other versions with version byte 3.
    for older in [misfit(4).unrolled(), Model { rounds: None, ..misfit(4) }] {
        let older = Model { rounds: older.rounds.map(|rounds| Rounds { widths: None, ..rounds }), ..older };
        let mut bytes = older.bytes();
        form(&bytes, 8, 0);
        bytes[4] = 3;
        form(&bytes, 4, 0);
    }
    // A byte more, the last width left out, and the head alone.
    let of_length = |length: usize| {
        let mut bytes = model.clone();
        bytes.resize(length, 1);
        bytes[3] = length as u8;
        bytes
    };
    for (length, number) in [(93, 4), (92, 8), (91, 4), (75, 4), (11, 4), (10, 4), (9, 1)] {
        form(&of_length(length), number, 0);
    }
}
