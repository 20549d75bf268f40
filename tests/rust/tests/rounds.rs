//! Several rounds on one page, request U4 of 02: pages worked out by hand with both programs, the form rules 51 to 53, and
//! the reference on many pages beside the plain models that they mean.

use grid_tests::records::{ActivityRow, Choice, Model, Plan, Rounds, ThreadRow, NO_LOOP};
use grid_tests::{cases, proved, reference, Answer};

fn thread(period: u16, release: (u16, u16), priority: u16) -> ThreadRow {
    ThreadRow { period: (period, period), release, priority }
}

fn activity(thread: u8, duration: (u16, u16), delay: u16) -> ActivityRow {
    ActivityRow { thread, duration, delay, temporal: 0, data: 0 }
}

fn rounds(count: u8, loops: &[u8]) -> Option<Rounds> {
    Some(Rounds { count, loops: loops.to_vec(), widths: None })
}

/// Two rounds of one activity that loops to itself with delay 2; the release of round 1 lies in 3..4.
fn own_loop() -> Model {
    Model {
        cores: 1,
        horizon: 8,
        threads: vec![thread(3, (0, 1), 1)],
        activities: vec![activity(0, (1, 2), 2)],
        rounds: rounds(2, &[0]),
    }
}

/// Row 1 loops to the earlier row 0, whose thread has no period.
fn earlier_loop() -> Model {
    Model {
        cores: 1,
        horizon: 10,
        threads: vec![thread(0, (0, 1), 1), thread(4, (0, 0), 2)],
        activities: vec![activity(0, (2, 2), 3), activity(1, (1, 2), 0)],
        rounds: rounds(2, &[NO_LOOP, 0]),
    }
}

/// Row 0 loops to the later row 1, whose thread has no period.
fn later_loop() -> Model {
    Model {
        cores: 1,
        horizon: 12,
        threads: vec![thread(5, (0, 0), 2), thread(0, (0, 0), 1)],
        activities: vec![activity(0, (1, 1), 0), activity(1, (2, 3), 3)],
        rounds: rounds(2, &[1, NO_LOOP]),
    }
}

/// No loop; row 1 comes after row 0 by its temporal mask, row 2 after row 1 by its data mask.
fn masks() -> Model {
    Model {
        cores: 2,
        horizon: 12,
        threads: vec![thread(4, (0, 2), 1), thread(0, (0, 0), 2)],
        activities: vec![
            activity(0, (1, 2), 1),
            ActivityRow { temporal: 1, ..activity(1, (1, 1), 0) },
            ActivityRow { data: 2, ..activity(1, (1, 2), 0) },
        ],
        rounds: rounds(2, &[NO_LOOP, NO_LOOP, NO_LOOP]),
    }
}

/// Three rounds with periods 3 and 4; each row loops to the other.
fn crossed_loops() -> Model {
    Model {
        cores: 2,
        horizon: 12,
        threads: vec![thread(3, (0, 1), 1), thread(4, (0, 2), 2)],
        activities: vec![activity(0, (1, 2), 3), activity(1, (1, 1), 2)],
        rounds: rounds(3, &[1, 0]),
    }
}

/// Four rounds of one activity that loops to itself with delay 1.
fn four_rounds() -> Model {
    Model {
        cores: 1,
        horizon: 12,
        threads: vec![thread(2, (0, 0), 1)],
        activities: vec![activity(0, (1, 2), 1)],
        rounds: rounds(4, &[0]),
    }
}

fn choice(threads: &[(u16, u16)], durations: &[u16]) -> Choice {
    Choice { threads: threads.to_vec(), durations: durations.to_vec() }
}

/// The answer of a run that both programs must give; the buffer afterwards.
fn run(model: &[u8], choice: &[u8], answer: Answer) -> Vec<u8> {
    let (mut ours, mut theirs) = (vec![0xaa; 200], vec![0xaa; 200]);
    assert_eq!(answer, reference::run(model, choice, &mut ours).into());
    assert_eq!(answer, proved::run(model, choice, &mut theirs));
    assert_eq!(ours, theirs);
    ours
}

/// A run that must write this grid, and a plan that passes both checks.
fn accepted(model: &Model, choice: &Choice, words: &[u32], (usage, capacity, makespan): (u32, u32, u32)) {
    let plan = Plan::of_words(choice.threads.clone(), choice.durations.len(), words.to_vec()).bytes();
    assert_eq!(plan.len(), model.plan_length());
    let model = model.bytes();
    let buffer = run(&model, &choice.bytes(), Answer::accepted(usage, capacity, makespan, plan.len() as u32));
    assert_eq!(buffer[..plan.len()], plan);
    check(&model, &plan, Answer::accepted(usage, capacity, makespan, 0));
}

/// The answer that both programs must give in both checks.
fn check(model: &[u8], plan: &[u8], answer: Answer) {
    assert_eq!(answer, reference::check_plain(model, plan).into());
    assert_eq!(answer, reference::check_strict(model, plan).into());
    assert_eq!(answer, proved::check_plain(model, plan));
    assert_eq!(answer, proved::check_strict(model, plan));
}

#[test]
fn two_rounds() {
    let releases = [(0, 3), (3, 3)];
    accepted(&own_loop(), &choice(&releases, &[2, 2]), &[1, 1, 0, 0, 2, 2, 0, 0], (4, 8, 6));
    let releases = [(0, 3), (4, 3)];
    accepted(&own_loop(), &choice(&releases, &[1, 2]), &[1, 0, 0, 0, 2, 2, 0, 0], (3, 8, 6));
    let releases = [(1, 0), (0, 4), (0, 0), (4, 4)];
    accepted(&earlier_loop(), &choice(&releases, &[2, 1, 2, 2]), &[2, 1, 1, 4, 4, 0, 8, 8, 0, 0], (7, 10, 8));
    let releases = [(0, 5), (0, 0), (5, 5), (0, 0)];
    accepted(&later_loop(), &choice(&releases, &[1, 3, 1, 2]), &[1, 2, 2, 2, 8, 8, 0, 4, 0, 0, 0, 0], (7, 12, 8));
    let releases = [(0, 4), (0, 0), (5, 4), (0, 0)];
    let words = [1, 1, 0, 2, 4, 8, 8, 0, 16, 32, 32, 0];
    accepted(&masks(), &choice(&releases, &[2, 1, 1, 2, 1, 2]), &words, (9, 24, 11));
}

#[test]
fn more_rounds() {
    let releases = [(0, 3), (2, 4), (3, 3), (4, 4), (6, 3), (8, 4)];
    let words = [1, 1, 2, 0, 0, 12, 0, 0, 16, 32, 0, 0];
    accepted(&crossed_loops(), &choice(&releases, &[2, 1, 1, 1, 1, 1]), &words, (7, 24, 10));
    let releases = [(0, 2), (2, 2), (4, 2), (6, 2)];
    accepted(&four_rounds(), &choice(&releases, &[1, 1, 2, 1]), &[1, 0, 2, 0, 4, 4, 0, 8, 0, 0, 0, 0], (5, 12, 8));
    // Rounds 2 and 3 end at 7 and 9, past 4 + 2 and 6 + 2.
    let (model, late) = (four_rounds().bytes(), choice(&releases, &[1, 2, 2, 1]).bytes());
    let answer = Answer::refused(43, 2, 0);
    run(&model, &late, answer);
    let mut rows = [[7; 32]; 2];
    assert_eq!(answer, reference::lateness(&model, &late, &mut rows[0]).into());
    assert_eq!(answer, proved::lateness(&model, &late, &mut rows[1]));
    for rows in rows {
        assert_eq!(rows[..5], [1, 0, -1, -1, 7]);
    }
}

#[test]
fn releases_of_a_round() {
    for (release, answer) in [(2, 12), (3, 0), (4, 0), (5, 12)] {
        let choice = choice(&[(0, 3), (release, 3)], &[1, 2]);
        let answer = match answer {
            0 => Answer::accepted(3, 8, u32::from(release) + 2, 57),
            _ => Answer::refused(12, 1, 0),
        };
        run(&own_loop().bytes(), &choice.bytes(), answer);
    }
    // Without a period the range is that of the row in each round.
    let releases = [(1, 0), (0, 4), (2, 0), (4, 4)];
    run(&earlier_loop().bytes(), &choice(&releases, &[2, 1, 2, 2]).bytes(), Answer::refused(12, 2, 0));
}

#[test]
fn across_a_loop() {
    let releases = [(1, 0), (0, 4), (0, 0), (4, 4)];
    // Activity 0 of round 0 ends at 3 and has delay 3; activity 3 starts at 5 in the place of 6.
    let plan = Plan::of_words(releases.to_vec(), 4, vec![2, 1, 1, 4, 4, 8, 8, 0, 0, 0]);
    check(&earlier_loop().bytes(), &plan.bytes(), Answer::refused(25, 3, 0));
    let mut straight = earlier_loop();
    straight.rounds = rounds(2, &[NO_LOOP, NO_LOOP]);
    let plan = Plan::of_words(releases.to_vec(), 4, vec![2, 1, 1, 4, 8, 8, 4, 0, 0, 0]);
    check(&straight.bytes(), &plan.bytes(), Answer::accepted(7, 10, 7, 0));
}

/// The number and A with which both programs refuse this model without a second record; 8 where it meets its form rules.
fn refused(model: &[u8], number: u32, a: u32) {
    run(model, &[], Answer::refused(number, a, 0));
    check(model, &[], Answer::refused(number, a, 0));
}

/// A model of this many rounds, of `n` threads without a period and `m` activities without a loop.
fn sized(count: u8, n: usize, m: usize) -> Model {
    Model {
        cores: 1,
        horizon: 8,
        threads: vec![thread(0, (0, 0), 1); n],
        activities: vec![activity(0, (1, 1), 0); m],
        rounds: rounds(count, &vec![NO_LOOP; m]),
    }
}

#[test]
fn numbers_of_rounds() {
    for (count, n, m) in [(0, 1, 1), (5, 1, 1), (255, 1, 1), (2, 5, 1), (3, 3, 1), (4, 3, 1), (2, 1, 17), (4, 1, 9)] {
        refused(&sized(count, n, m).bytes(), 51, 0);
    }
    for (count, n, m) in [(1, 8, 32), (2, 4, 16), (3, 2, 10), (4, 2, 8)] {
        refused(&sized(count, n, m).bytes(), 8, 0);
    }
}

#[test]
fn periods_and_moved_releases() {
    let mut model = sized(3, 2, 1);
    model.threads[1].period = (4, 5);
    refused(&model.bytes(), 52, 1);
    model.rounds = rounds(1, &[NO_LOOP]);
    refused(&model.bytes(), 8, 0);
    let mut model = sized(3, 2, 1);
    model.threads[1] = thread(1000, (0, 63535), 1);
    refused(&model.bytes(), 8, 0);
    model.threads[1].release.1 = 63536;
    refused(&model.bytes(), 52, 1);
    // Not moved without a period.
    model.threads[1] = thread(0, (0, 65535), 1);
    refused(&model.bytes(), 8, 0);
}

#[test]
fn loop_bytes() {
    for count in [1, 2] {
        for (named, number) in [(0, 8), (1, 8), (2, 8), (3, 53), (4, 53), (254, 53), (255, 8)] {
            let mut model = sized(count, 1, 3);
            model.rounds = rounds(count, &[NO_LOOP, named, NO_LOOP]);
            refused(&model.bytes(), number, if number == 53 { 1 } else { 0 });
        }
    }
}

/// "After 4, 51", "after 5, 52", "after 6, 53": of two broken rules the earlier one is named.
#[test]
fn order_of_the_form_rules() {
    let mut model = sized(5, 2, 2);
    let mut longer = model.bytes();
    longer.push(0);
    longer[3] += 1;
    refused(&longer, 4, 0);
    model.threads[1].release = (1, 0);
    refused(&model.bytes(), 51, 0);
    model.rounds = rounds(2, &[NO_LOOP, NO_LOOP]);
    model.threads[0].period = (1, 2);
    refused(&model.bytes(), 5, 1);
    model.threads[1].release = (0, 0);
    model.activities[0].thread = 2;
    refused(&model.bytes(), 52, 0);
    model.threads[0].period = (0, 0);
    model.activities[0].thread = 0;
    model.activities[1].thread = 2;
    model.rounds = rounds(2, &[2, NO_LOOP]);
    refused(&model.bytes(), 6, 1);
    model.activities[0].temporal = 1;
    model.activities[1].thread = 0;
    model.rounds = rounds(2, &[NO_LOOP, 2]);
    refused(&model.bytes(), 53, 1);
    model.rounds = rounds(2, &[NO_LOOP, NO_LOOP]);
    refused(&model.bytes(), 7, 0);
}

#[test]
fn versions_and_lengths() {
    let plain = own_loop().unrolled().bytes();
    let page = own_loop().bytes();
    for (version, number) in [(0, 2), (2, 4), (4, 2), (255, 2)] {
        refused(&[&plain[..4], &[version], &plain[5..]].concat(), number, 0);
    }
    for (version, number) in [(0, 2), (1, 4), (4, 2)] {
        refused(&[&page[..4], &[version], &page[5..]].concat(), number, 0);
    }
    refused(&[0, 0, 0, 10, 2, 1, 1, 1, 0, 8], 4, 0);
    refused(&[0, 0, 0, 9, 2, 1, 1, 1, 0], 1, 0);
    refused(&[&[0, 0, 0, 36], &page[4..36]].concat(), 4, 0);
}

/// "It means the plain model unrolled": the reference answers and writes the same for both, and of version 3 without a gang
/// the same as of version 2.
#[test]
fn pages_beside_their_unrolled_models() {
    let mut tried = 0;
    for number in 0..20_000 {
        let case = cases::make(4, number);
        let answers = |model: &[u8]| {
            let second = &case.second;
            let mut buffer = case.buffer.clone().unwrap_or_default();
            let mut rows = case.rows.clone().unwrap_or_default();
            let run: Answer = reference::run(model, second, &mut buffer).into();
            let lateness: Answer = reference::lateness(model, second, &mut rows).into();
            let checked = (reference::check_plain(model, second), reference::check_strict(model, second));
            (checked, reference::earliest_starts(model, second), run, lateness, buffer, rows)
        };
        for other in case.alike() {
            assert_eq!(answers(&case.model), answers(&other), "case {number}, {}", case.kind);
            tried += 1;
        }
    }
    assert!(tried > 8_000);
}
