//! Every grid of many small models with gangs, by both programs: "still one strict plan exists or none" (02), and it is the
//! one that the run writes.

use grid_tests::records::{ActivityRow, Choice, Model, Plan, Rounds, ThreadRow, NO_LOOP};
use grid_tests::{proved, reference, Answer};

const ACTIVITIES: usize = 3;

/// Each list of three numbers from 1 to `most`.
fn triples(most: u8) -> impl Iterator<Item = [u8; ACTIVITIES]> {
    let numbers = move || 1..=most;
    numbers().flat_map(move |x| numbers().flat_map(move |y| numbers().map(move |z| [x, y, z])))
}

/// Three activities, each of a thread of its own; the last comes after the first by data, or after nothing.
fn model(cores: u8, horizon: u16, widths: [u8; 3], priorities: [u8; 3], durations: [u8; 3], data: u32) -> Model {
    let thread = |&priority: &u8| ThreadRow { period: (0, 0), release: (0, 0), priority: priority.into() };
    let activity = |a: usize| ActivityRow {
        thread: a as u8,
        duration: (durations[a].into(), durations[a].into()),
        delay: 0,
        temporal: 0,
        data: if a == 2 { data } else { 0 },
    };
    Model {
        cores,
        horizon,
        threads: priorities.iter().map(thread).collect(),
        activities: (0..ACTIVITIES).map(activity).collect(),
        rounds: Some(Rounds { count: 1, loops: vec![NO_LOOP; ACTIVITIES], widths: Some(widths.to_vec()) }),
    }
}

/// Every grid of this many ticks.
fn grids(horizon: u16) -> impl Iterator<Item = Vec<u32>> {
    let ticks = u32::from(horizon);
    (0..1u32 << (3 * ticks)).map(move |number| (0..ticks).map(|t| number >> (3 * t) & 7).collect())
}

/// How many models had one strict plan, and how many none.
#[derive(Default)]
struct Found {
    one: usize,
    none: usize,
}

impl Found {
    /// Tries every grid: the strict ones are the one that the run writes, or none.
    fn add(&mut self, model: &Model) {
        let threads = vec![(0, 0); ACTIVITIES];
        let durations = model.activities.iter().map(|activity| activity.duration.0).collect();
        let choice = Choice { threads: threads.clone(), durations }.bytes();
        let bytes = model.bytes();
        let mut written = vec![0; model.plan_length()];
        let answer: Answer = reference::run(&bytes, &choice, &mut written).into();
        assert_eq!(answer, proved::run(&bytes, &choice, &mut vec![0; written.len()]));
        let mut strict = Vec::new();
        for words in grids(model.horizon) {
            let plan = Plan::of_words(threads.clone(), ACTIVITIES, words).bytes();
            let verdict: Answer = reference::check_strict(&bytes, &plan).into();
            assert_eq!(verdict, proved::check_strict(&bytes, &plan));
            if verdict.number == 0 {
                assert_eq!(Answer { length: plan.len() as u32, ..verdict }, answer);
                strict.push(plan);
            }
        }
        if answer.number == 0 {
            assert_eq!(strict, [written]);
            self.one += 1;
        } else {
            assert!(strict.is_empty());
            self.none += 1;
        }
    }
}

#[test]
fn one_strict_plan_or_none() {
    let mut found = Found::default();
    for widths in triples(2) {
        for priorities in triples(2) {
            for durations in triples(2) {
                for data in [0, 1] {
                    found.add(&model(2, 3, widths, priorities, durations, data));
                }
            }
        }
    }
    for widths in triples(3) {
        for priorities in triples(2) {
            found.add(&model(3, 4, widths, priorities, [2, 1, 2], 0));
        }
    }
    assert!(found.one > 400 && found.none > 400, "{} with one, {} with none", found.one, found.none);
}
