//! Many random pages with the reference, beside readings of request U7 of 02 that differ from the paper's in one thing: the
//! pages tell each of them apart, and without a gang the rules are those of 01. Last, what 02 says of urgent threads, of the
//! machine's words.

use grid_tests::cases::{self, Case};
use grid_tests::random::Random;
use grid_tests::records::{Choice, Model, NO_LOOP};
use grid_tests::reference::readings::{self, Difference, Verdicts, DIFFERENCES, ONES_OF_THE_WORD};
use grid_tests::reference::{self, Figures, Refusal};

const SEED: u64 = 7;
const CASES: u64 = 30_000;
/// How often each thing must occur.
const LEAST: usize = 100;

/// The verdicts of a case, and the run's answer with the words.
type Answers = (Option<Verdicts>, Option<(Result<Figures, Refusal>, Vec<u32>)>);

fn of_reading(case: &Case, reading: &[Difference]) -> Answers {
    let (model, second) = (&case.model, &case.second);
    let checked = case.checked.then(|| readings::check(model, second, reading));
    (checked, case.buffer.as_ref().map(|_| readings::run(model, second, reading)))
}

/// The reference's; the words of a run that is refused are taken from the reading.
fn of_reference(case: &Case, words: Option<Vec<u32>>) -> Answers {
    let (model, second) = (&case.model, &case.second);
    let checked = [reference::check_plain(model, second), reference::check_strict(model, second)];
    let mut out = vec![0; 16_553];
    let answer = reference::run(model, second, &mut out);
    let written = |length: u32| {
        let grid = 9 + 4 * usize::from(second[5]) + 4 * usize::from(second[6])..length as usize;
        out[grid].chunks_exact(4).map(|word| u32::from_be_bytes(word.try_into().unwrap())).collect()
    };
    let run = words.map(|words| match answer {
        Ok((figures, length)) => (Ok(figures), written(length)),
        Err(refusal) => (Err(refusal), words),
    });
    (case.checked.then_some(checked), run)
}

/// With no difference a reading is the reference, and by the ones of the word too where there is no gang. How often each
/// difference is told apart is printed, and must be often.
#[test]
fn readings_beside_the_reference() {
    let mut told_apart = [0; DIFFERENCES.len()];
    let mut without_gang = 0;
    for number in 0..CASES {
        let case = cases::make(SEED, number);
        let paper = of_reading(&case, &[]);
        let words = paper.1.as_ref().map(|run| run.1.clone());
        assert_eq!(paper, of_reference(&case, words), "case {number}, {}", case.kind);
        let Some(page) = &case.page else {
            continue;
        };
        if page.has_gang() {
            for (count, difference) in told_apart.iter_mut().zip(DIFFERENCES) {
                *count += usize::from(of_reading(&case, &[difference]) != paper);
            }
        } else {
            without_gang += 1;
            assert_eq!(paper, of_reading(&case, ONES_OF_THE_WORD), "case {number}, {}", case.kind);
        }
    }
    let counts: Vec<_> = DIFFERENCES.into_iter().zip(told_apart).collect();
    println!("{without_gang} cases without a gang; told apart: {counts:?}");
    assert!(without_gang >= LEAST && told_apart.into_iter().all(|count| count >= LEAST), "{counts:?}");
}

/// What the random pages must have.
#[derive(Debug, Default)]
struct Reached {
    gangs: usize,
    width_1_alone: usize,
    as_wide_as_the_machine: usize,
    gangs_in_rounds: usize,
    gangs_with_loops: usize,
    largest: usize,
}

impl Reached {
    fn add(&mut self, page: &Model) {
        let (Some(rounds), Some(widths)) = (&page.rounds, page.widths()) else {
            return;
        };
        let gang = page.has_gang();
        let looped = |a: usize| rounds.loops[a] != NO_LOOP && widths[a] > 1;
        self.gangs += usize::from(gang);
        self.width_1_alone += usize::from(!gang);
        self.as_wide_as_the_machine += usize::from(gang && widths.contains(&page.cores));
        self.gangs_in_rounds += usize::from(gang && rounds.count > 1);
        self.gangs_with_loops += usize::from(rounds.count > 1 && (0..widths.len()).any(looped));
        self.largest += usize::from(gang && page.rounds() * widths.len() == 32);
    }

    fn least(&self) -> usize {
        let widths = [self.gangs, self.width_1_alone, self.as_wide_as_the_machine];
        let others = [self.gangs_in_rounds, self.gangs_with_loops, self.largest];
        widths.into_iter().chain(others).min().unwrap_or(0)
    }
}

#[test]
fn what_the_pages_have() {
    let mut reached = Reached::default();
    for number in 0..CASES {
        cases::make(SEED, number).page.iter().for_each(|page| reached.add(page));
    }
    println!("{reached:?}");
    assert!(reached.least() >= LEAST, "{reached:?}");
}

/// The activities of threads at or above this priority, if none below precedes one of them.
fn urgent(model: &Model, priority: u16) -> Option<u32> {
    let is_urgent = |a: &usize| model.threads[usize::from(model.activities[*a].thread)].priority >= priority;
    let urgent: u32 = (0..model.activities.len()).filter(is_urgent).map(|a| 1 << a).sum();
    let inside = |a: usize| (model.activities[a].temporal | model.activities[a].data) & !urgent == 0;
    (0..model.activities.len()).filter(is_urgent).all(inside).then_some(urgent)
}

/// Two choices inside the ranges that agree on the releases of threads at or above the priority, and on the durations of
/// their activities.
fn choices(random: &mut Random, model: &Model, priority: u16) -> [Choice; 2] {
    let mut any = |range: (u16, u16)| random.within(range.0.into(), range.1.into()) as u16;
    let mut first = Choice { threads: Vec::new(), durations: Vec::new() };
    let mut second = first.clone();
    for thread in &model.threads {
        let release = any(thread.release);
        let other = if thread.priority >= priority { release } else { any(thread.release) };
        first.threads.push((release, any(thread.period)));
        second.threads.push((other, any(thread.period)));
    }
    for activity in &model.activities {
        let duration = any(activity.duration);
        let same = model.threads[usize::from(activity.thread)].priority >= priority;
        first.durations.push(duration);
        second.durations.push(if same { duration } else { any(activity.duration) });
    }
    [first, second]
}

/// "Urgent threads must still not notice the others": their bits agree at every tick, finished or not.
#[test]
fn urgent_threads_do_not_notice_the_others() {
    let mut differing = 0;
    for number in 0..CASES {
        let case = cases::make(SEED, number);
        let Some(page) = case.page.filter(Model::has_gang) else {
            continue;
        };
        let mut model = page.unrolled();
        model.horizon = model.horizon.min(60);
        let random = &mut Random::of_case(SEED, number);
        let priority = random.pick(&model.threads.iter().map(|thread| thread.priority).collect::<Vec<_>>());
        let Some(urgent) = urgent(&model, priority) else {
            continue;
        };
        let bytes = model.bytes();
        let words = choices(random, &model, priority).map(|choice| readings::run(&bytes, &choice.bytes(), &[]).1);
        assert_eq!(words[0].len(), usize::from(model.horizon));
        assert!(words[0].iter().zip(&words[1]).all(|(one, other)| (one ^ other) & urgent == 0), "case {number}");
        differing += usize::from(words[0] != words[1]);
    }
    assert!(differing >= LEAST, "{differing}");
}
