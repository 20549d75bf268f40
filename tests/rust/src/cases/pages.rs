//! Models, choices and pages: a grid is filled as the run does, or with habits that leave the rules.

use crate::random::Random;
use crate::records::{ActivityRow, Choice, Model, Plan, Rounds, ThreadRow, NO_LOOP};

struct Size {
    threads: usize,
    activities: usize,
    /// The most work of one activity.
    duration: usize,
    largest: bool,
}

fn size(random: &mut Random) -> Size {
    match random.below(200) {
        0 => Size { threads: 8, activities: 32, duration: 900, largest: true },
        1..=25 => Size { threads: 8, activities: 32, duration: 6, largest: false },
        _ => Size { threads: 3, activities: 6, duration: 4, largest: false },
    }
}

/// A model of any version that meets its form rules, with the longest horizon. It has periods only if there are several
/// rounds.
pub(crate) fn model(random: &mut Random) -> Model {
    let version = random.pick(&[1, 1, 1, 2, 2, 3, 3, 3]);
    model_of_version(random, version)
}

/// A model with a width above 1.
fn gang_model(random: &mut Random) -> Model {
    loop {
        let model = model_of_version(random, 3);
        if model.has_gang() {
            return model;
        }
    }
}

fn model_of_version(random: &mut Random, version: u8) -> Model {
    let size = size(random);
    let rounds = match version {
        1 => None,
        2 => Some(random.within(1, 4)),
        _ => Some(random.pick(&[1, 1, 2, 3, 4])),
    };
    let most_threads = size.threads.min(8 / rounds.unwrap_or(1));
    let most_activities = size.activities.min(32 / rounds.unwrap_or(1));
    let n = if size.largest { most_threads } else { random.within(1, most_threads) };
    let m = if size.largest { most_activities } else { random.within(1, most_activities) };
    let cores = match random.below(8) {
        _ if version == 3 => random.pick(&[1, 2, 2, 3, 3, 4, 4, 5, 6, 8]),
        0..=3 => 1,
        4..=5 => 2,
        6 => random.within(1, 4),
        _ => random.within(1, 8),
    };
    let releases = random.pick(&[0, 0, 3, 8]);
    let huge_release = random.one_in(40);
    let huge_delay = random.one_in(25);
    let priorities = random.pick(&[1, 2, 3, 3, 65536]);
    let threads = (0..n)
        .map(|_| {
            let huge = huge_release && random.one_in(2);
            let least = if huge { random.pick(&[4096, 65000, 65532]) } else { random.below(releases + 1) as u16 };
            let most = least + random.below(4) as u16;
            let period = if random.one_in(3) { 0 } else { random.pick(&[1, 2, 4, 7, 12, 30]) };
            let period = period.min(most_period(most, rounds.unwrap_or(1)));
            ThreadRow { period: (period, period), release: (least, most), priority: random.below(priorities) as u16 }
        })
        .collect();
    let delays = random.pick(&[0, 0, 3, 6]);
    // With few predecessors many activities wait for a core, so that gangs meet.
    let thinness = if version == 3 { random.pick(&[4, 32, 1000]) } else { random.pick(&[2, 4, 8, 32, 1000]) };
    let activities = (0..m)
        .map(|a| {
            let least = random.within(1, size.duration) as u16;
            let most = least + random.below(3) as u16;
            let huge = huge_delay && random.one_in(2);
            let delay = if huge { random.pick(&[4095, 65000, 65530, 65535]) } else { random.below(delays + 1) as u16 };
            ActivityRow {
                thread: random.below(n) as u8,
                duration: (least, most),
                delay,
                temporal: mask(random, a, thinness),
                data: mask(random, a, thinness),
            }
        })
        .collect();
    let rounds = rounds.map(|count| Rounds {
        count: count as u8,
        loops: loops(random, m),
        widths: (version == 3).then(|| widths(random, m, cores)),
    });
    Model { cores: cores as u8, horizon: 4096, threads, activities, rounds }
}

/// The greatest period of a thread with this most release that 52 allows; 0 where there is one round.
fn most_period(most_release: u16, rounds: usize) -> u16 {
    match rounds {
        1 => 0,
        _ => (65535 - most_release) / (rounds as u16 - 1),
    }
}

/// A loop byte for each of `m` rows: none, or the row itself, an earlier one or a later one.
fn loops(random: &mut Random, m: usize) -> Vec<u8> {
    let thinness = random.pick(&[1, 2, 2, 4, 1000]);
    let row = |a: usize| match random.below(3 * thinness) {
        0 => a as u8,
        1..=2 => random.below(m) as u8,
        _ => NO_LOOP,
    };
    (0..m).map(row).collect()
}

/// A width for each of `m` rows: all 1, 1 or all cores, about half of the cores, or any.
fn widths(random: &mut Random, m: usize, cores: usize) -> Vec<u8> {
    let kind = random.below(6);
    let width = |_| match kind {
        0 => 1,
        1 => random.pick(&[1, 1, cores]),
        2 => random.pick(&[1, cores.div_ceil(2), cores / 2 + 1]).min(cores),
        _ => random.within(1, cores),
    };
    (0..m).map(width).map(|width| width as u8).collect()
}

/// A mask of bits below `limit`, each set once in `thinness` on average.
fn mask(random: &mut Random, limit: usize, thinness: usize) -> u32 {
    (0..limit).filter(|_| random.one_in(thinness)).map(|b| 1 << b).sum()
}

/// A choice for a model of one round.
pub(super) fn choice(random: &mut Random, model: &Model) -> Choice {
    let mut between = |range: (u16, u16)| random.within(range.0.into(), range.1.into()) as u16;
    Choice {
        threads: model.threads.iter().map(|thread| (between(thread.release), between(thread.period))).collect(),
        durations: model.activities.iter().map(|activity| between(activity.duration)).collect(),
    }
}

// Grids

/// How a grid is filled. Without any habit it is filled as the run does.
#[derive(Default)]
pub(super) struct Habits {
    pub(super) ignores_temporal: bool,
    pub(super) ignores_delay: bool,
    pub(super) ignores_data: bool,
    pub(super) ignores_release: bool,
    pub(super) more_cores: usize,
    /// Instead of the thread's priority.
    pub(super) rank: Option<Vec<usize>>,
    pub(super) ties_to_higher: bool,
    /// Passes over a ready activity once in this many; 0 for never.
    pub(super) lazy: usize,
    /// Ends the walk at the first ready activity that does not fit.
    pub(super) stops_at_misfit: bool,
    /// Takes as many activities as there are cores, whatever their widths.
    pub(super) counts_ones: bool,
}

/// Fills a grid up to the tick at which nothing is owed, or to 4096 ticks.
fn fill(random: &mut Random, model: &Model, choice: &Choice, habits: &Habits) -> Vec<u32> {
    let m = model.activities.len();
    let rank = |a: usize| match &habits.rank {
        Some(rank) => rank[a],
        None => model.threads[usize::from(model.activities[a].thread)].priority.into(),
    };
    let mut order: Vec<usize> = (0..m).collect();
    order.sort_by(|&a, &b| rank(b).cmp(&rank(a)).then(if habits.ties_to_higher { b.cmp(&a) } else { a.cmp(&b) }));
    let mut owed: Vec<usize> = choice.durations.iter().map(|&duration| duration.into()).collect();
    let mut end: Vec<Option<usize>> = vec![None; m];
    let mut words = Vec::new();
    while words.len() < 4096 && end.contains(&None) {
        let t = words.len();
        let mut word = 0u32;
        let mut free = usize::from(model.cores) + habits.more_cores;
        for &a in &order {
            let activity = &model.activities[a];
            let ended = |b: usize, delay: usize| end[b].is_some_and(|end| end + delay <= t);
            let temporal = |b: usize| {
                habits.ignores_temporal
                    || activity.temporal >> b & 1 == 0
                    || ended(b, if habits.ignores_delay { 0 } else { model.activities[b].delay.into() })
            };
            let data = |b: usize| habits.ignores_data || activity.data >> b & 1 == 0 || ended(b, 0);
            let release = usize::from(choice.threads[usize::from(activity.thread)].0);
            let ready =
                owed[a] > 0 && (habits.ignores_release || release <= t) && (0..a).all(temporal) && (0..a).all(data);
            let width = if habits.counts_ones { 1 } else { model.width(a).into() };
            if ready && width > free && habits.stops_at_misfit {
                break;
            }
            if ready && width <= free && !(habits.lazy > 0 && random.one_in(habits.lazy)) {
                word |= 1 << a;
                free -= width;
            }
        }
        for a in 0..m {
            if word >> a & 1 == 1 {
                owed[a] -= 1;
                if owed[a] == 0 {
                    end[a] = Some(t + 1);
                }
            }
        }
        words.push(word);
    }
    words
}

/// A model with a choice and a plan.
pub(super) struct Page {
    pub(super) model: Model,
    pub(super) choice: Choice,
    pub(super) plan: Plan,
}

/// A page whose grid was filled with these habits.
pub(super) fn page(random: &mut Random, habits: fn(&mut Random, &Model) -> Habits) -> Page {
    let model = model(random);
    page_of(random, model, habits)
}

/// A page of a model with a gang.
pub(super) fn gang_page(random: &mut Random, habits: fn(&mut Random, &Model) -> Habits) -> Page {
    let model = gang_model(random);
    page_of(random, model, habits)
}

/// A page of this model; the horizon and the periods leave the grid room.
fn page_of(random: &mut Random, mut model: Model, habits: fn(&mut Random, &Model) -> Habits) -> Page {
    let mut choice = choice(random, &model.unrolled());
    let habits = habits(random, &model.unrolled());
    let mut words = fill(random, &model.unrolled(), &choice, &habits);
    while lengthen_periods(random, &mut model, &mut choice, &words) {
        words = fill(random, &model.unrolled(), &choice, &habits);
    }
    if words.len() < 4096 {
        let room = random.pick(&[0, 0, 1, 2, 5]);
        words.resize(usize::min(words.len() + room, 4096), 0);
    } else {
        // Something is owed still, whatever the horizon.
        words.truncate(random.pick(&[20, 20, 20, 20, 4096]));
    }
    model.horizon = words.len() as u16;
    let plan = Plan::of_words(choice.threads.clone(), choice.durations.len(), words);
    let ends: Vec<usize> = plan.rows.iter().map(|row| row.1.into()).collect();
    set_periods(random, &mut model, &mut choice, &ends, 0);
    let plan = Plan { threads: choice.threads.clone(), ..plan };
    Page { model, choice, plan }
}

/// Gives each thread whose ends pass a deadline a longer period, or none; whether there was such a thread.
fn lengthen_periods(random: &mut Random, model: &mut Model, choice: &mut Choice, words: &[u32]) -> bool {
    let plan = Plan::of_words(choice.threads.clone(), choice.durations.len(), words.to_vec());
    let mut changed = false;
    for j in 0..model.threads.len() {
        let ThreadRow { period, release, .. } = model.threads[j];
        let taken = taken(model, &plan, j);
        if period.0 > 0 && taken > period.0.into() {
            let longer = taken + random.pick(&[0, 0, 1, 3]);
            let fits = longer <= most_period(release.1, model.rounds()).into() && !random.one_in(6);
            change_period(model, choice, j, if fits { longer as u16 } else { 0 });
            changed = true;
        }
    }
    changed
}

/// The most ticks from a release of the thread of row `j` to an end of its activities, over all rounds.
fn taken(model: &Model, plan: &Plan, j: usize) -> usize {
    let (n, m) = (model.threads.len(), model.activities.len());
    let owned = |(number, _): &(usize, &(u16, u16))| usize::from(model.activities[number % m].thread) == j;
    let ticks = |(number, row): (usize, &(u16, u16))| row.1.saturating_sub(plan.threads[number / m * n + j].0);
    plan.rows.iter().enumerate().filter(owned).map(ticks).max().unwrap_or(0).into()
}

/// Gives the thread of row `j` this period, and each round's release its old place in the moved range.
fn change_period(model: &mut Model, choice: &mut Choice, j: usize, period: u16) {
    let old = model.threads[j].period.0;
    model.threads[j].period = (period, period);
    for (k, chosen) in choice.threads.iter_mut().skip(j).step_by(model.threads.len()).enumerate() {
        *chosen = (chosen.0 - k as u16 * old + k as u16 * period, period);
    }
}

/// Gives half of the threads a period that their ends keep after the release, and one in `late` of those a shorter one.
/// With several rounds the periods stand already.
pub(super) fn set_periods(random: &mut Random, model: &mut Model, choice: &mut Choice, ends: &[usize], late: usize) {
    if model.rounds() > 1 {
        return shorten_periods(random, model, choice, late);
    }
    for j in 0..model.threads.len() {
        if random.one_in(2) {
            continue;
        }
        let owned = |(a, _): &(usize, &usize)| usize::from(model.activities[*a].thread) == j;
        let greatest = ends.iter().enumerate().filter(owned).map(|(_, &end)| end).max().unwrap_or(0);
        let taken = greatest.saturating_sub(choice.threads[j].0.into());
        let period = if late > 0 && random.one_in(late) && taken > 1 {
            let shorter = [taken - 1, random.within(1, taken - 1)];
            random.pick(&shorter)
        } else {
            taken + random.pick(&[0, 0, 0, 1, 1, 7, 65535])
        };
        let period = period.clamp(1, 65535);
        let least = random.pick(&[period, 1, period / 2 + 1]).min(period);
        let most = random.pick(&[period, period + 3, 65535]).min(65535);
        model.threads[j].period = (least as u16, most as u16);
        choice.threads[j].1 = period as u16;
    }
}

/// Shortens one period in `late`, none for 0.
fn shorten_periods(random: &mut Random, model: &mut Model, choice: &mut Choice, late: usize) {
    for j in 0..model.threads.len() {
        let period = model.threads[j].period.0;
        if late > 0 && random.one_in(late) && period > 1 {
            let shorter = random.pick(&[period - 1, period / 2, 1]);
            change_period(model, choice, j, shorter);
        }
    }
}

pub(super) fn no_habits(_: &mut Random, _: &Model) -> Habits {
    Habits::default()
}
