//! Plans for the checks: the run's own, altered ones, and those whose grids were filled with other habits.

use super::pages::{gang_page, no_habits, page, set_periods, Habits, Page};
use super::{plan_case, Case};
use crate::random::Random;
use crate::records::{Model, Plan};

pub(super) fn sound_plan(random: &mut Random) -> Case {
    plan_case(&page(random, no_habits))
}

type Alteration = fn(&mut Random, &mut Page);

/// Each alteration of a plan. One that changes the words mostly takes the rows from them again, so the rows come last.
const ALTERATIONS: &[Alteration] = &[
    moved_tick,
    exchanged_activities,
    exchanged_ticks,
    flipped_bits,
    idle_tick,
    shorter_periods,
    other_durations,
    other_widths,
    nudged_rows,
];

/// The plan of the run, altered.
pub(super) fn altered(random: &mut Random, alterations: &[Alteration]) -> Case {
    let page = page(random, no_habits);
    altered_page(random, page, alterations)
}

/// The plan of the run of a model with a gang, altered.
pub(super) fn altered_gangs(random: &mut Random, alterations: &[Alteration]) -> Case {
    let page = gang_page(random, no_habits);
    altered_page(random, page, alterations)
}

fn altered_page(random: &mut Random, mut page: Page, alterations: &[Alteration]) -> Case {
    for alteration in alterations {
        alteration(random, &mut page);
    }
    plan_case(&page)
}

pub(super) fn two_alterations(random: &mut Random) -> Case {
    let later = random.below(ALTERATIONS.len());
    let earlier = random.within(0, later);
    altered(random, &[ALTERATIONS[earlier], ALTERATIONS[later]])
}

/// Takes the rows from the words again, but for one time in eight.
fn settle(random: &mut Random, page: &mut Page) {
    if !random.one_in(8) {
        let plan = &page.plan;
        page.plan = Plan::of_words(plan.threads.clone(), plan.rows.len(), plan.words.clone());
    }
}

pub(super) fn moved_tick(random: &mut Random, page: &mut Page) {
    let a = random.below(page.plan.rows.len());
    let words = &mut page.plan.words;
    let from: Vec<usize> = (0..words.len()).filter(|&t| words[t] >> a & 1 == 1).collect();
    let to: Vec<usize> = (0..words.len()).filter(|&t| words[t] >> a & 1 == 0).collect();
    if !from.is_empty() && !to.is_empty() {
        let from = match random.below(3) {
            0 => from[0],
            1 => from[from.len() - 1],
            _ => random.pick(&from),
        };
        let near: Vec<usize> = to.iter().copied().filter(|&t| t.abs_diff(from) < 4).collect();
        let to = if near.is_empty() || random.one_in(3) { random.pick(&to) } else { random.pick(&near) };
        words[from] &= !(1 << a);
        words[to] |= 1 << a;
    }
    settle(random, page);
}

pub(super) fn exchanged_activities(random: &mut Random, page: &mut Page) {
    let a = random.below(page.plan.rows.len());
    let b = random.below(page.plan.rows.len());
    let from = if random.one_in(2) { 0 } else { random.below(page.plan.words.len()) };
    for word in &mut page.plan.words[from..] {
        let bits = (*word >> a & 1, *word >> b & 1);
        *word = *word & !(1 << a) & !(1 << b) | bits.0 << b | bits.1 << a;
    }
    settle(random, page);
}

pub(super) fn exchanged_ticks(random: &mut Random, page: &mut Page) {
    let s = random.below(page.plan.words.len());
    let t = if random.one_in(2) { random.below(page.plan.words.len()) } else { (s + 1) % page.plan.words.len() };
    page.plan.words.swap(s, t);
    settle(random, page);
}

pub(super) fn nudged_rows(random: &mut Random, page: &mut Page) {
    let horizon = page.model.horizon;
    for _ in 0..random.within(1, 2) {
        let a = random.below(page.plan.rows.len());
        let (start, end) = page.plan.rows[a];
        let nudge = |random: &mut Random, value: u16| {
            random.pick(&[value.wrapping_add(1), value.wrapping_sub(1), 0, horizon, horizon + 1, 65535])
        };
        page.plan.rows[a] = match random.below(4) {
            0 => (nudge(random, start), end),
            1 => (start, nudge(random, end)),
            2 => (end, start),
            _ => (nudge(random, start), nudge(random, end)),
        };
    }
    if random.one_in(4) {
        let j = random.below(page.plan.threads.len());
        let (release, period) = &mut page.plan.threads[j];
        *release = release.wrapping_add(random.pick(&[0, 1, 65535]));
        *period = period.wrapping_add(random.pick(&[0, 1, 65535]));
    }
}

pub(super) fn flipped_bits(random: &mut Random, page: &mut Page) {
    for _ in 0..random.within(1, 3) {
        let t = random.below(page.plan.words.len());
        page.plan.words[t] ^= 1 << random.below(page.plan.rows.len());
    }
    settle(random, page);
}

pub(super) fn idle_tick(random: &mut Random, page: &mut Page) {
    if page.model.horizon < 4096 {
        page.model.horizon += 1;
        let t = random.below(page.plan.words.len());
        let idle = random.pick(&[0, 0, page.plan.words[t]]);
        page.plan.words.insert(t, idle);
    }
    settle(random, page);
}

pub(super) fn other_durations(random: &mut Random, page: &mut Page) {
    for _ in 0..random.within(1, 2) {
        let a = random.below(page.plan.rows.len());
        let count = page.choice.durations[a];
        let row = a % page.model.activities.len();
        page.model.activities[row].duration =
            if count > 1 && random.one_in(2) { (1, count - 1) } else { (count + 1, count + 2) };
    }
}

/// The words are those of other widths.
pub(super) fn other_widths(random: &mut Random, page: &mut Page) {
    let (m, cores) = (page.model.activities.len(), page.model.cores);
    if let Some(widths) = page.model.rounds.as_mut().and_then(|rounds| rounds.widths.as_mut()) {
        for _ in 0..random.within(1, 2) {
            let a = random.below(m);
            let near = if random.one_in(2) { widths[a] + 1 } else { widths[a].max(2) - 1 };
            widths[a] = random.pick(&[near, near, 1, cores]).min(cores);
        }
    }
}

pub(super) fn shorter_periods(random: &mut Random, page: &mut Page) {
    let ends: Vec<usize> = page.plan.rows.iter().map(|row| row.1.into()).collect();
    set_periods(random, &mut page.model, &mut page.choice, &ends, 2);
    page.plan.threads = page.choice.threads.clone();
}

pub(super) fn temporal_ignored(random: &mut Random) -> Case {
    let page = page(random, |random, _| match random.below(2) {
        0 => Habits { ignores_temporal: true, ..Habits::default() },
        _ => Habits { ignores_delay: true, ..Habits::default() },
    });
    plan_case(&page)
}

pub(super) fn data_ignored(random: &mut Random) -> Case {
    let page = page(random, |_, _| Habits { ignores_data: true, ..Habits::default() });
    plan_case(&page)
}

pub(super) fn release_ignored(random: &mut Random) -> Case {
    let page = page(random, |_, _| Habits { ignores_release: true, ..Habits::default() });
    plan_case(&page)
}

pub(super) fn more_cores(random: &mut Random) -> Case {
    let page = page(random, |random, _| Habits { more_cores: random.within(1, 3), ..Habits::default() });
    plan_case(&page)
}

fn any_rank(random: &mut Random, model: &Model) -> Option<Vec<usize>> {
    Some(model.activities.iter().map(|_| random.below(3)).collect())
}

pub(super) fn other_priorities(random: &mut Random) -> Case {
    let page = page(random, |random, model| Habits { rank: any_rank(random, model), ..Habits::default() });
    plan_case(&page)
}

pub(super) fn other_priorities_of_gangs(random: &mut Random) -> Case {
    let page = gang_page(random, |random, model| Habits { rank: any_rank(random, model), ..Habits::default() });
    plan_case(&page)
}

pub(super) fn ties_to_higher(random: &mut Random) -> Case {
    let page = page(random, |_, _| Habits { ties_to_higher: true, ..Habits::default() });
    plan_case(&page)
}

pub(super) fn lazy(random: &mut Random) -> Case {
    let page = page(random, |random, _| Habits { lazy: random.pick(&[2, 4, 10]), ..Habits::default() });
    plan_case(&page)
}

pub(super) fn stops_at_misfit(random: &mut Random) -> Case {
    let page = gang_page(random, |_, _| Habits { stops_at_misfit: true, ..Habits::default() });
    plan_case(&page)
}

pub(super) fn ones_for_widths(random: &mut Random) -> Case {
    let page = gang_page(random, |_, _| Habits { counts_ones: true, ..Habits::default() });
    plan_case(&page)
}

/// The narrowest or the widest first, or of equal priority only.
pub(super) fn rank_by_width(random: &mut Random) -> Case {
    let page = gang_page(random, |random, model| {
        let widest = random.one_in(2);
        let priorities = random.pick(&[0, 16]);
        let rank = |a: usize| {
            let width = usize::from(model.width(a));
            let priority = usize::from(model.threads[usize::from(model.activities[a].thread)].priority);
            priorities * priority + if widest { width } else { 8 - width }
        };
        Habits { rank: Some((0..model.activities.len()).map(rank).collect()), ..Habits::default() }
    });
    plan_case(&page)
}

pub(super) fn several_habits(random: &mut Random) -> Case {
    let page = page(random, |random, model| Habits {
        ignores_temporal: random.one_in(5),
        ignores_delay: random.one_in(5),
        ignores_data: random.one_in(5),
        ignores_release: random.one_in(5),
        more_cores: random.pick(&[0, 0, 0, 1]),
        rank: if random.one_in(3) { any_rank(random, model) } else { None },
        ties_to_higher: random.one_in(3),
        lazy: random.pick(&[0, 0, 4]),
        stops_at_misfit: random.one_in(5),
        counts_ones: random.one_in(8),
    });
    plan_case(&page)
}
