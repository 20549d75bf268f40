//! Lists of asks, keeps and direct edits for a plan, made one after another on few bits, so that calls meet. In some of them
//! the plan or the model is changed elsewhere between two calls, and changed back between later ones.

use super::damage::{damage_model, FORM_RULES};
use super::{strokes, Case};
use crate::edits::Stroke;
use crate::keeping::lists::{Elsewhere, Lent, Turn};
use crate::keeping::{self, Call};
use crate::random::Random;
use crate::records::{Model, Plan, Rounds, NO_LOOP};
use crate::Editing;

/// The state to begin with: every second time that of a new editor; otherwise nothing is asked by another number, or an edit is
/// asked already.
pub(super) fn state(random: &mut Random, plan: &[u8]) -> Editing {
    let strokes = strokes::list(random, plan);
    let Stroke { activity, tick, .. } = random.pick(&strokes);
    let asked = match random.below(8) {
        0..=3 => return Editing::default(),
        4..=5 => random.pick(&[0, 0, 3, 4, 7, 255, 256, 257, 258, 65537, 1 << 31 | 1, u32::MAX]),
        _ => random.pick(&[1, 2]),
    };
    let mut figure = |_| if random.one_in(3) { u32::MAX } else { random.below(99) as u32 };
    Editing { asked, activity, tick, total: figure(0), counts: std::array::from_fn(figure) }
}

/// The turns of a list that begins with this state; there are some for bytes that are no plan, too.
pub(super) fn list(random: &mut Random, case: &Case, state: Editing) -> Vec<Turn> {
    let mut pool = strokes::list(random, &case.second);
    pool.truncate(random.within(1, 4));
    let is_changed = random.one_in(3);
    // What takes back the latest change.
    let mut back = None;
    let mut lent = Lent::new(&case.model, &case.second, state);
    let mut turns: Vec<Turn> = Vec::new();
    for _ in 0..random.within(2, 10) {
        let call = call(random, &pool, lent.plan(), turns.last());
        let turn = if !is_changed || random.one_in(2) {
            Turn { elsewhere: None, call }
        } else if let Some(back) = back.take() {
            // Often a keep, of an ask from before the change.
            Turn { elsewhere: Some(back), call: if random.one_in(2) { Call::Keep } else { call } }
        } else {
            let change = change(random, case, &pool);
            back = Some(taken_back(case, &change));
            Turn { elsewhere: Some(change), call }
        };
        lent.make(&turn, keeping::make);
        turns.push(turn);
    }
    turns
}

/// A call, often on the bit of the call before; after an ask it is a keep every second time.
fn call(random: &mut Random, pool: &[Stroke], plan: &[u8], before: Option<&Turn>) -> Call {
    let before = before.map(|turn| turn.call);
    let stroke = match before {
        Some(Call::Ask(stroke) | Call::Edit(stroke)) if random.one_in(3) => stroke,
        _ => random.pick(pool),
    };
    let stroke = if random.one_in(4) { stroke } else { turning(plan, stroke) };
    match (before, random.below(10)) {
        (Some(Call::Ask(_)), 0..=4) | (_, 0..=1) => Call::Keep,
        (_, 2..=6) => Call::Ask(stroke),
        _ => Call::Edit(stroke),
    }
}

/// The edit of the same bit that it is not already so for, as the plan is now.
fn turning(plan: &[u8], stroke: Stroke) -> Stroke {
    let place = bit(plan, stroke.activity, stroke.tick);
    let is_marked = place.and_then(|(at, bits)| Some(plan.get(at)? & bits != 0));
    Stroke { marks: is_marked.map_or(stroke.marks, |is_marked| !is_marked), ..stroke }
}

// What is changed elsewhere

fn change(random: &mut Random, case: &Case, pool: &[Stroke]) -> Elsewhere {
    let stroke = random.pick(pool);
    match random.below(9) {
        0..=2 => Elsewhere::Turned(bit(&case.second, stroke.activity, stroke.tick).into_iter().collect()),
        3 => Elsewhere::Turned(row(random, &case.second, stroke.activity)),
        4..=5 => Elsewhere::Turned(broken(random, &case.second)),
        6 => Elsewhere::Model(other_model(random, case)),
        _ => smaller_page(random, case),
    }
}

/// The change that undoes this one, but for what was edited on another page.
fn taken_back(case: &Case, change: &Elsewhere) -> Elsewhere {
    match change {
        Elsewhere::Turned(_) => change.clone(),
        Elsewhere::Model(_) => Elsewhere::Model(case.model.clone()),
        Elsewhere::Page(..) => Elsewhere::Page(case.model.clone(), case.second.clone()),
    }
}

/// Where a bit of the grid lies in a plan, by the counts of its head.
fn bit(plan: &[u8], activity: u32, tick: u32) -> Option<(usize, u8)> {
    let (&n, &m) = plan.get(5).zip(plan.get(6))?;
    let a = Some(activity as usize).filter(|&a| a < 32)?;
    let grid = 9 + 4 * usize::from(n) + 4 * usize::from(m);
    Some((grid + 4 * tick as usize + 3 - a / 8, 1 << (a % 8)))
}

/// A byte or two of an activity's row.
fn row(random: &mut Random, plan: &[u8], activity: u32) -> Vec<(usize, u8)> {
    let n = plan.get(5).copied().unwrap_or(0);
    let at = 9 + 4 * usize::from(n) + 4 * activity.min(31) as usize;
    (0..random.within(1, 2)).map(|_| (at + random.below(4), random.pick(&[1, 2, 8, 255]))).collect()
}

/// Breaks one of 8 to 12 or 14: in the head, in the thread rows, or by a bit at or above m.
fn broken(random: &mut Random, plan: &[u8]) -> Vec<(usize, u8)> {
    let m = u32::from(plan.get(6).copied().unwrap_or(0));
    let n = usize::from(plan.get(5).copied().unwrap_or(0));
    match random.below(4) {
        0 => vec![(random.below(9), random.pick(&[1, 2, 255]))],
        1 => vec![(9 + random.below(4 * n), random.pick(&[128, 255]))],
        _ => bit(plan, random.pick(&[m, 31]), random.pick(&[0, 1])).into_iter().collect(),
    }
}

/// A damaged model, or one with other cores for the same plan.
fn other_model(random: &mut Random, case: &Case) -> Vec<u8> {
    let mut model = case.model.clone();
    match &case.page {
        Some(page) if random.one_in(2) => {
            let number = random.pick(FORM_RULES);
            damage_model(random, number, page, &mut model);
        }
        _ => model.iter_mut().skip(5).take(1).for_each(|cores| *cores = random.within(1, 8) as u8),
    }
    model
}

/// A page with fewer activities or ticks or both, and what this leaves of the plan; the rows are counted.
fn smaller_page(random: &mut Random, case: &Case) -> Elsewhere {
    let Some(page) = case.page.as_ref().filter(|page| page.plan_length() == case.second.len()) else {
        return Elsewhere::Model(other_model(random, case));
    };
    let model = smaller_model(random, page);
    let (n, m) = (page.rounds() * page.threads.len(), page.rounds() * page.activities.len());
    let fields = case.second[9..].chunks_exact(4).map(|four| u32::from_be_bytes([four[0], four[1], four[2], four[3]]));
    let threads = fields.clone().take(n).map(|field| ((field >> 16) as u16, field as u16)).collect();
    let activities = model.rounds() * model.activities.len();
    let below = u32::MAX >> (32 - activities);
    let words = fields.skip(n + m).take(model.horizon.into()).map(|word| word & below).collect();
    Elsewhere::Page(model.bytes(), Plan::of_words(threads, activities, words).bytes())
}

fn smaller_model(random: &mut Random, page: &Model) -> Model {
    let kind = random.below(3);
    let horizon = if kind == 0 { page.horizon } else { page.horizon.div_ceil(2) };
    let m = if kind == 1 { page.activities.len() } else { page.activities.len().div_ceil(2) };
    let rounds = page.rounds.as_ref().map(|rounds| Rounds {
        loops: rounds.loops[..m].iter().map(|&q| if usize::from(q) < m { q } else { NO_LOOP }).collect(),
        widths: rounds.widths.as_ref().map(|widths| widths[..m].to_vec()),
        ..*rounds
    });
    Model { horizon, threads: page.threads.clone(), activities: page.activities[..m].to_vec(), rounds, ..*page }
}
