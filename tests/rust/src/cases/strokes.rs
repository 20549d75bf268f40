//! Lists of mark and clear calls for a plan, made one after another: few activities and few ticks, so that calls meet.

use crate::edits::Stroke;
use crate::random::Random;

/// The calls of a list; there are some for bytes that are no plan, too.
pub(super) fn list(random: &mut Random, plan: &[u8]) -> Vec<Stroke> {
    let grid = Grid::of(plan);
    let favourites = [grid.activity(random), grid.activity(random)];
    let length = random.within(1, 8);
    let mut strokes = Vec::new();
    while strokes.len() < length {
        let a = random.pick(&favourites);
        match random.below(12) {
            0 => wipe(random, &grid, a, &mut strokes),
            1..=2 if !strokes.is_empty() => strokes.push(again(random, &strokes)),
            1..=6 => strokes.push(at_an_edge(random, &grid, a)),
            _ => strokes.push(anywhere(random, &grid, a)),
        }
    }
    strokes
}

/// What the calls aim at: the counts that a plan's head tells, whether or not they are true, and what is behind the head.
struct Grid {
    activities: usize,
    horizon: usize,
    /// Start and end of each activity, and the words; too few where the plan has too few bytes.
    rows: Vec<(usize, usize)>,
    words: Vec<u32>,
}

impl Grid {
    fn of(plan: &[u8]) -> Grid {
        let Some(([.., n, m, high, low], behind)) = plan.split_first_chunk::<9>() else {
            return Grid { activities: 3, horizon: 8, rows: Vec::new(), words: Vec::new() };
        };
        let (n, m) = (usize::from(*n), usize::from(*m));
        let fields: Vec<u32> =
            behind.chunks_exact(4).map(|four| u32::from_be_bytes([four[0], four[1], four[2], four[3]])).collect();
        let row = |field: &u32| ((field >> 16) as usize, (field & 65535) as usize);
        Grid {
            activities: m.min(32),
            horizon: u16::from_be_bytes([*high, *low]).into(),
            rows: fields.iter().skip(n).take(m.min(32)).map(row).collect(),
            words: fields.into_iter().skip(n + m).collect(),
        }
    }

    /// Any activity, the last one, or one whose row is not that of its ticks.
    fn activity(&self, random: &mut Random) -> usize {
        let wrong: Vec<usize> = (0..self.rows.len()).filter(|&a| self.rows[a] != self.window(a)).collect();
        match random.below(4) {
            0 => self.activities.saturating_sub(1),
            1..=2 if !wrong.is_empty() => random.pick(&wrong),
            _ => random.below(self.activities),
        }
    }

    fn is_marked(&self, a: usize, t: usize) -> bool {
        self.words.get(t).is_some_and(|word| word >> a & 1 == 1)
    }

    fn window(&self, a: usize) -> (usize, usize) {
        let mut ticks = (0..self.words.len()).filter(|&t| self.is_marked(a, t));
        let first = ticks.next();
        first.map_or((0, 0), |first| (first, ticks.next_back().unwrap_or(first) + 1))
    }

    /// The ticks of an activity.
    fn ticks(&self, a: usize) -> Vec<usize> {
        (0..self.words.len()).filter(|&t| self.is_marked(a, t)).collect()
    }

    /// A call on this bit, mostly one that it is not already so for.
    fn stroke(&self, random: &mut Random, a: usize, t: usize) -> Stroke {
        let marks = if random.one_in(5) { random.one_in(2) } else { !self.is_marked(a, t) };
        Stroke { marks, activity: a as u32, tick: t as u32 }
    }
}

/// Clears every tick of an activity that has a few, and marks none, some or all of them again.
fn wipe(random: &mut Random, grid: &Grid, a: usize, strokes: &mut Vec<Stroke>) {
    let mut ticks = grid.ticks(a);
    let count = ticks.len();
    if !(1..=6).contains(&count) {
        return strokes.push(anywhere(random, grid, a));
    }
    let again = random.pick(&[0, count / 2, count, count]);
    for (marks, count) in [(false, count), (true, again)] {
        if random.one_in(2) {
            ticks.reverse();
        }
        ticks.rotate_left(random.pick(&[0, count / 2]));
        strokes.extend(ticks[..count].iter().map(|&t| Stroke { marks, activity: a as u32, tick: t as u32 }));
    }
}

/// An earlier call of the list once more, or its opposite.
fn again(random: &mut Random, strokes: &[Stroke]) -> Stroke {
    Stroke { marks: random.one_in(2), ..random.pick(strokes) }
}

/// At the first or the last tick of an activity, beside them or between them.
fn at_an_edge(random: &mut Random, grid: &Grid, a: usize) -> Stroke {
    let ticks = grid.ticks(a);
    let (Some(&first), Some(&last)) = (ticks.first(), ticks.last()) else {
        return anywhere(random, grid, a);
    };
    let between = random.within(first, last);
    let t = random.pick(&[first, last, first.saturating_sub(1), last + 1, between]);
    grid.stroke(random, a, t)
}

/// At any tick, of any activity now and then; one or both outside of what there is now and then.
fn anywhere(random: &mut Random, grid: &Grid, a: usize) -> Stroke {
    let Grid { activities, horizon, .. } = *grid;
    let a = if random.one_in(3) { random.below(activities) } else { a };
    let t = random.below(horizon);
    let last = horizon.saturating_sub(1);
    let t = random.pick(&[0, last, last, t, t]);
    let mut stroke = grid.stroke(random, a, t);
    if random.one_in(8) {
        let others = [activities, activities + 1, 31, 32, 33, 255, 256 + a, 65536 + a];
        stroke.activity = if random.one_in(8) { u32::MAX } else { random.pick(&others) as u32 };
    }
    if random.one_in(8) {
        let others = [horizon, horizon + 1, 4096, 65535, 65536, 65536 + t];
        stroke.tick = if random.one_in(8) { u32::MAX } else { random.pick(&others) as u32 };
    }
    stroke
}
