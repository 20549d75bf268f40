//! The three records: what their bytes say, and the form rules.
//!
//! A model of several rounds "means the plain model unrolled" (02): that one is made once the record has met its form rules,
//! and everything behind speaks of it alone.

use super::{refuse, Refusal};

pub(super) struct Thread {
    pub(super) least_period: u32,
    pub(super) most_period: u32,
    pub(super) least_release: u32,
    pub(super) most_release: u32,
    pub(super) priority: u32,
}

pub(super) struct Activity {
    pub(super) thread: usize,
    pub(super) least_duration: u32,
    pub(super) most_duration: u32,
    pub(super) delay: u32,
    pub(super) temporal: u32,
    pub(super) data: u32,
    /// How many cores it takes at each of its ticks.
    pub(super) width: u32,
}

/// A plain model of one round.
pub(super) struct Model {
    pub(super) cores: u32,
    pub(super) horizon: u32,
    pub(super) threads: Vec<Thread>,
    pub(super) activities: Vec<Activity>,
}

impl Model {
    pub(super) fn priority(&self, a: usize) -> u32 {
        self.threads[self.activities[a].thread].priority
    }

    /// "By priority, highest first, then by lower activity number."
    pub(super) fn ranks_before(&self, a: usize, b: usize) -> bool {
        self.priority(a) > self.priority(b) || self.priority(a) == self.priority(b) && a < b
    }

    /// "The sum of active widths" (02), which the ones in a word have become.
    pub(super) fn load(&self, word: u32) -> u32 {
        bits(word).map(|a| self.activities[a].width).sum()
    }
}

/// The chosen release and period of a thread.
pub(super) struct Chosen {
    pub(super) release: u32,
    pub(super) period: u32,
}

impl Chosen {
    /// The tick that no end may pass, for 23, 43 and the report: "release + period" (02); none for a thread without a
    /// period.
    pub(super) fn deadline(&self) -> Option<u32> {
        (self.period != 0).then_some(self.release + self.period)
    }

    /// Whether this end of an activity breaks rule 23.
    pub(super) fn late(&self, end: u32) -> bool {
        self.deadline().is_some_and(|deadline| end > deadline)
    }
}

pub(super) struct Choice {
    pub(super) threads: Vec<Chosen>,
    pub(super) durations: Vec<u32>,
}

pub(super) struct Plan {
    pub(super) threads: Vec<Chosen>,
    pub(super) start: Vec<u32>,
    pub(super) end: Vec<u32>,
    pub(super) words: Vec<u32>,
}

fn byte(bytes: &[u8], at: usize) -> u32 {
    u32::from(bytes[at])
}

fn short(bytes: &[u8], at: usize) -> u32 {
    u32::from(u16::from_be_bytes([bytes[at], bytes[at + 1]]))
}

fn long(bytes: &[u8], at: usize) -> u32 {
    u32::from_be_bytes([bytes[at], bytes[at + 1], bytes[at + 2], bytes[at + 3]])
}

/// The numbers of the set bits, lowest first.
pub(super) fn bits(mut mask: u32) -> impl Iterator<Item = usize> {
    std::iter::from_fn(move || {
        if mask == 0 {
            return None;
        }
        let lowest = mask.trailing_zeros();
        mask &= mask - 1;
        Some(lowest as usize)
    })
}

/// Whether a bit at or above `limit` is set; `limit` is 0 to 32.
fn has_bit_from(mask: u32, limit: usize) -> bool {
    u64::from(mask) >> limit != 0
}

pub(super) fn plan_length(model: &Model) -> usize {
    9 + 4 * model.threads.len() + 4 * model.activities.len() + 4 * model.horizon as usize
}

/// What a model's record holds: "version 1 is one round without loops", and "older models have width 1" (02).
struct Written {
    /// The rows as they stand in the record.
    round: Model,
    rounds: usize,
    /// Of each activity the row that its loop byte names, if any.
    loops: Vec<Option<usize>>,
}

/// The loop byte "for none".
const NO_LOOP: u32 = 255;

/// 1 to 7, 51 to 53 and 57, then the unrolled model.
pub(super) fn read_model(bytes: &[u8]) -> Result<Model, Refusal> {
    let written = read_written(bytes)?;
    written.thread_ranges()?;
    written.moved_releases()?;
    written.activity_ranges()?;
    written.loop_rows()?;
    written.widths()?;
    written.masks()?;
    Ok(written.unrolled())
}

/// 1 to 4 and 51, then the rows.
fn read_written(bytes: &[u8]) -> Result<Written, Refusal> {
    if bytes.len() < 10 || long(bytes, 0) as usize != bytes.len() {
        return refuse(1, 0, 0);
    }
    let version = byte(bytes, 4);
    // Version 2 "has after H a byte i, and each activity row ends with a loop byte"; version 3 is that "with a last byte in
    // each activity row, its width".
    let (head, row_length) = match version {
        1 => (10, 15),
        2 => (11, 16),
        3 => (11, 17),
        _ => return refuse(2, 0, 0),
    };
    let cores = byte(bytes, 5);
    let n = byte(bytes, 6) as usize;
    let m = byte(bytes, 7) as usize;
    let horizon = short(bytes, 8);
    if !(1..=8).contains(&cores) || !(1..=8).contains(&n) || !(1..=32).contains(&m) || !(1..=4096).contains(&horizon) {
        return refuse(3, 0, 0);
    }
    if bytes.len() != head + 10 * n + row_length * m {
        return refuse(4, 0, 0);
    }
    let rounds = if version == 1 { 1 } else { byte(bytes, 10) as usize };
    if !(1..=4).contains(&rounds) || rounds * n > 8 || rounds * m > 32 {
        return refuse(51, 0, 0);
    }
    let (thread_rows, activity_rows) = bytes[head..].split_at(10 * n);
    let activity_rows = activity_rows.chunks_exact(row_length);
    let loop_byte = |row: &[u8]| if version == 1 { NO_LOOP } else { byte(row, 15) };
    Ok(Written {
        loops: activity_rows.clone().map(loop_byte).map(|q| (q != NO_LOOP).then_some(q as usize)).collect(),
        round: Model {
            cores,
            horizon,
            threads: thread_rows.chunks_exact(10).map(read_thread).collect(),
            activities: activity_rows.map(read_activity).collect(),
        },
        rounds,
    })
}

fn read_thread(row: &[u8]) -> Thread {
    Thread {
        least_period: short(row, 0),
        most_period: short(row, 2),
        least_release: short(row, 4),
        most_release: short(row, 6),
        priority: short(row, 8),
    }
}

/// An activity row of any version; the loop byte is not the activity's.
fn read_activity(row: &[u8]) -> Activity {
    Activity {
        thread: byte(row, 0) as usize,
        least_duration: short(row, 1),
        most_duration: short(row, 3),
        delay: short(row, 5),
        temporal: long(row, 7),
        data: long(row, 11),
        width: if row.len() == 17 { byte(row, 16) } else { 1 },
    }
}

impl Thread {
    /// This thread in round k, "its release range moved on by k times the period (by 0 without one)". With several rounds
    /// the two ends of the period range are equal.
    fn in_round(&self, k: usize) -> Thread {
        let moved = k as u32 * self.least_period;
        Thread { least_release: self.least_release + moved, most_release: self.most_release + moved, ..*self }
    }
}

impl Written {
    /// 5
    fn thread_ranges(&self) -> Result<(), Refusal> {
        for (j, thread) in self.round.threads.iter().enumerate() {
            if thread.least_period > thread.most_period
                || thread.least_release > thread.most_release
                || (thread.least_period == 0 && thread.most_period > 0)
            {
                return refuse(5, j, 0);
            }
        }
        Ok(())
    }

    /// 52: "i above 1 and unequal period ends, or a moved release above 65535".
    fn moved_releases(&self) -> Result<(), Refusal> {
        if self.rounds == 1 {
            return Ok(());
        }
        for (j, thread) in self.round.threads.iter().enumerate() {
            let last = thread.in_round(self.rounds - 1);
            if thread.least_period != thread.most_period || last.most_release > 65535 {
                return refuse(52, j, 0);
            }
        }
        Ok(())
    }

    /// 6
    fn activity_ranges(&self) -> Result<(), Refusal> {
        let n = self.round.threads.len();
        for (a, activity) in self.round.activities.iter().enumerate() {
            if activity.thread >= n || activity.least_duration == 0 || activity.least_duration > activity.most_duration
            {
                return refuse(6, a, 0);
            }
        }
        Ok(())
    }

    /// 53, with one round as well.
    fn loop_rows(&self) -> Result<(), Refusal> {
        let m = self.round.activities.len();
        for (a, looped) in self.loops.iter().enumerate() {
            if looped.is_some_and(|q| q >= m) {
                return refuse(53, a, 0);
            }
        }
        Ok(())
    }

    /// 57: "a width of 0 or above c".
    fn widths(&self) -> Result<(), Refusal> {
        for (a, activity) in self.round.activities.iter().enumerate() {
            if activity.width == 0 || activity.width > self.round.cores {
                return refuse(57, a, 0);
            }
        }
        Ok(())
    }

    /// 7
    fn masks(&self) -> Result<(), Refusal> {
        for (a, activity) in self.round.activities.iter().enumerate() {
            if has_bit_from(activity.temporal, a) || has_bit_from(activity.data, a) {
                return refuse(7, a, 0);
            }
        }
        Ok(())
    }

    /// "The plain model unrolled: thread j of round k is thread k times n + j", "and activity a is k times m + a".
    fn unrolled(&self) -> Model {
        let mut threads = Vec::new();
        let mut activities = Vec::new();
        for k in 0..self.rounds {
            for thread in &self.round.threads {
                threads.push(thread.in_round(k));
            }
            for a in 0..self.round.activities.len() {
                activities.push(self.activity_in_round(a, k));
            }
        }
        Model { threads, activities, ..self.round }
    }

    /// Activity a of round k: "masks move likewise", and "with loop byte q, activity q of round k is a temporal
    /// predecessor of a in round k + 1". Its width is the row's in every round.
    fn activity_in_round(&self, a: usize, k: usize) -> Activity {
        let n = self.round.threads.len();
        let m = self.round.activities.len();
        let activity = &self.round.activities[a];
        let moved = |mask: u32| bits(mask).map(|b| 1 << (k * m + b)).sum();
        let mut temporal: u32 = moved(activity.temporal);
        if let Some(q) = self.loops[a].filter(|_| k > 0) {
            temporal |= 1 << ((k - 1) * m + q);
        }
        Activity { thread: k * n + activity.thread, temporal, data: moved(activity.data), ..*activity }
    }
}

/// 8 to 13 of a choice.
pub(super) fn read_choice(model: &Model, bytes: &[u8]) -> Result<Choice, Refusal> {
    let n = model.threads.len();
    let m = model.activities.len();
    if bytes.len() < 7 || long(bytes, 0) as usize != bytes.len() {
        return refuse(8, 0, 0);
    }
    if byte(bytes, 4) != 1 {
        return refuse(9, 0, 0);
    }
    if byte(bytes, 5) as usize != n || byte(bytes, 6) as usize != m {
        return refuse(10, 0, 0);
    }
    if bytes.len() != 7 + 4 * n + 2 * m {
        return refuse(11, 0, 0);
    }
    let (thread_rows, duration_rows) = bytes[7..].split_at(4 * n);
    let threads = read_chosen(model, thread_rows)?;
    let durations: Vec<u32> = duration_rows.chunks_exact(2).map(|row| short(row, 0)).collect();
    for (a, activity) in model.activities.iter().enumerate() {
        if durations[a] < activity.least_duration || durations[a] > activity.most_duration {
            return refuse(13, a, 0);
        }
    }
    Ok(Choice { threads, durations })
}

/// 8 to 12 and 14 of a plan.
pub(super) fn read_plan(model: &Model, bytes: &[u8]) -> Result<Plan, Refusal> {
    let n = model.threads.len();
    let m = model.activities.len();
    if bytes.len() < 9 || long(bytes, 0) as usize != bytes.len() {
        return refuse(8, 0, 0);
    }
    if byte(bytes, 4) != 1 {
        return refuse(9, 0, 0);
    }
    if byte(bytes, 5) as usize != n || byte(bytes, 6) as usize != m || short(bytes, 7) != model.horizon {
        return refuse(10, 0, 0);
    }
    if bytes.len() != plan_length(model) {
        return refuse(11, 0, 0);
    }
    let (thread_rows, rest) = bytes[9..].split_at(4 * n);
    let (activity_rows, grid) = rest.split_at(4 * m);
    let threads = read_chosen(model, thread_rows)?;
    let words: Vec<u32> = grid.chunks_exact(4).map(|word| long(word, 0)).collect();
    for (t, &word) in words.iter().enumerate() {
        if has_bit_from(word, m) {
            return refuse(14, t, 0);
        }
    }
    Ok(Plan {
        threads,
        start: activity_rows.chunks_exact(4).map(|row| short(row, 0)).collect(),
        end: activity_rows.chunks_exact(4).map(|row| short(row, 2)).collect(),
        words,
    })
}

/// 12, for the thread rows of a choice or a plan: release, then period.
fn read_chosen(model: &Model, rows: &[u8]) -> Result<Vec<Chosen>, Refusal> {
    let chosen: Vec<Chosen> =
        rows.chunks_exact(4).map(|row| Chosen { release: short(row, 0), period: short(row, 2) }).collect();
    for (j, thread) in model.threads.iter().enumerate() {
        let Chosen { release, period } = chosen[j];
        if release < thread.least_release
            || release > thread.most_release
            || period < thread.least_period
            || period > thread.most_period
        {
            return refuse(12, j, 0);
        }
    }
    Ok(chosen)
}
