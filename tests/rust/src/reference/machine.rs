//! The run, "as a plain machine".

use std::cmp::Reverse;

use super::form::{bits, plan_length, Choice, Model};
use super::{figures, refuse, Figures, Refusal};

pub(super) struct Machine {
    pub(super) owed: Vec<u32>,
    pub(super) start: Vec<u32>,
    /// Of an activity that owes something, 0 and without meaning.
    pub(super) end: Vec<u32>,
    pub(super) words: Vec<u32>,
}

/// "The run walks the ready in rank order and takes each whose width still fits" (02).
fn walk(model: &Model, ready: &mut dyn Iterator<Item = usize>) -> u32 {
    let mut word = 0;
    let mut free = model.cores;
    for a in ready {
        let width = model.activities[a].width;
        if width <= free {
            word |= 1 << a;
            free -= width;
        }
        if free == 0 {
            break;
        }
    }
    word
}

impl Machine {
    pub(super) fn run(model: &Model, choice: &Choice) -> Machine {
        Machine::run_by(model, choice, |ready| walk(model, ready))
    }

    /// The run in which `take` gives the word of a tick, of the ready in rank order.
    pub(super) fn run_by(
        model: &Model,
        choice: &Choice,
        take: impl Fn(&mut dyn Iterator<Item = usize>) -> u32,
    ) -> Machine {
        let m = model.activities.len();
        // Highest priority first, then lower number: the sort keeps equals in their order.
        let mut ranked: Vec<usize> = (0..m).collect();
        ranked.sort_by_key(|&a| Reverse(model.priority(a)));
        let mut machine = Machine {
            owed: choice.durations.clone(),
            start: vec![0; m],
            end: vec![0; m],
            words: Vec::with_capacity(model.horizon as usize),
        };
        for t in 0..model.horizon {
            let word = take(&mut ranked.iter().copied().filter(|&a| machine.ready(model, choice, a, t)));
            machine.step(choice, t, word);
        }
        machine
    }

    /// Each of the word's activities owes one tick less, whatever its width: "durations still count ticks".
    fn step(&mut self, choice: &Choice, t: u32, word: u32) {
        for a in bits(word) {
            if self.owed[a] == choice.durations[a] {
                self.start[a] = t;
            }
            self.owed[a] -= 1;
            if self.owed[a] == 0 {
                self.end[a] = t + 1;
            }
        }
        self.words.push(word);
    }

    fn ready(&self, model: &Model, choice: &Choice, a: usize, t: u32) -> bool {
        let activity = &model.activities[a];
        self.owed[a] > 0
            && choice.threads[activity.thread].release <= t
            && bits(activity.temporal).all(|b| self.owed[b] == 0 && self.end[b] + model.activities[b].delay <= t)
            && bits(activity.data).all(|b| self.owed[b] == 0 && self.end[b] <= t)
    }

    /// 42
    pub(super) fn all_ended(&self) -> Result<(), Refusal> {
        match self.owed.iter().position(|&owed| owed > 0) {
            Some(a) => refuse(42, a, 0),
            None => Ok(()),
        }
    }

    /// 43
    fn all_in_time(&self, model: &Model, choice: &Choice) -> Result<(), Refusal> {
        for (a, activity) in model.activities.iter().enumerate() {
            if choice.threads[activity.thread].late(self.end[a]) {
                return refuse(43, a, 0);
            }
        }
        Ok(())
    }

    /// 42 and 43; on success the figures and the plan's length.
    pub(super) fn judge(&self, model: &Model, choice: &Choice) -> Result<(Figures, u32), Refusal> {
        self.all_ended()?;
        self.all_in_time(model, choice)?;
        Ok((figures(model, &self.words, &self.end, &choice.threads), plan_length(model) as u32))
    }
}

pub(super) fn write_plan(model: &Model, choice: &Choice, machine: &Machine, out: &mut [u8]) {
    let mut plan = Vec::with_capacity(out.len());
    plan.extend((out.len() as u32).to_be_bytes());
    plan.push(1);
    plan.push(model.threads.len() as u8);
    plan.push(model.activities.len() as u8);
    plan.extend((model.horizon as u16).to_be_bytes());
    for thread in &choice.threads {
        plan.extend((thread.release as u16).to_be_bytes());
        plan.extend((thread.period as u16).to_be_bytes());
    }
    for (start, end) in machine.start.iter().zip(&machine.end) {
        plan.extend((*start as u16).to_be_bytes());
        plan.extend((*end as u16).to_be_bytes());
    }
    for word in &machine.words {
        plan.extend(word.to_be_bytes());
    }
    out.copy_from_slice(&plan);
}
