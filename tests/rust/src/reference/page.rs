//! The checks: rules 21 to 31 of a well-formed plan.

use super::form::{bits, Activity, Model, Plan};
use super::{figures, refuse, Figures, Refusal};

pub(super) struct Page<'a> {
    pub(super) model: &'a Model,
    pub(super) plan: &'a Plan,
    pub(super) count: Vec<u32>,
    pub(super) efe: Vec<u32>,
}

impl<'a> Page<'a> {
    pub(super) fn new(model: &'a Model, plan: &'a Plan) -> Self {
        let mut count = vec![0; model.activities.len()];
        for &word in &plan.words {
            for a in bits(word) {
                count[a] += 1;
            }
        }
        let efe = earliest_starts(model, plan, &count);
        Page { model, plan, count, efe }
    }

    pub(super) fn figures(&self) -> Figures {
        figures(self.model, &self.plan.words, &self.plan.end, &self.plan.threads)
    }

    fn activities(&self) -> impl Iterator<Item = (usize, &'a Activity)> {
        self.model.activities.iter().enumerate()
    }

    fn words(&self) -> impl Iterator<Item = (usize, u32)> + 'a {
        self.plan.words.iter().copied().enumerate()
    }

    fn active(&self, a: usize, t: u32) -> bool {
        self.plan.words[t as usize] >> a & 1 == 1
    }

    pub(super) fn waiting(&self, a: usize, t: usize) -> bool {
        let t = t as u32;
        let activity = &self.model.activities[a];
        let end = &self.plan.end;
        !self.active(a, t)
            && self.efe[a] <= t
            && end[a] > t
            && bits(activity.temporal).all(|b| end[b] + self.model.activities[b].delay <= t)
            && bits(activity.data).all(|b| end[b] <= t)
    }

    /// Whether an activity waits and counts in 29, 30 and 31: "only if its width is at most c less the widths of active
    /// activities ranked before it" (02).
    fn contends(&self, b: usize, t: usize) -> bool {
        let before = |&a: &usize| self.model.ranks_before(a, b);
        let taken: u32 = bits(self.plan.words[t]).filter(before).map(|a| self.model.activities[a].width).sum();
        self.waiting(b, t) && taken + self.model.activities[b].width <= self.model.cores
    }

    /// 21 to 29. Rule 24 is out of the book (02).
    pub(super) fn plain(&self) -> Result<(), Refusal> {
        self.of_activities()?;
        self.cores()?;
        self.preemption()
    }

    /// 21 to 27.
    pub(super) fn of_activities(&self) -> Result<(), Refusal> {
        self.window()?;
        self.duration()?;
        self.deadline()?;
        self.temporal_precedence()?;
        self.data_dependency()?;
        self.earliest_start()
    }

    /// 21
    fn window(&self) -> Result<(), Refusal> {
        let horizon = self.model.horizon;
        for (a, _) in self.activities() {
            let start = self.plan.start[a];
            let end = self.plan.end[a];
            if start >= end
                || end > horizon
                || !self.active(a, start)
                || !self.active(a, end - 1)
                || (0..start).any(|t| self.active(a, t))
                || (end..horizon).any(|t| self.active(a, t))
            {
                return refuse(21, a, 0);
            }
        }
        Ok(())
    }

    /// 22
    fn duration(&self) -> Result<(), Refusal> {
        for (a, activity) in self.activities() {
            if self.count[a] < activity.least_duration || self.count[a] > activity.most_duration {
                return refuse(22, a, 0);
            }
        }
        Ok(())
    }

    /// 23
    fn deadline(&self) -> Result<(), Refusal> {
        for (a, activity) in self.activities() {
            if self.plan.threads[activity.thread].late(self.plan.end[a]) {
                return refuse(23, a, 0);
            }
        }
        Ok(())
    }

    /// 25
    fn temporal_precedence(&self) -> Result<(), Refusal> {
        for (a, activity) in self.activities() {
            for b in bits(activity.temporal) {
                if self.plan.start[a] < self.plan.end[b] + self.model.activities[b].delay {
                    return refuse(25, a, b);
                }
            }
        }
        Ok(())
    }

    /// 26
    fn data_dependency(&self) -> Result<(), Refusal> {
        for (a, activity) in self.activities() {
            for b in bits(activity.data) {
                if self.plan.start[a] < self.plan.end[b] {
                    return refuse(26, a, b);
                }
            }
        }
        Ok(())
    }

    /// 27
    fn earliest_start(&self) -> Result<(), Refusal> {
        for (a, _) in self.activities() {
            if self.plan.start[a] < self.efe[a] {
                return refuse(27, a, 0);
            }
        }
        Ok(())
    }

    /// 28
    fn cores(&self) -> Result<(), Refusal> {
        for (t, word) in self.words() {
            if self.model.load(word) > self.model.cores {
                return refuse(28, t, 0);
            }
        }
        Ok(())
    }

    /// 29
    fn preemption(&self) -> Result<(), Refusal> {
        for (t, word) in self.words() {
            if self.model.load(word) != self.model.cores {
                continue;
            }
            let lowest = bits(word).map(|a| self.model.priority(a)).min();
            for (b, _) in self.activities() {
                if Some(self.model.priority(b)) > lowest && self.contends(b, t) {
                    return refuse(29, t, b);
                }
            }
        }
        Ok(())
    }

    /// 30
    pub(super) fn free_core(&self) -> Result<(), Refusal> {
        for (t, word) in self.words() {
            if self.model.load(word) >= self.model.cores {
                continue;
            }
            for (b, _) in self.activities() {
                if self.contends(b, t) {
                    return refuse(30, t, b);
                }
            }
        }
        Ok(())
    }

    /// 31
    pub(super) fn tie_order(&self) -> Result<(), Refusal> {
        for (t, word) in self.words() {
            if self.model.load(word) != self.model.cores {
                continue;
            }
            for (b, _) in self.activities() {
                let priority = self.model.priority(b);
                if self.contends(b, t) && bits(word).any(|a| a > b && self.model.priority(a) == priority) {
                    return refuse(31, t, b);
                }
            }
        }
        Ok(())
    }
}

/// efe of each activity, by the counts.
pub(super) fn earliest_starts(model: &Model, plan: &Plan, count: &[u32]) -> Vec<u32> {
    // A predecessor has a lower number, so its efe is already there.
    let mut efe: Vec<u32> = Vec::new();
    for activity in &model.activities {
        let mut earliest = plan.threads[activity.thread].release;
        for b in bits(activity.temporal) {
            earliest = earliest.max(efe[b] + count[b] + model.activities[b].delay);
        }
        for b in bits(activity.data) {
            earliest = earliest.max(efe[b] + count[b]);
        }
        efe.push(earliest);
    }
    efe
}
