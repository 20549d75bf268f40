//! Readings of request U7 (02) that differ from the paper's in the things named, to see which cases tell them apart. With no
//! difference named this is the paper's once more, and with `ONES_OF_THE_WORD` what 01 says by the ones of a word.

use super::form::{bits, read_choice, read_model, read_plan, Choice, Model};
use super::machine::Machine;
use super::page::{earliest_starts, Page};
use super::{refuse, Figures, Refusal};
use Difference::*;

/// A thing in which a reading may differ.
#[derive(Clone, Copy, Debug, PartialEq, Eq)]
pub enum Difference {
    /// The walk ends at the first ready activity that does not fit.
    StopsAtMisfit,
    /// The first c of the ready are taken, whatever their widths.
    FirstOfTheReady,
    /// The walk is by width, the widest first, and then by rank.
    WidestFirst,
    /// Durations count core ticks: an activity owes as much less at each tick as it is wide.
    DurationsInCoreTicks,
    /// efe counts core ticks.
    EfeInCoreTicks,
    /// Activities of later rounds have width 1.
    WidthsOfRound0,
    /// Ones for the sum of widths, in one place each.
    OnesIn28,
    OnesIn29,
    OnesIn30,
    OnesIn31,
    OnesInUsage,
    /// Every waiting activity counts.
    EveryWaitingCounts,
    /// A waiting activity counts only beside all that are active.
    FitsBesideAll,
    /// What waits and ranks before a waiting activity takes from what is left, as what is active does.
    WaitingTakesToo,
    /// What is active and has a lower number ranks before a waiting activity, whatever its priority.
    BeforeByNumberAlone,
    /// One that is active with the priority of the waiting one does not rank before it, whatever its number.
    BeforeByPriorityAlone,
    /// One that is active with the priority of the waiting one ranks before it, whatever its number.
    BeforeAtEqualPriority,
    /// A waiting activity counts only if its width is below the cores that are left.
    WidthBelowWhatIsLeft,
    /// 29 is tried with free cores as well.
    Rule29WithFreeCores,
}

/// Each difference alone.
pub const DIFFERENCES: [Difference; 19] = [
    StopsAtMisfit,
    FirstOfTheReady,
    WidestFirst,
    DurationsInCoreTicks,
    EfeInCoreTicks,
    WidthsOfRound0,
    OnesIn28,
    OnesIn29,
    OnesIn30,
    OnesIn31,
    OnesInUsage,
    EveryWaitingCounts,
    FitsBesideAll,
    WaitingTakesToo,
    BeforeByNumberAlone,
    BeforeByPriorityAlone,
    BeforeAtEqualPriority,
    WidthBelowWhatIsLeft,
    Rule29WithFreeCores,
];

/// The rules of 01, which know no widths.
pub const ONES_OF_THE_WORD: &[Difference] =
    &[FirstOfTheReady, OnesIn28, OnesIn29, OnesIn30, OnesIn31, OnesInUsage, EveryWaitingCounts];

/// The answers of the plain and of the strict check.
pub type Verdicts = [Result<Figures, Refusal>; 2];

pub fn check(model: &[u8], plan: &[u8], reading: &[Difference]) -> Verdicts {
    verdicts(model, plan, reading).unwrap_or_else(|refusal| [Err(refusal); 2])
}

fn verdicts(model: &[u8], plan: &[u8], reading: &[Difference]) -> Result<Verdicts, Refusal> {
    let model = model_of(model, reading)?;
    let plan = read_plan(&model, plan)?;
    let mut page = Page::new(&model, &plan);
    let core_ticks: Vec<u32> = page.count.iter().zip(&model.activities).map(|(ticks, a)| ticks * a.width).collect();
    if reading.contains(&EfeInCoreTicks) {
        page.efe = earliest_starts(&model, &plan, &core_ticks);
    }
    if reading.contains(&DurationsInCoreTicks) {
        page.count = core_ticks;
    }
    let ticks = Ticks { page: &page, reading };
    let figures = |()| Figures { usage: usage(&model, &plan.words, reading), ..page.figures() };
    let plain = page.of_activities().and_then(|()| ticks.first_broken(&[28, 29]));
    let strict = plain.and_then(|()| ticks.first_broken(&[30, 31]));
    Ok([plain.map(figures), strict.map(figures)])
}

/// The answer of the run with room enough, and the machine's words, finished or not; none where a record is refused.
pub fn run(model: &[u8], choice: &[u8], reading: &[Difference]) -> (Result<Figures, Refusal>, Vec<u32>) {
    match records(model, choice, reading) {
        Ok((model, choice)) => {
            let machine = Machine::run_by(&model, &choice, |ready| take(&model, ready.collect(), reading));
            (judge(&model, &choice, &machine, reading), machine.words)
        }
        Err(refusal) => (Err(refusal), Vec::new()),
    }
}

fn records(model: &[u8], choice: &[u8], reading: &[Difference]) -> Result<(Model, Choice), Refusal> {
    let model = model_of(model, reading)?;
    let mut choice = read_choice(&model, choice)?;
    if reading.contains(&DurationsInCoreTicks) {
        for (duration, activity) in choice.durations.iter_mut().zip(&model.activities) {
            *duration = duration.div_ceil(activity.width);
        }
    }
    Ok((model, choice))
}

fn model_of(bytes: &[u8], reading: &[Difference]) -> Result<Model, Refusal> {
    let mut model = read_model(bytes)?;
    if reading.contains(&WidthsOfRound0) {
        let rows = bytes[7].into();
        model.activities.iter_mut().skip(rows).for_each(|activity| activity.width = 1);
    }
    Ok(model)
}

fn judge(model: &Model, choice: &Choice, machine: &Machine, reading: &[Difference]) -> Result<Figures, Refusal> {
    let (figures, _) = machine.judge(model, choice)?;
    Ok(Figures { usage: usage(model, &machine.words, reading), ..figures })
}

fn usage(model: &Model, words: &[u32], reading: &[Difference]) -> u32 {
    words.iter().map(|&word| load(model, word, reading.contains(&OnesInUsage))).sum()
}

fn load(model: &Model, word: u32, by_ones: bool) -> u32 {
    if by_ones {
        word.count_ones()
    } else {
        bits(word).map(|a| model.activities[a].width).sum()
    }
}

/// The word of a tick; the ready come in rank order.
fn take(model: &Model, mut ready: Vec<usize>, reading: &[Difference]) -> u32 {
    let width = |a: usize| if reading.contains(&FirstOfTheReady) { 1 } else { model.activities[a].width };
    if reading.contains(&WidestFirst) {
        ready.sort_by_key(|&a| u32::MAX - width(a));
    }
    let (mut word, mut taken) = (0, 0);
    for a in ready {
        if taken + width(a) <= model.cores {
            word |= 1 << a;
            taken += width(a);
        } else if reading.contains(&StopsAtMisfit) {
            break;
        }
    }
    word
}

/// Rules 28 to 31 in a reading.
struct Ticks<'a> {
    page: &'a Page<'a>,
    reading: &'a [Difference],
}

impl Ticks<'_> {
    fn reads(&self, difference: Difference) -> bool {
        self.reading.contains(&difference)
    }

    /// The first of these rules that is broken, at its first tick.
    fn first_broken(&self, numbers: &[u32]) -> Result<(), Refusal> {
        for &number in numbers {
            for (t, &word) in self.page.plan.words.iter().enumerate() {
                if let Some(b) = self.broken(number, t, word) {
                    return refuse(number, t, b);
                }
            }
        }
        Ok(())
    }

    /// The B with which this rule is broken at this tick; 0 for 28.
    fn broken(&self, number: u32, t: usize, word: u32) -> Option<usize> {
        let model = self.page.model;
        let cores = model.cores;
        let load = |by_ones: Difference| load(model, word, self.reads(by_ones));
        let lowest = |breaks: &dyn Fn(usize) -> bool| {
            (0..model.activities.len()).find(|&b| self.counts(b, t, word) && breaks(b))
        };
        let any_active = |is: &dyn Fn(usize) -> bool| bits(word).any(is);
        match number {
            28 if load(OnesIn28) > cores => Some(0),
            29 if load(OnesIn29) == cores || self.reads(Rule29WithFreeCores) => {
                lowest(&|b| any_active(&|a| model.priority(a) < model.priority(b)))
            }
            30 if load(OnesIn30) < cores => lowest(&|_| true),
            31 if load(OnesIn31) == cores => {
                lowest(&|b| any_active(&|a| a > b && model.priority(a) == model.priority(b)))
            }
            _ => None,
        }
    }

    /// Whether an activity waits, and counts.
    fn counts(&self, b: usize, t: usize, word: u32) -> bool {
        let model = self.page.model;
        let width = |a: usize| model.activities[a].width;
        let takes = |a: &usize| word >> a & 1 == 1 || self.reads(WaitingTakesToo) && self.page.waiting(*a, t);
        let taken: u32 =
            (0..model.activities.len()).filter(takes).filter(|&a| self.ranks_before(a, b)).map(width).sum();
        let below = u32::from(self.reads(WidthBelowWhatIsLeft));
        let fits = self.reads(EveryWaitingCounts) || taken + width(b) + below <= model.cores;
        fits && self.page.waiting(b, t)
    }

    /// Whether `a` ranks before `b`, so that its width is taken from what is left.
    fn ranks_before(&self, a: usize, b: usize) -> bool {
        let model = self.page.model;
        let equal = model.priority(a) == model.priority(b);
        let higher = model.priority(a) > model.priority(b);
        match () {
            _ if self.reads(FitsBesideAll) => true,
            _ if self.reads(BeforeByNumberAlone) => a < b,
            _ if self.reads(BeforeByPriorityAlone) => higher,
            _ if self.reads(BeforeAtEqualPriority) => higher || equal,
            _ => higher || equal && a < b,
        }
    }
}
