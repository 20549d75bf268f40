//! Random lists of asks, keeps and direct edits, request U9 of 02: what 02 says of every list, asked of the reference, and the
//! lists beside readings that are nearly the paper's.

use grid_tests::cases::{self, Case};
use grid_tests::claims::keeping::{is_refused_ask, of_list, of_turns, REFERENCE};
use grid_tests::edits::Stroke;
use grid_tests::keeping::lists::{Lent, Made};
use grid_tests::keeping::readings::{self, DIFFERENCES};
use grid_tests::keeping::{self, Call};
use grid_tests::Answer;

const SEED: u64 = 9;
const CASES: u64 = 40_000;
/// How often each thing must occur.
const LEAST: usize = 100;

/// The random cases that have a list.
fn listed() -> impl Iterator<Item = Case> {
    (0..CASES).map(|number| cases::make(SEED, number)).filter(|case| !case.turns.is_empty())
}

/// What is lent to the first call of a list.
fn lent(case: &Case) -> Lent {
    Lent::new(&case.model, &case.second, case.state)
}

/// With no difference a reading is the reference. How many lists tell each difference apart is printed, and must be many; what
/// 02 says of every list is not so of a list that tells one apart.
#[test]
fn readings_beside_the_reference() {
    let mut told_apart = [0; DIFFERENCES.len()];
    for case in listed() {
        let Case { model, second, turns, state, .. } = &case;
        let (mut left, mut paper_left) = (lent(&case), lent(&case));
        let made = left.make_all(turns, keeping::make);
        let paper = readings::make_all(&mut paper_left, turns, &[]);
        assert_eq!((&made, left), (&paper, paper_left), "{}", case.kind);
        let is_claimed = state.asked_edit().is_none() && turns.iter().all(|turn| turn.elsewhere.is_none());
        for (count, difference) in told_apart.iter_mut().zip(DIFFERENCES) {
            let list = readings::make_all(&mut lent(&case), turns, &[difference]);
            *count += usize::from(list != paper);
            let is_so = || of_list(REFERENCE, model, second, &list).is_ok();
            assert!(!is_claimed || is_so() == (list == paper), "{difference:?}, {turns:?}");
        }
    }
    let counts: Vec<_> = DIFFERENCES.into_iter().zip(told_apart).collect();
    println!("told apart: {counts:?}");
    assert!(told_apart.into_iter().all(|count| count >= LEAST), "{counts:?}");
}

/// What the random lists must have.
#[derive(Debug, Default)]
struct Reached {
    kept_with_figures: usize,
    kept_with_a_broken_rule: usize,
    kept_after_another_ask: usize,
    kept_after_a_refused_edit: usize,
    kept_after_a_refused_keep: usize,
    kept_after_a_change: usize,
    kept_of_the_first_state: usize,
    nothing_ever_asked: usize,
    after_a_refused_ask: usize,
    after_an_edit: usize,
    after_the_same_edit: usize,
    after_a_keep: usize,
    refused_by_the_records: usize,
    already_so: usize,
    outside: usize,
    wrong_rows_asked: usize,
    wrong_rows_of_others: usize,
    later_rounds: usize,
    gangs: usize,
}

/// What happened to the latest unrefused ask of a list, and since.
#[derive(Default)]
struct Since {
    ask: Option<(Stroke, Answer)>,
    replaced: bool,
    refused_ask: bool,
    /// The latest kept edit.
    edit: Option<Stroke>,
    keep: bool,
    refused_edit: bool,
    refused_keep: bool,
    change: bool,
}

/// Whether the row of an activity is not that of its ticks, in a plan that passes 8 to 14.
fn is_wrong(plan: &[u8], a: usize) -> bool {
    let (n, m) = (usize::from(plan[5]), usize::from(plan[6]));
    let (row, grid) = (9 + 4 * n + 4 * a, 9 + 4 * n + 4 * m);
    let number = |at: usize| usize::from(plan[at]) << 8 | usize::from(plan[at + 1]);
    let is_marked = |word: &[u8]| word[3 - a / 8] >> (a % 8) & 1 == 1;
    let words = || plan[grid..].chunks_exact(4);
    let (first, last) = (words().position(is_marked), words().rposition(is_marked));
    (number(row), number(row + 2)) != first.zip(last).map_or((0, 0), |(first, last)| (first, last + 1))
}

impl Reached {
    fn list(&mut self, case: &Case, list: &[Made]) {
        let mut since = Since::default();
        for (turn, made) in case.turns.iter().zip(list) {
            since.change |= turn.elsewhere.is_some();
            match made.call {
                Call::Ask(stroke) => since = self.ask(case, since, stroke, made),
                Call::Keep if made.answer.number == 0 => {
                    self.kept(&since);
                    since.keep = true;
                }
                Call::Keep => {
                    self.refused_keep(&since, made.answer.number);
                    since.refused_keep = true;
                }
                Call::Edit(stroke) if made.answer.number == 0 => since.edit = Some(stroke),
                Call::Edit(_) => since.refused_edit = true,
            }
        }
    }

    /// What is since an ask.
    fn ask(&mut self, case: &Case, since: Since, stroke: Stroke, made: &Made) -> Since {
        if is_refused_ask(made.answer) {
            return Since { refused_ask: true, ..since };
        }
        let a = stroke.activity as usize;
        let mut others = (0..usize::from(made.plan[6])).filter(|&b| b != a);
        self.wrong_rows_asked += usize::from(is_wrong(&made.plan, a));
        self.wrong_rows_of_others += usize::from(others.any(|b| is_wrong(&made.plan, b)));
        if let Some(page) = case.page.as_ref().filter(|_| !since.change) {
            self.later_rounds += usize::from(a >= page.activities.len());
            self.gangs += usize::from(page.width(a % page.activities.len()) > 1);
        }
        let stands = since.ask.is_some() && since.edit.is_none() && !since.keep && !since.refused_ask;
        Since { ask: Some((stroke, made.answer)), replaced: stands, ..Since::default() }
    }

    fn kept(&mut self, since: &Since) {
        let figures = since.ask.map(|(_, answer)| answer.number == 0);
        self.kept_of_the_first_state += usize::from(figures.is_none());
        self.kept_with_figures += usize::from(figures == Some(true));
        self.kept_with_a_broken_rule += usize::from(figures == Some(false));
        self.kept_after_another_ask += usize::from(since.replaced);
        self.kept_after_a_refused_edit += usize::from(since.refused_edit);
        self.kept_after_a_refused_keep += usize::from(since.refused_keep);
        self.kept_after_a_change += usize::from(since.change);
    }

    fn refused_keep(&mut self, since: &Since, number: u32) {
        let count = match number {
            58 | 59 => &mut self.outside,
            60 => &mut self.already_so,
            61 => match since.ask {
                _ if since.refused_ask => &mut self.after_a_refused_ask,
                None => &mut self.nothing_ever_asked,
                Some((stroke, _)) if since.edit == Some(stroke) => &mut self.after_the_same_edit,
                _ if since.edit.is_some() => &mut self.after_an_edit,
                _ => &mut self.after_a_keep,
            },
            _ => &mut self.refused_by_the_records,
        };
        *count += 1;
    }

    fn least(&self) -> usize {
        let kept = [self.kept_with_figures, self.kept_with_a_broken_rule, self.kept_of_the_first_state];
        let after = [self.kept_after_another_ask, self.kept_after_a_refused_edit, self.kept_after_a_refused_keep];
        let nothing = [self.nothing_ever_asked, self.after_a_refused_ask, self.after_an_edit, self.after_the_same_edit];
        let refused = [self.after_a_keep, self.refused_by_the_records, self.already_so, self.outside];
        let pages = [self.wrong_rows_asked, self.wrong_rows_of_others, self.later_rounds, self.gangs];
        let counts = kept.into_iter().chain(after).chain(nothing).chain(refused).chain(pages);
        counts.chain([self.kept_after_a_change]).min().unwrap_or(0)
    }
}

/// What 02 says of every list holds of the reference too, a page is edited as its unrolled model is, and the random lists reach
/// what they are for.
#[test]
fn claims_of_the_reference() {
    let mut reached = Reached::default();
    for case in listed() {
        let list = of_turns(REFERENCE, &mut lent(&case), &case.turns).unwrap();
        for other in case.alike() {
            let mut lent = Lent::new(&other, &case.second, case.state);
            assert_eq!(lent.make_all(&case.turns, keeping::make), list, "{}", case.kind);
        }
        reached.list(&case, &list);
    }
    println!("{reached:?}");
    assert!(reached.least() >= LEAST, "{reached:?}");
}
