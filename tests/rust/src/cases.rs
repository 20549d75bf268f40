//! Pairs of records for the comparison: sound ones, damaged ones, and plans that leave the rules in chosen places. A model
//! stands with a plan for the checks and the edits or with a choice for the run and the report of lateness; a few pairs have
//! the wrong one of the two. Models are of all versions, with one to four rounds, and many of those of version 3 have gangs.

mod damage;
mod pages;
mod plans;
mod strokes;
mod turns;

use crate::edits::Stroke;
use crate::keeping::lists::Turn;
use crate::random::Random;
use crate::records::{Choice, Model};
use crate::Editing;
pub(crate) use damage::{damage_model, FORM_RULES};
use damage::{
    damage_second_head, damaged_choice, damaged_model, damaged_plan, damaged_width, random_bytes, sound_case,
};
pub(crate) use pages::model;
use pages::{no_habits, page, set_periods, Page};
use plans::*;

/// A pair of records, and the calls that it is for.
pub struct Case {
    pub kind: &'static str,
    pub model: Vec<u8>,
    /// What the model was written from; none where it is damaged.
    pub page: Option<Model>,
    pub second: Vec<u8>,
    /// Whether the two checks are asked.
    pub checked: bool,
    /// The buffer that is lent to the run, as it is before the call; none where the run is not asked.
    pub buffer: Option<Vec<u8>>,
    /// The list that is lent to the report, as it is before the call; the report is asked where the run is.
    pub rows: Option<Vec<i32>>,
    /// The calls that edit the second record, one after another; none where the two checks are not asked, and every second
    /// time where they are.
    pub strokes: Vec<Stroke>,
    /// Another list over the second record, with asks and keeps among the calls and what is changed elsewhere between them;
    /// none where the two checks are not asked, and every second time where they are.
    pub turns: Vec<Turn>,
    /// The state that the first call of each list is handed.
    pub state: Editing,
}

impl Case {
    /// Other models that must be answered alike: the unrolled one, and that of version 2 where version 3 has the width 1
    /// alone.
    pub fn alike(&self) -> Vec<Vec<u8>> {
        let page = self.page.iter().filter(|page| page.rounds.is_some());
        page.flat_map(|page| [Some(page.unrolled()), page.without_widths()])
            .flatten()
            .map(|model| model.bytes())
            .collect()
    }

    /// Whether the model meets its form rules and has a width above 1.
    pub fn has_gang(&self) -> bool {
        self.page.as_ref().is_some_and(Model::has_gang)
    }
}

type Maker = fn(&mut Random) -> Case;

/// Each kind of case with its share.
const KINDS: &[(usize, &str, Maker)] = &[
    (2, "random bytes", random_bytes),
    (2, "the other record", other_record),
    (10, "damaged model", damaged_model),
    (2, "damaged width", damaged_width),
    (10, "damaged choice", damaged_choice),
    (7, "damaged plan", damaged_plan),
    (12, "run", sound_run),
    (8, "late run", late_run),
    (6, "owed run", owed_run),
    (6, "plan of the run", sound_plan),
    (6, "moved tick", |random| altered(random, &[moved_tick])),
    (4, "exchanged activities", |random| altered(random, &[exchanged_activities])),
    (3, "exchanged ticks", |random| altered(random, &[exchanged_ticks])),
    (5, "nudged rows", |random| altered(random, &[nudged_rows])),
    (3, "flipped bits", |random| altered(random, &[flipped_bits])),
    (4, "idle tick", |random| altered(random, &[idle_tick])),
    (2, "other durations", |random| altered(random, &[other_durations])),
    (3, "late plan", |random| altered(random, &[shorter_periods])),
    (6, "two alterations", two_alterations),
    (3, "temporal precedence ignored", temporal_ignored),
    (3, "data dependency ignored", data_ignored),
    (3, "release ignored", release_ignored),
    (3, "more cores", more_cores),
    (4, "other priorities", other_priorities),
    (4, "ties to the higher number", ties_to_higher),
    (4, "lazy", lazy),
    (5, "several habits", several_habits),
    (4, "stops at a misfit", stops_at_misfit),
    (3, "ones for widths", ones_for_widths),
    (4, "rank by width", rank_by_width),
    (6, "other priorities of gangs", other_priorities_of_gangs),
    (5, "other widths", |random| altered_gangs(random, &[other_widths])),
    (4, "moved tick of a page with gangs", |random| altered_gangs(random, &[moved_tick])),
];

/// The case of this number.
pub fn make(seed: u64, number: u64) -> Case {
    let random = &mut Random::of_case(seed, number);
    let total = KINDS.iter().map(|kind| kind.0).sum();
    let mut left = random.below(total);
    for &(share, name, maker) in KINDS {
        if left < share {
            let case = maker(random);
            let rows = case.buffer.as_ref().map(|_| rows(random));
            let edited = case.checked && random.one_in(2);
            let strokes = if edited { strokes::list(random, &case.second) } else { Vec::new() };
            let asked = case.checked && random.one_in(2);
            let state = if edited || asked { turns::state(random, &case.second) } else { case.state };
            let turns = if asked { turns::list(random, &case, state) } else { Vec::new() };
            return Case { kind: name, rows, strokes, turns, state, ..case };
        }
        left -= share;
    }
    unreachable!()
}

// Buffers and lists

/// A buffer for a plan of this length: too short, exact or longer, and filled before.
fn buffer(random: &mut Random, length: usize) -> Vec<u8> {
    let length = match random.below(12) {
        0 => length - 1,
        1 => random.below(length),
        2..=6 => length,
        _ => length + random.within(1, 12),
    };
    match random.below(3) {
        0 => vec![random.pick(&[0, 1, 170, 255]); length],
        _ => random.bytes(length),
    }
}

/// A list for the report: too short, exact or longer, and filled before; no row is 0.
fn rows(random: &mut Random) -> Vec<i32> {
    let length = match random.below(16) {
        0 => random.pick(&[0, 30, 31, 31]),
        1 => random.below(32),
        2..=9 => 32,
        10..=12 => 33,
        _ => random.within(34, 70),
    };
    let row = |_| match random.below(8) {
        0 => i32::MIN,
        1 => random.pick(&[i32::MIN + 1, i32::MAX, -1, 1]),
        2 => random.within(1, 4096) as i32,
        3 => -(random.within(1, 4096) as i32),
        _ => Some(random.draw() as i32).filter(|&row| row != 0).unwrap_or(1),
    };
    (0..length).map(row).collect()
}

fn run_case(random: &mut Random, model: &Model, choice: &Choice) -> Case {
    let buffer = Some(buffer(random, model.plan_length()));
    Case { buffer, ..case(model, choice.bytes()) }
}

fn plan_case(page: &Page) -> Case {
    Case { checked: true, ..case(&page.model, page.plan.bytes()) }
}

/// A pair for no call yet.
fn case(model: &Model, second: Vec<u8>) -> Case {
    Case { model: model.bytes(), page: Some(model.clone()), second, ..no_case() }
}

fn no_case() -> Case {
    Case {
        kind: "",
        model: Vec::new(),
        page: None,
        second: Vec::new(),
        checked: false,
        buffer: None,
        rows: None,
        strokes: Vec::new(),
        turns: Vec::new(),
        state: Editing::default(),
    }
}

/// A plan where the run wants a choice, or a choice where the checks want a plan; all calls are asked.
fn other_record(random: &mut Random) -> Case {
    let (page, mut case) = sound_case(random);
    if random.one_in(4) {
        damage_second_head(random, &mut case.second);
    }
    case.checked = true;
    case.buffer = Some(buffer(random, page.model.plan_length()));
    case
}

// Runs

fn sound_run(random: &mut Random) -> Case {
    let page = page(random, no_habits);
    run_case(random, &page.model, &page.choice)
}

fn late_run(random: &mut Random) -> Case {
    let mut page = page(random, no_habits);
    let ends: Vec<usize> = page.plan.rows.iter().map(|row| row.1.into()).collect();
    set_periods(random, &mut page.model, &mut page.choice, &ends, 2);
    run_case(random, &page.model, &page.choice)
}

/// The horizon falls short, and periods may be short as well.
fn owed_run(random: &mut Random) -> Case {
    let mut page = page(random, no_habits);
    let ends: Vec<usize> = page.plan.rows.iter().map(|row| row.1.into()).collect();
    let late = random.pick(&[0, 2]);
    set_periods(random, &mut page.model, &mut page.choice, &ends, late);
    let last = ends.iter().copied().max().unwrap_or(1).max(2);
    page.model.horizon = random.pick(&[last - 1, last - 1, last / 2, last]) as u16;
    run_case(random, &page.model, &page.choice)
}
