//! Times the exports against the reference.
//!
//! `bench` prints the tables. `bench CALL WHICH PAGE HORIZON TIMES` makes one call many times, for a profiler: CALL is
//! plain, strict, run, lateness, stroke, ask or keep, WHICH is proved or reference, PAGE is a name from the table. `bench
//! choose WHICH FILE RECORDS TIMES` does so with a file of wrapped models: FILE is copies or issues.

use std::hint::black_box;
use std::process::ExitCode;
use std::time::{Duration, Instant};

use grid_tests::claims::keeping::{Calls, EXPORTS, REFERENCE};
use grid_tests::edits::Stroke;
use grid_tests::records::{ActivityRow, Choice, Model, Rounds, ThreadRow, Wrapped, NO_LOOP};
use grid_tests::{exchange, proved, reference, Answer, Editing, Part};

/// A page with its records; the plan is the run's own, so that the checks, the run and the report accept.
struct Page {
    model: Vec<u8>,
    choice: Vec<u8>,
    plan: Vec<u8>,
    /// The last activity of which the last tick can be turned so that the plain check still accepts.
    asked: u32,
}

/// What a page is made from: the horizon gives the durations.
struct Shape {
    name: &'static str,
    what: &'static str,
    cores: u8,
    threads: u8,
    activities: u8,
    /// Duration of activity a for a horizon.
    duration: fn(u8, usize) -> usize,
    /// Predecessors of activity a, in both masks.
    predecessors: fn(u8) -> u32,
    priority: fn(u8) -> u16,
}

/// All bits below `limit`.
fn below(limit: u8) -> u32 {
    (1u32 << limit) - 1
}

const SHAPES: &[Shape] = &[
    Shape {
        name: "waiting",
        what: "8 short activities before 24 long ones of one priority; up to 16 wait",
        cores: 8,
        threads: 8,
        activities: 32,
        duration: |a, horizon| if a < 8 { 1 } else { (horizon - 2) / 3 },
        predecessors: |a| if a < 8 { 0 } else { below(8) },
        priority: |_| 5,
    },
    Shape {
        name: "urgent",
        what: "16 short activities before 16 long ones of 8 priorities",
        cores: 8,
        threads: 8,
        activities: 32,
        duration: |a, horizon| if a < 16 { 1 } else { (horizon - 4) / 2 },
        predecessors: |a| if a < 16 { 0 } else { below(16) },
        priority: |j| 10 * u16::from(j),
    },
    Shape {
        name: "layers",
        what: "4 layers of 8 activities, each after all earlier layers",
        cores: 8,
        threads: 8,
        activities: 32,
        duration: |_, horizon| horizon / 4,
        predecessors: |a| below(a / 8 * 8),
        priority: |j| u16::from(j / 2),
    },
    Shape {
        name: "chain",
        what: "each activity after all earlier ones, 7 cores free",
        cores: 8,
        threads: 8,
        activities: 32,
        duration: |_, horizon| horizon / 32,
        predecessors: below,
        priority: |j| u16::from(j),
    },
    Shape {
        name: "free",
        what: "no predecessors, 32 activities of 8 priorities",
        cores: 8,
        threads: 8,
        activities: 32,
        duration: |_, horizon| horizon / 4,
        predecessors: |_| 0,
        priority: |j| u16::from(j),
    },
    Shape {
        name: "single",
        what: "no predecessors, one core",
        cores: 1,
        threads: 8,
        activities: 32,
        duration: |_, horizon| horizon / 32,
        predecessors: |_| 0,
        priority: |j| u16::from(j),
    },
    Shape {
        name: "middle",
        what: "4 cores, 8 threads, 16 activities, 4 before 12",
        cores: 4,
        threads: 8,
        activities: 16,
        duration: |a, horizon| if a < 4 { 2 } else { (horizon - 2) / 3 },
        predecessors: |a| if a < 4 { 0 } else { below(4) },
        priority: |j| u16::from(j / 4),
    },
    Shape {
        name: "small",
        what: "1 core, 2 threads, 3 activities",
        cores: 1,
        threads: 2,
        activities: 3,
        duration: |_, horizon| horizon / 3,
        predecessors: |a| if a == 2 { 3 } else { 0 },
        priority: |j| u16::from(j),
    },
];

/// The pages of the table.
const PAGES: &[(&str, usize)] = &[
    ("waiting", 4096),
    ("urgent", 4096),
    ("layers", 4096),
    ("chain", 4096),
    ("free", 4096),
    ("single", 4096),
    ("rounds", 4096),
    ("unrolled", 4096),
    ("gangs", 4096),
    ("narrow", 4096),
    ("middle", 1024),
    ("middle", 256),
    ("small", 64),
    ("small", 8),
];

/// The page and the horizons of the second table.
const GROWING: &str = "waiting";
const HORIZONS: [usize; 4] = [512, 1024, 2048, 4096];

fn page(name: &str, horizon: usize) -> Page {
    let (model, choice) = four_rounds(horizon);
    match name {
        "rounds" => written(&model, &choice),
        "unrolled" => written(&model.unrolled(), &choice),
        "gangs" => gangs(horizon, |a| if a < 16 { 1 } else { 1 + a % 4 }),
        "narrow" => gangs(horizon, |_| 1),
        _ => shaped(name, horizon),
    }
}

fn shaped(name: &str, horizon: usize) -> Page {
    let shape = SHAPES.iter().find(|shape| shape.name == name).expect("no page of that name");
    let durations: Vec<u16> = (0..shape.activities).map(|a| (shape.duration)(a, horizon) as u16).collect();
    let threads = (0..shape.threads)
        .map(|j| ThreadRow { period: (1, 65535), release: (0, 65535), priority: (shape.priority)(j) })
        .collect();
    let activities = (0..shape.activities)
        .map(|a| ActivityRow {
            thread: a % shape.threads,
            duration: (1, 65535),
            delay: 0,
            temporal: (shape.predecessors)(a),
            data: (shape.predecessors)(a),
        })
        .collect();
    let model = Model { cores: shape.cores, horizon: horizon as u16, threads, activities, rounds: None };
    written(&model, &Choice { threads: vec![(0, horizon as u16); shape.threads.into()], durations })
}

/// 16 activities of one tick before 16 long ones of these widths, of 8 priorities. With widths 1 to 4 one that does not fit is
/// passed over at many ticks.
fn gangs(horizon: usize, width: impl Fn(u8) -> u8) -> Page {
    let threads = (0..8).map(|j| ThreadRow { period: (0, 0), release: (0, 0), priority: 10 * j }).collect();
    let activity = |a: u8| ActivityRow {
        thread: a % 8,
        duration: (1, 65535),
        delay: 0,
        temporal: if a < 16 { 0 } else { below(16) },
        data: 0,
    };
    let model = Model {
        cores: 8,
        horizon: horizon as u16,
        threads,
        activities: (0..32).map(activity).collect(),
        rounds: Some(Rounds { count: 1, loops: vec![NO_LOOP; 32], widths: Some((0..32).map(width).collect()) }),
    };
    let durations = (0..32).map(|a| if a < 16 { 1 } else { (horizon / 6) as u16 }).collect();
    written(&model, &Choice { threads: vec![(0, 0); 8], durations })
}

/// Four rounds of 2 threads and 8 activities, each after itself in the round before; the period is a quarter of the horizon.
fn four_rounds(horizon: usize) -> (Model, Choice) {
    let period = horizon as u16 / 4;
    let thread = ThreadRow { period: (period, period), release: (0, 0), priority: 1 };
    let activity =
        |a| ActivityRow { thread: a % 2, duration: (1, 65535), delay: 0, temporal: below(a) & 1, data: below(a) & 2 };
    let model = Model {
        cores: 8,
        horizon: horizon as u16,
        threads: vec![thread; 2],
        activities: (0..8).map(activity).collect(),
        rounds: Some(Rounds { count: 4, loops: (0..8).collect(), widths: None }),
    };
    let chosen = (0..8).map(|j| (j / 2 * period, period)).collect();
    (model, Choice { threads: chosen, durations: vec![period / 4; 32] })
}

/// A page's records, with the plan that the run writes.
fn written(model: &Model, choice: &Choice) -> Page {
    let mut plan = vec![0; model.plan_length()];
    let (model, choice) = (model.bytes(), choice.bytes());
    reference::run(&model, &choice, &mut plan).expect("the run of a page must succeed");
    reference::check_strict(&model, &plan).expect("the plan of a page must pass");
    let accepted = |&a: &u32| (REFERENCE.ask)(&mut Editing::default(), &model, &plan, turning(&plan, a)).number == 0;
    let asked = (0..plan[6].into()).rfind(accepted).expect("an edit of a page must pass");
    Page { model, choice, plan, asked }
}

/// Files of the largest version 1 model, wrapped: copies of one record, or issues that rise, so that each record stands
/// until the next.
const FILES: [&str; 2] = ["copies", "issues"];
const RECORDS: [usize; 4] = [1, 10, 100, 1000];

fn file(name: &str, records: usize) -> Vec<u8> {
    let model = shaped(GROWING, 4096).model;
    let issue = |r| if name == "issues" { r as u16 } else { 1 };
    let record = |r| Wrapped { series: 7, issue: issue(r), withdrawn: 0, model: model.clone() }.bytes();
    (0..records).flat_map(record).collect()
}

fn choose(which: &str, file: &[u8]) -> Part {
    match which {
        "proved" => proved::choose(black_box(file)),
        _ => exchange::choose(black_box(file)).into(),
    }
}

const CALLS: [&str; 7] = ["plain", "strict", "run", "lateness", "stroke", "ask", "keep"];
const SIDES: [&str; 2] = ["proved", "reference"];

/// What is lent to the calls of this name: the plan for strokes and keeps, else a buffer as long as it is.
fn lent(call: &str, page: &Page) -> Vec<u8> {
    if ["stroke", "keep"].contains(&call) {
        page.plan.clone()
    } else {
        vec![0; page.plan.len()]
    }
}

fn program(which: &str) -> Calls {
    match which {
        "proved" => EXPORTS,
        _ => REFERENCE,
    }
}

/// Marks the last tick of an activity, or clears it where it is marked, so that no call is refused.
fn turning(plan: &[u8], activity: u32) -> Stroke {
    let last_word = plan.last_chunk().map_or(0, |four| u32::from_be_bytes(*four));
    let tick = u32::from(u16::from_be_bytes([plan[7], plan[8]])) - 1;
    Stroke { marks: last_word >> activity & 1 == 0, activity, tick }
}

/// A mark or a clear of the last activity, without an editing state.
fn stroke(program: Calls, model: &[u8], plan: &mut [u8]) -> Answer {
    let last = u32::from(plan[6]) - 1;
    program.stateless.make(model, plan, turning(plan, last))
}

/// An ask that tells figures.
fn ask(program: Calls, state: &mut Editing, model: &[u8], plan: &[u8], activity: u32) -> Answer {
    (program.ask)(black_box(state), model, plan, turning(plan, activity))
}

/// Such an ask and its keep.
fn keep(program: Calls, model: &[u8], plan: &mut [u8], activity: u32) -> Answer {
    let state = &mut Editing::default();
    match ask(program, state, model, plan, activity) {
        Answer { number: 0, .. } => (program.keep)(black_box(state), model, plan),
        told => told,
    }
}

/// Makes one call; `out` is what was lent to it.
fn call(call: &str, which: &str, page: &Page, out: &mut [u8]) -> Answer {
    let (model, choice, plan) = (black_box(&page.model), black_box(&page.choice), black_box(&page.plan));
    match (call, which) {
        ("plain", "proved") => proved::check_plain(model, plan),
        ("strict", "proved") => proved::check_strict(model, plan),
        ("run", "proved") => proved::run(model, choice, out),
        ("lateness", "proved") => proved::lateness(model, choice, black_box(&mut [0; 32])),
        ("plain", "reference") => reference::check_plain(model, plan).into(),
        ("strict", "reference") => reference::check_strict(model, plan).into(),
        ("run", "reference") => reference::run(model, choice, out).into(),
        ("lateness", "reference") => reference::lateness(model, choice, black_box(&mut [0; 32])).into(),
        ("stroke", _) => stroke(program(which), model, black_box(out)),
        ("ask", _) => ask(program(which), &mut Editing::default(), model, plan, page.asked),
        ("keep", _) => keep(program(which), model, black_box(out), page.asked),
        _ => panic!("no such call"),
    }
}

/// Microseconds of one call on each side: the least mean of many short rounds, both sides taking turns, so that other
/// work on the machine hardly shows.
fn least(mut once: impl FnMut(&str)) -> [f64; 2] {
    const ROUNDS: usize = 150;
    const ROUND: Duration = Duration::from_micros(500);
    let mut least = [f64::INFINITY; 2];
    for _ in 0..ROUNDS {
        for (side, which) in SIDES.iter().enumerate() {
            let begin = Instant::now();
            let mut calls = 0;
            while begin.elapsed() < ROUND {
                once(which);
                calls += 1;
            }
            least[side] = least[side].min(begin.elapsed().as_secs_f64() * 1e6 / f64::from(calls));
        }
    }
    least
}

fn time(name: &str, page: &Page) -> [f64; 2] {
    let mut out = lent(name, page);
    let least = least(|which| {
        let answer = black_box(call(name, which, page, &mut out));
        assert_eq!(answer.number, 0, "{name} of the {which} refused a page");
    });
    assert!(out == page.plan || name != "run", "the run wrote another plan");
    least
}

fn table() {
    println!("microseconds of one call, all accepted; ratio is proved / reference");
    println!("{:<10} {:>5}  {:<8} {:>10} {:>10} {:>6}", "page", "H", "call", SIDES[0], SIDES[1], "ratio");
    for &(name, horizon) in PAGES {
        let page = page(name, horizon);
        for call in CALLS {
            let [ours, theirs] = time(call, &page);
            println!("{name:<10} {horizon:>5}  {call:<8} {ours:>10.2} {theirs:>10.2} {:>6.2}", ours / theirs);
        }
    }
    println!();
    println!("cost against the horizon, page {GROWING}: microseconds, and nanoseconds for each tick");
    println!(
        "{:<8} {:>5}  {:>10} {:>10} {:>6} {:>12} {:>12}",
        "call", "H", SIDES[0], SIDES[1], "ratio", "proved/tick", "ref./tick"
    );
    for call in CALLS {
        for horizon in HORIZONS {
            let [ours, theirs] = time(call, &page(GROWING, horizon));
            let tick = 1000.0 / horizon as f64;
            println!(
                "{call:<8} {horizon:>5}  {ours:>10.2} {theirs:>10.2} {:>6.2} {:>12.1} {:>12.1}",
                ours / theirs,
                ours * tick,
                theirs * tick
            );
        }
    }
    println!();
    println!("a file of wrapped models of 582 bytes each: microseconds, and nanoseconds for each record");
    println!(
        "{:<8} {:>7}  {:>10} {:>10} {:>6} {:>14} {:>12}",
        "file", "records", SIDES[0], SIDES[1], "ratio", "proved/record", "ref./record"
    );
    for name in FILES {
        for records in RECORDS {
            let file = file(name, records);
            let [ours, theirs] = least(|which| assert_eq!(black_box(choose(which, &file)).number, 0));
            let record = 1000.0 / records as f64;
            println!(
                "{name:<8} {records:>7}  {ours:>10.2} {theirs:>10.2} {:>6.2} {:>14.1} {:>12.1}",
                ours / theirs,
                ours * record,
                theirs * record
            );
        }
    }
    println!();
    for shape in SHAPES {
        let (cores, threads, activities) = (shape.cores, shape.threads, shape.activities);
        println!("{}: {}; cores {cores}, threads {threads}, activities {activities}", shape.name, shape.what);
    }
    println!("rounds: 4 rounds of 8 activities, each after itself in the round before; cores 8, threads 2, activities 8 a round");
    println!("unrolled: the version 1 record of the same model");
    println!("gangs: 16 short activities before 16 long ones of widths 1 to 4; cores 8, threads 8, activities 32");
    println!("narrow: the same with every width 1");
    println!("stroke: a call that marks the last tick of the last activity, and one that clears it, in turn");
    println!("ask: a call that asks for such an edit of an activity with which the plain check still accepts");
    println!("keep: such an ask and its keep, of a mark and of a clear in turn");
}

/// One call, many times.
fn repeat(words: &[String]) -> Option<()> {
    let [name, which, page_name, horizon, times] = words else {
        return None;
    };
    let horizon: usize = horizon.parse().ok()?;
    let times: u32 = times.parse().ok()?;
    if !SIDES.contains(&which.as_str()) {
        return None;
    }
    if name == "choose" && FILES.contains(&page_name.as_str()) {
        let file = file(page_name, horizon);
        for _ in 0..times {
            black_box(choose(which, &file));
        }
        return Some(());
    }
    let known = CALLS.contains(&name.as_str())
        && PAGES.iter().any(|&(page, _)| page == page_name)
        && (8..=4096).contains(&horizon);
    if !known {
        return None;
    }
    let page = page(page_name, horizon);
    let mut out = lent(name, &page);
    for _ in 0..times {
        black_box(call(name, which, &page, &mut out));
    }
    Some(())
}

fn main() -> ExitCode {
    let words: Vec<String> = std::env::args().skip(1).collect();
    if words.is_empty() {
        table();
    } else if repeat(&words).is_none() {
        eprintln!("usage: bench [plain|strict|run|lateness|stroke|ask|keep proved|reference PAGE HORIZON TIMES]");
        eprintln!("       bench [choose proved|reference FILE RECORDS TIMES]");
        return ExitCode::from(2);
    }
    ExitCode::SUCCESS
}
