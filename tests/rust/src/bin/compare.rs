//! Compares the exports with the reference over many pairs of records: a model and a plan by both checks, a model and a
//! choice by the run and by the report of lateness, with the whole of what these two were lent; the report is then held
//! against the exported run, and a page of version 2 or 3 against the record of its unrolled model, and against that of
//! version 2 where version 3 has no width above 1. With many plans comes a list of calls that mark and clear ticks, made
//! without an editing state and once more with one, and with many a list with asks and keeps among them, in some of which the
//! plan or the model is changed elsewhere between two calls; the whole plan and the whole state are compared after each call.
//! A list is then held against what 02 says of every list,
//! unless something was changed elsewhere or asked before it began. With each pair comes a pair or a file of wrapped models, of
//! which the exports are asked which one stands; what they answer is then held against what 02 says of every file. It stops at
//! the first difference, prints that case and exits with 1. It prints how often each call gave each answer, of all models and
//! of those with a gang, and exits with 1 if one that the call can give came fewer than a hundred times.
//!
//! `compare [CASES]` tries cases 0 to CASES - 1, `compare FIRST..END` those from FIRST to END - 1, of which no number of
//! answers is asked.

use std::process::ExitCode;
use std::sync::atomic::{AtomicBool, Ordering};
use std::thread;

use grid_tests::cases::{self, Case};
use grid_tests::claims::edits::{self, List};
use grid_tests::claims::keeping;
use grid_tests::claims::{self, Calls};
use grid_tests::edits::Stroke;
use grid_tests::files::{self, Given};
use grid_tests::keeping::lists::{Lent, Made, Turn};
use grid_tests::keeping::Call;
use grid_tests::{exchange, proved, reference, Answer, Editing};

const SEED: u64 = 2011;
const CASES: u64 = 500_000;
/// Bytes kept around the lent buffer or plan, and rows around the lent list, to see that nothing outside them is written.
const MARGIN: usize = 64;
const MARGIN_BYTE: u8 = 0x5c;
const MARGIN_ROW: i32 = 0x5c5c_5c5c;
/// No plan has more bytes.
const LONGEST_PLAN: usize = 16_553;
/// The row of an activity whose thread has no period.
const DASH: i32 = -2_147_483_648;

/// The calls, and once more those whose model has a width above 1. E-mark and e-clear are the marks and clears with an editing
/// state; direct are those of them that stand in the lists with asks and keeps.
const CALLS: [&str; 24] = [
    "plain",
    "strict",
    "run",
    "lateness",
    "mark",
    "clear",
    "e-mark",
    "e-clear",
    "ask",
    "keep",
    "direct",
    "stands",
    "choose",
    "plain*",
    "strict*",
    "run*",
    "lateness*",
    "mark*",
    "clear*",
    "e-mark*",
    "e-clear*",
    "ask*",
    "keep*",
    "direct*",
];
/// How much later a call stands once more.
const GANGS: usize = 13;
const MARK: usize = 4;
const CLEAR: usize = 5;
const EDIT_MARK: usize = 6;
const EDIT_CLEAR: usize = 7;
const ASK: usize = 8;
const KEEP: usize = 9;
const DIRECT: usize = 10;
const STANDS: usize = 11;
const CHOOSE: usize = 12;
/// How often each answer that a call can give must come.
const LEAST: u64 = 100;
/// What a model is refused by.
const MODEL: &[usize] = &[1, 2, 3, 4, 51, 5, 52, 6, 53, 57, 7];
/// What each call can answer besides, where 0 stands for accepted. 24 is out of the book (02): no call may answer it.
const CHECKED: &[usize] = &[0, 8, 9, 10, 11, 12, 14, 21, 22, 23, 25, 26, 27, 28, 29];
const CHECKED_STRICTLY: &[usize] = &[30, 31];
const RUN: &[usize] = &[0, 8, 9, 10, 11, 12, 13, 41, 42, 43];
const LATENESS: &[usize] = &[0, 8, 9, 10, 11, 12, 13, 42, 43, 50];
const EDITED: &[usize] = &[0, 8, 9, 10, 11, 12, 14, 58, 59, 60];
const TOLD: &[usize] = &[21, 22, 23, 25, 26, 27, 28, 29];
const KEPT: &[usize] = &[61];
const EXCHANGED: &[usize] = &[0, 54, 55, 56];

/// How often each number was answered, for each call.
#[derive(Clone)]
struct Counts([[u64; 64]; CALLS.len()]);

impl Counts {
    fn add(&mut self, other: &Counts) {
        for (call, row) in self.0.iter_mut().enumerate() {
            for (number, count) in row.iter_mut().enumerate() {
                *count += other.0[call][number];
            }
        }
    }

    /// Counts an answer, and once more where the model has a gang.
    fn count(&mut self, call: usize, answer: Answer, has_gang: bool) {
        self.0[call][answer.number as usize] += 1;
        if has_gang {
            self.0[GANGS + call][answer.number as usize] += 1;
        }
    }

    fn can_answer(call: usize, number: usize) -> bool {
        let answers: &[&[usize]] = match call {
            0 => &[MODEL, CHECKED],
            1 => &[MODEL, CHECKED, CHECKED_STRICTLY],
            2 => &[MODEL, RUN],
            3 => &[MODEL, LATENESS],
            MARK | CLEAR | EDIT_MARK | EDIT_CLEAR | DIRECT => &[MODEL, EDITED],
            ASK => &[MODEL, EDITED, TOLD],
            KEEP => &[MODEL, EDITED, KEPT],
            STANDS | CHOOSE => &[EXCHANGED],
            _ => return Counts::can_answer(call - GANGS, number) && !MODEL.contains(&number),
        };
        answers.iter().any(|numbers| numbers.contains(&number))
    }

    fn print(&self) {
        let row = |name: &str, cells: [String; CALLS.len()]| {
            let cells: String = cells.iter().map(|cell| format!(" {cell:>9}")).collect();
            println!("{name:>9}{cells}");
        };
        let calls = std::array::from_fn(|call| call);
        row("answer", CALLS.map(str::to_string));
        for number in 0..64 {
            let shown = |call: usize| self.0[call][number] > 0 || Counts::can_answer(call, number);
            let cell = |call: usize| if shown(call) { self.0[call][number].to_string() } else { "-".to_string() };
            if calls.into_iter().any(shown) {
                row(&name(number), calls.map(cell));
            }
        }
        row("all", calls.map(|call| self.0[call].iter().sum::<u64>().to_string()));
        println!("* of these, the model has a width above 1");
        self.print_lists();
    }

    /// What the lists with asks and keeps have of each.
    fn print_lists(&self) {
        let answered = |call: usize, numbers: &[usize]| numbers.iter().map(|&number| self.0[call][number]).sum::<u64>();
        let all = |call: usize| self.0[call].iter().sum::<u64>();
        let (accepted, told) = (answered(ASK, &[0]), answered(ASK, TOLD));
        let (kept, nothing_asked) = (answered(KEEP, &[0]), answered(KEEP, KEPT));
        let made = answered(DIRECT, &[0]);
        println!("asks: {accepted} told figures, {told} told one of 21 to 29, {} refused", all(ASK) - accepted - told);
        println!("keeps: {kept} done, {nothing_asked} with 61, {} refused otherwise", all(KEEP) - kept - nothing_asked);
        println!("direct edits beside them: {made} done, {} refused", all(DIRECT) - made);
    }

    /// What is wrong with the counts: an answer reached too seldom, or one that the call cannot give.
    fn faults(&self) -> Vec<String> {
        let mut faults = Vec::new();
        for (call, row) in self.0.iter().enumerate() {
            for (number, &count) in row.iter().enumerate() {
                let can_answer = Counts::can_answer(call, number);
                if can_answer && count < LEAST {
                    faults.push(format!("{} answered {} fewer than {LEAST} times", CALLS[call], name(number)));
                }
                if !can_answer && count > 0 {
                    faults.push(format!("{} cannot answer {}", CALLS[call], name(number)));
                }
            }
        }
        faults
    }
}

fn name(number: usize) -> String {
    if number == 0 {
        "accepted".to_string()
    } else {
        number.to_string()
    }
}

fn hex(bytes: &[u8]) -> String {
    bytes.iter().map(|byte| format!("{byte:02x}")).collect()
}

/// A difference, ready to be printed.
fn difference(case: &Case, call: &str, ours: impl std::fmt::Debug, theirs: impl std::fmt::Debug) -> String {
    format!(
        "{call}: {}\nmodel {}\nsecond {}\nbuffer {}\nrows {}\nstrokes {:?}\nturns {:?}\nstate {:?}\nreference {ours:?}\nexport \
         {theirs:?}",
        case.kind,
        hex(&case.model),
        hex(&case.second),
        case.buffer.as_deref().map_or("none".to_string(), hex),
        case.rows.as_ref().map_or("none".to_string(), |rows| format!("{rows:?}")),
        case.strokes,
        case.turns,
        case.state,
    )
}

fn compare(case: &Case, counts: &mut Counts) -> Result<(), String> {
    let mut answered = |call: usize, expected: Answer, answer: Answer| {
        if expected != answer {
            return Err(difference(case, CALLS[call], expected, answer));
        }
        counts.count(call, answer, case.has_gang());
        Ok(())
    };
    let (model, second) = (&case.model, &case.second);
    if case.checked {
        answered(0, reference::check_plain(model, second).into(), proved::check_plain(model, second))?;
        let strict = reference::check_strict(model, second);
        answered(1, strict.into(), proved::check_strict(model, second))?;
        if strict.is_ok() {
            run_again(case)?;
        }
    }
    if !case.strokes.is_empty() {
        compare_edits(case, &mut answered)?;
        compare_edits_with_state(case, &mut answered)?;
    }
    if let Some(before) = &case.buffer {
        let mut expected = before.clone();
        let expected_answer = reference::run(model, second, &mut expected).into();
        let (answer, buffer) = run_proved(model, second, before)
            .map_err(|text| difference(case, "run", text, "a byte outside the buffer was written"))?;
        answered(2, expected_answer, answer)?;
        if buffer != expected {
            return Err(difference(case, "run, the buffer", hex(&expected), hex(&buffer)));
        }
    }
    if let Some(before) = &case.rows {
        let mut expected = before.clone();
        let expected_answer = reference::lateness(model, second, &mut expected).into();
        let (answer, rows) = lateness_proved(model, second, before)
            .map_err(|text| difference(case, "lateness", text, "a row outside the list was written"))?;
        answered(3, expected_answer, answer)?;
        if rows != expected {
            return Err(difference(case, "lateness, the rows", expected, rows));
        }
        beside_the_run(case, before, answer, &rows)?;
    }
    compare_turns(case, counts)?;
    answered_alike(case)
}

/// Both programs make the calls of the list, each on its own plan: the plans, and the bytes around them, are the same after
/// every call, and as 02 says of every list.
fn compare_edits(
    case: &Case,
    mut answered: impl FnMut(usize, Answer, Answer) -> Result<(), String>,
) -> Result<(), String> {
    let (model, plan) = (&case.model, MARGIN..MARGIN + case.second.len());
    let mut expected = vec![MARGIN_BYTE; plan.end + MARGIN];
    expected[plan.clone()].copy_from_slice(&case.second);
    let mut space = expected.clone();
    let mut calls = Vec::new();
    for &stroke in &case.strokes {
        let expected_answer = edits::REFERENCE.make(model, &mut expected[plan.clone()], stroke);
        let answer = edits::EXPORTS.make(model, &mut space[plan.clone()], stroke);
        answered(if stroke.marks { MARK } else { CLEAR }, expected_answer, answer)?;
        if space != expected {
            return Err(difference(case, &format!("the plan after {stroke:?}"), hex(&expected), hex(&space)));
        }
        calls.push((stroke, answer));
    }
    let list = List { model, before: &case.second, calls: &calls, after: &space[plan] };
    edits::of_list(edits::EXPORTS, list)
        .map_err(|claim| difference(case, "the list of edits", format!("of every list: {claim}"), &calls))
}

/// The same with the calls that take an editing state; the states are the same after every call too.
fn compare_edits_with_state(
    case: &Case,
    mut answered: impl FnMut(usize, Answer, Answer) -> Result<(), String>,
) -> Result<(), String> {
    let mut expected = Lent::new(&case.model, &case.second, case.state);
    let mut lent = expected.clone();
    let mut calls = Vec::new();
    for &stroke in &case.strokes {
        let turn = Turn { elsewhere: None, call: Call::Edit(stroke) };
        let (expected_answer, answer) = made_by_both(case, &turn, &mut expected, &mut lent)?;
        answered(if stroke.marks { EDIT_MARK } else { EDIT_CLEAR }, expected_answer, answer)?;
        calls.push((stroke, answer));
    }
    let list = List { model: &case.model, before: &case.second, calls: &calls, after: lent.plan() };
    edits::of_list(edits::EXPORTS, list)
        .map_err(|claim| difference(case, "the list of edits with a state", format!("of every list: {claim}"), &calls))
}

/// The same with asks and keeps among the calls, and with what is changed elsewhere.
fn compare_turns(case: &Case, counts: &mut Counts) -> Result<(), String> {
    let mut expected = Lent::new(&case.model, &case.second, case.state);
    let mut lent = expected.clone();
    let mut list = Vec::new();
    for turn in &case.turns {
        let (expected_answer, answer) = made_by_both(case, turn, &mut expected, &mut lent)?;
        if expected_answer != answer {
            return Err(difference(case, &format!("turn {}", list.len()), expected_answer, answer));
        }
        let call = match turn.call {
            Call::Ask(_) => ASK,
            Call::Keep => KEEP,
            Call::Edit(_) => DIRECT,
        };
        counts.count(call, answer, case.has_gang() && lent.model == case.model);
        list.push(Made { call: turn.call, answer, plan: lent.plan().to_vec() });
    }
    if case.state.asked_edit().is_some() || case.turns.iter().any(|turn| turn.elsewhere.is_some()) {
        return Ok(());
    }
    keeping::of_list(keeping::EXPORTS, &case.model, &case.second, &list)
        .map_err(|claim| difference(case, "the list", format!("of every list: {claim}"), &list))
}

/// A call of the exports.
fn export(state: &mut Editing, model: &[u8], plan: &mut [u8], call: Call) -> Answer {
    keeping::EXPORTS.make(state, model, plan, call)
}

/// The answers of both programs to a call; what each was lent and handed is the same afterwards.
fn made_by_both(case: &Case, turn: &Turn, expected: &mut Lent, lent: &mut Lent) -> Result<(Answer, Answer), String> {
    let before = lent.state;
    let expected_answer = expected.make(turn, grid_tests::keeping::make);
    let answer = lent.make(turn, export);
    if lent != expected {
        let left = |answer: Answer, lent: &Lent| (answer, lent.state, hex(lent.space()));
        let what = format!("what is left by {turn:?}");
        return Err(difference(case, &what, left(expected_answer, expected), left(answer, lent)));
    }
    keeping::of_state(before, turn.call, answer, lent.state)
        .map_err(|claim| difference(case, &format!("the state after {turn:?}"), claim, (before, answer, lent.state)))?;
    Ok((expected_answer, answer))
}

const EXPORTS: Calls = Calls { stands: proved::stands, choose: proved::choose };

/// The exports tell which wrapped record stands as the reference does, and as 02 says of every pair and file.
fn compare_wrapped(case: &files::Case, counts: &mut Counts) -> Result<(), String> {
    let (call, expected, answer) = match &case.given {
        Given::Pair(first, second) => (STANDS, exchange::stands(first, second), proved::stands(first, second)),
        Given::File(file) => (CHOOSE, exchange::choose(file), proved::choose(file)),
    };
    let text = || match &case.given {
        Given::Pair(first, second) => format!("first {}\nsecond {}", hex(first), hex(second)),
        Given::File(file) => format!("file {}", hex(file)),
    };
    if answer != expected.into() {
        let kind = case.kind;
        return Err(format!("{}: {kind}\n{}\nreference {expected:?}\nexport {answer:?}", CALLS[call], text()));
    }
    counts.0[call][answer.number as usize] += 1;
    let claimed = match &case.given {
        Given::Pair(first, second) => claims::of_pair(EXPORTS, first, second, answer),
        Given::File(file) => claims::of_file(EXPORTS, file, answer),
    };
    claimed.map_err(|claim| format!("{}: {}\n{}\nnot so: {claim}\n{answer:?}", CALLS[call], case.kind, text()))
}

/// The exports answer and write the same for the model and for those that must be answered alike.
fn answered_alike(case: &Case) -> Result<(), String> {
    let second = &case.second;
    let answers = |model: &[u8]| {
        let mut buffer = case.buffer.clone().unwrap_or_default();
        let mut rows = case.rows.clone().unwrap_or_default();
        let mut plan = second.clone();
        let checked = [proved::check_plain(model, second), proved::check_strict(model, second)];
        let filled = [proved::run(model, second, &mut buffer), proved::lateness(model, second, &mut rows)];
        let edit = |&stroke: &Stroke| edits::EXPORTS.make(model, &mut plan, stroke);
        let edited: Vec<Answer> = case.strokes.iter().map(edit).collect();
        let (mut state, mut other_plan) = (case.state, second.clone());
        let edit = |&stroke: &Stroke| keeping::EXPORTS.edit(&mut state, model, &mut other_plan, stroke);
        let edited_with_state: Vec<Answer> = case.strokes.iter().map(edit).collect();
        let mut lent = Lent::new(model, second, case.state);
        let turned: Vec<Answer> = case.turns.iter().map(|turn| lent.make(turn, export)).collect();
        let filled = (filled, buffer, rows);
        let edited = (edited, plan, edited_with_state, other_plan, state);
        (checked, filled, edited, turned, lent.plan().to_vec(), lent.state)
    };
    let mut page = None;
    for other in case.alike() {
        let (page, alike) = (page.get_or_insert_with(|| answers(&case.model)), answers(&other));
        if *page != alike {
            return Err(difference(case, &format!("beside the model {}", hex(&other)), alike, page));
        }
    }
    Ok(())
}

/// The report answers as the exported run does with room enough, but for 50, and the rows' signs match that answer: dashes
/// aside, the first negative row is the activity of 43, and a good run has none.
fn beside_the_run(case: &Case, before: &[i32], answer: Answer, rows: &[i32]) -> Result<(), String> {
    let run = proved::run(&case.model, &case.second, &mut [MARGIN_BYTE; LONGEST_PLAN]);
    let from_input = (8..=13).contains(&run.number) || MODEL.contains(&(run.number as usize));
    let expected = if before.len() < 32 && !from_input { Answer::refused(50, 0, 0) } else { run };
    if answer != expected {
        return Err(difference(case, "lateness beside the run", expected, answer));
    }
    // The choice has the unrolled counts.
    let filled = if [0, 43].contains(&answer.number) { usize::from(case.second[6]) } else { 0 };
    let first_late = rows[..filled].iter().position(|&row| row < 0 && row != DASH);
    let named = (answer.number == 43).then_some(answer.first as usize);
    if first_late != named || rows[filled..] != before[filled..] {
        return Err(difference(case, "lateness, rows beside the run", answer, rows));
    }
    Ok(())
}

/// A plan that passes the strict check is the one that the run writes for its choices.
fn run_again(case: &Case) -> Result<(), String> {
    let plan = &case.second;
    let (answer, buffer) = run_proved(&case.model, &choice_of_plan(plan), &vec![MARGIN_BYTE; plan.len()])
        .map_err(|text| difference(case, "run again", text, "a byte outside the buffer was written"))?;
    if answer.number != 0 || answer.length as usize != plan.len() || buffer != *plan {
        return Err(difference(case, "run again", hex(plan), (answer, hex(&buffer))));
    }
    Ok(())
}

/// The export's answer and the buffer after it; refused if a byte around the buffer was changed.
fn run_proved(model: &[u8], choice: &[u8], buffer: &[u8]) -> Result<(Answer, Vec<u8>), String> {
    let mut space = vec![MARGIN_BYTE; buffer.len() + 2 * MARGIN];
    let end = MARGIN + buffer.len();
    space[MARGIN..end].copy_from_slice(buffer);
    let answer = proved::run(model, choice, &mut space[MARGIN..end]);
    let margins = space[..MARGIN].iter().chain(&space[end..]);
    if margins.into_iter().any(|&byte| byte != MARGIN_BYTE) {
        return Err(hex(&space));
    }
    Ok((answer, space[MARGIN..end].to_vec()))
}

/// The export's answer and the list after it; refused if a row around the list was changed.
fn lateness_proved(model: &[u8], choice: &[u8], rows: &[i32]) -> Result<(Answer, Vec<i32>), String> {
    let mut space = vec![MARGIN_ROW; rows.len() + 2 * MARGIN];
    let end = MARGIN + rows.len();
    space[MARGIN..end].copy_from_slice(rows);
    let answer = proved::lateness(model, choice, &mut space[MARGIN..end]);
    let margins = space[..MARGIN].iter().chain(&space[end..]);
    if margins.into_iter().any(|&row| row != MARGIN_ROW) {
        return Err(format!("{space:?}"));
    }
    Ok((answer, space[MARGIN..end].to_vec()))
}

/// The choice record of a well-formed plan: its releases, its periods and its counts.
fn choice_of_plan(plan: &[u8]) -> Vec<u8> {
    let n = usize::from(plan[5]);
    let m = usize::from(plan[6]);
    let mut choice = (7 + 4 * n as u32 + 2 * m as u32).to_be_bytes().to_vec();
    choice.extend(&plan[4..7]);
    choice.extend(&plan[9..9 + 4 * n]);
    let grid = &plan[9 + 4 * n + 4 * m..];
    for a in 0..m {
        let count = grid.chunks_exact(4).filter(|word| word[3 - a / 8] >> (a % 8) & 1 == 1).count();
        choice.extend((count as u16).to_be_bytes());
    }
    choice
}

fn main() -> ExitCode {
    let word = std::env::args().nth(1).unwrap_or_else(|| CASES.to_string());
    let (first, end) = word.split_once("..").unwrap_or(("0", &word));
    let (Ok(first), Ok(end)) = (first.parse::<u64>(), end.parse::<u64>()) else {
        eprintln!("usage: compare [CASES | FIRST..END]");
        return ExitCode::from(2);
    };
    let workers = thread::available_parallelism().map_or(1, |count| count.get() as u64);
    let stopped = AtomicBool::new(false);
    let mut counts = Counts([[0; 64]; CALLS.len()]);
    let mut same = true;
    thread::scope(|scope| {
        let stopped = &stopped;
        let work = move |worker: u64| {
            let mut counts = Counts([[0; 64]; CALLS.len()]);
            let mut number = first + worker;
            while number < end && !stopped.load(Ordering::Relaxed) {
                let compared = compare(&cases::make(SEED, number), &mut counts)
                    .and_then(|()| compare_wrapped(&files::make(SEED, number), &mut counts));
                if let Err(text) = compared {
                    if !stopped.swap(true, Ordering::Relaxed) {
                        println!("case {number}, {text}");
                    }
                    return Err(());
                }
                number += workers;
            }
            Ok(counts)
        };
        let handles: Vec<_> = (0..workers).map(|worker| scope.spawn(move || work(worker))).collect();
        for handle in handles {
            match handle.join() {
                Ok(Ok(part)) => counts.add(&part),
                _ => same = false,
            }
        }
    });
    if !same {
        return ExitCode::FAILURE;
    }
    println!(
        "{0} pairs with lists of edits, and {0} pairs and files of wrapped models, without a difference",
        end - first
    );
    counts.print();
    // A part of the cases need not reach every answer.
    if word.contains("..") {
        return ExitCode::SUCCESS;
    }
    let faults = counts.faults();
    for fault in &faults {
        println!("{fault}");
    }
    if faults.is_empty() {
        ExitCode::SUCCESS
    } else {
        ExitCode::FAILURE
    }
}
