//! The 30 solutions that source document 000 prints: each passes the plain check with the printed efe and objective.
//!
//! The "objective tightened to" that follows a solution is the solution's own value: its usage in the two sections on
//! CPU usage, its makespan in the two others. A value that the solver left open is taken at its highest, and once more
//! at its lowest. All priorities are equal and activity 5 is active at tick 0 while activity 0 waits, so that the strict
//! check refuses each with 31 0 0. Rule 23 is not the document's: here an end is compared with release + period. Every
//! release is 0, so that the two agree.

use std::fs;

use grid_tests::records::{ActivityRow, Model, Plan, ThreadRow};
use grid_tests::{proved, reference, Answer};

/// The lines of a block: a key and its words.
struct Block(Vec<(String, Vec<String>)>);

impl Block {
    fn of_text(text: &str) -> Block {
        let lines = text.lines().filter(|line| !line.starts_with('#'));
        let parse = |line: &str| {
            let mut words = line.split_whitespace().map(str::to_string);
            (words.next().unwrap(), words.collect())
        };
        Block(lines.map(parse).collect())
    }

    /// All lines of this key.
    fn lines(&self, key: &str) -> Vec<&[String]> {
        self.0.iter().filter(|line| line.0 == key).map(|line| line.1.as_slice()).collect()
    }

    fn words(&self, key: &str) -> &[String] {
        let lines = self.lines(key);
        assert_eq!(lines.len(), 1, "{key}");
        lines[0]
    }

    fn numbers(&self, key: &str) -> Vec<u16> {
        self.words(key).iter().map(|word| word.parse().unwrap()).collect()
    }

    /// The lowest and the highest of each value: the same where the solver decided it.
    fn ranges(&self, key: &str) -> Vec<(u16, u16)> {
        let range = |word: &String| {
            let (low, high) = word.split_once("..").unwrap_or((word, word));
            (low.parse().unwrap(), high.parse().unwrap())
        };
        self.words(key).iter().map(range).collect()
    }
}

/// The mask of the activities whose row marks activity `a`.
fn predecessors(rows: &[&[String]], a: usize) -> u32 {
    (0..rows.len()).filter(|&b| rows[b][a] == "1").map(|b| 1 << b).sum()
}

fn model(input: &Block, delays: &[u16]) -> Model {
    let pairs = |least: &str, most: &str| input.numbers(least).into_iter().zip(input.numbers(most)).collect::<Vec<_>>();
    let (periods, releases, durations) = (pairs("min_p", "max_p"), pairs("min_r", "max_r"), pairs("min_d", "max_d"));
    let priorities = input.numbers("priority");
    let threads = input.numbers("thread");
    Model {
        cores: input.numbers("c")[0] as u8,
        horizon: input.numbers("horizon")[0],
        threads: (0..priorities.len())
            .map(|j| ThreadRow { period: periods[j], release: releases[j], priority: priorities[j] })
            .collect(),
        activities: (0..threads.len())
            .map(|a| ActivityRow {
                thread: threads[a] as u8,
                duration: durations[a],
                delay: delays[a],
                temporal: predecessors(&input.lines("tp"), a),
                data: predecessors(&input.lines("dd"), a),
            })
            .collect(),
        rounds: None,
    }
}

fn plan(input: &Block, solution: &Block, periods: &[u16]) -> Plan {
    let mut words = vec![0; input.numbers("horizon")[0].into()];
    for (a, ticks) in solution.lines("act").iter().enumerate() {
        for tick in *ticks {
            words[tick.parse::<usize>().unwrap()] |= 1 << a;
        }
    }
    let pairs = |first: Vec<u16>, second: Vec<u16>| first.into_iter().zip(second).collect();
    Plan {
        threads: pairs(solution.numbers("r"), periods.to_vec()),
        rows: pairs(solution.numbers("start"), solution.numbers("end")),
        words,
    }
}

#[test]
fn printed_solutions() {
    let text = fs::read_to_string(concat!(env!("CARGO_MANIFEST_DIR"), "/../vectors/comet.txt")).unwrap();
    let blocks: Vec<&str> = text.split("\n\n").collect();
    // The first block is the comment.
    let input = Block::of_text(blocks[1]);
    let solutions = &blocks[2..];
    assert_eq!(solutions.len(), 30);
    for (number, text) in solutions.iter().enumerate() {
        let solution = Block::of_text(text);
        assert_eq!(solution.words("solution"), [(number + 1).to_string()]);
        check_solution(&input, &solution);
    }
}

fn check_solution(input: &Block, solution: &Block) {
    let name = solution.words("solution");
    let (periods, delays) = (solution.ranges("p"), solution.ranges("delay"));
    for highest in [true, false] {
        let end = |range: &(u16, u16)| if highest { range.1 } else { range.0 };
        let model = model(input, &delays.iter().map(end).collect::<Vec<_>>());
        let mut plan = plan(input, solution, &periods.iter().map(end).collect::<Vec<_>>());
        let (model, bytes) = (model.bytes(), plan.bytes());

        let efe: Vec<u32> = solution.numbers("efe").into_iter().map(u32::from).collect();
        assert_eq!(reference::earliest_starts(&model, &bytes), Ok(efe), "solution {name:?}");

        let plain: Answer = reference::check_plain(&model, &bytes).into();
        let objective = solution.words("objective");
        let value = match objective[0].as_str() {
            "usage" => plain.first,
            _ => plain.third,
        };
        assert_eq!((plain.number, value.to_string()), (0, objective[1].clone()), "solution {name:?}");
        assert_eq!(plain.second, 101);
        assert_eq!(plain, proved::check_plain(&model, &bytes), "solution {name:?}");

        let strict: Answer = reference::check_strict(&model, &bytes).into();
        assert_eq!(strict, Answer::refused(31, 0, 0), "solution {name:?}");
        assert_eq!(strict, proved::check_strict(&model, &bytes), "solution {name:?}");

        // Where the solver raised a period's lowest value, a period less by one is broken by activity 4.
        if periods[1].0 > 50 {
            plan.threads[1].1 = periods[1].0 - 1;
            let bytes = plan.bytes();
            let answer: Answer = reference::check_plain(&model, &bytes).into();
            assert_eq!(answer, Answer::refused(23, 4, 0), "solution {name:?}");
            assert_eq!(answer, proved::check_plain(&model, &bytes), "solution {name:?}");
        }
    }
}
