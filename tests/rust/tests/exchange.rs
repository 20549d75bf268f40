//! Models wrapped for exchange, request U6 of 02: pairs and files worked out by hand with both programs, and what 02 says
//! of every file, asked of the reference on many.

use grid_tests::claims::{self, Calls};
use grid_tests::files::{self, Given};
use grid_tests::records::{set_length, ActivityRow, Model, Rounds, ThreadRow, Wrapped, NO_LOOP};
use grid_tests::{exchange, proved, Part};

const REFERENCE: Calls = Calls {
    stands: |first, second| exchange::stands(first, second).into(),
    choose: |file| exchange::choose(file).into(),
};
const EXPORTS: Calls = Calls { stands: proved::stands, choose: proved::choose };

const SERIES: u32 = 0x0102_0304;
const LIVE: u8 = 0;
const WITHDRAWN: u8 = 1;

/// The smallest model, of 35 bytes, with this priority.
fn model(priority: u16) -> Model {
    Model {
        cores: 1,
        horizon: 1,
        threads: vec![ThreadRow { period: (0, 0), release: (0, 0), priority }],
        activities: vec![ActivityRow { thread: 0, duration: (1, 1), delay: 0, temporal: 0, data: 0 }],
        rounds: None,
    }
}

/// The smallest page of this many rounds, of 37 bytes; the loop byte is its last.
fn page(count: u8, looped: u8) -> Model {
    Model { rounds: Some(Rounds { count, loops: vec![looped], widths: None }), ..model(1) }
}

/// The smallest page of two cores with this width, of 38 bytes; the width is its last.
fn gang(width: u8) -> Model {
    Model { cores: 2, rounds: Some(Rounds { count: 1, loops: vec![NO_LOOP], widths: Some(vec![width]) }), ..model(1) }
}

fn x() -> Vec<u8> {
    model(1).bytes()
}

fn y() -> Vec<u8> {
    model(2).bytes()
}

fn wrapped(series: u32, issue: u16, withdrawn: u8, model: Vec<u8>) -> Vec<u8> {
    Wrapped { series, issue, withdrawn, model }.bytes()
}

/// X of the one series.
fn live(issue: u16) -> Vec<u8> {
    wrapped(SERIES, issue, LIVE, x())
}

/// X of the one series, withdrawn.
fn withdrawn(issue: u16) -> Vec<u8> {
    wrapped(SERIES, issue, WITHDRAWN, x())
}

/// The live issue 1 with this model.
fn with_model(model: Vec<u8>) -> Vec<u8> {
    wrapped(SERIES, 1, LIVE, model)
}

/// A record with another byte in one place.
fn put(mut bytes: Vec<u8>, at: usize, byte: u8) -> Vec<u8> {
    bytes[at] = byte;
    bytes
}

/// A record with this length in its first four bytes.
fn of_length(mut bytes: Vec<u8>, length: u32) -> Vec<u8> {
    bytes[..4].copy_from_slice(&length.to_be_bytes());
    bytes
}

fn broken() -> Vec<u8> {
    put(live(1), 4, 0)
}

fn first() -> Part {
    Part::standing(0, 0, 47)
}

fn second() -> Part {
    Part::standing(1, 0, 47)
}

fn refused(number: u32, a: u64) -> Part {
    Part::refused(number, a)
}

/// The answer that both programs must give for a pair.
fn pair(one: &[u8], other: &[u8], answer: Part) {
    for calls in [REFERENCE, EXPORTS] {
        assert_eq!((calls.stands)(one, other), answer);
        assert_eq!(claims::of_pair(calls, one, other, answer), Ok(()));
    }
}

/// The answer that both programs must give for a file of these pieces.
fn file(pieces: &[&[u8]], answer: Part) {
    let file = pieces.concat();
    for calls in [REFERENCE, EXPORTS] {
        assert_eq!((calls.choose)(&file), answer);
        assert_eq!(claims::of_file(calls, &file, answer), Ok(()));
    }
    if answer.number == 0 {
        let (offset, length) = (answer.offset as usize, answer.length as usize);
        assert_eq!(file[offset..offset + length], *pieces[answer.record as usize]);
    }
}

#[test]
fn bytes_of_a_wrapper() {
    let model = [
        0, 0, 0, 35, 1, 1, 1, 1, 0, 1, //
        0, 0, 0, 0, 0, 0, 0, 0, 0, 1, //
        0, 0, 1, 0, 1, 0, 0, 0, 0, 0, 0, 0, 0, 0, 0,
    ];
    let head = [0, 0, 0, 47, 1, 1, 2, 3, 4, 0, 1, 0];
    let record = [&head[..], &model[..]].concat();
    assert_eq!(live(1), record);
    pair(&record, &record, Part { number: 0, zero: 0, record: 0, offset: 0, length: 47 });
    file(&[&record], Part { number: 0, zero: 0, record: 0, offset: 0, length: 47 });
}

#[test]
fn withdrawn_and_live_at_equal_issue() {
    pair(&live(1), &withdrawn(1), second());
    pair(&withdrawn(1), &live(1), first());
    file(&[&live(1), &withdrawn(1)], Part::standing(1, 47, 47));
    file(&[&withdrawn(1), &live(1)], first());
    pair(&live(0), &withdrawn(0), second());
    pair(&withdrawn(65535), &live(65535), first());
    // With other texts.
    pair(&live(1), &wrapped(SERIES, 1, WITHDRAWN, y()), second());
    pair(&wrapped(SERIES, 1, WITHDRAWN, y()), &live(1), first());
}

#[test]
fn higher_issues() {
    pair(&withdrawn(1), &live(2), second());
    pair(&live(2), &withdrawn(1), first());
    file(&[&withdrawn(1), &live(2)], Part::standing(1, 47, 47));
    file(&[&live(2), &withdrawn(1)], first());
    pair(&withdrawn(2), &live(1), first());
    pair(&live(1), &withdrawn(2), second());
    file(&[&withdrawn(2), &live(1)], first());
    file(&[&live(1), &withdrawn(2)], Part::standing(1, 47, 47));
    pair(&live(1), &live(2), second());
    pair(&withdrawn(2), &withdrawn(1), first());
    pair(&live(1), &wrapped(SERIES, 2, LIVE, y()), second());
    file(&[&live(1), &withdrawn(1), &live(2), &live(1)], Part::standing(2, 94, 47));
    file(&[&live(1), &withdrawn(1), &withdrawn(2), &live(2)], Part::standing(2, 94, 47));
}

#[test]
fn issues_of_two_bytes() {
    for (lower, higher) in [(0, 1), (255, 256), (1, 256), (256, 257), (256, 511), (32767, 32768), (0, 65535)] {
        pair(&live(lower), &live(higher), second());
        pair(&live(higher), &withdrawn(lower), first());
        file(&[&withdrawn(lower), &live(higher)], Part::standing(1, 47, 47));
    }
}

#[test]
fn equal_copies() {
    pair(&live(1), &live(1), first());
    pair(&withdrawn(1), &withdrawn(1), first());
    file(&[&live(1), &live(1), &live(1)], first());
    file(&[&withdrawn(1), &withdrawn(1)], first());
    file(&[&withdrawn(2), &live(1), &withdrawn(2)], first());
    file(&[&live(1), &live(2), &live(2)], Part::standing(1, 47, 47));
    file(&[&live(1), &withdrawn(1), &live(1), &withdrawn(1)], Part::standing(1, 47, 47));
    // Lent twice.
    let record = live(1);
    assert_eq!(proved::stands(&record, &record), first());
}

#[test]
fn one_record() {
    file(&[&live(1)], first());
    file(&[&withdrawn(1)], first());
    file(&[&wrapped(0, 0, LIVE, x())], first());
    file(&[&wrapped(u32::MAX, 65535, WITHDRAWN, x())], first());
}

#[test]
fn two_series() {
    for other in [0x1102_0304, 0x0112_0304, 0x0102_1304, 0x0102_0314] {
        let other = wrapped(other, 1, LIVE, x());
        pair(&live(1), &other, refused(55, 1));
        pair(&other, &live(1), refused(55, 1));
        file(&[&live(1), &other], refused(55, 1));
        file(&[&live(1), &live(2), &other], refused(55, 2));
    }
    // Whatever their issues and flags.
    pair(&live(1), &wrapped(8, 2, WITHDRAWN, y()), refused(55, 1));
    pair(&withdrawn(2), &wrapped(8, 1, LIVE, x()), refused(55, 1));
    pair(&wrapped(0, 1, LIVE, x()), &wrapped(u32::MAX, 1, LIVE, x()), refused(55, 1));
}

#[test]
fn other_bytes_at_equal_rank() {
    for flag in [LIVE, WITHDRAWN] {
        let (one, other) = (wrapped(SERIES, 1, flag, x()), wrapped(SERIES, 1, flag, y()));
        pair(&one, &other, refused(56, 1));
        pair(&other, &one, refused(56, 1));
        file(&[&one, &other], refused(56, 1));
        file(&[&one, &one, &other], refused(56, 2));
    }
    // The last byte alone, and another length.
    let looped = |q| with_model(page(1, q).bytes());
    pair(&looped(0), &looped(NO_LOOP), refused(56, 1));
    pair(&live(1), &looped(NO_LOOP), refused(56, 1));
    let wide = |width| with_model(gang(width).bytes());
    pair(&wide(1), &wide(2), refused(56, 1));
    file(&[&wide(2), &wide(2), &wide(1)], refused(56, 2));
    file(&[&looped(NO_LOOP), &live(1)], refused(56, 1));
}

#[test]
fn other_bytes_beside_the_one_standing() {
    let (other, other_withdrawn) = (with_model(y()), wrapped(SERIES, 1, WITHDRAWN, y()));
    file(&[&live(1), &live(2), &other], Part::standing(1, 47, 47));
    file(&[&live(1), &other, &live(2)], refused(56, 1));
    file(&[&live(1), &other_withdrawn, &other], Part::standing(1, 47, 47));
    file(&[&withdrawn(1), &live(2), &other_withdrawn], Part::standing(1, 47, 47));
    file(&[&withdrawn(1), &other_withdrawn, &live(2)], refused(56, 1));
    file(&[&live(1), &live(2), &other, &live(1), &wrapped(SERIES, 2, LIVE, y())], refused(56, 4));
}

#[test]
fn lengths_in_a_pair() {
    let good = live(1);
    for bad in [
        of_length(live(1), 46),
        of_length(live(1), 48),
        of_length(live(1), 12),
        of_length(live(1), 11),
        of_length(live(1), 0),
        of_length(live(1), 35),
        of_length(live(1), 256 + 47),
        of_length(live(1), 65536 + 47),
        of_length(live(1), (1 << 24) + 47),
        of_length(live(1), u32::MAX),
        live(1)[..46].to_vec(),
        [&good[..], &[0]].concat(),
        [&good[..], &good[..]].concat(),
        vec![],
        vec![0, 0, 0],
        vec![0, 0, 0, 4],
        of_length(live(1)[..11].to_vec(), 11),
        of_length(live(1)[..12].to_vec(), 12),
    ] {
        pair(&bad, &good, refused(54, 0));
        pair(&good, &bad, refused(54, 1));
        pair(&bad, &bad, refused(54, 0));
        pair(&broken(), &bad, refused(54, 0));
    }
}

#[test]
fn lengths_in_a_file() {
    let good = live(1);
    file(&[], refused(54, 0));
    for bad in [
        &[0][..],
        &[0, 0, 0],
        &[0, 0, 0, 0],
        &[0, 0, 0, 4],
        &[0, 0, 0, 12],
        &[0; 12],
        &of_length(live(1)[..11].to_vec(), 11),
        &of_length(live(1), 11),
        &of_length(live(1)[..12].to_vec(), 12),
        &of_length(live(1), 12),
        // The model has 34 bytes, and its length says 35.
        &of_length(live(1), 46),
        &of_length(live(1), 48),
        &good[..46],
        &good[..12],
        &good[..5],
        &of_length(live(1), 256 + 47),
        &of_length(live(1), 65536 + 47),
        &of_length(live(1), (1 << 24) + 47),
        &of_length(live(1), u32::MAX),
        &of_length(live(1), 0u32.wrapping_sub(47)),
        &of_length(live(1), 0u32.wrapping_sub(94)),
    ] {
        file(&[bad], refused(54, 0));
        file(&[&good, bad], refused(54, 1));
        file(&[&good, &live(2), bad], refused(54, 2));
    }
    // As long as its length says with the first byte of what follows, of which the model knows nothing.
    file(&[&of_length(live(1), 48), &good], refused(54, 0));
    file(&[&good, &of_length(live(1), 46), &live(2)], refused(54, 1));
    file(&[&good, &of_length(live(1), 94), &live(2)], refused(54, 1));
}

#[test]
fn versions_and_flags() {
    let good = live(1);
    for version in [0, 2, 3, 255] {
        pair(&put(live(1), 4, version), &good, refused(54, 0));
        pair(&good, &put(live(1), 4, version), refused(54, 1));
        file(&[&put(live(1), 4, version)], refused(54, 0));
        file(&[&good, &put(live(2), 4, version)], refused(54, 1));
    }
    for flag in [2, 3, 128, 255] {
        pair(&put(live(1), 11, flag), &good, refused(54, 0));
        pair(&good, &put(live(1), 11, flag), refused(54, 1));
        file(&[&put(live(1), 11, flag)], refused(54, 0));
        file(&[&good, &live(2), &put(live(3), 11, flag)], refused(54, 2));
    }
}

/// Models that the form rules refuse, one for each rule.
fn refused_models() -> Vec<Vec<u8>> {
    let thread = |period, release| vec![ThreadRow { period, release, priority: 1 }];
    let activity = |thread, duration, temporal, data| vec![ActivityRow { thread, duration, delay: 0, temporal, data }];
    let mut longer = x();
    longer.push(0);
    set_length(&mut longer);
    let models = [
        Model { cores: 0, ..model(1) },
        Model { cores: 9, ..model(1) },
        Model { horizon: 0, ..model(1) },
        Model { horizon: 4097, ..model(1) },
        Model { threads: vec![], ..model(1) },
        Model { activities: vec![], ..model(1) },
        page(0, NO_LOOP),
        page(5, NO_LOOP),
        Model { threads: thread((2, 1), (0, 0)), ..model(1) },
        Model { threads: thread((0, 0), (1, 0)), ..model(1) },
        Model { threads: thread((0, 1), (0, 0)), ..model(1) },
        Model { threads: thread((3, 4), (0, 0)), ..page(2, NO_LOOP) },
        Model { threads: thread((1, 1), (0, 65535)), ..page(2, NO_LOOP) },
        Model { activities: activity(1, (1, 1), 0, 0), ..model(1) },
        Model { activities: activity(0, (0, 1), 0, 0), ..model(1) },
        page(1, 1),
        page(2, 254),
        gang(0),
        gang(3),
        gang(255),
        Model { activities: activity(0, (1, 1), 1, 0), ..model(1) },
        Model { activities: activity(0, (1, 1), 0, 1), ..model(1) },
    ];
    let bytes = [longer, put(x(), 4, 0), put(x(), 4, 4), put(x(), 3, 34), put(x(), 3, 36), x()[..9].to_vec(), vec![]];
    models.iter().map(Model::bytes).chain(bytes).collect()
}

#[test]
fn models_refused() {
    for model in refused_models() {
        let bad = with_model(model);
        pair(&bad, &live(1), refused(54, 0));
        pair(&live(1), &bad, refused(54, 1));
        file(&[&bad], refused(54, 0));
        file(&[&live(1), &live(2), &bad, &live(3)], refused(54, 2));
    }
    // The wrapper's length is true, and the model's own is not that of what is behind the head.
    for model in [[&x()[..], &[0]].concat(), x()[..34].to_vec(), [x(), x()].concat()] {
        pair(&with_model(model.clone()), &live(1), refused(54, 0));
        file(&[&live(2), &with_model(model)], refused(54, 1));
    }
}

#[test]
fn pages_with_gangs() {
    let record = wrapped(SERIES, 2, LIVE, gang(2).bytes());
    pair(&live(1), &record, Part::standing(1, 0, 50));
    pair(&record, &live(1), Part::standing(0, 0, 50));
    file(&[&live(1), &record], Part::standing(1, 47, 50));
    file(&[&record, &live(1), &withdrawn(2)], Part::standing(2, 97, 47));
}

#[test]
fn pages_of_several_rounds() {
    for page in [page(1, NO_LOOP), page(4, 0)] {
        let record = wrapped(SERIES, 2, LIVE, page.bytes());
        pair(&live(1), &record, Part::standing(1, 0, 49));
        pair(&record, &live(1), Part::standing(0, 0, 49));
        file(&[&live(1), &record], Part::standing(1, 47, 49));
        file(&[&record, &live(1), &withdrawn(2)], Part::standing(2, 96, 47));
    }
}

/// "Then 55", "then 56", of one record; and a record before the next.
#[test]
fn order_of_the_refusals() {
    let other_series = wrapped(8, 1, LIVE, x());
    let other_bytes = with_model(y());
    // 54 before 55, 55 before 56.
    pair(&live(1), &put(other_series.clone(), 11, 2), refused(54, 1));
    file(&[&live(1), &put(other_series.clone(), 4, 2)], refused(54, 1));
    file(&[&live(1), &with_model(put(y(), 5, 0))], refused(54, 1));
    pair(&live(1), &wrapped(8, 1, LIVE, y()), refused(55, 1));
    file(&[&live(1), &wrapped(8, 1, LIVE, y())], refused(55, 1));
    // Both broken, in a pair and in a file.
    pair(&put(live(1), 11, 2), &put(other_series.clone(), 4, 0), refused(54, 0));
    file(&[&broken(), &other_series, &broken()], refused(54, 0));
    // An earlier record's 55 or 56 before a later one's 54, 55 or 56.
    file(&[&live(1), &other_series, &broken()], refused(55, 1));
    file(&[&live(1), &other_series, &other_bytes], refused(55, 1));
    file(&[&live(1), &other_bytes, &broken()], refused(56, 1));
    file(&[&live(1), &other_bytes, &other_series, &[0]], refused(56, 1));
    file(&[&live(1), &live(1), &other_series, &[0, 0]], refused(55, 2));
}

#[test]
fn long_files() {
    // Issues 0, 7, 14, 21, 28, 2, 9, 16, 23, 30, 4, 11, 18, 25, 32, 6, ..: the greatest is that of record 14.
    let records: Vec<Vec<u8>> = (0..60).map(|r| live(7 * r % 33)).collect();
    let pieces: Vec<&[u8]> = records.iter().map(|record| &record[..]).collect();
    file(&pieces, Part::standing(14, 658, 47));
    file(&pieces[..14], Part::standing(9, 423, 47));
    file(&[&pieces[..], &[&withdrawn(32)], &pieces[..]].concat(), Part::standing(60, 2820, 47));
    file(&[&pieces[..], &[&broken()], &pieces[..]].concat(), refused(54, 60));
    file(&[&pieces[..], &[&wrapped(SERIES, 32, LIVE, y())], &pieces[..]].concat(), refused(56, 60));
    file(&[&pieces[..], &[&wrapped(SERIES, 31, LIVE, y())], &pieces[..]].concat(), Part::standing(14, 658, 47));
}

/// What the random pairs and files must reach.
#[derive(Debug, Default)]
struct Reached {
    first: usize,
    second: usize,
    copies: usize,
    later_chosen: usize,
    withdrawn_over_live: usize,
    withdrawn_passed_over: usize,
    copies_behind: usize,
    other_bytes_passed_over: usize,
    long: usize,
    version_3_chosen: usize,
    refused_late: usize,
    refused_with_more_behind: usize,
}

impl Reached {
    fn pair(&mut self, first: &[u8], second: &[u8], answer: Part) {
        self.first += usize::from(answer == Part::standing(0, 0, first.len() as u64));
        self.second += usize::from(answer.number == 0 && answer.record == 1);
        self.copies += usize::from(answer.number == 0 && first == second);
    }

    fn file(&mut self, file: &[u8], answer: Part) {
        let pieces = claims::pieces(file);
        let record = answer.record as usize;
        if answer.number != 0 {
            self.refused_late += usize::from(record > 5);
            self.refused_with_more_behind += usize::from(record + 1 < pieces.len());
            return;
        }
        let chosen = pieces[record];
        let any = |is: &dyn Fn(&[u8]) -> bool| usize::from(pieces.iter().any(|piece| is(piece)));
        self.later_chosen += usize::from(record > 0);
        self.withdrawn_over_live +=
            usize::from(chosen[11] == 1) * any(&|piece| piece[9..11] == chosen[9..11] && piece[11] == 0);
        self.withdrawn_passed_over += any(&|piece| piece[11] == 1 && piece[9..11] < chosen[9..11]);
        self.copies_behind += usize::from(pieces[record + 1..].contains(&chosen));
        self.other_bytes_passed_over +=
            usize::from(pieces.iter().any(|one| pieces.iter().any(|other| one[9..12] == other[9..12] && one != other)));
        self.long += usize::from(pieces.len() > 20);
        self.version_3_chosen += usize::from(chosen[16] == 3);
    }

    fn least(&self) -> usize {
        let pairs = [self.first, self.second, self.copies];
        let chosen = [self.later_chosen, self.withdrawn_over_live, self.withdrawn_passed_over, self.copies_behind];
        let others = [self.other_bytes_passed_over, self.long, self.version_3_chosen];
        let refused = [self.refused_late, self.refused_with_more_behind];
        pairs.into_iter().chain(chosen).chain(others).chain(refused).min().unwrap_or(0)
    }
}

/// What 02 says of every pair and file holds of the reference too, and the random ones reach what they are for.
#[test]
fn claims_of_the_reference() {
    let mut reached = Reached::default();
    for number in 0..40_000 {
        let case = files::make(6, number);
        let claimed = match &case.given {
            Given::Pair(first, second) => {
                let answer = (REFERENCE.stands)(first, second);
                reached.pair(first, second, answer);
                claims::of_pair(REFERENCE, first, second, answer)
            }
            Given::File(file) => {
                let answer = (REFERENCE.choose)(file);
                reached.file(file, answer);
                claims::of_file(REFERENCE, file, answer)
            }
        };
        assert_eq!(claimed, Ok(()), "case {number}, {}, {:?}", case.kind, case.given);
    }
    assert!(reached.least() >= 300, "{reached:?}");
}
