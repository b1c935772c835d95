//! Request 4 of paper 02: part rounds its quotient to the nearest, an exact half
//! to the even one; since request 7 its value is by hand. What earlier programs executed
//! stays as it is.

mod common;
mod logs;

use common::*;
use logs::recover;
use second::packet::{write_request, REQUEST_LEN, RESULT_LEN};
use second::plan::Entry;
use second::program::Program;
use second::random::Random;
use second::rule::{apply, apply_by, Op, Rules};
use second::sequential::SequentialSpec;
use second::server::Server;
use second::simulator;
use std::ops::RangeInclusive;

const POINT: u8 = 5;
const GREATEST: Entry = Entry {
    low: i32::MIN,
    high: i32::MAX,
    fallback: 0,
    home: 0,
};

/// The quality that a part gives by the rules of each program.
const QUALITIES: [u8; 5] = [0, 0, 0, 0, 2];

/// The value after a part; it does not depend on the one before.
fn part(rules: Rules, entry: &Entry, argument: i32) -> i32 {
    let by = |value, quality| apply_by(rules, Op::Part, argument, entry, value, quality);
    let found = by(entry.low, 0);
    let quality = if rules == Rules::TODAY { 2 } else { 0 };
    assert_eq!(found, effect(0, found.value, quality));
    assert_eq!([by(entry.high, 1), by(entry.low, 2)], [found; 2]);
    found.value
}

/// By today's rule, and by the first one.
fn parts(entry: &Entry, argument: i32) -> (i32, i32) {
    let values = Rules::ALL.map(|rules| part(rules, entry, argument));
    let [old, between, nearest, today] = values;
    assert_eq!([between, nearest], [old, today]);
    let same = apply(Op::Part, argument, entry, entry.high, 1);
    assert_eq!(same.value, today);
    (today, between)
}

// The rule.

#[test]
fn p_values() {
    for (argument, values) in [
        (0, (-100, -100)),
        (5, (-94, -95)),
        (15, (-84, -84)),
        (333, (266, 266)),
        (1000, (1000, 1000)),
    ] {
        assert_eq!(parts(&RANGE, argument), values);
    }
}

/// The quotient is even, not the value.
#[test]
fn halves_over_an_odd_low() {
    for (low, argument, value) in [
        (1, 50, 1),
        (1, 150, 3),
        (1, 250, 3),
        (-7, 350, -3),
        (-7, 450, -3),
        (-7, 550, -1),
    ] {
        assert_eq!(parts(&range(low, low + 10), argument).0, value);
    }
}

#[test]
fn beside_a_half() {
    let entry = range(0, 999);
    assert_eq!(parts(&entry, 499), (499, 498)); // 498.501
    assert_eq!(parts(&entry, 500), (500, 499)); // 499.5
    assert_eq!(parts(&entry, 501), (500, 500)); // 500.499
    assert_eq!(parts(&range(0, 1), 499).0, 0);
    assert_eq!(parts(&range(0, 1), 500).0, 0);
    assert_eq!(parts(&range(0, 1), 501).0, 1);
}

#[test]
fn greatest_range() {
    for (argument, values) in [
        (0, (i32::MIN, i32::MIN)),
        (1, (-2_143_188_681, -2_143_188_681)),
        (2, (-2_138_893_713, -2_138_893_714)),
        (999, (2_143_188_680, 2_143_188_679)),
        (1000, (i32::MAX, i32::MAX)),
        // Exact halves.
        (100, (-1_717_986_918, -1_717_986_919)),
        (300, (-858_993_460, -858_993_460)),
        (500, (0, -1)),
        (700, (858_993_458, 858_993_458)),
        (900, (1_717_986_918, 1_717_986_917)),
    ] {
        assert_eq!(parts(&GREATEST, argument), values, "part {argument}");
    }
}

#[test]
fn low_equals_high() {
    for end in [i32::MIN, -7, 0, 7, i32::MAX] {
        for argument in 0..=1000 {
            assert_eq!(parts(&range(end, end), argument), (end, end));
        }
    }
}

#[test]
fn other_ops_do_not_differ() {
    assert_differ_only_in(&[Op::Part], Rules::BETWEEN, Rules::NEAREST);
}

#[test]
fn book_by_each_rule() {
    let mut book = SequentialSpec::new(plan());
    assert_eq!(book.run(Op::Part, POINT, 5), effect(0, -94, 2));
    let due = [(-95, 0), (-95, 0), (-94, 0), (-94, 2)];
    for (rules, (value, quality)) in Rules::ALL.into_iter().zip(due) {
        let found = book.run_by(rules, Op::Part, POINT, 5);
        assert_eq!(found, effect(0, value, quality));
        assert_eq!(book.point(POINT), (value, quality));
    }
}

// The rule against the request's words, by a search.

/// The thousandfold of the exact quotient.
fn thousandfold(entry: &Entry, argument: i32) -> i128 {
    (i128::from(entry.high) - i128::from(entry.low)) * i128::from(argument)
}

/// The candidate whose distance from the exact quotient is least; the even one
/// of two.
fn search_nearest(thousandfold: i128, candidates: RangeInclusive<i128>) -> i128 {
    let distance = |candidate: &i128| (1000 * candidate - thousandfold).abs();
    let least = candidates.clone().map(|c| distance(&c)).min();
    let nearest: Vec<i128> = candidates.filter(|c| Some(distance(c)) == least).collect();
    match nearest[..] {
        [one] => one,
        [one, two] if one & 1 == 0 && two & 1 == 1 => one,
        [one, two] if one & 1 == 1 && two & 1 == 0 => two,
        _ => panic!("nearest to {thousandfold}: {nearest:?}"),
    }
}

/// The last candidate that is not above the exact quotient.
fn search_down(thousandfold: i128, candidates: RangeInclusive<i128>) -> i128 {
    let mut down = candidates.rev().filter(|c| 1000 * c <= thousandfold);
    down.next().expect("a candidate")
}

fn assert_by_search(entry: &Entry, argument: i32, candidates: RangeInclusive<i128>) {
    let exact = thousandfold(entry, argument);
    let low = i128::from(entry.low);
    let (today, before) = parts(entry, argument);
    let nearest = low + search_nearest(exact, candidates.clone());
    assert_eq!(i128::from(today), nearest, "{entry:?} {argument}");
    let down = low + search_down(exact, candidates);
    assert_eq!(i128::from(before), down, "{entry:?} {argument}");
}

/// All arguments in small ranges; every quotient in or beside the range is a
/// candidate.
#[test]
fn small_ranges_by_search() {
    let small = (-9..=6).flat_map(|low| (0..=25).map(move |span| (low, low + span)));
    let larger = [(-100, 1000), (-101, 1000), (-51, 449), (7, 1007), (0, 60)];
    for (low, high) in small.chain(larger) {
        let last = i128::from(high - low) + 1;
        for argument in 0..=1000 {
            assert_by_search(&range(low, high), argument, -1..=last);
        }
    }
}

/// Candidates around the exact quotient, which is found by bisection.
fn candidates_near(thousandfold: i128) -> RangeInclusive<i128> {
    let (mut from, mut to) = (-1, 1 << 33);
    while to - from > 4 {
        let middle = (from + to) / 2;
        match 1000 * middle < thousandfold {
            true => from = middle,
            false => to = middle,
        }
    }
    from - 2..=to + 2
}

#[test]
fn greatest_ranges_by_search() {
    let mut random = Random::new(4);
    let mut halves = 0;
    for _ in 0..200_000 {
        let inset = *random.pick(&[0, 1, 10, 1000, 1 << 20]);
        let low = i32::MIN + random.between(0, inset);
        let high = i32::MAX - random.between(0, inset);
        let argument = match random.chance(30) {
            true => *random.pick(&[0, 1, 100, 125, 250, 300, 500, 700, 900, 999, 1000]),
            false => random.between(0, 1000),
        };
        let exact = thousandfold(&range(low, high), argument);
        halves += u32::from(exact % 1000 == 500);
        assert_by_search(&range(low, high), argument, candidates_near(exact));
    }
    assert!(halves > 5_000, "{halves} halves");
}

#[test]
fn random_ranges_by_search() {
    let mut random = Random::new(5);
    for _ in 0..100_000 {
        let ends = [random.next_u32(), random.next_u32()].map(|end| end as i32);
        let entry = range(ends[0].min(ends[1]), ends[0].max(ends[1]));
        let argument = random.between(0, 1000);
        let exact = thousandfold(&entry, argument);
        assert_by_search(&entry, argument, candidates_near(exact));
    }
}

// At a cabinet.

fn part_packet(call: u32, argument: i32) -> [u8; REQUEST_LEN] {
    write_request(&request(Op::Part, POINT, 1, call, argument))
}

/// Part 5 by each of so many programs in turn, at one cabinet.
fn rig_of_programs(count: usize) -> Rig {
    let mut rig = Rig::new(0, 2000);
    for (call, &program) in (1..).zip(&Program::ALL[..count]) {
        rig.execute_by(program, &part_packet(call, 5));
    }
    rig
}

fn rig_of_all_programs() -> Rig {
    rig_of_programs(Program::ALL.len())
}

/// The results of the calls of `rig_of_programs`; a repeat gives the same and executes
/// nothing.
fn assert_results(rig: &mut Rig) {
    rig.sync_all();
    let due = [-95, -95, -94, -94, -94].into_iter().zip(QUALITIES);
    for (call, (value, quality)) in (1..=rig.server.records.len() as u32).zip(due) {
        assert_eq!(rig.result(call), effect(0, value, quality));
        let bytes = rig.request(0, RESULT_LEN, &part_packet(call, 5));
        assert_eq!(
            (bytes[3], &bytes[12..16]),
            (quality, &value.to_le_bytes()[..])
        );
    }
}

#[test]
fn each_rule_at_a_cabinet() {
    let mut rig = rig_of_all_programs();
    let record = rig.last_record();
    assert_eq!((record.op, record.outcome), (Op::Part, 0));
    assert_eq!((record.argument, record.value, record.quality), (5, -94, 2));
    assert_eq!(rig.server.point(POINT).value, -94);
    assert_results(&mut rig);
    // Request is by today's rules.
    rig.execute(&part_packet(6, 995));
    assert_eq!(rig.last_record().value, 994); // 1094.5
    rig.execute_by(Program::SECOND, &part_packet(7, 999));
    assert_eq!(rig.last_record().value, 998); // 1098.9
    rig.execute(&part_packet(8, 999));
    assert_eq!(rig.last_record().value, 999);
}

#[test]
fn log_of_all_programs_recovers() {
    let mut rig = rig_of_all_programs();
    rig.sync_all();
    let recovered = recover(rig.whole_log(), &plan()).expect("a state");
    assert_eq!(recovered, rig.server);
    rig.server = recovered;
    assert_results(&mut rig);
}

/// Part 5 as the first program wrote it, byte by byte.
#[test]
fn old_log_recovers() {
    let head = [0x57, 0x4C, 0x47, 0x31, 0, 0, 0, 0];
    let record = [
        1, 5, 5, 0, 1, 0, 0, 0, 1, 0, 0, 0, 1, 0, 0, 0, 5, 0, 0, 0, 0xA1, 0xFF, 0xFF, 0xFF, 0, 0,
        0, 0,
    ];
    let log = [&head[..], &record].concat();
    let mut rig = Rig::new(0, 2000);
    rig.execute_by(Program::FIRST, &part_packet(1, 5));
    assert_eq!(rig.whole_log(), log);
    rig.server = recover(&log, &plan()).expect("a state");
    assert_eq!(rig.server.point(POINT).value, -95);
    assert_eq!(rig.result(1), effect(0, -95, 0));
    // The next one goes by today's rule.
    rig.execute(&part_packet(2, 5));
    assert_eq!(rig.last_record().value, -94);
}

/// Results of all programs move with the point, to a cabinet of any program that knows their
/// qualities.
#[test]
fn results_of_all_programs_move() {
    for count in [4, 5] {
        rig_of_programs(count).move_to_each_program(u32::from(POINT), count, |taker| {
            let point = taker.server.point(POINT);
            let quality = QUALITIES[count - 1];
            assert_eq!((point.value, point.quality), (-94, quality));
            assert_results(taker);
        });
    }
}

/// Commands of random programs at one cabinet, half of them parts: the book
/// explains each record by the rules of its program, and the log recovers.
#[test]
fn logs_of_any_mixture() {
    let mut random = Random::new(6);
    let mut told_apart = 0;
    for _ in 0..300 {
        let mut rig = Rig::new(0, 2000);
        let marks: Vec<Rules> = (1..=30)
            .map(|call| {
                let program = *random.pick(&Program::ALL);
                rig.execute_by(program, &random_packet(&mut random, call));
                program.rules
            })
            .collect();
        rig.sync_all();
        assert!(recover(rig.whole_log(), &plan()).as_ref() == Some(&rig.server));
        assert_explained(&rig.server, rig.whole_log(), &marks);
        told_apart += u32::from(!explained(rig.whole_log(), &[Rules::BETWEEN; 30]));
    }
    assert!(told_apart > 250, "{told_apart} mixtures told apart");
}

fn random_packet(random: &mut Random, call: u32) -> [u8; REQUEST_LEN] {
    match random.below(4) {
        0 => set(1, call, POINT, random.between(-110, 1010)),
        1 => {
            let argument = random.between(-1500, 1500);
            write_request(&request(Op::Step, POINT, 1, call, argument))
        }
        _ => part_packet(call, random.between(0, 1000)),
    }
}

/// Whether the book, with these marks, gives what each record says.
fn explained(log: &[u8], marks: &[Rules]) -> bool {
    let mut book = SequentialSpec::new(plan());
    let records = executed_records(log);
    assert_eq!(records.len(), marks.len());
    records.iter().zip(marks).all(|(r, &rules)| {
        let found = book.run_by(rules, r.op, r.point, r.argument);
        found == effect(r.outcome, r.value, r.quality)
    })
}

fn assert_explained(server: &Server, log: &[u8], marks: &[Rules]) {
    assert!(explained(log, marks));
    let last = executed_records(log).last().map(|r| r.value);
    assert_eq!(Some(server.point(POINT).value), last);
}

// The yard.

/// The P values of part, each up to the receipt of its result; the yard's points
/// have the range of the P cases.
#[test]
fn simulator_gives_the_p_values() {
    let (mut input, mut output) = (String::new(), String::new());
    let values = [(0, -100), (5, -94), (15, -84), (333, 266), (1000, 1000)];
    for (i, (argument, value)) in values.into_iter().enumerate() {
        let (packet, line) = (2 * i + 1, 5 * i + 1);
        let result = packet + 1;
        let lines = [
            (format!("i 0 5 5 {argument}"), packet, 0),
            (format!("d {packet} 0"), 0, 0),
            ("y 0".to_string(), 0, 0),
            (format!("d {packet} 0"), result, 0),
            (format!("r {result} 0"), 0, value),
        ];
        for (at, (text, made, received)) in (line..).zip(lines) {
            input += &format!("{text}\n");
            output += &format!("{at} 0 {made} {received}\n");
        }
    }
    assert_eq!(simulator::run(input.as_bytes()), output);
    // The next argument is malformed.
    assert_eq!(simulator::run(b"i 0 5 5 1001"), "1 1 0 0\n");
}
