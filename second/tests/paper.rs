//! The cases that paper 01 spells out: the yard's whole case and the P cases,
//! with what requests 1, 4 and 7 of paper 02 changed and added.

mod common;

use common::*;
use second::packet::{parse_request, write_request, Request};
use second::random::Random;
use second::rule::{apply, Op};
use second::simulator::run;

fn lines(lines: &[&str]) -> String {
    lines.iter().map(|line| format!("{line}\n")).collect()
}

fn assert_answers(input: &[&str], output: &[&str]) {
    assert_eq!(run(lines(input).as_bytes()), lines(output));
}

#[test]
fn whole_simulator_case() {
    assert_answers(
        &[
            "i 0 1 5 40",
            "d 1 0",
            "d 1 0",
            "k 0 8",
            "d 1 0",
            "y 0",
            "d 1 0",
            "r 3 0",
            "r 3 0",
        ],
        &[
            "1 0 1 0", "2 0 0 0", "3 7 2 0", "4 0 0 0", "5 0 0 0", "6 0 0 0", "7 0 3 0",
            "8 0 0 40", "9 17 0 0",
        ],
    );
}

#[test]
fn simulator_moves_a_point() {
    assert_answers(
        &[
            "i 0 1 5 -40", // packet 1
            "d 1 0",
            "g 0 5 1",
            "x 0 5",
            "y 0",
            "x 0 5", // image 2
            "d 2 0",
            "d 1 1", // refusal 3
            "d 2 1",
            "d 1 1", // refusal 4
            "r 4 0",
            "f 1 5",
            "y 1",
            "d 1 1", // result 5
            "r 5 1",
            "r 5 0",
            "f 1 5", // receipt 6
            "d 6 0",
            "d 6 0",
            "x 0 5",
            "r 2 0",
            "d 5 0",
            "d 2 1",
            "k 1 8",
            "s 0 1",
            "k 1 120",
        ],
        &[
            "1 0 1 0",
            "2 0 0 0",
            "3 0 0 0",
            "4 7 0 0",
            "5 0 0 0",
            "6 0 2 0",
            "7 11 0 0",
            "8 3 3 0",
            "9 0 0 0",
            "10 7 4 0",
            "11 0 0 0",
            "12 7 0 0",
            "13 0 0 0",
            "14 0 5 0",
            "15 17 0 0",
            "16 0 0 -40",
            "17 0 6 0",
            "18 0 0 0",
            "19 3 0 0",
            "20 3 0 0",
            "21 1 0 0",
            "22 1 0 0",
            "23 12 0 0",
            "24 10 0 0",
            "25 17 0 0",
            "26 10 0 0",
        ],
    );
}

#[test]
fn simulator_lines_that_cannot_be_read() {
    let bad = [
        "",
        " ",
        "i",
        "i 0 1 5",
        "i 0 1 5 40 ",
        "i  0 1 5 40",
        " i 0 1 5 40",
        "i 0 1 5 40 1",
        "i 0 1 5 +40",
        "i 0 1 5 -",
        "i 0 1 5 --1",
        "i 0 1 -5 4",
        "i 0 1 5 2147483648",
        "i 0 1 5 -2147483649",
        "i 0 1 4294967296 0",
        "i 4294967296 1 5 0",
        "i 2 1 5 0",
        "i 0 6 5 0",
        "i 0 1 64 0",
        "i 0 0 5 1",
        "i 0 5 5 1001",
        "I 0 1 5 40",
        "ii 0 1 5 40",
        "i\t0 1 5 40",
        "i 0 1 5 40\r",
        "d 1 2",
        "r 1 2",
        "y 2",
        "y",
        "k 2 8",
        "g 2 5 1",
        "g 0 64 1",
        "g 0 5 16",
        "x 0 64",
        "f 0 64",
        "f 0",
        "s 2 1",
        "z 0 0",
        "y 0x0",
    ];
    let expected: String = (1..=bad.len()).map(|n| format!("{n} 1 0 0\n")).collect();
    assert_eq!(run(lines(&bad).as_bytes()), expected);
    // No '\n' at the end, bytes that are no text, nothing at all.
    assert_eq!(run(b"y 0\ny 1"), "1 0 0 0\n2 0 0 0\n");
    assert_eq!(run(b"y 0\n\ny 1\n"), "1 0 0 0\n2 1 0 0\n3 0 0 0\n");
    assert_eq!(run(b"\xFF\xFE\x00"), "1 1 0 0\n");
    assert_eq!(run(b""), "");
    assert_eq!(run(b"\n"), "1 1 0 0\n");
}

#[test]
fn simulator_order_of_refusals_and_last_line() {
    assert_answers(
        &[
            "d 1 0",
            "d 1 2",
            "r 1 0",
            "r 1 9",
            "d 0 0",
            "s 0 1",
            "k 0 7",
            "k 0 9",
            "k 0 4294967296",
        ],
        &[
            "1 17 0 0", "2 1 0 0", "3 17 0 0", "4 1 0 0", "5 17 0 0", "6 17 0 0", "7 10 0 0",
            "8 10 0 0", "9 1 0 0",
        ],
    );
    let many = "y 0\n".repeat(70);
    assert_eq!(run(many.as_bytes()).lines().count(), 60);
    // Arguments at their limits, leading zeros, a give to a cabinet elsewhere.
    assert_answers(
        &[
            "i 0 2 5 -2147483648",
            "i 0 2 5 2147483647",
            "i 00 01 005 -0",
            "g 0 5 15",
            "x 0 5",
        ],
        &["1 0 1 0", "2 0 2 0", "3 0 3 0", "4 0 0 0", "5 7 0 0"],
    );
}

/// The window of a desk in the yard: 16 open calls, then 15.
#[test]
fn simulator_desk_window() {
    let mut input: Vec<String> = (0..17).map(|_| "i 1 0 0 0".to_string()).collect();
    input.extend(["d 1 0", "d 16 0", "y 0", "d 16 0", "r 17 1", "i 1 0 0 0"].map(String::from));
    input.extend(["d 1 0", "r 18 1", "i 1 0 0 0", "d 19 0", "d 1 0"].map(String::from));
    let mut output: Vec<String> = (1..=16).map(|n| format!("{n} 0 {n} 0")).collect();
    output.extend(["17 15 0 0", "18 0 0 0", "19 0 0 0", "20 0 0 0"].map(String::from));
    output.extend(["21 0 17 0", "22 0 0 0", "23 15 0 0", "24 0 18 0"].map(String::from));
    output.extend(["25 0 0 0", "26 0 19 0", "27 0 0 0", "28 5 20 0"].map(String::from));
    let input: Vec<&str> = input.iter().map(String::as_str).collect();
    let output: Vec<&str> = output.iter().map(String::as_str).collect();
    assert_answers(&input, &output);
}

/// Any input has one answer a line, up to 60, and the same one each time.
#[test]
fn simulator_on_random_lines() {
    let mut random = Random::new(9);
    let mut answers = [0u32; 20];
    for _ in 0..3000 {
        let count = random.below(80) as usize;
        let input: String = (0..count).map(|_| random_line(&mut random)).collect();
        let output = run(input.as_bytes());
        assert_eq!(output, run(input.as_bytes()));
        assert_eq!(output.lines().count(), count.min(60));
        for (i, line) in output.lines().enumerate() {
            let fields: Vec<i64> = line
                .split(' ')
                .map(|f| f.parse().expect("a number"))
                .collect();
            assert_eq!((fields.len(), fields[0]), (4, i as i64 + 1));
            answers[fields[1] as usize] += 1;
        }
    }
    for number in [0, 1, 3, 7, 10, 11, 12, 17] {
        assert!(answers[number] > 0, "number {number}");
    }
}

fn random_line(random: &mut Random) -> String {
    let (c, d, p) = (random.below(2), random.below(2), random.below(2));
    let n = 1 + random.below(30);
    match random.below(16) {
        0..=2 => format!(
            "i {d} {} {p} {}\n",
            1 + random.below(2),
            random.between(-20, 60)
        ),
        3..=6 => format!("d {n} {c}\n"),
        7..=8 => format!("r {n} {d}\n"),
        9..=10 => format!("y {c}\n"),
        11 => format!("k {c} {}\n", 8 + 4 * random.below(40)),
        12 => format!("g {c} {p} {d}\n"),
        13 => format!("x {c} {p}\n"),
        14 => format!("f {c} {p}\n"),
        _ => format!("s {d} {}\n", random.below(5)),
    }
}

#[test]
fn p_cases_of_the_ops() {
    let cases = [
        (Op::Set, 1000, 5, 0, effect(0, 1000, 2)),
        (Op::Set, 1001, 5, 0, effect(1, 5, 0)),
        (Op::Set, 1001, 5, 2, effect(1, 5, 2)),
        (Op::Step, 1, 1000, 0, effect(4, 1000, 0)),
        (Op::Step, 1, 1000, 2, effect(4, 1000, 2)),
        (Op::Step, 1, 999, 0, effect(0, 1000, 0)),
        (Op::Step, -1, 1000, 2, effect(0, 999, 2)),
        (Op::Step, 0, 0, 1, effect(2, 0, 1)),
        (Op::Report, -101, 5, 0, effect(3, 0, 1)),
        (Op::Report, 7, 5, 2, effect(0, 7, 0)),
        (Op::Fault, 0, 5, 0, effect(3, 0, 1)),
        (Op::Fault, 0, 5, 2, effect(3, 0, 1)),
        (Op::Part, 0, 5, 0, effect(0, -100, 2)),
        (Op::Part, 333, 5, 1, effect(0, 266, 2)),
        (Op::Part, 5, 5, 1, effect(0, -94, 2)),
        (Op::Part, 15, 5, 0, effect(0, -84, 2)),
        (Op::Part, 1000, 5, 1, effect(0, 1000, 2)),
    ];
    for (op, argument, value, quality, expected) in cases {
        assert_eq!(apply(op, argument, &RANGE, value, quality), expected);
    }
}

#[test]
fn ops_beyond_the_p_cases() {
    let wide = second::plan::Entry {
        low: i32::MIN,
        high: i32::MAX,
        fallback: 3,
        home: 0,
    };
    let cases = [
        (Op::Read, 0, 4, 1, effect(0, 4, 1)),
        (Op::Set, i32::MIN, 4, 1, effect(0, i32::MIN, 2)),
        (Op::Step, 1, i32::MAX, 0, effect(4, i32::MAX, 0)),
        (Op::Step, -1, i32::MIN, 0, effect(4, i32::MIN, 0)),
        (Op::Step, i32::MIN, i32::MAX, 0, effect(0, -1, 0)),
        (Op::Report, 9, 4, 1, effect(0, 9, 0)),
        (Op::Fault, 0, 4, 0, effect(3, 3, 1)),
        (Op::Part, 1000, 4, 0, effect(0, i32::MAX, 2)),
        (Op::Part, 999, 4, 0, effect(0, 2_143_188_680, 2)),
        (Op::Part, 500, 4, 0, effect(0, 0, 2)),
        (Op::Part, 0, 4, 0, effect(0, i32::MIN, 2)),
    ];
    for (op, argument, value, quality, expected) in cases {
        assert_eq!(apply(op, argument, &wide, value, quality), expected);
    }
    // A step on quality 1 is outcome 2 even if the sum is out of range.
    let invalid = apply(Op::Step, 2000, &RANGE, 0, 1);
    assert_eq!(invalid, effect(2, 0, 1));
}

/// Lease end 50, heard 50: 4; heard 49: passes.
#[test]
fn p_case_of_the_lease_end() {
    for (heard, number, written) in [(50, 4, 12), (49, 0, 0)] {
        let mut rig = Rig::new(0, 500);
        rig.execute(&read(9, 1, 0));
        rig.notice(0, &notice(9, heard));
        let packet = write_request(&Request {
            lease_end: 50,
            ..request(Op::Read, 0, 1, 1, 0)
        });
        rig.request(number, written, &packet);
    }
}

/// Call 16 done 1: passes; call 17 done 1: 1.
#[test]
fn p_case_of_the_window() {
    let packet = |call| set_done(1, call, 1, 5, 40);
    assert!(parse_request(&packet(16)).is_some());
    assert!(parse_request(&packet(17)).is_none());
    let mut rig = Rig::new(0, 500);
    rig.execute(&packet(16));
    rig.request(1, 0, &packet(17));
}
