//! Request 1 of paper 02: a step past low or high stops at that end, with
//! outcome 4. Logs and images from before it are still read.

mod common;
mod logs;

use common::*;
use logs::recover;
use second::answer::{Answer, Refusal};
use second::client::{Client, Received};
use second::image::{parse_image, Moved, MOVED_LEN};
use second::packet::{
    parse_result, write_grant, write_request, write_result, Grant, Reply, REQUEST_LEN, RESULT_LEN,
};
use second::plan::Entry;
use second::program::{Form, Program};
use second::record::{parse_executed, write_executed, Executed, EXECUTED_LEN, HEAD_LEN};
use second::rule::{apply, apply_by, Op, Rules};
use second::sequential::SequentialSpec;
use second::server::{Server, STATE_LEN};
use second::simulator;

const POINT: u8 = 5;

/// Outcome and value of a step on a point that is not invalid; the quality stays.
fn stepped(rules: Rules, entry: &Entry, value: i32, argument: i32) -> (u8, i32) {
    let by = |quality| apply_by(rules, Op::Step, argument, entry, value, quality);
    let (e, by_hand) = (by(0), by(2));
    assert_eq!((e.quality, by_hand.quality), (0, 2));
    assert_eq!((e.outcome, e.value), (by_hand.outcome, by_hand.value));
    (e.outcome, e.value)
}

fn today(entry: &Entry, value: i32, argument: i32) -> (u8, i32) {
    let stepped = stepped(Rules::TODAY, entry, value, argument);
    let same = apply(Op::Step, argument, entry, value, 0);
    assert_eq!((same.outcome, same.value), stepped);
    stepped
}

// The rule.

#[test]
fn past_high() {
    assert_eq!(today(&RANGE, 1000, 1), (4, 1000));
    assert_eq!(today(&RANGE, 999, 2), (4, 1000));
    assert_eq!(today(&RANGE, -100, 1101), (4, 1000));
    assert_eq!(today(&RANGE, 999, 1), (0, 1000));
    assert_eq!(today(&RANGE, -100, 1100), (0, 1000));
}

#[test]
fn past_low() {
    assert_eq!(today(&RANGE, -100, -1), (4, -100));
    assert_eq!(today(&RANGE, -99, -2), (4, -100));
    assert_eq!(today(&RANGE, 1000, -1101), (4, -100));
    assert_eq!(today(&RANGE, -99, -1), (0, -100));
    assert_eq!(today(&RANGE, 1000, -1100), (0, -100));
}

#[test]
fn zero_at_an_end() {
    assert_eq!(today(&RANGE, 1000, 0), (0, 1000));
    assert_eq!(today(&RANGE, -100, 0), (0, -100));
    assert_eq!(today(&range(7, 7), 7, 0), (0, 7));
}

#[test]
fn low_equals_high() {
    for end in [i32::MIN, -7, 0, 7, i32::MAX] {
        for argument in [i32::MIN, -1, 1, i32::MAX] {
            assert_eq!(today(&range(end, end), end, argument), (4, end));
        }
    }
}

/// The sum does not wrap.
#[test]
fn least_and_greatest_arguments() {
    let (least, greatest) = (i32::MIN, i32::MAX);
    for value in [-100, -1, 0, 1, 1000] {
        assert_eq!(today(&RANGE, value, greatest), (4, 1000));
        assert_eq!(today(&RANGE, value, least), (4, -100));
    }
    let wide = range(least, greatest);
    assert_eq!(today(&wide, greatest, greatest), (4, greatest));
    assert_eq!(today(&wide, least, least), (4, least));
    assert_eq!(today(&wide, -1, least), (4, least));
    assert_eq!(today(&wide, 0, least), (0, least));
    assert_eq!(today(&wide, 0, greatest), (0, greatest));
    assert_eq!(today(&wide, 1, greatest), (4, greatest));
    assert_eq!(today(&wide, greatest, least), (0, -1));
    let above = range(greatest - 1, greatest);
    assert_eq!(today(&above, greatest - 1, greatest), (4, greatest));
    assert_eq!(today(&above, greatest, least), (4, greatest - 1));
    let below = range(least, least + 1);
    assert_eq!(today(&below, least + 1, least), (4, least));
    assert_eq!(today(&below, least, greatest), (4, least + 1));
}

/// Quality 1 is tested before the range, by all programs.
#[test]
fn quality_first() {
    for rules in Rules::ALL {
        for argument in [i32::MIN, -1, 0, 1, i32::MAX] {
            for value in [-100, 3, 1000] {
                let found = apply_by(rules, Op::Step, argument, &RANGE, value, 1);
                assert_eq!(found, effect(2, value, 1));
            }
        }
    }
}

/// All steps in small ranges, by both rules, against the paper's words.
#[test]
fn all_steps_in_small_ranges() {
    for (low, high) in [(-3, 3), (0, 0), (-5, -2), (2, 4)] {
        let entry = range(low, high);
        for value in low..=high {
            for argument in -20..=20 {
                let sum = value + argument;
                let (old, new) = match (sum < low, sum > high) {
                    (true, _) => ((1, value), (4, low)),
                    (_, true) => ((1, value), (4, high)),
                    _ => ((0, sum), (0, sum)),
                };
                assert_eq!(stepped(Rules::OLD, &entry, value, argument), old);
                assert_eq!(stepped(Rules::BETWEEN, &entry, value, argument), new);
                assert_eq!(today(&entry, value, argument), new);
            }
        }
    }
}

#[test]
fn other_ops_do_not_differ() {
    assert_differ_only_in(&[Op::Step], Rules::OLD, Rules::BETWEEN);
}

#[test]
fn default_rules_are_todays() {
    assert_eq!(Rules::default(), Rules::TODAY);
    assert_eq!(Rules::ALL.map(Rules::outcome_max), [3, 4, 4, 4]);
    let mut book = SequentialSpec::new(plan());
    book.set(POINT, 999, 0);
    assert_eq!(book.clone().run(Op::Step, POINT, 2), effect(4, 1000, 0));
    let old = book.run_by(Rules::OLD, Op::Step, POINT, 2);
    assert_eq!(old, effect(1, 999, 0));
    assert_eq!(book.point(POINT), (999, 0));
}

// At a cabinet.

fn step(client: u32, call: u32, argument: i32) -> [u8; REQUEST_LEN] {
    write_request(&request(Op::Step, POINT, client, call, argument))
}

/// Set 990, then step 20, by the given program.
fn rig_after_step(program: Program) -> Rig {
    let mut rig = Rig::new(0, 2000);
    for packet in [set(1, 1, POINT, 990), step(1, 2, 20)] {
        rig.execute_by(program, &packet);
    }
    rig
}

fn value_and_quality(server: &Server) -> (i32, u8) {
    let point = server.point(POINT);
    (point.value, point.quality)
}

/// The outcome in state, record and result, before and after a recovery; a
/// repeat changes nothing.
#[test]
fn outcome_4_in_state_log_and_result() {
    let mut rig = rig_after_step(Program::TODAY);
    assert_eq!(value_and_quality(&rig.server), (1000, 2));
    let record = rig.last_record();
    assert_eq!((record.op, record.outcome), (Op::Step, 4));
    assert_eq!((record.argument, record.value), (20, 1000));
    rig.sync_all();
    for _ in 0..2 {
        assert_eq!(rig.result(2), effect(4, 1000, 2));
        let bytes = rig.request(0, RESULT_LEN, &step(1, 2, 20));
        assert_eq!(bytes[..4], [7, 4, POINT, 2]);
    }
    let kept = rig.server.length as usize;
    let log = rig.log[..kept].to_vec();
    let before = rig.server.clone();
    rig.expect(0, 0, |s, _, _| s.recover(STATE_LEN, &log, &plan_bytes()));
    assert_eq!(rig.server, before);
    assert_eq!(rig.result(2), effect(4, 1000, 2));
    // Past the other end.
    rig.execute(&step(1, 3, i32::MIN));
    rig.sync_all();
    assert_eq!(rig.result(3), effect(4, -100, 2));
}

/// Request is request_by with today's rules.
#[test]
fn request_is_by_todays_rules() {
    let by = rig_after_step(Program::TODAY);
    let mut rig = Rig::new(0, 2000);
    rig.execute(&set(1, 1, POINT, 990));
    rig.execute(&step(1, 2, 20));
    assert_eq!((rig.server, rig.log), (by.server, by.log));
}

#[test]
fn old_rule_at_a_cabinet() {
    let mut rig = rig_after_step(Program::FIRST);
    assert_eq!(value_and_quality(&rig.server), (990, 0));
    assert_eq!(rig.last_record().outcome, 1);
    rig.sync_all();
    assert_eq!(rig.result(2), effect(1, 990, 0));
}

// What is written and read.

#[test]
fn outcomes_of_result_packets() {
    for outcome in 0..=255 {
        let reply = Reply {
            outcome,
            point: POINT,
            quality: 0,
            client: 1,
            call: 2,
            value: 1000,
            time: 7,
        };
        let expected = (outcome <= 4).then_some(reply);
        assert_eq!(parse_result(&write_result(&reply)), expected);
    }
}

/// A desk receives outcome 4; outcome 5 is malformed and leaves the call open.
#[test]
fn outcomes_at_a_desk() {
    let grant = write_grant(&Grant {
        client: 1,
        lease_end: 100,
    });
    let mut desk = Client::start(&grant).expect("a grant");
    desk.issue(2, u32::from(POINT), 20).expect("a place");
    let before = desk.clone();
    let packet = |outcome| {
        write_result(&Reply {
            outcome,
            point: POINT,
            quality: 0,
            client: 1,
            call: 1,
            value: 1000,
            time: 7,
        })
    };
    assert_eq!(desk.receive(&packet(5)), Err(Refusal::Malformed));
    assert_eq!(desk, before);
    let received = Received::Result {
        call: 1,
        effect: effect(4, 1000, 0),
        time: 7,
    };
    assert_eq!(desk.receive(&packet(4)), Ok(received));
    assert_eq!(desk.first, 2);
}

#[test]
fn outcomes_of_executed_records() {
    for outcome in 0..=255 {
        let record = Executed {
            outcome,
            ..rig_after_step(Program::TODAY).last_record()
        };
        let bytes = write_executed(&record);
        let expected = (outcome <= 4).then_some(record);
        assert_eq!(parse_executed(&bytes), expected);
    }
}

fn stopped(client: u32, call: u32, outcome: u8) -> Moved {
    Moved {
        op: Op::Step,
        argument: 2000,
        value: 1000,
        outcome,
        ..moved(client, call)
    }
}

fn image_with(outcome: u8) -> Vec<u8> {
    image_with_as(Form::Timed, outcome)
}

fn image_with_as(form: Form, outcome: u8) -> Vec<u8> {
    let floors = [floor(1, 1)];
    let records = [moved(1, 1), stopped(1, 2, outcome)];
    image_as(form, &head(40, 0, 1, 1), &floors, &records)
}

#[test]
fn outcomes_of_image_entries() {
    for outcome in 0..=255 {
        let bytes = image_with(outcome);
        let read = parse_image(&bytes, &plan());
        assert_eq!(read.is_some(), outcome <= 4);
        if let Some(read) = read {
            assert_eq!(read.records().nth(1), Some(stopped(1, 2, outcome)));
        }
        let number = u32::from(outcome > 4);
        Rig::new(0, 500).take(number, &bytes);
    }
}

#[test]
fn outcomes_of_a_sound_state() {
    for (outcome, number) in [(4, 0), (5, 19), (255, 19)] {
        let mut rig = rig_after_step(Program::TODAY);
        rig.server.records[1].outcome = outcome;
        assert_eq!(rig.server.sound(), number == 0);
        let mark = rig.server.length;
        rig.sync(number, mark);
    }
}

/// Outcome 5 in a whole record or in a taken image breaks a log's layout.
#[test]
fn outcomes_of_a_kept_log() {
    let rig = rig_after_step(Program::TODAY);
    let whole = rig.whole_log();
    assert!(recover(whole, &plan()).is_some());
    let outcome_at = HEAD_LEN + EXECUTED_LEN + 3;
    let mut bad = whole.to_vec();
    assert_eq!(bad[outcome_at], 4);
    bad[outcome_at] = 5;
    assert!(recover(&bad, &plan()).is_none());

    let mut rig = Rig::new(0, 500);
    rig.take(0, &image_with(4));
    let mut log = rig.log[..rig.server.length as usize].to_vec();
    assert_eq!(
        recover(&log, &plan()).map(|s| s.records),
        Some(rig.server.records)
    );
    // The take record's head, the image up to its entries, the first entry.
    let outcome_at = HEAD_LEN + 8 + 56 + MOVED_LEN + 17;
    assert_eq!(log[outcome_at], 4);
    log[outcome_at] = 5;
    assert!(recover(&log, &plan()).is_none());
}

/// The outcome moves with the point.
#[test]
fn outcome_4_moves_with_the_point() {
    let mut giver = rig_after_step(Program::TODAY);
    giver.give(0, u32::from(POINT), 1);
    giver.sync_all();
    let image = giver.image(0, 48 + 8 + 2 * MOVED_LEN, u32::from(POINT));
    assert_eq!(image[48 + 8 + MOVED_LEN + 17], 4);
    let mut taker = Rig::new(1, 2000);
    taker.take(0, &image);
    taker.sync_all();
    assert_eq!(taker.result(2), effect(4, 1000, 2));
    let bytes = taker.request(0, RESULT_LEN, &step(1, 2, 20));
    assert_eq!(bytes[..4], [7, 4, POINT, 2]);
    let log = taker.whole_log();
    assert_eq!(recover(log, &plan()), Some(taker.server));
}

/// A program from before the request finds outcome 4 outside its range; it
/// takes the outcomes that it knows.
#[test]
fn old_program_refuses_an_image_with_outcome_4() {
    let mut rig = Rig::new(0, 500);
    let image_with = |outcome| image_with_as(Form::Untimed, outcome);
    let take = |rig: &mut Rig, number, image: &[u8]| {
        rig.expect(number, 0, |s, log, _| {
            s.take_by(Program::FIRST, STATE_LEN, log, image)
        });
    };
    take(&mut rig, 1, &image_with(4));
    // 19 comes first.
    let mut unsound = Rig::unsound();
    take(&mut unsound, 19, &image_with(4));
    for outcome in 0..=3 {
        take(&mut Rig::new(0, 500), 0, &image_with(outcome));
    }
    // Renewed, the server takes it.
    rig.take(0, &image_with(4));
}

// Logs and images from before the request.

/// Set 990 and step 20 as the first program wrote them, byte by byte.
fn old_log() -> Vec<u8> {
    let head = [0x57, 0x4C, 0x47, 0x31, 0, 0, 0, 0];
    let set = [
        1, 1, 5, 0, 1, 0, 0, 0, 1, 0, 0, 0, 1, 0, 0, 0, 0xDE, 3, 0, 0, 0xDE, 3, 0, 0, 0, 0, 0, 0,
    ];
    let step = [
        1, 2, 5, 1, 1, 0, 0, 0, 2, 0, 0, 0, 1, 0, 0, 0, 20, 0, 0, 0, 0xDE, 3, 0, 0, 0, 0, 0, 0,
    ];
    [&head[..], &set, &step].concat()
}

/// A cabinet recovered from the old log, with room after it.
fn recovered_rig() -> Rig {
    let mut rig = Rig::new(0, 2000);
    let log = old_log();
    rig.log[..log.len()].copy_from_slice(&log);
    let answer = rig.server.recover(STATE_LEN, &log, &plan_bytes());
    assert_eq!(answer, Answer::DONE);
    rig
}

/// The value is the one that the log says, and the result too; the next step
/// goes by today's rule.
#[test]
fn old_log_recovers() {
    let mut rig = recovered_rig();
    let old = rig_after_step(Program::FIRST);
    let length = old.server.length as usize;
    assert_eq!(old.log[..length], old_log());
    let expected = Server {
        mark: length as u64,
        ..old.server
    };
    assert_eq!(rig.server, expected);
    assert_eq!(value_and_quality(&rig.server), (990, 0));
    assert_eq!(rig.result(2), effect(1, 990, 0));
    let bytes = rig.request(0, RESULT_LEN, &step(1, 2, 20));
    assert_eq!(bytes[..4], [7, 1, POINT, 0]);
    rig.execute(&step(1, 3, 20));
    rig.sync_all();
    assert_eq!(rig.result(3), effect(4, 1000, 0));
    let log = rig.whole_log();
    assert_eq!(recover(log, &plan()), Some(rig.server));
}

/// An image with outcome 1 on a step is taken, and its take record recovers.
#[test]
fn old_entry_moves() {
    recovered_rig().move_to_each_program(u32::from(POINT), 2, |taker| {
        assert_eq!(value_and_quality(&taker.server), (990, 0));
        assert_eq!(taker.result(2), effect(1, 990, 0));
    });
}

// The yard.

#[test]
fn simulator_steps_past_the_ends() {
    let input = "i 0 1 5 990\nd 1 0\ni 0 2 5 20\nd 2 0\ny 0\nd 2 0\nr 3 0\n\
                 i 0 2 5 -2147483648\nd 4 0\ny 0\nd 4 0\nr 5 0\n";
    let output = "1 0 1 0\n2 0 0 0\n3 0 2 0\n4 0 0 0\n5 0 0 0\n6 0 3 0\n7 0 0 1000\n\
                  8 0 4 0\n9 0 0 0\n10 0 0 0\n11 0 5 0\n12 0 0 -100\n";
    assert_eq!(simulator::run(input.as_bytes()), output);
}
