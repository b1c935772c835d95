//! Request 7 of paper 02: a set or part gives a value by hand, quality 2. Every form admits
//! it, those from before too, and no greater one; what earlier programs executed stays as it is.

mod checkpointing;
mod common;
mod logs;
mod table;

use checkpointing::*;
use common::*;
use logs::{executed, log_of, recover, take_bytes};
use second::answer::Refusal;
use second::checkpoint::{parse_checkpoint, write_checkpoint_as, CHECKPOINT_LEN};
use second::client::{Client, Received};
use second::image::{parse_image, ImageHead, Moved};
use second::packet::*;
use second::program::{Form, Program};
use second::record::{write_executed, write_executed_untimed, Executed, HEAD_LEN};
use second::rule::{apply, apply_by, Effect, Op, Rules, QUALITY_MAX};
use second::sequential::SequentialSpec;
use second::server::{Server, STATE_LEN};
use table::{Row, TABLE};

const POINT: u8 = 5;
const FORMS: [Form; 2] = [Form::Untimed, Form::Timed];

// The rule.

/// Each row with each quality before, and what is due after it.
fn cells() -> impl Iterator<Item = (&'static Row, u8, Effect)> {
    TABLE.iter().flat_map(|row| {
        let due = (0..).zip(row.after);
        due.map(move |(quality, (outcome, value, after))| {
            (row, quality, effect(outcome, value, after))
        })
    })
}

#[test]
fn each_cell() {
    for (row, quality, due) in cells() {
        let found = apply(row.op, row.argument, &RANGE, row.value, quality);
        assert_eq!(found, due, "{:?} {} on {quality}", row.op, row.argument);
        let mut book = SequentialSpec::new(plan());
        book.set(POINT, row.value, quality);
        assert_eq!(book.run(row.op, POINT, row.argument), due);
        assert_eq!(book.point(POINT), (due.value, due.quality));
    }
}

/// State, record and result of each cell at a cabinet, before and after a recovery.
#[test]
fn each_cell_at_a_cabinet() {
    for (row, quality, due) in cells() {
        let mut rig = Rig::new(0, 500);
        let point = &mut rig.server.points[usize::from(POINT)];
        (point.value, point.quality) = (row.value, quality);
        let packet = write_request(&request(row.op, POINT, 1, 1, row.argument));
        rig.execute(&packet);
        let record = rig.last_record();
        assert_eq!(effect(record.outcome, record.value, record.quality), due);
        rig.sync_all();
        assert_eq!(rig.result(1), due);
        let result = rig.request(0, RESULT_LEN, &packet);
        assert_eq!(result[..4], [RESULT, due.outcome, POINT, due.quality]);
        let recovered = recover(rig.whole_log(), &plan()).expect("a state");
        let point = recovered.point(POINT);
        assert_eq!((point.value, point.quality), (due.value, due.quality));
        assert!(recovered == rig.server);
    }
}

/// By earlier rules a set or part in range gives 0; nothing else differs.
#[test]
fn before_the_request() {
    for (row, quality, due) in cells().filter(|&(_, quality, _)| quality < 2) {
        let found = apply_by(
            Rules::NEAREST,
            row.op,
            row.argument,
            &RANGE,
            row.value,
            quality,
        );
        let entered = matches!(row.op, Op::Set | Op::Part) && due.outcome == 0;
        let expected = match entered {
            true => effect(0, due.value, 0),
            false => due,
        };
        assert_eq!(found, expected);
    }
    assert_differ_only_in(&[Op::Set, Op::Part], Rules::NEAREST, Rules::TODAY);
    assert_eq!(Rules::ALL.map(Rules::quality_max), [1, 1, 1, 2]);
}

/// The version of an op's rule by each mark, counted from 1 in the order of time; behind
/// its last change it stays.
fn versions(op: Op) -> [usize; 4] {
    let of_op = || cells().filter(|(row, ..)| row.op == op);
    let effects = Rules::ALL.map(|rules| -> Vec<Effect> {
        of_op()
            .map(|(row, quality, _)| apply_by(rules, op, row.argument, &RANGE, row.value, quality))
            .collect()
    });
    let mut version = 1;
    [0, 1, 2, 3].map(|mark: usize| {
        version += usize::from(effects[mark] != effects[mark.saturating_sub(1)]);
        version
    })
}

#[test]
fn versions_of_each_op() {
    for op in ops() {
        let due = match op {
            Op::Set => [1, 1, 1, 2],
            Op::Step => [1, 2, 2, 2],
            Op::Part => [1, 1, 2, 3],
            _ => [1; 4],
        };
        assert_eq!(versions(op), due, "{op:?}");
    }
}

// What is written and read.

/// The qualities that every reader takes.
fn admitted(quality: u8) -> bool {
    quality <= 2
}

#[test]
fn greatest_quality() {
    assert_eq!(QUALITY_MAX, 2);
    assert!((0..=255).filter(|&quality| admitted(quality)).eq(0..3));
}

fn reply(quality: u8) -> Reply {
    Reply {
        outcome: 0,
        point: POINT,
        quality,
        client: 1,
        call: 1,
        value: 40,
        time: 0,
    }
}

fn result(form: Form, quality: u8) -> Vec<u8> {
    match form {
        Form::Untimed => write_result_untimed(&reply(quality)).to_vec(),
        Form::Timed => write_result(&reply(quality)).to_vec(),
    }
}

/// A desk is told the quality; a greater one is malformed and leaves the call open.
#[test]
fn results_of_both_forms() {
    let grant = write_grant(&Grant {
        client: 1,
        lease_end: 100,
    });
    for form in FORMS {
        for quality in 0..=255 {
            let packet = result(form, quality);
            let expected = admitted(quality).then_some(reply(quality));
            assert_eq!(parse_result(&packet), expected);
            let mut desk = Client::start(&grant).expect("a grant");
            desk.issue(1, u32::from(POINT), 40).expect("a place");
            let before = desk.clone();
            let received = desk.receive(&packet);
            if admitted(quality) {
                let (call, effect, time) = (1, effect(0, 40, quality), 0);
                assert_eq!(received, Ok(Received::Result { call, effect, time }));
            } else {
                assert_eq!(received, Err(Refusal::Malformed));
                assert!(desk == before);
            }
        }
    }
}

/// A set of point 5, as a record of either form.
fn record(form: Form, call: u32, quality: u8) -> Vec<u8> {
    let record = Executed {
        quality,
        ..executed(1, call, 1, POINT, 40)
    };
    match form {
        Form::Untimed => write_executed_untimed(&record).to_vec(),
        Form::Timed => write_executed(&record).to_vec(),
    }
}

fn image_with(form: Form, point: u8, entry: u8) -> Vec<u8> {
    let head = ImageHead {
        quality: point,
        ..head(40, 0, 1, 1)
    };
    let entry = Moved {
        quality: entry,
        ..moved(1, 2)
    };
    image_as(form, &head, &[floor(1, 1)], &[moved(1, 1), entry])
}

/// In a log, and in the tail behind a checkpoint.
#[test]
fn executed_records_of_both_forms() {
    let (checkpoint, _, _) = checkpoint_and_tail();
    for form in FORMS {
        for quality in 0..=255 {
            let log = log_of(&[record(form, 7, quality)]);
            let number = |s: &Server| s.point(POINT).quality;
            let expected = admitted(quality).then_some(quality);
            assert_eq!(recover(&log, &plan()).as_ref().map(number), expected);
            assert_eq!(
                recover_both(&checkpoint, &log).as_ref().map(number),
                expected
            );
        }
    }
}

/// By take, and in the record of one.
#[test]
fn images_of_both_forms() {
    for form in FORMS {
        for (point, entry) in (0..=255).flat_map(|q| [(q, 0), (0, q), (q, 2)]) {
            let bytes = image_with(form, point, entry);
            let ok = admitted(point) && admitted(entry);
            assert_eq!(parse_image(&bytes, &plan()).is_some(), ok);
            let mut rig = Rig::new(0, 500);
            rig.take(u32::from(!ok), &bytes);
            let recovered = recover(&log_of(&[take_bytes(&bytes)]), &plan());
            let Some(mut recovered) = recovered else {
                assert!(!ok);
                continue;
            };
            recovered.mark = rig.server.mark;
            assert!(ok && recovered == rig.server);
            assert_eq!(recovered.point(40).quality, point);
            assert_eq!(recovered.records[1].quality, entry);
        }
    }
}

/// A state with these qualities of a point and of a completion record.
fn state_with(point: u8, record: u8) -> Rig {
    let mut rig = Rig::new(0, 500);
    rig.execute(&set(1, 1, POINT, 40));
    rig.sync_all();
    rig.server.points[usize::from(POINT)].quality = point;
    rig.server.records[0].quality = record;
    rig
}

/// The state itself, and the checkpoints that it would give.
#[test]
fn states_and_checkpoints_of_both_forms() {
    let head = log_of(&[]);
    for (point, record) in (0..=255).flat_map(|q| [(q, 0), (0, q), (q, 2)]) {
        let mut rig = state_with(point, record);
        let ok = admitted(point) && admitted(record);
        assert_eq!(rig.server.sound(), ok);
        let mark = rig.server.mark;
        rig.sync(if ok { 0 } else { 19 }, mark);
        for form in FORMS {
            let mut bytes = vec![0; CHECKPOINT_LEN];
            write_checkpoint_as(form, &rig.server, &mut bytes);
            assert_eq!(parse_checkpoint(&bytes), ok.then(|| rig.server.rebased()));
            assert_eq!(recover_both(&bytes, &head).is_some(), ok);
        }
    }
}

/// A program from before the request finds quality 2 outside its range, of the point or of an
/// entry; 19 comes first.
#[test]
fn earlier_programs_refuse_images_by_hand() {
    for program in Program::ALL {
        let today = program == Program::TODAY;
        for (point, entry) in [(0, 0), (1, 0), (2, 0), (0, 2), (1, 2), (2, 2)] {
            let image = image_with(program.form, point, entry);
            let known = today || (point < 2 && entry < 2);
            let take = |rig: &mut Rig, number: u32| {
                rig.expect(number, 0, |s, log, _| {
                    s.take_by(program, STATE_LEN, log, &image)
                });
            };
            take(&mut Rig::new(0, 500), u32::from(!known));
            take(&mut Rig::unsound(), 19);
        }
    }
}

// Old results stay.

/// Set 40 as the fourth program wrote it, byte by byte.
#[rustfmt::skip]
const OLD_SET: [u8; 32] = [
    6, 1, 5, 0, 1, 0, 0, 0, 1, 0, 0, 0, 1, 0, 0, 0, 40, 0, 0, 0, 40, 0, 0, 0, 0, 0, 0, 0,
    0, 0, 0, 0,
];

/// The value keeps quality 0 until the next command, a step keeps it too, and a set gives 2.
#[test]
fn an_old_set_recovers() {
    let mut rig = Rig::new(0, 500);
    rig.execute_by(Program::FOURTH, &set(1, 1, POINT, 40));
    assert_eq!(rig.whole_log()[HEAD_LEN..], OLD_SET);
    rig.server = recover(rig.whole_log(), &plan()).expect("a state");
    assert_eq!(rig.result(1), effect(0, 40, 0));
    let commands = [(Op::Read, 0), (Op::Step, 1), (Op::Set, 50), (Op::Step, 1)];
    let due = [(40, 0), (41, 0), (50, 2), (51, 2)];
    for (call, ((op, argument), (value, quality))) in (2..).zip(commands.into_iter().zip(due)) {
        rig.execute(&write_request(&request(op, POINT, 1, call, argument)));
        rig.sync_all();
        assert_eq!(rig.result(call), effect(0, value, quality));
    }
    // A repeat of the old one still says what it said.
    let repeat = rig.request(0, RESULT_LEN, &set(1, 1, POINT, 40));
    assert_eq!(repeat[..4], [RESULT, 0, POINT, 0]);
    assert!(recover(rig.whole_log(), &plan()) == Some(rig.server));
}

/// Recovery tests a quality against its range and does not work it out, of any op and form.
#[test]
fn qualities_are_not_worked_out() {
    for (op, form) in ops().flat_map(|op| FORMS.map(|form| (op, form))) {
        for quality in 0..=2 {
            let mut bytes = record(form, 1, quality);
            bytes[1] = op as u8;
            bytes[16..20].fill(0);
            let state = recover(&log_of(&[bytes]), &plan()).expect("a state");
            let point = state.point(POINT);
            assert_eq!((point.value, point.quality), (40, quality));
            assert_eq!(state.records[0].quality, quality);
        }
    }
}
