//! Request 7, values by hand: each cell of the second program's table at both programs, byte by
//! byte, and quality 2 and 3 in every form through every reader. What is due is written out, so
//! that both programs are held to it and not to each other alone.

#[path = "../../../second/tests/table/mod.rs"]
mod table;

use crate::rig::{command, refused, set, Rig, HEAD, POINT};
use crate::times::{
    laid_state, new_checkpoint, new_record, old_checkpoint, old_record, take_head, OLD_IMAGE,
};
use compare::checkpoint::{inspect, Place};
use compare::kernel::{log_end, Call, LogEnd};
use compare::pair::Buffers;
use compare::states::{POINTS_AT, RECORDS_AT};
use compare::{other, proved};
use second::answer::{Answer, Refusal};
use second::bytes::put_u32;
use second::client::Client;
use second::packet::{write_grant, Grant, RESULT_LEN};
use second::rule::Op;
use second::server::STATE_LEN;
use table::{After, Row, TABLE};

/// Those that a reader may meet, and whether it takes them.
const QUALITIES: [(u8, bool); 6] = [
    (0, true),
    (1, true),
    (2, true),
    (3, false),
    (4, false),
    (255, false),
];

// ---- the table

/// A client of both programs with its first call open, a set of the point.
struct Desk {
    have: proved::Client,
    want: Client,
}

impl Desk {
    fn new() -> Desk {
        let grant = write_grant(&Grant {
            client: 1,
            lease_end: 1000,
        });
        let mut desk = Desk {
            have: proved::Client::start(&grant).client,
            want: Client::start(&grant).expect("a grant"),
        };
        let sent = desk.have.issue(1, u32::from(POINT), 40);
        let want = other::sent(desk.want.issue(1, u32::from(POINT), 40));
        assert_eq!((sent.number, sent), (0, want));
        desk
    }

    fn receive(&mut self, packet: &[u8]) -> proved::ReceiveReply {
        let reply = self.have.receive(packet);
        assert_eq!(reply, other::receive(&mut self.want, packet));
        assert_eq!(self.have, other::client_fields(&self.want));
        reply
    }
}

fn four(value: i32) -> [u8; 4] {
    value.to_le_bytes()
}

/// A server whose point has the value and quality before the row's command.
fn before(row: &Row, quality: u8) -> Rig {
    let mut rig = Rig::new(1000);
    let mut server = rig.pair.server.clone();
    let point = &mut server.points[usize::from(POINT)];
    (point.value, point.quality) = (row.value, quality);
    rig.pair.set(server);
    rig
}

/// The executed record at the log's start, the point and its completion record in the state.
fn assert_executed(rig: &Rig, row: &Row, (outcome, value, quality): After) {
    let record = [
        &[6, row.op as u8, POINT, outcome, 1, 0, 0, 0, 1, 0, 0, 0][..],
        &[1, 0, 0, 0],
        &four(row.argument),
        &four(value),
        &[quality, 0, 0, 0, 0, 0, 0, 0],
    ]
    .concat();
    assert_eq!(rig.pair.log[8..40], record);
    let point = [&[1, quality, 0, 0][..], &four(value), &[0; 24]].concat();
    let at = POINTS_AT + 32 * usize::from(POINT);
    assert_eq!(rig.pair.state[at..at + 32], point);
    let kept = [
        &[1, 0, 0, 0, 1, 0, 0, 0][..],
        &four(row.argument),
        &four(value),
        &[row.op as u8, outcome, quality, POINT, 0, 0, 0, 0],
        &[40, 0, 0, 0, 0, 0, 0, 0],
    ]
    .concat();
    assert_eq!(rig.pair.state[RECORDS_AT..RECORDS_AT + 32], kept);
}

/// The result, fetched and repeated, and what a client reads in it.
fn assert_told(rig: &mut Rig, row: &Row, (outcome, value, quality): After) {
    rig.sync();
    let due = [
        &[7, outcome, POINT, quality, 1, 0, 0, 0, 1, 0, 0, 0][..],
        &four(value),
        &[0; 4],
    ]
    .concat();
    let repeat = command(1, 1, POINT, (row.op, row.argument));
    assert_eq!(rig.run(repeat, Answer::wrote(RESULT_LEN)), due);
    assert_eq!(rig.result(1, 1), due);
    let reply = Desk::new().receive(&due);
    let told = (reply.number, reply.outcome, reply.value, reply.quality);
    assert_eq!(told, (0, outcome, value, quality));
}

/// Checkpoint and image, whose point and entry are as the state's.
fn assert_carried(rig: &mut Rig, row: &Row, (outcome, value, quality): After) {
    let mut buffers = Buffers::new();
    let lent = rig.pair.whole_checkpoint(&buffers);
    let answer = rig.pair.checkpoint(&lent, &mut buffers);
    assert_eq!(answer, Answer::wrote(2124));
    let checkpoint = buffers.checkpoint.written(answer).to_vec();
    let entry = |last| {
        [
            &[1, 0, 0, 0, 1, 0, 0, 0][..],
            &four(row.argument),
            &four(value),
            &[row.op as u8, outcome, quality, last, 0, 0, 0, 0],
        ]
        .concat()
    };
    let point = [&[1, quality, 0, 0][..], &four(value), &[0; 8]].concat();
    assert_eq!(checkpoint[1068 + 80..1068 + 96], point);
    assert_eq!(checkpoint[2100..], entry(POINT));
    rig.pair.switch(&buffers, 0);
    let answer = rig.pair.recover_checkpoint(STATE_LEN, &checkpoint, &HEAD);
    assert_eq!(answer, Answer::DONE);
    rig.run(Call::Give(u32::from(POINT), 1), Answer::DONE);
    rig.sync();
    let image = rig.run(Call::Image(u32::from(POINT)), Answer::wrote(80));
    let point = [&four(value)[..], &[quality, 0, 0, 0]].concat();
    assert_eq!(image[40..48], point);
    assert_eq!(image[56..], entry(0));
}

#[test]
fn each_cell() {
    for row in &TABLE {
        for (quality, after) in (0..).zip(row.after) {
            let mut rig = before(row, quality);
            rig.run(command(1, 1, POINT, (row.op, row.argument)), Answer::DONE);
            assert_executed(&rig, row, after);
            let log = rig.pair.log[..rig.pair.length()].to_vec();
            rig.recover(&log, 0);
            assert_executed(&rig, row, after);
            assert_told(&mut rig, row, after);
            assert_carried(&mut rig, row, after);
        }
    }
}

// ---- the readers

/// A result of each form at a client: the call is closed, or 1 leaves all as it was.
#[test]
fn results() {
    let old = [2, 0, POINT, 0, 1, 0, 0, 0, 1, 0, 0, 0, 40, 0, 0, 0];
    let new = [&[7], &old[1..], &[77, 0, 0, 0]].concat();
    for packet in [&old[..], &new] {
        for (quality, taken) in QUALITIES {
            let mut packet = packet.to_vec();
            packet[3] = quality;
            let mut desk = Desk::new();
            let before = desk.have;
            let reply = desk.receive(&packet);
            assert_eq!(reply.number, u32::from(!taken), "{packet:02x?}");
            match taken {
                true => assert_eq!((reply.quality, reply.value), (quality, 40)),
                false => assert_eq!(desk.have, before),
            }
        }
    }
}

fn number(taken: bool, refusal: Refusal) -> u32 {
    if taken {
        0
    } else {
        refusal.number()
    }
}

/// An executed record of each form, in a log and in the tail behind a checkpoint of each form. The
/// first walk passes it; inspect shows it if it is one.
#[test]
fn executed_records() {
    let forms = [old_record(2).to_vec(), new_record(2).to_vec()];
    for (record, (quality, taken)) in forms.iter().flat_map(|f| QUALITIES.map(|q| (f, q))) {
        let mut log = [&HEAD[..], record].concat();
        log[8 + 24] = quality;
        let end = log.len() as u64;
        assert_eq!(log_end(&log), LogEnd { number: 0, end });
        let number = number(taken, Refusal::BadLog);
        let mut rig = Rig::new(1000);
        rig.recover(&log, number);
        for checkpoint in [old_checkpoint(), new_checkpoint()] {
            let mut rig = Rig::new(1000);
            let answer = rig.pair.recover_checkpoint(STATE_LEN, &checkpoint, &log);
            assert_eq!(answer, refused(number));
            if taken {
                assert_eq!(rig.pair.server.point(POINT).quality, quality);
            }
        }
        if taken {
            assert_eq!(rig.shown(&[], (1, 2)), (1, 8, log.len()));
            assert_eq!(rig.result(1, 2)[3], quality);
        }
        shown_if_it_reads(&log, quality, taken);
    }
}

/// In a state that holds the id, inspect does not find it in a record that does not read.
fn shown_if_it_reads(log: &[u8], quality: u8, taken: bool) {
    let mut good = log.to_vec();
    good[8 + 24] = 0;
    let mut rig = Rig::new(1000);
    rig.recover(&good, 0);
    let place = rig.pair.inspect(STATE_LEN, &[], log, (1, 2));
    assert_eq!(place.number, if taken { 0 } else { 17 }, "{quality}");
}

/// The image of times.rs, and the same with times.
fn images() -> [Vec<u8>; 2] {
    let mut new = [&OLD_IMAGE[..], &[77, 0, 0, 0]].concat();
    new[3] = 0x32;
    put_u32(&mut new, 36, 24);
    [OLD_IMAGE.to_vec(), new]
}

/// The point's part and an entry of an image of each form: by take, and in the record of one.
#[test]
fn images_taken() {
    const OF_POINT: usize = 44;
    const OF_ENTRY: usize = 56 + 18;
    for image in images() {
        for (quality, taken) in QUALITIES {
            for places in [&[OF_POINT][..], &[OF_ENTRY], &[OF_POINT, OF_ENTRY]] {
                let mut image = image.clone();
                places.iter().for_each(|&at| image[at] = quality);
                let log = [&HEAD[..], &take_head(image.len()), &image].concat();
                let mut rig = Rig::new(1000);
                rig.run(Call::Take(image.clone()), refused(u32::from(!taken)));
                Rig::new(1000).recover(&log, number(taken, Refusal::BadLog));
                if taken {
                    rig.sync();
                    assert_eq!(rig.pair.server.point(40).quality, image[44]);
                    assert_eq!(rig.result(1, 2)[3], image[56 + 18]);
                }
            }
        }
    }
}

/// A point and an entry of a checkpoint of each form, by recovery and by inspect.
#[test]
fn checkpoints() {
    const OF_POINT: usize = 1068 + 16 * POINT as usize + 1;
    const OF_ENTRY: usize = 2100 + 18;
    for checkpoint in [old_checkpoint(), new_checkpoint()] {
        for (quality, taken) in QUALITIES {
            for at in [OF_POINT, OF_ENTRY] {
                let mut bytes = checkpoint.clone();
                bytes[at] = quality;
                let number = number(taken, Refusal::BadLog);
                let mut rig = Rig::new(1000);
                let answer = rig.pair.recover_checkpoint(STATE_LEN, &bytes, &HEAD);
                assert_eq!(answer, refused(number), "byte {at} = {quality}");
                if taken {
                    let point = rig.pair.server.point(POINT).quality;
                    assert_eq!(
                        (point, rig.result(1, 1)[3]),
                        (bytes[OF_POINT], bytes[OF_ENTRY])
                    );
                }
                let rig = Rig::new(1000);
                let place = rig.pair.inspect(STATE_LEN, &bytes, &HEAD, (1, 1));
                let due = if taken { 17 } else { 14 };
                assert_eq!(place.number, due, "a state that lacks the id");
            }
        }
    }
}

/// Every call's test of the state, by a point's and by a completion record's quality.
#[test]
fn states() {
    for (quality, taken) in QUALITIES {
        for of_point in [true, false] {
            let mut rig = Rig::new(1000);
            rig.run(set(1, 1, POINT), Answer::DONE);
            rig.sync();
            let mut server = rig.pair.server.clone();
            match of_point {
                true => server.points[usize::from(POINT)].quality = quality,
                false => server.records[0].quality = quality,
            }
            assert_eq!(server.sound(), taken);
            for (call, due) in calls() {
                let answer = match taken {
                    true => due,
                    false => refused(19),
                };
                rig.pair.set(server.clone());
                rig.run(call, answer);
            }
            rig.pair.set(server.clone());
            let tail = rig.pair.log.clone();
            let place = rig.pair.inspect(STATE_LEN, &[], &tail, (1, 1));
            assert_eq!(place.number, number(taken, Refusal::NotSound));
            let mut buffers = Buffers::new();
            let lent = rig.pair.whole_checkpoint(&buffers);
            let answer = rig.pair.checkpoint(&lent, &mut buffers);
            assert_eq!(answer.number, number(taken, Refusal::NotSound));
        }
    }
}

/// Calls on a state with one completion record, and what they are answered.
fn calls() -> Vec<(Call, Answer)> {
    vec![
        (set(1, 1, POINT), Answer::wrote(RESULT_LEN)),
        (set(1, 2, POINT), Answer::DONE),
        (Call::Fetch(1, 1), Answer::wrote(RESULT_LEN)),
        (Call::Sync(40), Answer::DONE),
        (
            Call::Notice(vec![5, 0, 0, 0, 1, 0, 0, 0, 9, 0, 0, 0]),
            Answer::DONE,
        ),
        (Call::Give(u32::from(POINT), 1), Answer::DONE),
        (
            Call::Image(u32::from(POINT)),
            Answer {
                number: 3,
                written: 0,
            },
        ),
        (Call::Take(images()[1].clone()), Answer::DONE),
        (
            Call::Receipt(u32::from(POINT)),
            Answer {
                number: 3,
                written: 0,
            },
        ),
        (
            Call::Release(vec![4, POINT, 1, 0, 1, 0, 0, 0]),
            Answer {
                number: 3,
                written: 0,
            },
        ),
    ]
}

/// The laid state of times.rs with these qualities, at the proved server alone.
#[test]
fn a_state_byte_by_byte() {
    let log = [&HEAD[..], &new_record(1)].concat();
    for (quality, taken) in QUALITIES {
        for at in [POINTS_AT + 32 * usize::from(POINT) + 1, RECORDS_AT + 18] {
            let mut state = laid_state();
            state[at] = quality;
            let place = inspect(&state, &[], &log, (1, 1));
            match taken {
                true => assert_eq!((place.number, place.start, place.end), (0, 8, 40)),
                false => assert_eq!(place, Place::refused(Refusal::NotSound)),
            }
        }
    }
}

// ---- old results

/// What earlier programs wrote stays as it stands: a set with quality 0 recovers so, and the point
/// keeps it until the next command that changes it.
#[test]
fn old_sets_stay() {
    for log in [
        [&HEAD[..], &old_record(1)].concat(),
        [&HEAD[..], &new_record(1)].concat(),
    ] {
        let mut rig = Rig::new(1000);
        rig.recover(&log, 0);
        assert_eq!(rig.pair.server.point(POINT).quality, 0);
        assert_eq!(rig.result(1, 1)[3], 0);
        let commands = [(Op::Read, 0), (Op::Step, 1), (Op::Set, 50), (Op::Step, 1)];
        for (call, (of, quality)) in (2..).zip(commands.into_iter().zip([0, 0, 2, 2])) {
            rig.run(command(1, call, POINT, of), Answer::DONE);
            rig.sync();
            assert_eq!(rig.result(1, call)[3], quality, "{of:?}");
        }
        assert_eq!(rig.result(1, 1)[3], 0);
        let log = rig.pair.log[..rig.pair.length()].to_vec();
        rig.recover(&log, 0);
        assert_eq!(rig.result(1, 1)[3], 0);
    }
    // Any quality that a record may have is kept, whatever its op would give.
    for (quality, _) in QUALITIES.into_iter().filter(|&(_, taken)| taken) {
        for op in 0..6 {
            let mut log = [&HEAD[..], &new_record(1)].concat();
            log[9] = op;
            log[24..28].fill(0);
            log[8 + 24] = quality;
            let mut rig = Rig::new(1000);
            rig.recover(&log, 0);
            assert_eq!(rig.pair.server.point(POINT).quality, quality);
        }
    }
}
