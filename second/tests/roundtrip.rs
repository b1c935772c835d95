//! What is written reads back as itself, and what is read is written back as
//! the same bytes, on random and on damaged bytes.

mod common;

use common::*;
use second::image::{
    parse_image, write_image_as, Floor, ImageHead, Moved, IMAGE_MAX, IMAGE_MAX_UNTIMED,
};
use second::packet::*;
use second::plan::{parse_plan, write_plan, Entry, Plan};
use second::program::Form;
use second::random::Random;
use second::record::*;
use second::rule::{Op, ARGUMENTS};

const ROUNDS: u32 = 20_000;

/// Often a number at a limit.
fn number(random: &mut Random) -> u32 {
    match random.below(4) {
        0 => random.below(40),
        1 => u32::MAX - random.below(40),
        _ => random.next_u32(),
    }
}

fn at_least_1(random: &mut Random) -> u32 {
    number(random).max(1)
}

fn op_argument(random: &mut Random) -> (Op, i32) {
    let op = Op::from_byte(random.below(6) as u8).expect("an op");
    let (least, greatest) = ARGUMENTS[op as usize];
    let argument = (number(random) as i32).clamp(least, greatest);
    (op, argument)
}

/// Done and call of one window.
fn window(random: &mut Random) -> (u32, u32) {
    let done = at_least_1(random);
    (done, done.saturating_add(random.below(16)))
}

fn random_packet(random: &mut Random) -> Packet {
    let point = random.below(64) as u8;
    let client = at_least_1(random);
    let call = at_least_1(random);
    match random.below(6) {
        0 => {
            let (done, call) = window(random);
            let (op, argument) = op_argument(random);
            Packet::Request(Request {
                op,
                point,
                client,
                call,
                done,
                lease_end: number(random),
                argument,
            })
        }
        1 => Packet::Result(Reply {
            outcome: random.below(5) as u8,
            point,
            quality: random.below(3) as u8,
            client,
            call,
            value: number(random) as i32,
            time: number(random),
        }),
        2 => Packet::Refusal(RefusalPacket {
            number: 3 + random.below(7) as u8,
            point,
            client,
            call,
        }),
        3 => Packet::Receipt(Receipt {
            point,
            cabinet: random.below(16) as u8,
            move_number: number(random),
        }),
        4 => Packet::Notice(Notice {
            client,
            time: number(random),
        }),
        _ => Packet::Grant(Grant {
            client,
            lease_end: number(random),
        }),
    }
}

/// In the form that a packet of this kind has.
fn write_again(packet: &Packet, kind: u8) -> Vec<u8> {
    match (packet, kind) {
        (Packet::Result(reply), RESULT_UNTIMED) => {
            assert_eq!(reply.time, 0);
            write_result_untimed(reply).to_vec()
        }
        _ => write_packet(packet),
    }
}

#[test]
fn packets() {
    let mut random = Random::new(1);
    let (mut read, mut refused) = (0, 0);
    for _ in 0..ROUNDS {
        let packet = random_packet(&mut random);
        let bytes = write_packet(&packet);
        assert_eq!(bytes.len(), LENGTHS[usize::from(bytes[0])]);
        assert_eq!(parse_packet(&bytes), Some(packet));
        let bytes = damage(&mut random, &bytes);
        match parse_packet(&bytes) {
            Some(packet) => {
                assert_eq!(write_again(&packet, bytes[0]), bytes);
                read += 1;
            }
            None => refused += 1,
        }
    }
    assert!(read > ROUNDS / 20 && refused > ROUNDS / 20);
}

#[test]
fn packet_bytes_at_random() {
    let mut random = Random::new(2);
    for _ in 0..ROUNDS {
        let kind = random.below(9) as usize;
        let len = *LENGTHS.get(kind).unwrap_or(&9);
        let mut bytes: Vec<u8> = (0..len).map(|_| random.below(3) as u8).collect();
        if let Some(first) = bytes.first_mut() {
            *first = kind as u8;
        }
        if let Some(packet) = parse_packet(&bytes) {
            assert_eq!(write_again(&packet, bytes[0]), bytes);
        }
    }
}

#[test]
fn layouts_byte_by_byte() {
    let request = Request {
        op: Op::Part,
        point: 2,
        client: 0x0403_0201,
        call: 0x0807_0605,
        done: 0x0807_0604,
        lease_end: 0x0C0B_0A09,
        argument: 0x0100,
    };
    let bytes = [
        1, 5, 2, 0, 1, 2, 3, 4, 5, 6, 7, 8, 4, 6, 7, 8, 9, 10, 11, 12, 0, 1, 0, 0,
    ];
    assert_eq!(write_request(&request), bytes);
    let executed = Executed {
        op: Op::Set,
        point: 63,
        outcome: 3,
        client: 1,
        call: 2,
        done: 1,
        argument: -1,
        value: -2,
        quality: 1,
        time: 0x0403_0201,
    };
    let bytes = [
        6, 1, 63, 3, 1, 0, 0, 0, 2, 0, 0, 0, 1, 0, 0, 0, 255, 255, 255, 255, 254, 255, 255, 255, 1,
        0, 0, 0, 1, 2, 3, 4,
    ];
    assert_eq!(write_executed(&executed), bytes);
    let mut untimed = bytes[..28].to_vec();
    untimed[0] = 1;
    assert_eq!(write_executed_untimed(&executed)[..], untimed);
    let result = Reply {
        outcome: 3,
        point: 63,
        quality: 1,
        client: 1,
        call: 2,
        value: -2,
        time: 0x0403_0201,
    };
    let bytes = [
        7, 3, 63, 1, 1, 0, 0, 0, 2, 0, 0, 0, 254, 255, 255, 255, 1, 2, 3, 4,
    ];
    assert_eq!(write_result(&result), bytes);
    let mut untimed = bytes[..16].to_vec();
    untimed[0] = 2;
    assert_eq!(write_result_untimed(&result)[..], untimed);
    let head = ImageHead {
        heard: 9,
        value: -2,
        ..head(40, 2, 1, 7)
    };
    let bytes = image(&head, &[floor(3, 4)], &[moved(3, 5)]);
    let expected = [
        0x4D, 0x56, 0x49, 0x32, 40, 2, 1, 0, 7, 0, 0, 0, 9, 0, 0, 0, 40, 0, 0, 0, 8, 0, 0, 0, 48,
        0, 0, 0, 8, 0, 0, 0, 56, 0, 0, 0, 24, 0, 0, 0, 254, 255, 255, 255, 1, 0, 0, 0, 3, 0, 0, 0,
        4, 0, 0, 0, 3, 0, 0, 0, 5, 0, 0, 0, 7, 0, 0, 0, 7, 0, 0, 0, 1, 0, 0, 0, 60, 0, 0, 0,
    ];
    assert_eq!(bytes, expected);
    let bytes = image_as(Form::Untimed, &head, &[floor(3, 4)], &[moved(3, 5)]);
    let mut untimed = expected[..76].to_vec();
    (untimed[3], untimed[36]) = (0x31, 20);
    assert_eq!(bytes, untimed);
}

fn random_plan(random: &mut Random) -> Plan {
    let mut plan = Plan::default();
    for entry in &mut plan.entries {
        let mut three = [(); 3].map(|_| number(random) as i32);
        three.sort_unstable();
        *entry = Entry {
            low: three[0],
            fallback: three[1],
            high: three[2],
            home: random.below(16) as u8,
        };
    }
    plan
}

#[test]
fn plans() {
    let mut random = Random::new(3);
    let mut read = 0;
    for _ in 0..500 {
        let plan = random_plan(&mut random);
        let bytes = write_plan(&plan);
        assert_eq!(parse_plan(&bytes), Some(plan));
        let bytes = damage(&mut random, &bytes);
        if let Some(plan) = parse_plan(&bytes) {
            assert_eq!(write_plan(&plan)[..], bytes);
            read += 1;
        }
    }
    assert!(read > 0);
}

struct Parts {
    form: Form,
    head: ImageHead,
    floors: Vec<Floor>,
    records: Vec<Moved>,
}

impl Parts {
    /// In the form that is kept: without times if it is untimed.
    fn bytes(&self) -> Vec<u8> {
        image_as(self.form, &self.head, &self.floors, &self.records)
    }
}

fn random_image(random: &mut Random, plan: &Plan) -> Parts {
    let point = random.below(64) as u8;
    let entry = *plan.entry(point);
    let value = |random: &mut Random| (number(random) as i32).clamp(entry.low, entry.high);
    let head = ImageHead {
        point,
        destination: random.below(16) as u8,
        source: random.below(16) as u8,
        move_number: number(random),
        heard: number(random),
        value: value(random),
        quality: random.below(3) as u8,
    };
    let mut clients: Vec<u32> = (0..random.below(6)).map(|_| at_least_1(random)).collect();
    clients.sort_unstable();
    clients.dedup();
    let form = *random.pick(&[Form::Untimed, Form::Timed]);
    let mut parts = Parts {
        form,
        head,
        floors: Vec::new(),
        records: Vec::new(),
    };
    for client in clients {
        let floor = at_least_1(random);
        parts.floors.push(Floor { client, floor });
        for call in (0..16).filter_map(|i| floor.checked_add(i)) {
            if random.chance(20) {
                let (op, argument) = op_argument(random);
                parts.records.push(Moved {
                    client,
                    call,
                    argument,
                    value: value(random),
                    op,
                    outcome: random.below(5) as u8,
                    quality: random.below(3) as u8,
                    time: form.time(number(random)),
                });
            }
        }
    }
    parts
}

#[test]
fn images() {
    let mut random = Random::new(4);
    let plan = random_plan(&mut random);
    let (mut read, mut refused) = (0, 0);
    for _ in 0..ROUNDS {
        let parts = random_image(&mut random, &plan);
        let bytes = parts.bytes();
        let image = parse_image(&bytes, &plan).expect("a well-formed image");
        assert_eq!((image.form, image.head), (parts.form, parts.head));
        assert!(image.floors().eq(parts.floors.iter().copied()));
        assert!(image.records().eq(parts.records.iter().copied()));
        let bytes = damage(&mut random, &bytes);
        match parse_image(&bytes, &plan) {
            Some(image) => {
                let mut again = vec![0; IMAGE_MAX];
                let (floors, records) = (image.floors(), image.records());
                let len = write_image_as(image.form, &image.head, floors, records, &mut again);
                assert_eq!(again[..len], bytes);
                read += 1;
            }
            None => refused += 1,
        }
    }
    assert!(read > ROUNDS / 20 && refused > ROUNDS / 20);
}

/// 32 clients of 16 records: 12,592 bytes, or 10,544 without times; it is taken and given
/// on whole, with times in any case.
#[test]
fn longest_image() {
    for (form, longest) in [(Form::Untimed, IMAGE_MAX_UNTIMED), (Form::Timed, IMAGE_MAX)] {
        longest_image_as(form, longest);
    }
}

fn longest_image_as(form: Form, longest: usize) {
    let (floors, mut records) = longest_parts();
    let bytes = image_as(form, &head(40, 0, 1, 1), &floors, &records);
    records.iter_mut().for_each(|r| r.time = form.time(r.time));
    assert_eq!(bytes.len(), longest);
    let mut rig = Rig::new(0, 8 + 8 + longest + 8);
    rig.take(0, &bytes);
    assert_eq!(rig.server.records.len(), 512);
    rig.give(0, 40, 1);
    rig.sync_all();
    let given = rig.image(0, IMAGE_MAX, 40);
    assert_eq!(given, image(&head(40, 1, 0, 2), &floors, &records));
    let kept = rig.server.length as usize;
    let mut server = second::server::Server::new();
    let state_len = second::server::STATE_LEN;
    let answer = server.recover(state_len, &rig.log[..kept], &plan_bytes());
    assert_eq!(answer.number, 0);
    assert_eq!(server, rig.server);
}

/// The parser of the record's own kind agrees with the one of a place.
fn parse_by_kind(b: &[u8]) -> Option<Record<'_>> {
    match *b.first()? {
        EXECUTED_UNTIMED | EXECUTED => parse_executed(b).map(Record::Executed),
        GONE => parse_gone(b).map(Record::Gone),
        GIVE => parse_give(b).map(Record::Give),
        TAKE => parse_take(b).map(Record::Take),
        RELEASE => parse_release(b).map(Record::Release),
        _ => None,
    }
}

fn random_record(random: &mut Random) -> Vec<u8> {
    let point = random.below(64) as u8;
    let client = at_least_1(random);
    match random.below(5) {
        0 => {
            let (done, call) = window(random);
            let (op, argument) = op_argument(random);
            let record = Executed {
                op,
                point,
                outcome: random.below(5) as u8,
                client,
                call,
                done,
                argument,
                value: number(random) as i32,
                quality: random.below(3) as u8,
                time: number(random),
            };
            match random.chance(50) {
                true => write_executed(&record).to_vec(),
                false => write_executed_untimed(&record).to_vec(),
            }
        }
        1 => write_record(&Record::Gone(Gone {
            client,
            time: number(random),
        })),
        2 => write_record(&Record::Give(Give {
            point,
            destination: random.below(16) as u8,
            move_number: number(random),
        })),
        3 => {
            let image = random_image(random, &plan()).bytes();
            write_record(&Record::Take(&image))
        }
        _ => write_record(&Record::Release(Release {
            point,
            move_number: number(random),
        })),
    }
}

/// In the form that a record of this kind has.
fn record_again(record: &Record, kind: u8) -> Vec<u8> {
    match (record, kind) {
        (Record::Executed(r), EXECUTED_UNTIMED) => {
            assert_eq!(r.time, 0);
            write_executed_untimed(r).to_vec()
        }
        _ => write_record(record),
    }
}

#[test]
fn records() {
    let mut random = Random::new(5);
    let (mut whole, mut incomplete, mut broken) = (0, 0, 0);
    for _ in 0..ROUNDS {
        let bytes = random_record(&mut random);
        let before = random.below(20) as usize;
        let log = [&vec![FILL; before], &bytes[..], &[FILL; 3]].concat();
        match parse_record(&log, before) {
            Parsed::Whole(record, end) => {
                assert_eq!(end, before + bytes.len());
                assert_eq!(record_again(&record, bytes[0]), bytes);
                assert_eq!(parse_by_kind(&bytes), Some(record));
            }
            other => panic!("{other:?}"),
        }
        for cut in [0, 1, bytes.len() / 2, bytes.len() - 1] {
            assert_eq!(parse_record(&bytes[..cut], 0), Parsed::Incomplete);
        }
        let bytes = damage(&mut random, &bytes);
        match parse_record(&bytes, 0) {
            Parsed::Whole(record, end) => {
                assert_eq!(record_again(&record, bytes[0]), bytes[..end]);
                assert_eq!(parse_by_kind(&bytes[..end]), Some(record));
                whole += 1;
            }
            other => {
                assert_eq!(parse_by_kind(&bytes), None);
                match other {
                    Parsed::Incomplete => incomplete += 1,
                    _ => broken += 1,
                }
            }
        }
    }
    assert!(whole > 100 && incomplete > 100 && broken > 100);
}
