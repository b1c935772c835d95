//! The time of execution at its boundaries: outputs, log space and images to the byte, and the
//! forms from before it laid byte by byte. What is due is written out here, so that both
//! programs are held to it and not to each other alone.

use crate::rig::{command, plan, refused, set, Rig, HEAD, POINT};
use compare::forms::{untimed_checkpoint, untimed_image};
use compare::inputs::{self, Tables};
use compare::kernel::{fetch, log_end, Call, LogEnd};
use compare::pair::Buffers;
use compare::proved;
use compare::states::{self, BEHIND, STATE_END};
use compare::tally::seed;
use compare::{checkpoint, other};
use second::answer::Answer;
use second::bytes::{get_u32, put_u32};
use second::client::Client;
use second::image::IMAGE_MAX;
use second::packet::{write_grant, Grant, RESULT_LEN};
use second::plan::write_plan;
use second::random::Random;
use second::rule::Op;
use second::server::{Server, STATE_LEN};

const BAD_LOG: LogEnd = LogEnd { number: 14, end: 0 };

// ---- to the byte

#[test]
fn outputs_of_19_and_20() {
    let mut rig = Rig::heard(77);
    let room = rig.pair.room;
    let both = |rig: &mut Rig, call: Call, due: Answer| {
        rig.lent(call.clone(), room, 19, refused(2));
        rig.lent(call, room, 20, due)
    };
    both(&mut rig, set(1, 1, POINT), Answer::DONE);
    both(&mut rig, set(1, 1, POINT), refused(7));
    both(&mut rig, set(1, 1, 40), refused(3));
    rig.lent(Call::Fetch(1, 1), room, 19, refused(2));
    rig.sync();
    let due = [
        7, 0, POINT, 2, 1, 0, 0, 0, 1, 0, 0, 0, 40, 0, 0, 0, 77, 0, 0, 0,
    ];
    let result = Answer::wrote(RESULT_LEN);
    assert_eq!(both(&mut rig, set(1, 1, POINT), result), due);
    assert_eq!(both(&mut rig, Call::Fetch(1, 1), result), due);
}

#[test]
fn outputs_of_12_591_and_12_592() {
    let mut rig = Rig::heard(77);
    let room = rig.pair.room;
    rig.run(set(1, 1, POINT), Answer::DONE);
    rig.run(Call::Give(u32::from(POINT), 1), Answer::DONE);
    rig.sync();
    let call = || Call::Image(u32::from(POINT));
    for out in [0, 10_543, 10_544, 12_591] {
        rig.lent(call(), room, out, refused(2));
    }
    let image = rig.lent(call(), room, 12_592, Answer::wrote(80));
    let head = [
        0x4D, 0x56, 0x49, 0x32, POINT, 1, 0, 0, 1, 0, 0, 0, 77, 0, 0, 0,
    ];
    let pairs = [
        40, 0, 0, 0, 8, 0, 0, 0, 48, 0, 0, 0, 8, 0, 0, 0, 56, 0, 0, 0,
    ];
    let entry = [
        1, 0, 0, 0, 1, 0, 0, 0, 40, 0, 0, 0, 40, 0, 0, 0, 1, 0, 2, 0, 77, 0, 0, 0,
    ];
    assert_eq!(image[..16], head);
    assert_eq!(image[16..36], pairs);
    assert_eq!(image[36..40], [24, 0, 0, 0]);
    assert_eq!(image[40..48], [40, 0, 0, 0, 2, 0, 0, 0]);
    assert_eq!(image[56..], entry);
}

#[test]
fn log_space_of_31_and_32() {
    let mut rig = Rig::heard(77);
    let length = rig.pair.length();
    for space in [0, 27, 28, 31] {
        rig.lent(set(1, 1, POINT), length + space, 20, refused(9));
    }
    rig.lent(set(1, 1, POINT), length + 32, 20, Answer::DONE);
    let due = [
        6, 1, POINT, 0, 1, 0, 0, 0, 1, 0, 0, 0, 1, 0, 0, 0, 40, 0, 0, 0, 40, 0, 0, 0, 2, 0, 0, 0,
        77, 0, 0, 0,
    ];
    assert_eq!(rig.pair.log[length..length + 32], due);
}

/// The longest image of each form that server 0 may take, with other times in its entries.
fn longest(untimed: bool) -> Vec<u8> {
    let mut random = Random::new(seed());
    let mut image = loop {
        let image = inputs::image(&mut random, Tables::Full, (-100, 1000));
        if image[3] == 0x32 {
            break image;
        }
    };
    (image[4], image[5]) = (40, 0);
    put_u32(&mut image, 8, 1);
    match untimed {
        true => untimed_image(&image),
        false => image,
    }
}

/// A take needs its image's own length and 8 bytes more; its record is read again.
#[test]
fn images_of_10_544_and_12_592() {
    for (untimed, length) in [(true, 10_544), (false, 12_592)] {
        let image = longest(untimed);
        assert_eq!(image.len(), length);
        let mut rig = Rig::new(20_000);
        let take = || Call::Take(image.clone());
        rig.lent(
            take(),
            8 + 7 + length,
            0,
            Answer {
                number: 9,
                written: 0,
            },
        );
        rig.lent(take(), 8 + 8 + length, 0, Answer::DONE);
        assert_eq!(rig.pair.log[16..16 + length], image);
        assert_eq!(rig.pair.server.records.len(), 512);
        let timed = rig.pair.server.records.iter().any(|r| r.time > 0);
        assert_eq!(timed, !untimed);
        let log = rig.pair.log[..16 + length].to_vec();
        rig.recover(&log, 0);
        rig.recover(&log[..log.len() - 1], 0);
        assert_eq!(rig.pair.length(), 8);
        // Given on, it has times in either case.
        rig.recover(&log, 0);
        rig.run(Call::Give(40, 1), Answer::DONE);
        rig.sync();
        let on = rig.run(Call::Image(40), Answer::wrote(12_592));
        assert_eq!(on[3], 0x32);
        let times = on[304..].chunks_exact(24).map(|row| get_u32(row, 20));
        assert_eq!(times.clone().all(|time| time == 0), untimed);
        assert_eq!(times.len(), 512);
    }
}

/// One entry more, rows of the other form, lengths that only the other form has.
#[test]
fn images_of_no_form() {
    let mut rig = Rig::new(20_000);
    let mut bad = Vec::new();
    for (untimed, row) in [(true, 20), (false, 24)] {
        let good = longest(untimed);
        let mut more = good.clone();
        more.extend_from_slice(&good[good.len() - row..]);
        put_u32(&mut more, 36, 513 * row as u32);
        bad.push(more);
        let mut other = good.clone();
        other[3] = if untimed { 0x32 } else { 0x31 };
        bad.push(other.clone());
        // 10,200, 10,560 and 12,240 bytes of entries are whole rows of both forms.
        for entries in [10_200, 10_240, 10_560, 12_240, 12_288] {
            let mut other = good.clone();
            other[3] = if untimed { 0x32 } else { 0x31 };
            other.resize(304 + entries, 0);
            put_u32(&mut other, 36, entries as u32);
            bad.push(other);
        }
        for opening in [0x30, 0x33] {
            let mut none = good.clone();
            none[3] = opening;
            bad.push(none);
        }
    }
    for image in bad {
        rig.run(Call::Take(image.clone()), refused(1));
        if image.len() <= IMAGE_MAX {
            // The first walk passes such a record, recovery does not.
            let log = [&HEAD[..], &take_head(image.len()), &image].concat();
            let end = log.len() as u64;
            assert_eq!(log_end(&log), LogEnd { number: 0, end });
            Rig::new(20_000).recover(&log, 14);
        }
    }
}

pub fn take_head(length: usize) -> Vec<u8> {
    [&[4, 0, 0, 0][..], &(length as u32).to_le_bytes()].concat()
}

/// A take that is not all there, by its image length alone.
#[test]
fn incomplete_takes() {
    let ends = |log: &[u8]| {
        let have = log_end(log);
        assert_eq!(have, compare::kernel::second_log_end(log));
        have
    };
    let whole = LogEnd { number: 0, end: 8 };
    for (length, due, number) in [
        (48, whole, 0),
        (10_544, whole, 0),
        (10_545, whole, 0),
        (12_591, whole, 0),
        (12_592, whole, 0),
        (12_593, BAD_LOG, 14),
        (47, BAD_LOG, 14),
    ] {
        for there in [0, 1, 40] {
            let log = [&HEAD[..], &take_head(length), &vec![7; there]].concat();
            assert_eq!(ends(&log), due, "{there} of {length}");
            Rig::new(20_000).recover(&log, number);
        }
        let log = [&HEAD[..], &take_head(length)[..7]].concat();
        assert_eq!(ends(&log), whole);
    }
}

// ---- forms from before, byte by byte

/// A set of point 5 to 40 by client 1, without its time.
pub fn old_record(call: u8) -> [u8; 28] {
    [
        1, 1, POINT, 0, 1, 0, 0, 0, call, 0, 0, 0, 1, 0, 0, 0, 40, 0, 0, 0, 40, 0, 0, 0, 0, 0, 0, 0,
    ]
}

/// The same at time 513.
pub fn new_record(call: u8) -> [u8; 32] {
    [
        6, 1, POINT, 0, 1, 0, 0, 0, call, 0, 0, 0, 1, 0, 0, 0, 40, 0, 0, 0, 40, 0, 0, 0, 0, 0, 0,
        0, 1, 2, 0, 0,
    ]
}

#[test]
fn kind_1_before_and_behind_kind_6() {
    let log = [
        &HEAD[..],
        &old_record(1),
        &new_record(2),
        &old_record(3),
        &new_record(4),
    ]
    .concat();
    let mut rig = Rig::new(20_000);
    rig.recover(&log, 0);
    assert_eq!([1, 2, 3, 4].map(|call| rig.time(1, call)), [0, 513, 0, 513]);
    let shown = [1, 2, 3, 4].map(|call| rig.shown(&[], (1, call)));
    assert_eq!(shown, [(1, 8, 36), (1, 36, 68), (1, 68, 96), (1, 96, 128)]);
    // Every cut keeps the whole records.
    let ends = [8, 36, 68, 96, 128];
    for cut in 8..=log.len() {
        rig.recover(&log[..cut], 0);
        let end = ends.iter().rev().find(|&&end| end <= cut);
        assert_eq!(Some(&rig.pair.length()), end);
    }
    // Today's program appends the one kind.
    rig.run(set(1, 5, POINT), Answer::DONE);
    assert_eq!(rig.pair.log[128], 6);
    // A record of one kind with the other's length cannot be followed.
    for (kind, record) in [(6, &old_record(1)[..]), (1, &new_record(1)[..])] {
        let mut other = record.to_vec();
        other[0] = kind;
        let log = [&HEAD[..], &other, &new_record(2)].concat();
        Rig::new(20_000).recover(&log, 14);
    }
    for kind in [0, 7, 8, 255] {
        let mut other = new_record(1).to_vec();
        other[0] = kind;
        let log = [&HEAD[..], &other].concat();
        assert_eq!(log_end(&log), BAD_LOG);
        rig.recover(&log, 14);
    }
}

/// Point 40, value 11, from server 1 by move 3, heard time 90; client 1 from call 2 on, and its
/// set to 7.
#[rustfmt::skip]
pub const OLD_IMAGE: [u8; 76] = [
    0x4D, 0x56, 0x49, 0x31, 40, 0, 1, 0, 3, 0, 0, 0, 90, 0, 0, 0,
    40, 0, 0, 0, 8, 0, 0, 0, 48, 0, 0, 0, 8, 0, 0, 0, 56, 0, 0, 0, 20, 0, 0, 0,
    11, 0, 0, 0, 0, 0, 0, 0,
    1, 0, 0, 0, 2, 0, 0, 0,
    1, 0, 0, 0, 2, 0, 0, 0, 7, 0, 0, 0, 7, 0, 0, 0, 1, 0, 0, 0,
];

#[test]
fn an_old_image_in_take_and_in_its_record() {
    let mut rig = Rig::heard(77);
    let at = rig.pair.length();
    rig.run(Call::Take(OLD_IMAGE.to_vec()), Answer::DONE);
    let record = [&take_head(76)[..], &OLD_IMAGE].concat();
    assert_eq!(rig.pair.log[at..at + 84], record);
    rig.sync();
    let due = [7, 0, 40, 0, 1, 0, 0, 0, 2, 0, 0, 0, 7, 0, 0, 0, 0, 0, 0, 0];
    assert_eq!(rig.result(1, 2), due);
    assert_eq!(rig.shown(&[], (1, 2)), (2, at + 64, at + 84));
    // In a log of its own, and then with a record of today's behind it.
    let log = [&HEAD[..], &record].concat();
    let mut rig = Rig::new(20_000);
    rig.recover(&log, 0);
    assert_eq!(rig.pair.server.heard, 90);
    assert_eq!(rig.result(1, 2), due);
    rig.run(set(1, 3, 40), Answer::DONE);
    rig.sync();
    assert_eq!(rig.time(1, 3), 90);
    let log = rig.pair.log[..rig.pair.length()].to_vec();
    rig.recover(&log, 0);
    assert_eq!((rig.time(1, 2), rig.time(1, 3)), (0, 90));
    // It goes on with times.
    rig.run(Call::Give(40, 1), Answer::DONE);
    rig.sync();
    let image = rig.run(Call::Image(40), Answer::wrote(48 + 8 + 2 * 24));
    assert_eq!((image[3], get_u32(&image, 36)), (0x32, 48));
    assert_eq!((get_u32(&image, 76), get_u32(&image, 100)), (0, 90));
}

/// A checkpoint without times: server 0, heard time 300, client 1 from call 1 on with its set of
/// point 5 to 40.
pub fn old_checkpoint() -> Vec<u8> {
    #[rustfmt::skip]
    let head = [
        0x57, 0x4C, 0x47, 0x32, 0, 0, 0, 0, 0x2C, 1, 0, 0,
        44, 0, 0, 0, 0, 4, 0, 0,
        0x2C, 4, 0, 0, 0, 4, 0, 0,
        0x2C, 8, 0, 0, 8, 0, 0, 0,
        0x34, 8, 0, 0, 20, 0, 0, 0,
    ];
    let plan = (0..64).map(|p| {
        let home = u8::from(p >= 32);
        [
            0x9C, 0xFF, 0xFF, 0xFF, 0xE8, 3, 0, 0, 0, 0, 0, 0, home, 0, 0, 0,
        ]
    });
    let points = (0..64).map(|p| match p {
        5 => [1, 0, 0, 0, 40, 0, 0, 0, 0, 0, 0, 0, 0, 0, 0, 0],
        0..32 => [1, 1, 0, 0, 0, 0, 0, 0, 0, 0, 0, 0, 0, 0, 0, 0],
        _ => [0, 1, 0, 0, 0, 0, 0, 0, 0, 0, 0, 0, 0, 0, 0, 0],
    });
    let rows: Vec<[u8; 16]> = plan.chain(points).collect();
    let client = [1, 0, 0, 0, 1, 0, 0, 0];
    let record = [
        1, 0, 0, 0, 1, 0, 0, 0, 40, 0, 0, 0, 40, 0, 0, 0, 1, 0, 0, POINT,
    ];
    [&head[..], rows.as_flattened(), &client, &record].concat()
}

/// The same with time 77.
pub fn new_checkpoint() -> Vec<u8> {
    let mut new = old_checkpoint();
    new[3] = 0x33;
    put_u32(&mut new, 40, 24);
    new.extend([77, 0, 0, 0]);
    new
}

#[test]
fn an_old_checkpoint_with_a_tail_of_both_kinds() {
    let old = old_checkpoint();
    assert_eq!(old.len(), 2120);
    let tail = [&HEAD[..], &new_record(2), &old_record(3)].concat();
    let mut rig = Rig::new(20_000);
    for to in [&mut rig.pair.log, &mut rig.pair.server_log] {
        to[..tail.len()].copy_from_slice(&tail);
    }
    let answer = rig.pair.recover_checkpoint(STATE_LEN, &old, &tail);
    assert_eq!(answer, Answer::DONE);
    assert_eq!(rig.pair.server.heard, 300);
    assert_eq!([1, 2, 3].map(|call| rig.time(1, call)), [0, 513, 0]);
    let shown = [1, 2, 3].map(|call| rig.shown(&old, (1, call)));
    assert_eq!(shown, [(3, 2100, 2120), (1, 8, 40), (1, 40, 68)]);
    rig.run(set(1, 4, POINT), Answer::DONE);
    rig.sync();
    assert_eq!(rig.time(1, 4), 300);
    // The next one has times; without them it is an old one again.
    let mut buffers = Buffers::new();
    let lent = rig.pair.whole_checkpoint(&buffers);
    let answer = rig.pair.checkpoint(&lent, &mut buffers);
    assert_eq!(answer, Answer::wrote(2092 + 8 + 4 * 24));
    let new = buffers.checkpoint.written(answer).to_vec();
    assert_eq!(new[..4], [0x57, 0x4C, 0x47, 0x33]);
    assert_eq!(new[36..44], [0x34, 8, 0, 0, 96, 0, 0, 0]);
    let times = new[2100..].chunks_exact(24).map(|row| get_u32(row, 20));
    assert!(times.eq([0, 513, 0, 300]));
    rig.pair.switch(&buffers, 0);
    assert_eq!(rig.pair.log[..8], HEAD);
    assert_eq!(rig.shown(&new, (1, 4)), (3, 2172, 2196));
    let mut first = untimed_checkpoint(&new);
    assert_eq!(first.len(), 2092 + 8 + 4 * 20);
    first.truncate(2120);
    put_u32(&mut first, 40, 20);
    // The last set was today's: point 5 is by hand now.
    assert_eq!(std::mem::replace(&mut first[1068 + 16 * 5 + 1], 0), 2);
    assert!(first == old, "the first row alone");
}

/// A row of the other form's length, another opening, one row that is not all there.
#[test]
fn checkpoints_of_no_form() {
    let (old, new) = (old_checkpoint(), new_checkpoint());
    let mut rig = Rig::new(20_000);
    for (good, time) in [(&old, 0), (&new, 77)] {
        let answer = rig.pair.recover_checkpoint(STATE_LEN, good, &HEAD);
        assert_eq!(answer, Answer::DONE);
        assert_eq!(rig.time(1, 1), time);
        for (opening, length) in [(0x32, 24), (0x33, 20), (0x31, 20), (0x34, 24), (0x30, 20)] {
            let mut bad = good.to_vec();
            bad[3] = opening;
            put_u32(&mut bad, 40, length);
            bad.resize(3000, 0);
            let answer = rig.pair.recover_checkpoint(STATE_LEN, &bad, &HEAD);
            assert_eq!(answer, refused(14), "{opening:02x} {length}");
        }
        let cut = &good[..good.len() - 1];
        let answer = rig.pair.recover_checkpoint(STATE_LEN, cut, &HEAD);
        assert_eq!(answer, refused(14));
    }
}

// ---- the client

/// A result of either form closes a call; what was read without a time is told with time 0.
#[test]
fn both_results_at_a_client() {
    let grant = write_grant(&Grant {
        client: 1,
        lease_end: 100,
    });
    let mut want = Client::start(&grant).expect("a grant");
    let mut have = proved::Client::start(&grant).client;
    let old = [2, 0, POINT, 0, 1, 0, 0, 0, 1, 0, 0, 0, 40, 0, 0, 0];
    let new = [
        7, 0, POINT, 0, 1, 0, 0, 0, 2, 0, 0, 0, 40, 0, 0, 0, 77, 0, 0, 0,
    ];
    for (call, packet, time) in [(1, &old[..], 0), (2, &new, 77)] {
        let sent = have.issue(1, u32::from(POINT), 40);
        assert_eq!(sent, other::sent(want.issue(1, u32::from(POINT), 40)));
        let mut other_kind = packet.to_vec();
        other_kind[0] = 9 - packet[0];
        let mut receive = |packet: &[u8]| {
            let reply = have.receive(packet);
            assert_eq!(reply, other::receive(&mut want, packet));
            assert_eq!(have, other::client_fields(&want));
            reply
        };
        for bad in [
            &packet[..packet.len() - 1],
            &[packet, &[0]].concat(),
            &other_kind,
            &[&[8], &packet[1..]].concat(),
        ] {
            assert_eq!(receive(bad).number, 1, "{bad:02x?}");
        }
        let reply = receive(packet);
        let due = (0, 7, call, time, 40);
        let told = (
            reply.number,
            reply.kind,
            reply.call,
            reply.time,
            reply.value,
        );
        assert_eq!(told, due);
        assert_eq!(receive(packet).number, 17);
    }
    // Only a client takes it.
    let mut rig = Rig::new(20_000);
    for packet in [&old[..], &new] {
        assert_eq!(proved::Client::start(packet).number, 1);
        for call in [Call::Request, Call::Notice, Call::Release, Call::Take] {
            rig.run(call(packet.to_vec()), refused(1));
        }
    }
}

// ---- the state

/// A state of server 0 with one completion record, byte by byte.
pub fn laid_state() -> Vec<u8> {
    let mut b = vec![BEHIND; STATE_LEN];
    b[..40].fill(0);
    b[..4].copy_from_slice(&[0x57, 0x53, 0x54, 0x32]);
    b[8..12].copy_from_slice(&[90, 0, 0, 0]);
    b[12..20].copy_from_slice(&[1, 0, 0, 0, 1, 0, 0, 0]);
    b[24..32].copy_from_slice(&[40, 0, 0, 0, 0, 0, 0, 0]);
    b[32..40].copy_from_slice(&[40, 0, 0, 0, 0, 0, 0, 0]);
    let old = old_checkpoint();
    b[40..1064].copy_from_slice(&old[44..1068]);
    b[1064..3368].fill(0);
    for p in 0..64 {
        b[1064 + 32 * p..][..16].copy_from_slice(&old[1068 + 16 * p..][..16]);
    }
    b[3112..3120].copy_from_slice(&[1, 0, 0, 0, 1, 0, 0, 0]);
    #[rustfmt::skip]
    let record = [
        1, 0, 0, 0, 1, 0, 0, 0, 40, 0, 0, 0, 40, 0, 0, 0, 1, 0, 0, POINT,
        77, 0, 0, 0,
        40, 0, 0, 0, 0, 0, 0, 0,
    ];
    b[3368..3400].copy_from_slice(&record);
    b
}

#[test]
fn a_state_byte_by_byte() {
    let state = laid_state();
    // The same that the second program has, and that its calls leave.
    let mut server = Server::new();
    let log = [&HEAD[..], &new_record(1)].concat();
    let answer = server.recover(STATE_LEN, &log, &write_plan(&plan()));
    assert_eq!(answer, Answer::DONE);
    server.heard = 90;
    server.records[0].time = 77;
    assert!(states::buffer(&server) == state);
    let mut out = [0; RESULT_LEN];
    let answer = fetch(&state, &log, 1, 1, &mut out);
    assert_eq!(answer, Answer::wrote(RESULT_LEN));
    let due = [
        7, 0, POINT, 0, 1, 0, 0, 0, 1, 0, 0, 0, 40, 0, 0, 0, 77, 0, 0, 0,
    ];
    assert_eq!(out, due);
    let place = checkpoint::inspect(&state, &[], &log, (1, 1));
    assert_eq!((place.number, place.start, place.end), (0, 8, 40));
    // Any time is sound; the state of the program before is not.
    for (at, byte, number) in [
        (3388, 255, 0),
        (3391, 255, 0),
        (3392, 41, 19),
        (3392, 7, 19),
        (3, 0x31, 19),
        (3, 0x33, 19),
    ] {
        let mut state = state.clone();
        state[at] = byte;
        let answer = fetch(&state, &log, 1, 1, &mut out);
        assert_eq!(answer.number, number, "byte {at} = {byte}");
    }
    assert_eq!(STATE_END, 3368 + 512 * 32);
}

// ---- the time itself

/// The heard time at execution, for every op and outcome; a repeat brings the same one.
#[test]
fn the_time_of_execution() {
    let commands = [
        (2, 1),
        (1, 1001),
        (0, 0),
        (1, 990),
        (2, 20),
        (3, -101),
        (4, 0),
        (5, 5),
    ];
    let mut rig = Rig::new(20_000);
    let mut due = Vec::new();
    for (call, (op, argument)) in (1..).zip(commands) {
        if call % 3 == 0 {
            rig.hear(100 * call);
        }
        due.push((call, rig.pair.server.heard));
        let op = Op::from_byte(op).expect("an op");
        rig.run(command(1, call, POINT, (op, argument)), Answer::DONE);
    }
    rig.sync();
    let same = |rig: &mut Rig, due: &[(u32, u32)]| {
        for &(call, time) in due {
            assert_eq!(rig.time(1, call), time);
        }
    };
    same(&mut rig, &due);
    rig.hear(900);
    same(&mut rig, &due);
    let log = rig.pair.log[..rig.pair.length()].to_vec();
    rig.recover(&log, 0);
    same(&mut rig, &due);
    let mut outcomes: Vec<u8> = rig.pair.server.records.iter().map(|r| r.outcome).collect();
    outcomes.sort_unstable();
    outcomes.dedup();
    assert_eq!(outcomes, [0, 1, 2, 3, 4]);
}
