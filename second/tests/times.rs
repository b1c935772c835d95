//! Request 6 of paper 02: the time of execution in every form that carries it, the forms
//! without it, and servers that are renewed from the one to the other. All results of a
//! command have one time, that of the execution that survives.

mod checkpointing;
mod common;
mod logs;
mod renewing;
mod search;

use checkpointing::*;
use common::*;
use logs::*;
use renewing::{
    begin, complete, crash, explained, give_to, issue, other_past, renewed_from_third, RECOVER,
    REQUEST, SYNC, TAKE,
};
use second::answer::{Answer, Refusal};
use second::bytes::{get_u32, put_u32};
use second::checker::Violation;
use second::checkpoint::{parse_checkpoint, write_checkpoint_as, CHECKPOINT_LEN};
use second::client::{Client, Received};
use second::faults::Fault;
use second::image::*;
use second::packet::*;
use second::program::{Form, Program};
use second::record::*;
use second::rule::Op;
use second::schedule::{generate_timed, Call, Keep, Party, Renewed, Which, LATEST_DESK};
use second::server::{Server, STATE_LEN};
use second::world::{minimise_renewed, run_renewed, Counts, Differs, Options, World};

const POINT: u8 = 5;
const FORMS: [Form; 2] = [Form::Untimed, Form::Timed];

/// A server that has heard this time; client 9 is gone.
fn heard(time: u32) -> Rig {
    let mut rig = Rig::new(0, 2000);
    rig.execute(&read(9, 1, 0));
    rig.notice(0, &notice(9, time));
    rig
}

fn hear(rig: &mut Rig, time: u32) {
    rig.execute(&read(9, 1, 0));
    rig.notice(0, &notice(9, time));
}

/// The time of a call of client 1, fetched.
fn told(rig: &mut Rig, call: u32) -> u32 {
    let packet = rig.fetch(0, RESULT_LEN, 1, call);
    assert_eq!(packet[0], RESULT);
    parse_result(&packet).expect("a result").time
}

// One server.

/// Reads, and commands of every outcome.
#[test]
fn every_execution_has_the_heard_time() {
    let commands = [
        (Op::Step, 1),
        (Op::Set, 1001),
        (Op::Read, 0),
        (Op::Set, 990),
        (Op::Step, 20),
        (Op::Report, -101),
        (Op::Fault, 0),
        (Op::Part, 5),
    ];
    let mut rig = heard(77);
    let mut outcomes = [0; 5];
    for (call, (op, argument)) in (1..).zip(commands) {
        rig.execute(&write_request(&request(op, POINT, 1, call, argument)));
        let record = rig.last_record();
        outcomes[usize::from(record.outcome)] += 1;
        assert_eq!((record.call, record.time), (call, 77));
        assert_eq!(rig.server.records.last().map(|r| r.time), Some(77));
    }
    assert!(outcomes.iter().all(|&count| count > 0));
    let length = rig.server.length as usize;
    assert_eq!(get_u32(&rig.log, length - 4), 77);
    rig.sync_all();
    for call in 1..=8 {
        assert_eq!(told(&mut rig, call), 77);
    }
}

/// The time at execution, not the one at the reply; each has its own.
#[test]
fn a_repeat_brings_the_same_time() {
    let mut rig = Rig::new(0, 2000);
    for (call, time) in [(1, 0), (2, 30), (3, 40), (4, 40)] {
        if time > 0 {
            hear(&mut rig, time);
        }
        rig.execute(&set(1, call, POINT, 40));
    }
    rig.sync_all();
    let times = |rig: &mut Rig| [1, 2, 3, 4].map(|call| told(rig, call));
    assert_eq!(times(&mut rig), [0, 30, 40, 40]);
    let before = rig.request(0, RESULT_LEN, &set(1, 2, POINT, 40));
    hear(&mut rig, 900);
    assert_eq!(rig.request(0, RESULT_LEN, &set(1, 2, POINT, 40)), before);
    assert_eq!(times(&mut rig), [0, 30, 40, 40]);
    let mut late = request(Op::Read, POINT, 1, 5, 0);
    late.lease_end = 2000;
    rig.execute(&write_request(&late));
    rig.sync_all();
    assert_eq!(told(&mut rig, 5), 900);
    rig.server = recover(rig.whole_log(), &plan()).expect("a state");
    assert_eq!(times(&mut rig), [0, 30, 40, 40]);
}

/// An outcome's time is the heard time before the record, also at its greatest.
#[test]
fn greatest_heard_time() {
    let mut rig = heard(u32::MAX - 1);
    let mut last = request(Op::Set, POINT, 1, 1, 40);
    last.lease_end = u32::MAX;
    rig.execute(&write_request(&last));
    rig.sync_all();
    assert_eq!(told(&mut rig, 1), u32::MAX - 1);
}

/// The time moves with the point and stays, whatever the taker has heard.
#[test]
fn times_move() {
    for taker_heard in [0, 20, 500] {
        let mut rig = heard(77);
        rig.execute(&set(1, 1, POINT, 40));
        rig.give(0, u32::from(POINT), 1);
        rig.sync_all();
        let image = rig.image(0, 48 + 8 + MOVED_LEN, u32::from(POINT));
        assert_eq!(get_u32(&image, 56 + 20), 77);
        let mut taker = Rig::new(1, 2000);
        if taker_heard > 0 {
            taker.execute(&read(8, 1, 40));
            taker.notice(0, &notice(8, taker_heard));
        }
        taker.take(0, &image);
        taker.sync_all();
        assert_eq!(told(&mut taker, 1), 77);
        let (bytes, _) = checkpoint(&mut taker);
        taker.server = recover_both(&bytes, taker.whole_log()).expect("a state");
        assert_eq!(told(&mut taker, 1), 77);
        assert_eq!(taker.server.heard, taker_heard.max(77));
    }
}

// Space and lengths.

#[test]
fn space_for_a_record() {
    for (free, number, written) in [(31, 9, REFUSAL_LEN), (32, 0, 0)] {
        let mut rig = Rig::new(0, 2000);
        rig.leave(free);
        rig.request(number, written, &set(1, 1, POINT, 40));
    }
}

#[test]
fn outputs() {
    let mut rig = heard(77);
    let packet = set(1, 1, POINT, 40);
    let short = |s: &mut Server, log: &mut [u8], out: &mut [u8]| {
        s.request(STATE_LEN, log, &packet, &mut out[..19])
    };
    rig.expect(2, 0, short);
    rig.execute(&packet);
    // A refusal's packet needs as much.
    rig.expect(2, 0, short);
    rig.expect(7, REFUSAL_LEN, |s, log, out| {
        s.request(STATE_LEN, log, &packet, &mut out[..20])
    });
    rig.sync_all();
    rig.expect(2, 0, |s, log, out| {
        s.fetch(STATE_LEN, log, 1, 1, &mut out[..19])
    });
    rig.expect(0, RESULT_LEN, |s, log, out| {
        s.fetch(STATE_LEN, log, 1, 1, &mut out[..20])
    });
    rig.give(0, u32::from(POINT), 1);
    rig.sync_all();
    for (len, number, written) in [(12_591, 2, 0), (12_592, 0, 80)] {
        rig.expect(number, written, |s, log, out| {
            s.image(STATE_LEN, log, u32::from(POINT), &mut out[..len])
        });
    }
}

/// A take needs space for its image as it is.
#[test]
fn space_for_a_take() {
    for (form, len) in [(Form::Untimed, 76), (Form::Timed, 80)] {
        let image = image_as(form, &head(40, 0, 1, 1), &[floor(1, 1)], &[moved(1, 1)]);
        assert_eq!(image.len(), len);
        let mut rig = Rig::new(0, 2000);
        rig.leave(7 + len);
        rig.take(9, &image);
        rig.leave(8 + len);
        rig.take(0, &image);
        assert_eq!(rig.log[16..], image);
        assert_eq!(rig.server.records[0].time, form.time(60));
    }
}

/// The longest image of each form; one entry more is none.
#[test]
fn longest_images() {
    let (floors, records) = longest_parts();
    for (form, longest) in [(Form::Untimed, 10_544), (Form::Timed, 12_592)] {
        let good = image_as(form, &head(40, 0, 1, 1), &floors, &records);
        assert_eq!((good.len(), image_max(form)), (longest, longest));
        assert!(parse_image(&good, &plan()).is_some());
        let mut more = good.clone();
        more.extend_from_slice(&good[longest - moved_len(form)..]);
        put_u32(&mut more, 36, (513 * moved_len(form)) as u32);
        assert!(parse_image(&more, &plan()).is_none());
        // As the other form, at any length that it may have.
        let other = *FORMS.iter().find(|&&f| f != form).expect("two forms");
        let mut bad = image_as(other, &head(40, 0, 1, 1), &floors, &records);
        bad[3] = good[3];
        assert!(parse_image(&bad, &plan()).is_none());
        for len in [10_544, 12_592] {
            bad.resize(len, 0);
            put_u32(&mut bad, 36, (len - 304) as u32);
            assert!(parse_image(&bad, &plan()).is_none());
        }
    }
}

// Forms without times.

/// A log of both kinds of executed records, in any order; today's server appends the one.
#[test]
fn kinds_1_and_6_in_one_log() {
    let log = log_of(&[
        executed_untimed_bytes(1, 1, 1, POINT, 40),
        executed_bytes(1, 2, 1, POINT, 41),
        executed_untimed_bytes(1, 3, 1, POINT, 42),
    ]);
    assert_eq!(log.len(), 8 + 28 + 32 + 28);
    let mut rig = Rig::new(0, 500);
    rig.log[..log.len()].copy_from_slice(&log);
    rig.server = recover(&log, &plan()).expect("a state");
    let times = rig.server.records.iter().map(|r| r.time);
    assert!(times.eq([0, 60, 0]));
    assert_eq!([1, 2, 3].map(|call| told(&mut rig, call)), [0, 60, 0]);
    rig.execute(&set(1, 4, POINT, 43));
    assert_eq!(rig.log[log.len()], EXECUTED);
    // Each record shows its own bytes.
    let shown = |call| {
        let place = (rig.server).inspect(STATE_LEN, &[], &rig.log, 1, call);
        let place = place.expect("a record");
        (place.from, place.to)
    };
    assert_eq!(
        [1, 2, 3, 4].map(shown),
        [(8, 36), (36, 68), (68, 96), (96, 128)]
    );
}

/// A kind that lacks its last bytes is incomplete, not the other form.
#[test]
fn cuts_of_both_kinds() {
    let forms = [executed_untimed_bytes, executed_bytes];
    for record in forms.map(|form| form(1, 1, 1, POINT, 40)) {
        for k in 0..=record.len() {
            let log = log_of(&[record[..k].to_vec()]);
            let whole = if k == record.len() { 8 + k } else { 8 };
            assert_eq!(whole_end(&log), Ok(whole));
            let state = recover(&log, &plan()).expect("a state");
            assert_eq!(state.records.len(), usize::from(whole > 8));
        }
        let mut other = record.clone();
        other[0] = if record[0] == EXECUTED { 1 } else { 6 };
        assert_eq!(parse_executed(&other), None);
    }
}

/// An image without times is taken and its take record read; it goes on with times 0.
#[test]
fn untimed_images() {
    let mut rig = heard(77);
    let old = image_as(
        Form::Untimed,
        &ImageHead {
            heard: 90,
            ..head(40, 0, 1, 1)
        },
        &[floor(1, 1)],
        &[moved(1, 1), moved(1, 2)],
    );
    let at = rig.server.length as usize;
    rig.take(0, &old);
    rig.sync_all();
    assert_eq!((told(&mut rig, 1), rig.server.heard), (0, 90));
    assert_eq!(rig.request(0, RESULT_LEN, &set(1, 1, 40, 7))[16..], [0; 4]);
    let place = (rig.server).inspect(STATE_LEN, &[], &rig.log, 1, 2);
    let place = place.expect("an entry");
    assert_eq!((place.from, place.to), (at + 8 + 76, at + 8 + 96));
    assert!(recover(rig.whole_log(), &plan()).as_ref() == Some(&rig.server));
    rig.give(0, 40, 1);
    rig.sync_all();
    let new = rig.image(0, 48 + 8 + 2 * MOVED_LEN, 40);
    assert_eq!(new[..4], IMAGE_MAGIC);
    let untimed = |call| Moved {
        time: 0,
        ..moved(1, call)
    };
    let image = parse_image(&new, &plan()).expect("an image");
    assert!(image.records().eq([untimed(1), untimed(2)]));
}

/// A checkpoint without times behind which records of both kinds stand; the next one has
/// the times.
#[test]
fn untimed_checkpoint_with_a_tail_of_both_kinds() {
    let mut rig = heard(77);
    rig.execute(&set(1, 1, POINT, 40));
    rig.execute(&set(2, 1, POINT, 41));
    rig.sync_all();
    let mut old = vec![FILL; CHECKPOINT_LEN];
    let len = write_checkpoint_as(Form::Untimed, &rig.server, &mut old);
    old.truncate(len);
    assert_eq!((old[3], len), (0x32, 2092 + 2 * 8 + 2 * 20));
    let records = [
        executed_untimed_bytes(1, 2, 1, POINT, 42),
        executed_bytes(1, 3, 1, POINT, 43),
    ];
    let tail = log_of(&records);
    rig.server = recover_both(&old, &tail).expect("a state");
    rig.log = tail.clone();
    assert_eq!(rig.server.heard, 77);
    assert_eq!([1, 2, 3].map(|call| told(&mut rig, call)), [0, 0, 60]);
    let at = |rig: &Rig, checkpoint: &[u8], id: (u32, u32)| {
        let place = (rig.server).inspect(STATE_LEN, checkpoint, &rig.log, id.0, id.1);
        let place = place.expect("a record");
        (place.source as u32, place.from, place.to)
    };
    assert_eq!(at(&rig, &old, (1, 1)), (3, 2108, 2128));
    assert_eq!(at(&rig, &old, (2, 1)), (3, 2128, 2148));
    assert_eq!(at(&rig, &old, (1, 2)), (1, 8, 36));
    assert_eq!(at(&rig, &old, (1, 3)), (1, 36, 68));
    let (new, _) = checkpoint(&mut rig);
    assert_eq!((new[3], new.len()), (0x33, 2092 + 2 * 8 + 4 * 24));
    assert_eq!(at(&rig, &new, (1, 3)), (3, 2108 + 72, 2108 + 96));
    assert!(parse_checkpoint(&new).as_ref() == Some(&rig.server));
    assert_eq!([1, 2, 3].map(|call| told(&mut rig, call)), [0, 0, 60]);
}

/// Rows of the other form's length, or the other opening.
#[test]
fn checkpoint_forms_do_not_mix() {
    let mut rig = heard(77);
    rig.execute(&set(1, 1, POINT, 40));
    let state = rig.server.rebased();
    for form in FORMS {
        let mut bytes = vec![0; CHECKPOINT_LEN];
        write_checkpoint_as(form, &state, &mut bytes);
        let time = form.time(77);
        let read = parse_checkpoint(&bytes).expect("a state");
        assert_eq!(read.records.last().map(|r| r.time), Some(time));
        let at = 44 - 4;
        let other = if get_u32(&bytes, at) == 24 { 20 } else { 24 };
        for (opening, len) in [(bytes[3], other), (bytes[3] ^ 1, get_u32(&bytes, at))] {
            let mut bad = bytes.clone();
            bad[3] = opening;
            put_u32(&mut bad, at, len);
            assert!(parse_checkpoint(&bad).is_none());
        }
        for opening in [0x30, 0x31, 0x34] {
            bytes[3] = opening;
            assert!(parse_checkpoint(&bytes).is_none());
        }
    }
}

/// A log and a tail keep their head.
#[test]
fn heads_of_logs_stay() {
    let mut rig = heard(77);
    assert_eq!(rig.log[..4], LOG_MAGIC);
    sync_and_checkpoint(&mut rig);
    assert_eq!(rig.log[..4], [0x57, 0x4C, 0x47, 0x31]);
}

// A desk.

#[test]
fn a_desk_receives_both_forms() {
    let grant = write_grant(&Grant {
        client: 1,
        lease_end: 100,
    });
    let mut desk = Client::start(&grant).expect("a grant");
    let reply = |call| Reply {
        outcome: 0,
        point: POINT,
        quality: 0,
        client: 1,
        call,
        value: 40,
        time: 77,
    };
    for (call, form) in (1..).zip(FORMS) {
        desk.issue(1, u32::from(POINT), 40).expect("a place");
        let packet = match form {
            Form::Untimed => write_result_untimed(&reply(call)).to_vec(),
            Form::Timed => write_result(&reply(call)).to_vec(),
        };
        assert_eq!(packet.len(), LENGTHS[usize::from(packet[0])]);
        let before = desk.clone();
        for bad in [
            packet[..packet.len() - 1].to_vec(),
            [&packet[..], &[0]].concat(),
            [&[9 - packet[0]], &packet[1..]].concat(),
            [&[8], &packet[1..]].concat(),
        ] {
            assert_eq!(desk.receive(&bad), Err(Refusal::Malformed));
            assert!(desk == before);
        }
        let received = Received::Result {
            call,
            effect: effect(0, 40, 0),
            time: form.time(77),
        };
        assert_eq!(desk.receive(&packet), Ok(received));
        assert_eq!(desk.receive(&packet), Err(Refusal::Unknown));
    }
}

// Programs from before.

/// It needs less output and less space, and writes what it always wrote.
#[test]
fn the_third_program_writes_the_old_forms() {
    let mut rig = heard(77);
    rig.leave(28);
    let packet = set(1, 1, POINT, 40);
    rig.execute_by(Program::THIRD, &packet);
    let length = rig.server.length as usize;
    assert_eq!(rig.log[length - 28], EXECUTED_UNTIMED);
    assert_eq!(rig.last_record().time, 0);
    rig.sync_all();
    let result = rig.expect(0, 16, |s, log, out| {
        s.request_by(Program::THIRD, STATE_LEN, log, &packet, &mut out[..16])
    });
    assert_eq!(result[0], RESULT_UNTIMED);
    let fetched = rig.expect(0, 16, |s, log, out| {
        s.fetch_as(Form::Untimed, STATE_LEN, log, (1, 1), &mut out[..16])
    });
    assert_eq!(fetched, result);
    // Renewed, the server tells the same with time 0.
    assert_eq!(told(&mut rig, 1), 0);
}

#[test]
fn the_third_program_refuses_today_s_images() {
    let parts = (head(40, 0, 1, 1), [floor(1, 1)], [moved(1, 1)]);
    for (form, number) in [(Form::Timed, 1), (Form::Untimed, 0)] {
        let image = image_as(form, &parts.0, &parts.1, &parts.2);
        let mut rig = Rig::new(0, 500);
        rig.expect(number, 0, |s, log, _| {
            s.take_by(Program::THIRD, STATE_LEN, log, &image)
        });
    }
    assert!(Program::ALL.iter().all(|p| p.reads(Form::Untimed)));
    let timed = Program::ALL.map(|p| p.reads(Form::Timed));
    assert_eq!(timed, [false, false, false, true, true]);
    assert_eq!(Program::default(), Program::TODAY);
}

// Renewals, call by call.

/// The times in the results of a schedule, in the order in which they were made.
fn times(world: &World) -> Vec<(u8, u32)> {
    let results = world.packets().filter_map(|packet| {
        let reply = parse_result(packet)?;
        Some((packet[0], reply.time))
    });
    results.collect()
}

/// As `begin`, then a second client that comes, commands and goes: the holder has heard a
/// time, which is synced.
fn begin_late() -> Vec<Call> {
    let (at, desk, packet) = (Party::Apt, LATEST_DESK, Which::Latest);
    let client = [
        Call::Open { wait: 9, span: 1 },
        Call::Start { packet },
        Call::Issue {
            desk,
            op: Op::Read as u8,
            point: POINT,
            argument: 0,
        },
        REQUEST,
        Call::Query { desk, wait: 9 },
        Call::Notice { at, packet },
        SYNC,
    ];
    [&begin()[..], &client].concat()
}

/// The heard time of a server.
fn heard_at(world: &World, cabinet: usize) -> u32 {
    let heard = world.server(cabinet).map_or(0, |s| s.heard);
    assert!(heard > 0);
    heard
}

/// A result of the third program, the same after the renewal, and one of today's.
#[test]
fn renewed_between_results() {
    let go = [begin_late(), complete(1, 40)];
    let renewed = renewed_from_third(&go, &[vec![REQUEST], complete(1, 41)]);
    let world = explained(&renewed);
    assert_eq!(times(&world), [(2, 0), (7, 0), (7, heard_at(&world, 0))]);
}

/// An execution that the crash at the renewal removed is executed again, with today's
/// record; one that it kept has none.
#[test]
fn renewed_at_a_crash() {
    let again = [vec![RECOVER, REQUEST, SYNC, REQUEST]];
    for (keep, form) in [(Keep::Synced, Form::Timed), (Keep::All, Form::Untimed)] {
        let before = [begin_late(), vec![issue(1, 40), REQUEST, crash(keep)]];
        let renewed = renewed_from_third(&before, &again);
        let world = explained(&renewed);
        let log = &world.log(0)[..world.server(0).map_or(0, |s| s.length as usize)];
        assert_eq!(log.len(), 8 + 28 + 12 + executed_len(form));
        let time = form.time(heard_at(&world, 0));
        let times = times(&world);
        assert!(!times.is_empty() && times.iter().all(|&told| told == (7, time)));
    }
}

/// From a server of the third program to one of today's; the way back is closed until that
/// one is renewed.
#[test]
fn moved_across_the_renewal() {
    let before = [
        begin_late(),
        complete(1, 40),
        give_to(1),
        vec![TAKE],
        complete(1, 41),
        give_to(0),
        vec![TAKE],
    ];
    let renewed = renewed_from_third(&before, &[vec![TAKE], complete(1, 42)]);
    let world = explained(&renewed);
    let heard = heard_at(&world, 1);
    assert_eq!(times(&world), [(2, 0), (7, heard), (7, heard)]);
    let counts = run_renewed(&renewed, Options::default()).counts;
    assert_eq!((counts.takes, counts.images_too_new), (2, 1));
    assert_eq!((counts.takes_untimed, counts.results_untimed), (1, 1));
    // With both at the third program nothing is refused.
    let both = other_past(2, renewed_from_third(&before, &[]));
    let counts = run_renewed(&both, Options::default()).counts;
    assert_eq!((counts.takes, counts.images_too_new), (2, 0));
}

// Random schedules: checkpoints, clients that go, each server renewed at its own place.

const FIRST_SEED: u64 = 8_000_000;
const SCHEDULES: u64 = 3_000;
const SCHEDULES_MAX: u64 = 5_000;

fn with(fault: Option<Fault>) -> Options {
    Options {
        fault,
        ..Options::default()
    }
}

fn assert_eventful(counts: &Counts, schedules: u64) {
    let [.., third, fourth, today] = counts.executed_by;
    assert!(third > 2 * schedules && fourth > schedules && today > 2 * schedules);
    assert!(counts.results_untimed > schedules);
    assert!(counts.results_timed > schedules);
    assert!(counts.results_from_untimed > schedules / 4);
    assert!(counts.takes_untimed > schedules / 10);
    assert!(counts.images_too_new > schedules / 10);
    assert!(counts.gone > schedules && counts.crashes > schedules);
    assert!(counts.storing.from_untimed > schedules / 2);
    assert!(counts.storing.made > 4 * schedules);
}

/// No violation, so all results of a command have the time of the surviving execution; no
/// difference from servers without checkpoints, and what is inspected has its time.
#[test]
fn no_violation_with_times() {
    let options = Options {
        verify: true,
        shadow: true,
        ..Options::default()
    };
    let mut counts = Counts::default();
    for seed in FIRST_SEED..FIRST_SEED + SCHEDULES {
        let found = run_renewed(&generate_timed(seed), options);
        assert_eq!(found.result, Ok(()), "seed {seed}");
        assert_eq!(found.shadow, Ok(()), "seed {seed}");
        counts.add(&found.counts);
    }
    println!("{SCHEDULES} schedules from seed {FIRST_SEED}: {counts:?}");
    assert_eventful(&counts, SCHEDULES);
}

/// Today's program recovers what it finds, with the times that its results have.
#[test]
fn what_is_stored_keeps_the_times() {
    let mut timed = 0;
    for seed in FIRST_SEED..FIRST_SEED + 300 {
        let renewed = generate_timed(seed);
        let mut world = World::new_renewed(&renewed, Options::default());
        let steps = &renewed.schedule.steps;
        steps.iter().for_each(|step| world.step(step));
        for cabinet in 0..usize::from(renewed.schedule.cabinets) {
            let Some(server) = world.server(cabinet) else {
                continue;
            };
            let log = &world.log(cabinet)[..server.length as usize];
            let recovered = match world.stored(cabinet) {
                [] => recover(log, &renewed.schedule.plan),
                checkpoint => recover_both(checkpoint, log),
            };
            let recovered = recovered.expect("a state");
            let time = |s: &Server| s.records.iter().map(|r| r.time).collect::<Vec<_>>();
            assert_eq!(time(&recovered), time(server));
            timed += time(server).iter().filter(|&&time| time > 0).count();
        }
    }
    assert!(timed > 300);
}

fn violates(seed: u64, fault: Option<Fault>) -> bool {
    let found = run_renewed(&generate_timed(seed), with(fault)).result;
    search::is_violation(found, seed, fault)
}

/// The fault changes times alone: nothing else is ever violated.
fn assert_found(fault: Fault) -> u64 {
    let seeds = FIRST_SEED..FIRST_SEED + SCHEDULES_MAX;
    let seed = search::first_violation(seeds, fault, violates);
    for seed in FIRST_SEED..FIRST_SEED + 300 {
        let found = run_renewed(&generate_timed(seed), with(Some(fault))).result;
        assert!(matches!(found, Ok(()) | Err(Violation::Time { .. })));
    }
    seed
}

#[test]
fn time_of_the_reply() {
    assert_found(Fault::TimeOfReply);
}

#[test]
fn time_of_the_take() {
    assert_found(Fault::TimeOfTake);
}

#[test]
fn image_without_times() {
    assert_found(Fault::ImageWithoutTimes);
}

/// The shortened schedule still shows it, and shadows find it where no result does.
#[test]
fn checkpoint_without_times() {
    let fault = Some(Fault::CheckpointWithoutTimes);
    let renewed = generate_timed(assert_found(Fault::CheckpointWithoutTimes));
    let shorter = minimise_renewed(&renewed, with(fault));
    assert!(shorter.schedule.steps.len() < renewed.schedule.steps.len());
    assert!(run_renewed(&shorter, with(fault)).result.is_err());
    assert_eq!(run_renewed(&shorter, with(None)).result, Ok(()));
    let shadow = true;
    let differs = (FIRST_SEED..).find_map(|seed| {
        let options = Options {
            shadow,
            ..with(fault)
        };
        run_renewed(&generate_timed(seed), options).shadow.err()
    });
    assert_eq!(differs.map(|d| d.differs), Some(Differs::ReadBack));
}

/// A recovery that works times out goes wrong on records of an earlier program alone.
#[test]
fn recovery_works_times_out() {
    assert_found(Fault::RecoverWorksTimesOut);
    let options = with(Some(Fault::RecoverWorksTimesOut));
    for seed in FIRST_SEED..FIRST_SEED + 300 {
        let today = Renewed::today(&generate_timed(seed).schedule);
        assert_eq!(run_renewed(&today, options).result, Ok(()));
    }
}

#[test]
fn answers_are_as_long_as_their_form() {
    for (form, len) in [(Form::Untimed, 16), (Form::Timed, 20)] {
        let mut rig = heard(77);
        rig.execute(&set(1, 1, POINT, 40));
        rig.sync_all();
        let mut out = vec![FILL; IMAGE_MAX];
        let answer = (rig.server).fetch_as(form, STATE_LEN, &rig.log, (1, 1), &mut out[..len]);
        assert_eq!(answer, Answer::wrote(len));
        let answer = (rig.server).fetch_as(form, STATE_LEN, &rig.log, (1, 1), &mut out[..len - 1]);
        assert_eq!(answer, Answer::refused(Refusal::TooShort));
    }
}
