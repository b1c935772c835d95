//! Kept logs, made from records or by random schedules, and their recovery.
#![allow(dead_code)]

use second::bytes::get_u32;
use second::plan::{write_plan, Plan};
use second::record::*;
use second::rule::Op;
use second::schedule::generate;
use second::server::{Server, STATE_LEN};
use second::world::{Options, World};

/// The state that recover gives; nothing for 14, which leaves the state.
pub fn recover(log: &[u8], plan: &Plan) -> Option<Server> {
    let mut server = Server::new();
    let answer = server.recover(STATE_LEN, log, &write_plan(plan));
    match answer.number {
        0 => Some(server),
        14 => {
            assert!(server == Server::new());
            None
        }
        number => panic!("recover answers {number}"),
    }
}

/// Length of the record that these bytes begin, read plainly, without the library's
/// code; nothing if its kind or image length is off. Without the whole image length
/// it is more than there is.
pub fn plain_len(b: &[u8]) -> Option<usize> {
    match b[0] {
        1 => Some(28),
        6 => Some(32),
        2 => Some(12),
        3 | 5 => Some(8),
        4 if b.len() < 8 => Some(8),
        4 => {
            let image_len = get_u32(b, 4) as usize;
            (48..=12_592).contains(&image_len).then_some(8 + image_len)
        }
        _ => None,
    }
}

/// The plan of a random schedule, and the logs of the cabinets that run at its end.
pub fn random_logs(seed: u64) -> (Plan, Vec<Vec<u8>>) {
    let schedule = generate(seed);
    let mut world = World::new(&schedule, Options::default());
    schedule.steps.iter().for_each(|step| world.step(step));
    let log = |i| {
        let length = world.server(i)?.length as usize;
        Some(world.log(i)[..length].to_vec())
    };
    let logs = (0..usize::from(schedule.cabinets)).filter_map(log);
    (schedule.plan, logs.collect())
}

pub fn log_of(records: &[Vec<u8>]) -> Vec<u8> {
    [vec![write_head(0).to_vec()], records.to_vec()]
        .concat()
        .concat()
}

pub fn executed(client: u32, call: u32, done: u32, point: u8, value: i32) -> Executed {
    Executed {
        op: Op::Set,
        point,
        outcome: 0,
        client,
        call,
        done,
        argument: 1,
        value,
        quality: 0,
        time: 60,
    }
}

pub fn executed_bytes(client: u32, call: u32, done: u32, point: u8, value: i32) -> Vec<u8> {
    write_executed(&executed(client, call, done, point, value)).to_vec()
}

/// The same record as a program before request 6 writes it.
pub fn executed_untimed_bytes(client: u32, call: u32, done: u32, point: u8, value: i32) -> Vec<u8> {
    write_executed_untimed(&executed(client, call, done, point, value)).to_vec()
}

pub fn give_bytes(point: u8, destination: u8, move_number: u32) -> Vec<u8> {
    write_give(&Give {
        point,
        destination,
        move_number,
    })
    .to_vec()
}

pub fn release_bytes(point: u8, move_number: u32) -> Vec<u8> {
    write_release(&Release { point, move_number }).to_vec()
}

pub fn gone_bytes(client: u32) -> Vec<u8> {
    write_gone(&Gone { client, time: 5 }).to_vec()
}

pub fn take_bytes(image: &[u8]) -> Vec<u8> {
    write_record(&Record::Take(image))
}
