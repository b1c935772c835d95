//! Checkpoints of a cabinet's state and their recovery.
#![allow(dead_code)]

use crate::common::*;
use second::checkpoint::CHECKPOINT_LEN;
use second::image::ImageHead;
use second::schedule::generate_checkpoints;
use second::server::{Server, STATE_LEN};
use second::world::{Options, World};

/// The checkpoint of a cabinet's state, whose log is then its tail; and the whole log that
/// it replaced. Bytes past what is written are kept.
pub fn checkpoint(rig: &mut Rig) -> (Vec<u8>, Vec<u8>) {
    let old = rig.whole_log().to_vec();
    let (mut to, mut tail) = (vec![FILL; CHECKPOINT_LEN], vec![FILL; rig.log.len()]);
    let server = &mut rig.server;
    let answer = server.checkpoint(STATE_LEN, &rig.log, &mut to, &mut tail);
    assert_eq!(answer.number, 0);
    assert!(to[answer.written..].iter().all(|&b| b == FILL));
    assert!(tail[8..].iter().all(|&b| b == FILL));
    assert!(server.sound());
    to.truncate(answer.written);
    rig.log = tail;
    (to, old)
}

/// Syncs first.
pub fn sync_and_checkpoint(rig: &mut Rig) -> (Vec<u8>, Vec<u8>) {
    rig.sync_all();
    checkpoint(rig)
}

/// The state recovered from both; nothing for 14, which leaves the state.
pub fn recover_both(checkpoint: &[u8], tail: &[u8]) -> Option<Server> {
    let mut server = Server::new();
    let answer = server.recover_checkpoint(STATE_LEN, checkpoint, tail);
    match answer.number {
        0 => Some(server),
        number => {
            assert_eq!(number, 14);
            assert!(server == Server::new());
            None
        }
    }
}

/// A checkpoint, a tail behind it with records of all five kinds, and the log before it.
pub fn checkpoint_and_tail() -> (Vec<u8>, Vec<u8>, Vec<u8>) {
    let mut rig = Rig::new(0, 1000);
    rig.execute(&set(1, 1, 5, 40));
    rig.execute(&set(2, 3, 6, 41));
    rig.give(0, 7, 1);
    rig.take(
        0,
        &image(&head(40, 0, 1, 1), &[floor(3, 1)], &[moved(3, 1)]),
    );
    let (bytes, old) = sync_and_checkpoint(&mut rig);
    rig.execute(&set(1, 2, 40, 50));
    rig.notice(0, &notice(2, 30));
    rig.release(0, &receipt(7, 1, 1));
    rig.give(0, 40, 2);
    rig.take(
        0,
        &image(&head(41, 0, 1, 1), &[floor(4, 1)], &[moved(4, 1)]),
    );
    rig.execute(&set(4, 2, 41, 51));
    (bytes, rig.whole_log().to_vec(), old)
}

/// Takes a point with 32 clients and 512 records.
pub fn take_longest(rig: &mut Rig, head: &ImageHead) {
    let (floors, records) = longest_parts();
    rig.take(0, &image(head, &floors, &records));
}

/// Checkpoint, tail and whole log of the cabinets that run at the end of a random schedule
/// and have a checkpoint.
pub fn random_stored(seed: u64, mut test: impl FnMut(&Server, &[u8], &[u8], &[u8])) {
    let schedule = generate_checkpoints(seed);
    let options = Options {
        shadow: true,
        ..Options::default()
    };
    let mut world = World::new(&schedule, options);
    schedule.steps.iter().for_each(|step| world.step(step));
    for i in 0..usize::from(schedule.cabinets) {
        let (Some(server), Some(whole)) = (world.server(i), world.whole_log(i)) else {
            continue;
        };
        if !world.stored(i).is_empty() {
            let tail = &world.log(i)[..server.length as usize];
            test(server, world.stored(i), tail, whole);
        }
    }
}
