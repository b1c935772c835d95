//! Recovery in two walks (request 3 of paper 02): the first walk by itself, and both
//! together against a recovery in one walk.

mod common;
mod logs;

use common::*;
use logs::*;
use second::answer::{Answer, Refusal};
use second::bytes::put_u32;
use second::plan::{write_plan, Plan};
use second::program::Form;
use second::random::Random;
use second::record::{parse_record, whole_end, write_take_head, Parsed};
use second::server::{Server, STATE_LEN};

const BAD: Result<usize, Refusal> = Err(Refusal::BadLog);

// Both walks, read plainly.

/// The first walk: 8, then the end of each whole record; nothing for 14.
fn plain_ends(log: &[u8]) -> Option<Vec<usize>> {
    let head = log.get(..8)?;
    let good = head[..4] == *b"WLG1" && head[4] < 16 && head[5..] == [0, 0, 0];
    let mut ends = good.then(|| vec![8])?;
    let mut at = 8;
    while at < log.len() {
        at += plain_len(&log[at..])?;
        if at <= log.len() {
            ends.push(at);
        }
    }
    Some(ends)
}

fn plain_end(log: &[u8]) -> Result<usize, Refusal> {
    let last = |ends: Vec<usize>| ends.last().copied();
    plain_ends(log).and_then(last).ok_or(Refusal::BadLog)
}

/// Recovery in one walk: a record is applied before the next one's end is sought.
fn recover_in_one_walk(log: &[u8], plan: &Plan) -> Option<Server> {
    plain_ends(log.get(..8)?)?;
    let mut server = Server::new();
    let cabinet = u32::from(log[4]);
    let answer = server.found(STATE_LEN, &mut [0; 8], &write_plan(plan), cabinet);
    assert_eq!(answer, Answer::DONE);
    let mut at = 8;
    while at < log.len() {
        let end = at + plain_len(&log[at..])?;
        if end > log.len() {
            break;
        }
        let Parsed::Whole(record, _) = parse_record(&log[at..end], 0) else {
            return None;
        };
        server.follow(&record, end as u64)?;
        at = end;
    }
    (server.length, server.mark) = (at as u64, at as u64);
    Some(server)
}

/// The answers of the first walk by itself and of recovery: its length, or 14.
fn assert_answers(log: &[u8], walk: Result<usize, Refusal>, recovery: Result<usize, Refusal>) {
    assert_eq!(whole_end(log), walk);
    let recovered = recover(log, &plan());
    assert!(recovered == recover_in_one_walk(log, &plan()));
    let length = recovered.map(|s| s.length as usize);
    assert_eq!(length.ok_or(Refusal::BadLog), recovery);
}

fn assert_both(log: &[u8], answer: Result<usize, Refusal>) {
    assert_answers(log, answer, answer);
}

// Random records.

fn random_bytes(random: &mut Random, len: usize) -> Vec<u8> {
    (0..len).map(|_| random.next_u32() as u8).collect()
}

/// A record of which only the kind and the image length are good for certain.
fn record_at_random(random: &mut Random) -> Vec<u8> {
    let kind = 1 + random.below(6) as u8;
    let some = 48 + random.below(400) as usize;
    let image_len = *random.pick(&[48, some, some, some, 12_592]);
    let len = match kind {
        1 => 28,
        6 => 32,
        2 => 12,
        4 => 8 + image_len,
        _ => 8,
    };
    let mut bytes = random_bytes(random, len);
    bytes[0] = kind;
    if kind == 4 {
        put_u32(&mut bytes, 4, image_len as u32);
    }
    bytes
}

fn records_at_random(random: &mut Random) -> Vec<Vec<u8>> {
    let count = random.below(15);
    (0..count).map(|_| record_at_random(random)).collect()
}

/// The ends of the head and of the records that follow it.
fn ends_of(records: &[Vec<u8>]) -> Vec<usize> {
    let mut ends = vec![8];
    for record in records {
        ends.push(ends[ends.len() - 1] + record.len());
    }
    ends
}

/// The first walk on every cut of logs whose records cannot follow.
#[test]
fn every_cut_of_random_records() {
    let mut random = Random::new(1);
    let mut bytes = 0;
    for _ in 0..60 {
        let records = records_at_random(&mut random);
        let (log, ends) = (log_of(&records), ends_of(&records));
        for k in 0..=log.len() {
            let fits = ends.iter().rfind(|&&end| end <= k);
            assert_eq!(whole_end(&log[..k]).ok(), fits.copied());
        }
        bytes += log.len();
    }
    assert!(bytes > 100_000, "{bytes} bytes");
}

/// A client that is done with each call: the states stay small, the log is long.
#[test]
fn long_log() {
    let records: Vec<Vec<u8>> = (1..=100_000)
        .map(|call| executed_bytes(1, call, call, 5, 40))
        .collect();
    let log = log_of(&records);
    assert_both(&log, Ok(8 + 32 * 100_000));
    assert_both(&log[..log.len() - 1], Ok(8 + 32 * 99_999));
}

// Heads, kinds and image lengths.

#[test]
fn heads() {
    assert_both(&[], BAD);
    let good = log_of(&[]);
    assert_both(&good, Ok(8));
    for k in 0..8 {
        assert_both(&good[..k], BAD);
        assert_both(&vec![0; k], BAD);
    }
    for at in 0..8 {
        for byte in 0..=255 {
            let mut log = good.clone();
            log[at] = byte;
            let ok = byte == good[at] || (at == 4 && byte < 16);
            let answer = if ok { Ok(8) } else { BAD };
            assert_both(&log, answer);
            assert_both(&[log, vec![1]].concat(), answer);
        }
    }
}

#[test]
fn kinds() {
    let first = executed_bytes(1, 1, 1, 5, 40);
    for kind in 0..=255 {
        let ok = (1..=6).contains(&kind);
        for before in [log_of(&[]), log_of(std::slice::from_ref(&first))] {
            let answer = if ok { Ok(before.len()) } else { BAD };
            for tail in [&[][..], &[0], &[kind; 6]] {
                assert_both(&[&before[..], &[kind], tail].concat(), answer);
            }
        }
        if !ok {
            let mut log = log_of(&[first.clone(), executed_bytes(2, 1, 1, 5, 40)]);
            log[8] = kind;
            assert_both(&log, BAD);
        }
    }
}

/// A take's length bytes count as soon as all four are there, whatever is there of
/// its image.
#[test]
fn image_lengths() {
    let before = log_of(&[executed_bytes(1, 1, 1, 5, 40)]);
    let kept = Ok(before.len());
    let good = [48, 49, 10_544, 10_545, 12_591, 12_592];
    let bad = [0, 1, 47, 12_593, 1 << 16 | 48, 1 << 24 | 48, u32::MAX];
    for len in good.into_iter().chain(bad) {
        let head = write_take_head(len as usize);
        for there in 1..8 {
            assert_both(&[&before, &head[..there]].concat(), kept);
        }
        let log = |there: usize| [&before, &head[..], &vec![FILL; there]].concat();
        let answer = if good.contains(&len) { kept } else { BAD };
        for there in [0, 1, 46, 47] {
            let there = there.min((len as usize).saturating_sub(1));
            assert_both(&log(there), answer);
        }
        if len < 20_000 {
            let len = len as usize;
            assert_both(&log(len.saturating_sub(1)), answer);
            let walk = answer.map(|end| end + 8 + len);
            assert_answers(&log(len), walk, BAD);
        }
    }
}

/// The shortest and the longest image, whole and lacking a byte.
#[test]
fn shortest_and_longest_image() {
    let (floors, records) = longest_parts();
    let head = head(40, 0, 1, 1);
    let forms = [Form::Untimed, Form::Timed];
    let shortest = forms.map(|form| image_as(form, &head, &[], &[]));
    let longest = forms.map(|form| image_as(form, &head, &floors, &records));
    assert_eq!(shortest.each_ref().map(Vec::len), [48, 48]);
    assert_eq!(longest.each_ref().map(Vec::len), [10_544, 12_592]);
    for image in shortest.into_iter().chain(longest) {
        let log = log_of(&[take_bytes(&image), give_bytes(40, 1, 2)]);
        assert_both(&log, Ok(log.len()));
        assert_both(&log[..log.len() - 1], Ok(log.len() - 8));
        assert_both(&log[..log.len() - 9], Ok(8));
    }
}

// Records of bad content.

/// Records with a good kind and image length that break their layout or cannot
/// follow the record of call 3.
fn bad_contents() -> Vec<Vec<u8>> {
    let changed = |mut bytes: Vec<u8>, at: usize, byte: u8| {
        bytes[at] = byte;
        bytes
    };
    let taken = take_bytes(&image(&head(40, 0, 1, 1), &[], &[]));
    vec![
        changed(executed_bytes(1, 4, 4, 5, 40), 1, 6),
        changed(executed_bytes(1, 4, 4, 5, 40), 27, 1),
        changed(executed_untimed_bytes(1, 4, 4, 5, 40), 1, 6),
        changed(executed_untimed_bytes(1, 4, 4, 5, 40), 27, 1),
        executed_untimed_bytes(1, 3, 3, 5, 40),
        executed_bytes(1, 4, 4, 5, 1001),
        executed_bytes(1, 3, 3, 5, 40),
        executed_bytes(1, 2, 2, 5, 40),
        executed_bytes(1, 4, 4, 32, 40),
        changed(gone_bytes(1), 3, 1),
        gone_bytes(2),
        changed(give_bytes(6, 1, 1), 1, 64),
        give_bytes(6, 0, 1),
        give_bytes(6, 1, 2),
        changed(taken.clone(), 1, 1),
        changed(taken, 8, 0),
        take_bytes(&[0; 48]),
        changed(release_bytes(6, 1), 2, 1),
        release_bytes(6, 1),
    ]
}

#[test]
fn bad_content_before_good_and_bad_kinds() {
    let first = executed_bytes(1, 3, 3, 5, 40);
    let last = executed_bytes(7, 1, 1, 7, 40);
    let log = log_of(&[first.clone(), last.clone()]);
    assert_both(&log, Ok(log.len()));
    for bad in bad_contents() {
        let log = log_of(&[first.clone(), bad.clone(), last.clone()]);
        assert_answers(&log, Ok(log.len()), BAD);
        assert_answers(&log[..log.len() - 1], Ok(log.len() - last.len()), BAD);
        // The last record's kind or image length is bad too.
        for kind in [0, 7, 255] {
            assert_both(&[&log[..], &[kind]].concat(), BAD);
            assert_both(&[&log[..], &[kind; 40]].concat(), BAD);
        }
        for image_len in [47, 12_593] {
            assert_both(&[&log[..], &write_take_head(image_len)].concat(), BAD);
        }
        // Dropped if incomplete.
        let log = log_of(&[first.clone(), bad]);
        assert_both(&log[..log.len() - 1], Ok(8 + first.len()));
    }
}

/// Changes bytes that are neither head, kind nor image length; answers how many.
fn change_other_bytes(random: &mut Random, log: &mut [u8], ends: &[usize]) -> usize {
    let percent = *random.pick(&[2, 50, 100]);
    let mut changed = 0;
    for (i, &at) in ends.iter().enumerate() {
        let end = ends.get(i + 1).map_or(log.len(), |&end| end);
        let take = log.get(at) == Some(&4);
        for (i, byte) in log[at..end].iter_mut().enumerate().skip(1) {
            if !(take && (4..8).contains(&i)) && random.chance(percent) {
                *byte = random.next_u32() as u8;
                changed += 1;
            }
        }
    }
    changed
}

#[test]
fn other_bytes_do_not_change_the_first_walk() {
    let mut random = Random::new(3);
    let (mut changed, mut refused) = (0, 0);
    for seed in 2000..2400 {
        let (plan, mut logs) = random_logs(seed);
        logs.push(log_of(&records_at_random(&mut random)));
        for mut log in logs {
            log.truncate(8 + random.below(log.len() as u32 - 7) as usize);
            let ends = plain_ends(&log).expect("a good log");
            for _ in 0..5 {
                changed += change_other_bytes(&mut random, &mut log, &ends);
                assert_eq!(whole_end(&log), Ok(*ends.last().expect("the head")));
                let recovered = recover(&log, &plan);
                assert!(recovered == recover_in_one_walk(&log, &plan));
                refused += u32::from(recovered.is_none());
            }
        }
    }
    assert!(changed > 100_000 && refused > 1000, "{changed}, {refused}");
}

/// On damaged logs the first walk is the plain one, and recovery the one in one
/// walk: it refuses where the first walk does, or ends where that ends.
#[test]
fn damaged_logs() {
    let mut random = Random::new(6);
    let (mut by_walk, mut by_replay, mut read) = (0, 0, 0);
    for seed in 5000..6000 {
        let (plan, logs) = random_logs(seed);
        for log in logs.iter().flat_map(|log| [log; 15]) {
            let bad = damage(&mut random, log);
            let walk = whole_end(&bad);
            assert_eq!(walk, plain_end(&bad));
            let recovered = recover(&bad, &plan);
            assert!(recovered == recover_in_one_walk(&bad, &plan));
            match (walk, recovered) {
                (Err(_), recovered) => {
                    assert!(recovered.is_none());
                    by_walk += 1;
                }
                (Ok(_), None) => by_replay += 1,
                (Ok(end), Some(server)) => {
                    assert!(server.sound());
                    assert_eq!((server.length, server.mark), (end as u64, end as u64));
                    read += 1;
                }
            }
        }
    }
    println!("14 by the first walk {by_walk}, by the replay {by_replay}; read {read}");
    assert!(by_walk > 2000 && by_replay > 2000 && read > 2000);
    assert!(by_walk + by_replay + read > 20_000);
}
