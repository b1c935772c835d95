//! The controller of a lock chamber (paper 02, request 2, with the qualities of request 7),
//! call by call.

use second::answer::Refusal;
use second::chamber::{Chamber, LatestRead, LOWER, UPPER};
use second::client::Received;
use second::faults::{Fault, FaultyChamber};
use second::packet::{
    parse_request, write_grant, write_refusal, write_result, Grant, RefusalPacket, Reply, Request,
    RESULT_LEN,
};
use second::rule::Op;

const UP: u32 = 10;
const LOW: u32 = 20;
const ABOVE: u32 = 31;
const INSIDE: u32 = 32;
const BELOW: u32 = 33;
const POINTS: [u32; 5] = [UP, LOW, ABOVE, INSIDE, BELOW];
const READ: u32 = Op::Read as u32;
const SET: u32 = Op::Set as u32;
const PART: u32 = Op::Part as u32;

fn grant(lease_end: u32) -> [u8; 12] {
    write_grant(&Grant {
        client: 7,
        lease_end,
    })
}

fn chamber() -> Chamber {
    Chamber::start(&grant(100), POINTS).expect("a grant and five points")
}

fn reply(request: &Request, value: i32, quality: u8) -> [u8; RESULT_LEN] {
    write_result(&Reply {
        outcome: 0,
        point: request.point,
        quality,
        client: request.client,
        call: request.call,
        value,
        time: 3,
    })
}

/// Issues a command and receives its result.
fn complete(c: &mut Chamber, op: u32, point: u32, argument: i32, (value, quality): (i32, u8)) {
    let packet = c.issue(op, point, argument).expect("issued");
    let request = parse_request(&packet).expect("a request");
    c.receive(&reply(&request, value, quality)).expect("open");
}

fn read(c: &mut Chamber, point: u32, value: i32, quality: u8) {
    complete(c, READ, point, 0, (value, quality));
}

/// The issue's answer; a refusal leaves the controller.
fn refused(c: &Chamber, op: u32, point: u32, argument: i32) -> u32 {
    let mut after = c.clone();
    match after.issue(op, point, argument) {
        Ok(_) => 0,
        Err(refusal) => {
            assert_eq!(after, *c);
            refusal.number()
        }
    }
}

/// All reads for an opening of the upper gate.
fn ready() -> Chamber {
    let mut c = chamber();
    read(&mut c, LOW, 0, 0);
    read(&mut c, ABOVE, 50, 0);
    read(&mut c, INSIDE, 55, 0);
    c
}

#[test]
fn start() {
    let c = chamber();
    assert_eq!((c.client.client, c.client.lease_end, c.moved), (7, 100, 0));
    assert_eq!(c.reads, [None; 5]);
    let bad = Err(Refusal::Malformed);
    assert_eq!(Chamber::start(&[6; 12], POINTS), bad);
    assert_eq!(Chamber::start(&[], POINTS), bad);
    for place in 0..5 {
        for number in POINTS {
            let mut points = POINTS;
            points[place] = number;
            assert_eq!(
                Chamber::start(&grant(100), points).is_ok(),
                points == POINTS
            );
        }
        for number in [63, 64, 266, u32::MAX] {
            let mut points = POINTS;
            points[place] = number;
            assert_eq!(Chamber::start(&grant(100), points).is_ok(), number == 63);
        }
    }
}

#[test]
fn only_these_commands() {
    let c = ready();
    for op in 0..8 {
        let argument = 0;
        for gate in [UP, LOW] {
            let expected = match op {
                READ | SET => 0,
                PART if gate == UP => 0,
                PART => 20,
                _ => 1,
            };
            assert_eq!(refused(&c, op, gate, argument), expected);
        }
        for level in [ABOVE, INSIDE, BELOW] {
            assert_eq!(refused(&c, op, level, argument), u32::from(op != READ));
        }
        for other in [0, 9, 63, 64, 256 + UP, u32::MAX] {
            assert_eq!(refused(&c, op, other, argument), 1);
        }
    }
    assert_eq!(refused(&c, READ, UP, 1), 1);
    assert_eq!(refused(&c, PART, UP, 1001), 1);
    assert_eq!(refused(&c, PART, UP, -1), 1);
}

/// 1, 15, 20, 16, each before the next.
#[test]
fn order_of_the_refusals() {
    let mut c = chamber();
    c.client.next = u32::MAX;
    c.client.first = u32::MAX;
    assert_eq!(refused(&c, READ, UP, 0), 16);
    assert_eq!(refused(&c, SET, UP, 0), 16);
    assert_eq!(refused(&c, SET, UP, 5), 20);
    assert_eq!(refused(&c, PART, UP, 5), 20);
    assert_eq!(refused(&c, PART, UP, 1001), 1);
    let mut c = ready();
    c.client.next = u32::MAX;
    c.client.first = u32::MAX;
    assert_eq!(refused(&c, SET, UP, 5), 16);
    let mut c = chamber();
    c.issue(READ, UP, 0).expect("issued");
    assert_eq!(refused(&c, READ, LOW, 0), 15);
    assert_eq!(refused(&c, SET, LOW, 5), 15);
    assert_eq!(refused(&c, SET, ABOVE, 5), 1);
}

#[test]
fn openings() {
    let c = chamber();
    // Closing needs no read; every other set and every part opens.
    assert_eq!(refused(&c, SET, UP, 0), 0);
    for argument in [1, -1, i32::MIN, i32::MAX] {
        assert_eq!(refused(&c, SET, UP, argument), 20);
    }
    for argument in [0, 1, 1000] {
        assert_eq!(refused(&c, PART, UP, argument), 20);
    }
    let c = ready();
    assert_eq!(refused(&c, SET, UP, 5), 0);
    assert_eq!(refused(&c, PART, UP, 0), 0);
    assert_eq!(refused(&c, SET, LOW, 5), 20);
    // The lower gate lies between levels 2 and 3.
    let mut c = chamber();
    read(&mut c, UP, 0, 0);
    read(&mut c, BELOW, 50, 0);
    assert_eq!(refused(&c, SET, LOW, 5), 20);
    read(&mut c, INSIDE, 50, 0);
    assert_eq!(refused(&c, SET, LOW, 5), 0);
    assert_eq!(refused(&c, SET, UP, 5), 20);
}

#[test]
fn each_condition() {
    let opens = |change: fn(&mut Chamber)| {
        let mut c = ready();
        change(&mut c);
        refused(&c, SET, UP, 5)
    };
    assert_eq!(opens(|_| {}), 0);
    // The other gate: another value, invalid, or read after the levels.
    assert_eq!(opens(|c| read(c, LOW, 0, 0)), 20);
    for (value, quality) in [(1, 0), (-1, 0), (0, 1), (1, 2), (-1, 2)] {
        let mut c = chamber();
        read(&mut c, LOW, value, quality);
        read(&mut c, ABOVE, 50, 0);
        read(&mut c, INSIDE, 50, 0);
        assert_eq!(refused(&c, SET, UP, 5), 20);
    }
    // A level's latest read counts, and a read of the own gate or of level 3 does not.
    assert_eq!(opens(|c| read(c, ABOVE, 50, 1)), 20);
    assert_eq!(opens(|c| read(c, ABOVE, 50, 2)), 20);
    assert_eq!(opens(|c| read(c, INSIDE, 50, 2)), 20);
    assert_eq!(opens(|c| read(c, INSIDE, 56, 0)), 20);
    assert_eq!(opens(|c| read(c, INSIDE, 45, 0)), 0);
    assert_eq!(opens(|c| read(c, INSIDE, 44, 0)), 20);
    assert_eq!(opens(|c| read(c, UP, 70, 1)), 0);
    assert_eq!(opens(|c| read(c, BELOW, 900, 1)), 0);
    assert_eq!(opens(|c| read(c, BELOW, 900, 2)), 0);
    // Any set or part since, on either gate, whatever its outcome.
    assert_eq!(opens(|c| complete(c, SET, LOW, 0, (0, 0))), 20);
    assert_eq!(opens(|c| complete(c, SET, UP, 0, (70, 0))), 20);
    assert_eq!(opens(|c| complete(c, PART, UP, 0, (0, 0))), 20);
    // Levels in the other order.
    let mut c = chamber();
    for (point, value) in [(LOW, 0), (INSIDE, 5), (ABOVE, 0)] {
        read(&mut c, point, value, 0);
    }
    assert_eq!(refused(&c, SET, UP, 5), 0);
}

/// The qualities with which the other gate and both levels are read.
fn qualities() -> impl Iterator<Item = [u8; 3]> {
    (0..27).map(|n| [n / 9, n / 3 % 3, n % 3])
}

/// The answer to a gate's opening after reads with these qualities, under a fault or none.
fn opening_by(fault: Option<Fault>, gate: u32, qualities: [u8; 3]) -> u32 {
    let mut c = FaultyChamber::new(chamber(), fault);
    let points = match gate {
        UP => [LOW, ABOVE, INSIDE],
        _ => [UP, INSIDE, BELOW],
    };
    for (point, quality) in points.into_iter().zip(qualities) {
        read(&mut c, point, 0, quality);
    }
    let opening = c.issue(SET, gate, 5);
    opening.err().map_or(0, |refusal| refusal.number())
}

/// A value by hand is valid on a gate and not on a level; quality 0 is on both, 1 on neither.
#[test]
fn qualities_of_an_opening() {
    for gate in [UP, LOW] {
        for [other, one, two] in qualities() {
            let clear = other != 1 && one == 0 && two == 0;
            let due = if clear { 0 } else { 20 };
            assert_eq!(opening_by(None, gate, [other, one, two]), due);
        }
    }
}

/// A gate that takes 0 alone and a level that takes 2 answer otherwise, where it is by hand
/// and nothing else fails.
#[test]
fn faults_of_the_qualities() {
    let differ = |fault| -> Vec<[u8; 3]> {
        let differs = |gate, q| opening_by(Some(fault), gate, q) != opening_by(None, gate, q);
        let cells = qualities().filter(|&q| differs(UP, q));
        let cells: Vec<_> = cells.collect();
        assert!(qualities().filter(|&q| differs(LOW, q)).eq(cells.clone()));
        cells
    };
    assert_eq!(differ(Fault::GateByHandRefused), [[2, 0, 0]]);
    let levels = [[0, 2], [2, 0], [2, 2]];
    let cells = [0, 2].map(|gate| levels.map(|[one, two]| [gate, one, two]));
    assert_eq!(differ(Fault::LevelByHandTaken), cells.concat());
}

/// At most 5 apart as integers; a difference of 32 bits would wrap.
#[test]
fn levels_far_apart() {
    let cases = [
        (i32::MIN, i32::MAX, 20),
        (i32::MAX, i32::MIN, 20),
        (i32::MIN, i32::MIN + 5, 0),
        (i32::MIN, i32::MIN + 6, 20),
        (i32::MAX, i32::MAX - 5, 0),
        (i32::MAX, i32::MAX - 6, 20),
        (-2, 3, 0),
        (-3, 3, 20),
        (i32::MIN, 0, 20),
    ];
    for (above, inside, expected) in cases {
        let mut c = chamber();
        read(&mut c, LOW, 0, 0);
        read(&mut c, ABOVE, above, 0);
        read(&mut c, INSIDE, inside, 0);
        assert_eq!(refused(&c, SET, UP, 5), expected);
    }
}

/// A set counts when it is issued, and a lost one too; a refused one does not.
#[test]
fn what_is_noted() {
    let mut c = ready();
    let packet = c.issue(SET, UP, 5).expect("issued");
    assert_eq!(c.moved, 4);
    let request = parse_request(&packet).expect("a request");
    let refusal = write_refusal(&RefusalPacket {
        number: 7,
        point: request.point,
        client: request.client,
        call: request.call,
    });
    let before = c.clone();
    assert_eq!(c.receive(&refusal), Ok(Received::Refusal(7)));
    assert_eq!(c, before);
    assert_eq!(c.resend(4), Ok(packet));
    assert_eq!(c.resend(3), Err(Refusal::Unknown));
    let result = reply(&request, 5, 0);
    assert!(c.receive(&result).is_ok());
    // The result of a set is no read; a repeat is refused.
    assert_eq!(c.reads, before.reads);
    assert_eq!(c.receive(&result), Err(Refusal::Unknown));
    assert_eq!(refused(&c, SET, UP, 6), 20);
    // A read is noted with its call, whatever it finds.
    read(&mut c, UP, -3, 1);
    let expected = LatestRead {
        call: 5,
        value: -3,
        quality: 1,
    };
    assert_eq!(c.reads[UPPER], Some(expected));
    assert_eq!(c.reads[LOWER], before.reads[LOWER]);
    // A later grant changes the lease end alone.
    let before = c.clone();
    assert_eq!(c.receive(&grant(200)), Ok(Received::Grant(200)));
    assert_eq!((c.client.lease_end, c.reads), (200, before.reads));
    assert_eq!(c.receive(&grant(100)), Err(Refusal::Unknown));
    assert_eq!(c.receive(&packet), Err(Refusal::Malformed));
}
