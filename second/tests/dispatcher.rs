//! Request 8 of paper 02, sentence by sentence: who may wait, in which order they are
//! served, what a serving answers, and what is left after it.

mod common;

use common::*;
use second::answer::{Answer, Refusal};
use second::dispatcher::{Dispatcher, WAITING_MAX};
use second::packet::*;
use second::random::Random;
use second::rule::Op;
use second::server::STATE_LEN;

const POINT: u8 = 5;
/// At home at another server.
const ELSEWHERE: u8 = 40;
const FULL: u32 = WAITING_MAX as u32;

/// The first request of a client.
fn first(client: u32) -> [u8; REQUEST_LEN] {
    set(client, 1, POINT, 40)
}

/// The clients from 1 on, one request each.
fn waiting(count: u32) -> Dispatcher {
    let mut dispatcher = Dispatcher::new();
    for client in 1..=count {
        enqueue(&mut dispatcher, 0, &first(client));
    }
    dispatcher
}

fn clients(dispatcher: &Dispatcher) -> Vec<u32> {
    dispatcher.waiting.iter().map(|r| r.client).collect()
}

/// Tests the number. A refusal leaves all as it was; else the request waits behind all
/// others, and they wait as before.
fn enqueue(dispatcher: &mut Dispatcher, number: u32, packet: &[u8]) {
    let mut due = dispatcher.clone();
    let answer = dispatcher.enqueue(packet);
    match number {
        0 => {
            assert_eq!(answer, Ok(()));
            due.waiting
                .push_back(parse_request(packet).expect("a request"));
        }
        _ => assert_eq!(answer, Err(refusal(number))),
    }
    assert_eq!(*dispatcher, due);
}

/// Tests the answer and what the rig tests; the first one's place is free, the others wait
/// in their order.
fn serve(rig: &mut Rig, dispatcher: &mut Dispatcher, number: u32, written: usize) -> Vec<u8> {
    serve_lent(rig, dispatcher, Answer { number, written }, |s| s)
}

/// Lengths of state, log and output lent.
type Lens = (usize, usize, usize);
type Shorten = fn(Lens) -> Lens;

/// The same with some of the slices too short.
fn serve_lent(
    rig: &mut Rig,
    dispatcher: &mut Dispatcher,
    answer: Answer,
    shorten: impl Fn(Lens) -> Lens,
) -> Vec<u8> {
    let mut due = dispatcher.clone();
    due.waiting.pop_front();
    let written = rig.expect(answer.number, answer.written, |s, log, out| {
        let (state, log_len, out_len) = shorten((STATE_LEN, log.len(), out.len()));
        dispatcher.serve(s, state, &mut log[..log_len], &mut out[..out_len])
    });
    assert_eq!(*dispatcher, due);
    written
}

// Who may wait.

#[test]
fn up_to_32_clients() {
    let mut dispatcher = waiting(FULL);
    assert_eq!(clients(&dispatcher), (1..=32).collect::<Vec<u32>>());
    enqueue(&mut dispatcher, 8, &first(33));
    serve(&mut Rig::new(0, 500), &mut dispatcher, 0, 0);
    enqueue(&mut dispatcher, 0, &first(33));
    enqueue(&mut dispatcher, 8, &first(34));
}

/// Whatever else the second request says, the first one stays.
#[test]
fn one_request_for_each_client() {
    let mut dispatcher = waiting(3);
    for packet in [
        first(2),
        set(2, 1, POINT, 41),
        set(2, 2, POINT, 40),
        read(2, 9, ELSEWHERE),
        set_done(2, 9, 9, POINT, 40),
        write_request(&Request {
            lease_end: 0,
            ..request(Op::Fault, 63, 2, u32::MAX, 0)
        }),
    ] {
        enqueue(&mut dispatcher, 21, &packet);
    }
    assert_eq!(dispatcher.waiting[1], request(Op::Set, POINT, 2, 1, 40));
}

/// 1, then 21, then 8, in a queue where all three hold.
#[test]
fn order_of_refusals() {
    let mut full = waiting(FULL);
    let mut malformed = first(7);
    malformed[3] = 1;
    enqueue(&mut full, 1, &malformed);
    enqueue(&mut full, 1, &first(33)[..23]);
    enqueue(&mut full, 1, &notice(7, 5));
    enqueue(&mut full, 1, &[]);
    enqueue(&mut full, 21, &first(7));
    enqueue(&mut full, 21, &first(32));
    enqueue(&mut full, 8, &first(33));
    // 1 before 21 where there is space, and after nothing.
    enqueue(&mut waiting(7), 1, &malformed);
    enqueue(&mut waiting(0), 1, &malformed);
}

/// 1 stands for what Request finds malformed, and for nothing else.
#[test]
fn malformed_as_at_request() {
    let mut random = Random::new(8);
    let (mut malformed, mut well_formed) = (0, 0);
    let kinds = [
        first(1).to_vec(),
        notice(1, 5).to_vec(),
        receipt(POINT, 1, 1).to_vec(),
        set_done(3, 20, 7, 63, -4).to_vec(),
    ];
    for _ in 0..4000 {
        let mut packet = random.pick(&kinds).clone();
        if random.chance(90) {
            packet = damage(&mut random, &packet);
        }
        let mut rig = Rig::new(0, 500);
        let Rig {
            server,
            log,
            output,
        } = &mut rig;
        let number = server.request(STATE_LEN, log, &packet, output).number;
        let expected = u32::from(number == 1);
        enqueue(&mut Dispatcher::new(), expected, &packet);
        match expected {
            0 => well_formed += 1,
            _ => malformed += 1,
        }
    }
    assert!(
        malformed > 1000 && well_formed > 500,
        "{malformed} {well_formed}"
    );
}

// Servings.

/// Neither client nor call nor lease end counts.
#[test]
fn first_come_first_served() {
    let (mut rig, mut dispatcher) = (Rig::new(0, 2000), Dispatcher::new());
    let order = [(9, 3), (2, 16), (30, 1), (1, 7), (4, 2)];
    for (client, call) in order {
        enqueue(&mut dispatcher, 0, &set(client, call, POINT, 40));
    }
    for (client, call) in order {
        serve(&mut rig, &mut dispatcher, 0, 0);
        let record = rig.last_record();
        assert_eq!((record.client, record.call), (client, call));
    }
    serve(&mut rig, &mut dispatcher, 17, 0);
}

/// A request in any place is the next but that many, while all others send after each
/// serving what they can.
#[test]
fn within_32_servings() {
    for place in 0..WAITING_MAX {
        let mut dispatcher = waiting(FULL);
        let ours = dispatcher.waiting[place].client;
        for serving in 0..=place {
            let mut handed = 0;
            let answer = dispatcher.serve_by(|packet| {
                handed = parse_request(packet).expect("a request").client;
                Answer::DONE
            });
            assert_eq!(answer, Answer::DONE);
            assert_eq!(handed == ours, serving == place);
            for client in (1..=60).filter(|&client| client != ours) {
                let _ = dispatcher.enqueue(&first(client));
            }
            assert_eq!(dispatcher.waiting.len(), WAITING_MAX);
        }
    }
}

/// 17, however short the slices are and whatever the state is; all stays as it was.
#[test]
fn nobody_waiting() {
    let shortened: [Shorten; 5] = [
        |lens| lens,
        |(_, log, out)| (STATE_LEN - 1, log, out),
        |(state, log, _)| (state, log, RESULT_LEN - 1),
        |(state, _, out)| (state, 7, out),
        |_| (0, 0, 0),
    ];
    for mut rig in [Rig::new(0, 500), Rig::unsound()] {
        for shorten in shortened {
            let mut dispatcher = Dispatcher::new();
            let nobody = Answer::refused(Refusal::Unknown);
            serve_lent(&mut rig, &mut dispatcher, nobody, shorten);
            assert_eq!(dispatcher, Dispatcher::new());
        }
    }
    // The same after the last of some.
    let (mut rig, mut dispatcher) = (Rig::new(0, 500), waiting(2));
    serve(&mut rig, &mut dispatcher, 0, 0);
    serve(&mut rig, &mut dispatcher, 0, 0);
    serve(&mut rig, &mut dispatcher, 17, 0);
}

#[test]
fn a_client_served_may_wait_again() {
    let (mut rig, mut dispatcher) = (Rig::new(0, 500), waiting(3));
    serve(&mut rig, &mut dispatcher, 0, 0);
    enqueue(&mut dispatcher, 0, &first(1));
    assert_eq!(clients(&dispatcher), [2, 3, 1]);
    enqueue(&mut dispatcher, 21, &first(1));
    for number in [0, 0, 7] {
        let written = if number == 7 { REFUSAL_LEN } else { 0 };
        serve(&mut rig, &mut dispatcher, number, written);
    }
}

/// 2 and 19 are answers as any other: the place is free, the next serving is the next
/// one's, and the client may come again.
#[test]
fn too_short_or_not_sound_with_one_waiting() {
    let short = Answer::refused(Refusal::TooShort);
    let not_sound = Answer::refused(Refusal::NotSound);
    let flawed: [(Answer, Shorten); 4] = [
        (short, |(_, log, out)| (STATE_LEN - 1, log, out)),
        (short, |(state, log, _)| (state, log, RESULT_LEN - 1)),
        (not_sound, |(state, _, out)| (state, 7, out)),
        (short, |_| (0, 0, 0)),
    ];
    for (answer, shorten) in flawed {
        let (mut rig, mut dispatcher) = (Rig::new(0, 500), waiting(2));
        serve_lent(&mut rig, &mut dispatcher, answer, shorten);
        serve(&mut rig, &mut dispatcher, 0, 0);
        assert_eq!(rig.last_record().client, 2);
        serve(&mut rig, &mut dispatcher, 17, 0);
        enqueue(&mut dispatcher, 0, &first(1));
        serve(&mut rig, &mut dispatcher, 0, 0);
        assert_eq!(rig.last_record().client, 1);
    }
    let (mut rig, mut dispatcher) = (Rig::unsound(), waiting(2));
    serve(&mut rig, &mut dispatcher, 19, 0);
    serve(&mut rig, &mut dispatcher, 19, 0);
    serve(&mut rig, &mut dispatcher, 17, 0);
}

// What Request answers.

/// Number and bytes written, a server, and the packet that is so answered there.
type Case = (u32, usize, fn() -> Rig, [u8; REQUEST_LEN]);

fn executed() -> Rig {
    let mut rig = Rig::new(0, 2000);
    rig.execute(&first(1));
    rig
}

fn synced() -> Rig {
    let mut rig = executed();
    rig.sync_all();
    rig
}

/// Heard time is at the lease ends of all requests here.
fn heard() -> Rig {
    let mut rig = executed();
    rig.notice(0, &notice(1, 1000));
    rig
}

fn with_floor() -> Rig {
    let mut rig = Rig::new(0, 2000);
    rig.execute(&set_done(1, 9, 9, POINT, 40));
    rig
}

fn with_32_clients() -> Rig {
    let mut rig = Rig::new(0, 2000);
    rig.fill_clients(32);
    rig
}

fn without_space() -> Rig {
    let mut rig = executed();
    rig.leave(31);
    rig
}

/// State, log and output after a serving are those after the request itself, and so is the
/// answer; the place is free each time.
#[test]
fn each_answer_of_request() {
    let other_point = set(1, 1, ELSEWHERE, 40);
    let cases: [Case; 10] = [
        (0, 0, || Rig::new(0, 500), first(1)),
        (0, RESULT_LEN, synced, first(1)),
        (3, REFUSAL_LEN, executed, other_point),
        (4, REFUSAL_LEN, heard, first(1)),
        (5, REFUSAL_LEN, with_floor, first(1)),
        (6, REFUSAL_LEN, synced, set(1, 1, POINT, 41)),
        (7, REFUSAL_LEN, executed, first(1)),
        (8, REFUSAL_LEN, with_32_clients, first(1)),
        (9, REFUSAL_LEN, without_space, first(2)),
        (19, 0, Rig::unsound, first(1)),
    ];
    for (number, written, rig, packet) in cases {
        let (mut direct, mut dispatched) = (rig(), rig());
        let expected = direct.request(number, written, &packet);
        let mut dispatcher = Dispatcher::new();
        enqueue(&mut dispatcher, 0, &packet);
        enqueue(&mut dispatcher, 0, &first(99));
        let found = serve(&mut dispatched, &mut dispatcher, number, written);
        assert_eq!(found, expected);
        assert!(dispatched.server == direct.server && dispatched.log == direct.log);
        assert_eq!(clients(&dispatcher), [99]);
    }
}

/// Whatever the answer is, and whatever packet it was given for.
#[test]
fn any_answer_is_passed_on() {
    for number in 0..=21 {
        for written in [0, REFUSAL_LEN, RESULT_LEN] {
            let mut dispatcher = waiting(2);
            let answer = Answer { number, written };
            let found = dispatcher.serve_by(|packet| {
                assert_eq!(packet, first(1));
                answer
            });
            assert_eq!(found, answer);
            assert_eq!(clients(&dispatcher), [2]);
        }
    }
}

// Hosts.

/// A client waits at each server by itself.
#[test]
fn one_dispatcher_for_each_server() {
    let (mut one, mut other) = (waiting(FULL), Dispatcher::new());
    enqueue(&mut other, 0, &first(1));
    enqueue(&mut other, 0, &first(33));
    enqueue(&mut one, 8, &first(33));
}

/// What waited in a dispatcher that is lost was not sent; it can be sent again.
#[test]
fn lost_with_the_dispatcher() {
    let (mut rig, mut dispatcher) = (Rig::new(0, 500), waiting(3));
    serve(&mut rig, &mut dispatcher, 0, 0);
    dispatcher = Dispatcher::new();
    serve(&mut rig, &mut dispatcher, 17, 0);
    enqueue(&mut dispatcher, 0, &first(2));
    serve(&mut rig, &mut dispatcher, 0, 0);
    assert_eq!(executed_records(rig.whole_log()).len(), 2);
}

/// A host that goes on with an old copy repeats packets; none is executed twice.
#[test]
fn an_old_copy_repeats() {
    let (mut rig, mut dispatcher) = (Rig::new(0, 500), waiting(2));
    let mut copy = dispatcher.clone();
    serve(&mut rig, &mut dispatcher, 0, 0);
    rig.sync_all();
    serve(&mut rig, &mut dispatcher, 0, 0);
    serve(&mut rig, &mut copy, 0, RESULT_LEN);
    serve(&mut rig, &mut copy, 7, REFUSAL_LEN);
    assert_eq!(executed_records(rig.whole_log()).len(), 2);
}

/// A request that goes straight to the server leaves the waiting one where it is.
#[test]
fn straight_to_the_server() {
    let (mut rig, mut dispatcher) = (Rig::new(0, 500), waiting(1));
    rig.execute(&first(1));
    enqueue(&mut dispatcher, 21, &first(1));
    serve(&mut rig, &mut dispatcher, 7, REFUSAL_LEN);
}
