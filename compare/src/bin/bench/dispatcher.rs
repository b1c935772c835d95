//! The dispatcher above a server: a request that is let wait, and a serving beside the request that
//! it makes, on the same state and packet.

use crate::{measure, row, row_tested, set, Both, SPACE};
use compare::dispatcher::{self, Dispatcher};
use compare::kernel::{self, Call};
use second::answer::Answer;
use second::dispatcher::Dispatcher as Second;
use second::packet::RESULT_LEN;
use second::server::{Server, STATE_LEN};
use std::hint::black_box;

pub fn rows() {
    println!("{:<62}   state tested", "the dispatcher");
    enqueues("nobody waiting", 0);
    enqueues("31 waiting", 31);
    for (name, clients, calls) in [("8 records", 2, 4), ("512 records", 32, 16)] {
        servings(name, Both::new(0, clients, calls));
    }
}

/// The first call of a client, on point 5.
fn packet(client: u32) -> Vec<u8> {
    match set(5, client, 1, 1) {
        Call::Request(packet) => packet,
        other => unreachable!("{other:?}"),
    }
}

/// A dispatcher of both programs.
#[derive(Clone)]
struct Dispatchers {
    have: Dispatcher,
    want: Second,
}

impl Dispatchers {
    /// The clients from 1 on wait.
    fn waiting(count: u32) -> Dispatchers {
        let mut both = Dispatchers {
            have: Dispatcher::new(),
            want: Second::new(),
        };
        for client in 1..=count {
            let packet = packet(client);
            let reply = both.have.enqueue(&packet);
            assert_eq!(reply.number, enqueue(&mut both.want, &packet));
            both.have = reply.dispatcher;
        }
        assert_eq!(both.have, dispatcher::fields(&both.want));
        assert_eq!(both.have.count, count);
        both
    }
}

/// The proved calls take and give the dispatcher by value; the other side begins with a copy, too.
fn enqueues(name: &str, waiting: u32) {
    let base = Dispatchers::waiting(waiting);
    let packet = packet(40);
    let mut now = base.want.clone();
    assert_eq!(base.have.enqueue(&packet).number, 0);
    let times = measure(
        1,
        || {
            black_box(black_box(base.have).enqueue(black_box(&packet)));
        },
        || {
            now.clone_from(&base.want);
            black_box(enqueue(&mut now, black_box(&packet)));
            black_box(&now);
        },
    );
    row(&format!("enqueue, {name}"), times);
}

/// A repeated request, which changes no state: by itself, served with nobody behind it and with 31
/// others; and the serving beside the request, both proved.
fn servings(name: &str, base: Both) {
    let tested = base.times(&[Call::Sync(0)], SPACE);
    let packet = packet(1);
    let times = base.times(&[Call::Request(packet.clone())], SPACE);
    row_tested(&format!("request, {name}"), times, tested);
    for (who, waiting) in [("1 waiting", 1), ("32 waiting", 32)] {
        let times = served(&base, &Dispatchers::waiting(waiting));
        row_tested(&format!("serve, {who}, {name}"), times, tested);
    }
    let (mut state, mut log) = (base.state, base.log);
    let (mut state2, mut log2) = (state.clone(), log.clone());
    let (mut out, mut out2) = ([0; RESULT_LEN], [0; RESULT_LEN]);
    let one = Dispatchers::waiting(1).have;
    let times = measure(
        1,
        || {
            black_box(black_box(one).serve(&mut state, &mut log, &mut out));
        },
        || {
            black_box(kernel::request(
                &mut state2,
                &mut log2,
                black_box(&packet),
                &mut out2,
            ));
        },
    );
    assert!(out == out2 && state == state2);
    row(&format!("serve to request, {name}"), times);
}

fn served(base: &Both, waiting: &Dispatchers) -> (f64, f64) {
    let mut both = base.clone();
    let (mut out, mut out2) = ([0; RESULT_LEN], [0; RESULT_LEN]);
    let mut now = waiting.want.clone();
    let reply = waiting.have.serve(&mut both.state, &mut both.log, &mut out);
    let answer = serve(&mut now, &mut both.server, &mut both.log2, &mut out2);
    assert_eq!((reply.answer(), out), (answer, out2));
    assert_eq!(reply.dispatcher, dispatcher::fields(&now));
    assert_eq!(answer, Answer::wrote(RESULT_LEN));
    measure(
        1,
        || {
            black_box(black_box(waiting.have).serve(&mut both.state, &mut both.log, &mut out));
        },
        || {
            now.clone_from(&waiting.want);
            black_box(serve(&mut now, &mut both.server, &mut both.log2, &mut out2));
            black_box(&now);
        },
    )
}

#[inline(never)]
fn enqueue(dispatcher: &mut Second, packet: &[u8]) -> u32 {
    dispatcher::enqueue(dispatcher, packet)
}

#[inline(never)]
fn serve(dispatcher: &mut Second, server: &mut Server, log: &mut [u8], out: &mut [u8]) -> Answer {
    dispatcher.serve(server, STATE_LEN, log, out)
}
