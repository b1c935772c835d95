//! The image of a point written from a server's buffer: the same bytes as the
//! second program writes of the same tables.

use compare::inputs::{self, Tables};
use compare::kernel::Call;
use compare::pair::{Outputs, Pair};
use compare::states::{self, LOG_LEN};
use compare::tally::{runs, seed, Tally};
use second::image::IMAGE_MAX;
use second::random::Random;
use second::server::{Server, STATE_LEN};

const CLASSES: [&str; 9] = [
    "image",
    "image: full",
    "image: no floors",
    "image: no records",
    "image: records of other points left out",
    "output too short",
    "buffer too short",
    "not sound",
    "no such point",
];

fn class(server: &Server, point: u8) -> &'static str {
    let all = server.records.len();
    let own = server.records.iter().filter(|r| r.point == point).count();
    match server.clients.len() {
        0 => "image: no floors",
        32 if own == 512 => "image: full",
        _ if own == 0 => "image: no records",
        _ if own < all => "image: records of other points left out",
        _ => "image",
    }
}

/// Now and then full tables, else small ones; all, most or few records on the
/// point.
fn base(random: &mut Random, point: u8) -> Server {
    let tables = match random.below(20) {
        0 => Tables::Full,
        _ => Tables::Small,
    };
    let percent = *random.pick(&[100, 100, 60, 10]);
    states::server(random, tables, point, percent)
}

#[test]
fn image_state() {
    let mut random = Random::new(seed());
    let mut tally = Tally::new("image_state", &CLASSES);
    let mut outputs = Outputs::new(IMAGE_MAX + 8);
    let mut pair = Pair::of(states::founded(&inputs::plan(&mut random), 0), LOG_LEN);
    for _ in 0..runs() / 20 {
        let point = random.below(64) as u8;
        pair.set(base(&mut random, point));
        let call = Call::Image(u32::from(point));
        let answer = pair.run(&call, &mut outputs);
        assert_eq!(answer.number, 0, "{:?}", pair.server);
        tally.meet(class(&pair.server, point));
        tally.meet(refused(&mut random, &mut pair, call, &mut outputs));
    }
    tally.finish();
}

/// What is refused leaves the output as it was.
fn refused(
    random: &mut Random,
    pair: &mut Pair,
    call: Call,
    outputs: &mut Outputs,
) -> &'static str {
    let mut lent = pair.whole(outputs);
    let (class, number, call) = match random.below(4) {
        0 => {
            lent.out = random.below(IMAGE_MAX as u32) as usize;
            ("output too short", 2, call)
        }
        1 => {
            lent.state = random.below(STATE_LEN as u32) as usize;
            ("buffer too short", 2, call)
        }
        2 => {
            let mut damaged = pair.state.clone();
            spoil(random, &mut damaged);
            pair.refuses(&call, &mut damaged, outputs);
            return "not sound";
        }
        _ => (
            "no such point",
            1,
            Call::Image(64 + inputs::number(random) / 2),
        ),
    };
    let answer = pair.call(&call, &lent, outputs);
    assert_eq!(answer.number, number, "{class}");
    class
}

/// A byte that has one value in every sound buffer, or a field past its limit.
fn spoil(random: &mut Random, state: &mut [u8]) {
    match random.below(5) {
        0 => state[random.below(4) as usize] ^= 1,
        1 => state[5 + random.below(3) as usize] = 1,
        2 => state[4] = 16,
        3 => state[12] = 33,
        _ => state[20 + random.below(4) as usize] = 1,
    }
}
