//! Random schedules. The second program's answers steer them: which packets there are, of which kind, and who holds a point.

use crate::both::Stepper;
use crate::random::Random;
use std::collections::BTreeMap;

pub const LINES_MAX: usize = 60;

#[derive(Clone, Copy, PartialEq, Eq)]
enum Kind {
    Request,
    Result,
    Refusal,
    Image,
    Receipt,
}

struct Packet {
    kind: Kind,
    point: u32,
    /// The desk of a request, of a result and of a refusal; the server that an image or a receipt is for.
    party: u32,
}

/// What all schedules met: a line and its answer, a form of the text.
pub type Met = BTreeMap<String, u64>;

/// Each of these must be met; the comparison would say nothing of one that is not.
pub const CLASSES: [&str; 47] = [
    "issue: 0",
    "issue: 1",
    "issue: 15",
    "resend: 0",
    "resend: 1",
    "resend: 17",
    "request: executed",
    "request: result",
    "request: 3",
    "request: 5",
    "request: 7",
    "take: 0",
    "take: 11",
    "take: 12",
    "release: 0",
    "release: 3",
    "release: 12",
    "deliver: 1",
    "deliver: 17",
    "receive: result",
    "receive: refusal",
    "receive: 1",
    "receive: 17",
    "sync: 0",
    "sync: 1",
    "cut: 0",
    "cut: 1",
    "cut: 10",
    "give: 0",
    "give: 1",
    "give: 3",
    "give: 11",
    "image: 0",
    "image: 1",
    "image: 3",
    "image: 7",
    "receipt: 0",
    "receipt: 1",
    "receipt: 3",
    "receipt: 7",
    "damaged: 1",
    "damaged: read",
    "leading zeros",
    "no last line feed",
    "60 lines",
    "more than 60 lines",
    "no line",
];

pub struct Maker<'a> {
    random: &'a mut Random,
    met: &'a mut Met,
    stepper: Stepper,
    packets: Vec<Packet>,
    text: Vec<u8>,
    lines: usize,
    most: usize,
    /// Of each server, as far as is known here: an image's length is guessed.
    length: [u32; 2],
    mark: [u32; 2],
    calls: [u32; 2],
    /// The last server that took a point.
    holder: [u32; 64],
}

/// A schedule's text.
pub fn schedule(random: &mut Random, met: &mut Met) -> Vec<u8> {
    let most = match random.below(8) {
        0 => random.below(6) as usize,
        1 | 2 => LINES_MAX,
        3 => LINES_MAX + 1 + random.below(15) as usize,
        _ => 6 + random.below(50) as usize,
    };
    let mut maker = Maker {
        random,
        met,
        stepper: Stepper::new(),
        packets: Vec::new(),
        text: Vec::new(),
        lines: 0,
        most,
        length: [8; 2],
        mark: [8; 2],
        calls: [1; 2],
        holder: [0; 64],
    };
    while maker.lines < maker.most {
        maker.next();
    }
    maker.end()
}

impl Maker<'_> {
    fn meet(&mut self, class: &str) {
        *self.met.entry(class.to_string()).or_insert(0) += 1;
    }

    fn end(mut self) -> Vec<u8> {
        match self.lines {
            0 => self.meet("no line"),
            LINES_MAX => self.meet("60 lines"),
            n if n > LINES_MAX => self.meet("more than 60 lines"),
            _ => {}
        }
        if self.random.once_in(4) && self.text.last() == Some(&b'\n') {
            self.text.pop();
            self.meet("no last line feed");
        }
        self.text
    }

    /// Puts a line and gives its answer, none if it is not read; lines after the last are left out.
    fn put(&mut self, line: &[u8]) -> Option<(u32, usize)> {
        if self.lines == self.most {
            return None;
        }
        self.lines += 1;
        self.text.extend_from_slice(line);
        self.text.push(b'\n');
        (self.lines <= LINES_MAX).then(|| self.stepper.line(line))
    }

    /// Puts a line of a class that its number alone tells: the packet made, none if it is refused or not read.
    fn put_of(&mut self, class: &str, line: &[u8]) -> Option<usize> {
        let (number, made) = self.put(line)?;
        self.meet(&format!("{class}: {number}"));
        (number == 0).then_some(made)
    }

    /// A line of a letter and numbers, some with leading zeros.
    fn line(&mut self, letter: char, numbers: &[i64]) -> Vec<u8> {
        let mut line = letter.to_string();
        for &n in numbers {
            let sign = if n < 0 || (n == 0 && letter == 'i' && numbers.len() == 5) {
                "-"
            } else {
                ""
            };
            if self.random.once_in(40) {
                let zeros = 1 + self.random.below(12) as usize;
                line.push_str(&format!(" {sign}{}{}", "0".repeat(zeros), n.unsigned_abs()));
                self.meet("leading zeros");
            } else {
                line.push_str(&format!(" {n}"));
            }
        }
        line.into_bytes()
    }

    fn point(&mut self) -> u32 {
        self.random.of(&[5, 5, 5, 5, 5, 5, 6, 6, 0, 63])
    }

    fn party(&mut self) -> u32 {
        if self.random.once_in(60) {
            self.random.of(&[2, 3, 15, 16, u32::MAX])
        } else {
            self.random.below(2)
        }
    }

    fn next(&mut self) {
        match self.random.below(40) {
            0..=6 => self.issue(),
            7 => self.resend(),
            8..=15 => self.deliver(),
            16..=20 => self.receive(),
            21..=24 => {
                let server = self.party();
                self.sync(server);
            }
            25 | 26 => {
                let server = self.party();
                self.cut(server);
            }
            27 => self.give_any(),
            28 => self.image_any(),
            29 => self.receipt_any(),
            30..=33 => self.moved(),
            34 => self.served(),
            35 => self.window(),
            36 => self.crossed(),
            _ => self.damaged(),
        }
    }

    fn issue(&mut self) {
        let (desk, point) = (self.party(), self.point());
        let op = self.random.of(&[0, 1, 1, 2, 2, 2, 3, 4, 5, 6]);
        let argument = match op {
            0 | 4 if !self.random.once_in(10) => 0,
            5 => i64::from(self.random.below(1_003)) - 1,
            _ => self.random.of(&[
                0,
                1,
                7,
                40,
                -100,
                -101,
                1000,
                1001,
                500,
                -1,
                i64::from(i32::MIN),
                i64::from(i32::MAX),
            ]),
        };
        let point = if self.random.once_in(80) { 64 } else { point };
        self.issue_of(desk, op, point, argument);
    }

    fn issue_of(&mut self, desk: u32, op: i64, point: u32, argument: i64) -> Option<u32> {
        let line = self.line('i', &[i64::from(desk), op, i64::from(point), argument]);
        let made = self.put_of("issue", &line)?;
        self.calls[desk as usize] += 1;
        Some(self.keep(Kind::Request, point, desk, made))
    }

    /// A packet made, by its number.
    fn keep(&mut self, kind: Kind, point: u32, party: u32, made: usize) -> u32 {
        self.packets.push(Packet { kind, point, party });
        assert_eq!(made, self.packets.len(), "packets are numbered from 1");
        made as u32
    }

    fn known(&self, packet: u32) -> Option<&Packet> {
        self.packets.get((packet as usize).wrapping_sub(1))
    }

    fn resend(&mut self) {
        let desk = self.party();
        let last = self.calls.get(desk as usize).map_or(2, |&c| c + 1);
        let call = self.random.below(last);
        let line = self.line('s', &[i64::from(desk), i64::from(call)]);
        if let Some(made) = self.put_of("resend", &line) {
            self.keep(Kind::Request, 5, desk, made);
        }
    }

    /// A packet's number: a late one of a kind, or any, or one that is not there.
    fn packet(&mut self, kinds: &[Kind]) -> u32 {
        let count = self.packets.len() as u32;
        if self.random.once_in(25) || count == 0 {
            return self.random.of(&[0, 1, count + 1, u32::MAX]);
        }
        let of_kind: Vec<u32> = (1..=count)
            .filter(|&n| kinds.contains(&self.packets[n as usize - 1].kind))
            .collect();
        if self.random.once_in(12) || of_kind.is_empty() {
            return 1 + self.random.below(count);
        }
        let recent = 1 + self.random.below(of_kind.len() as u32);
        let recent = if self.random.once_in(3) {
            recent
        } else {
            recent.min(3)
        };
        of_kind[of_kind.len() - recent as usize]
    }

    fn deliver(&mut self) {
        let kinds = self.random.of(&[
            &[Kind::Request][..],
            &[Kind::Request],
            &[Kind::Request],
            &[Kind::Image, Kind::Receipt],
        ]);
        let packet = self.packet(kinds);
        let place = self.known(packet).map(|p| (p.kind, p.point, p.party));
        let server = match place {
            Some((Kind::Request, point, _)) if !self.random.once_in(6) => {
                self.holder[point as usize]
            }
            Some((Kind::Image | Kind::Receipt, _, party)) if !self.random.once_in(6) => party,
            _ => self.party(),
        };
        self.deliver_to(packet, server);
    }

    /// The packet made.
    fn deliver_to(&mut self, packet: u32, server: u32) -> Option<u32> {
        let line = self.line('d', &[i64::from(packet), i64::from(server)]);
        let (number, made) = self.put(&line)?;
        let known = self.known(packet).map(|p| (p.kind, p.point, p.party));
        let (Some((kind, point, party)), true) = (known, server < 2) else {
            self.meet(&format!("deliver: {number}"));
            return None;
        };
        let (class, size) = match (kind, number, made) {
            (Kind::Request, 0, 0) => ("request: executed".to_string(), 32),
            (Kind::Request, 0, _) => ("request: result".to_string(), 0),
            (Kind::Request, ..) => (format!("request: {number}"), 0),
            (Kind::Image, ..) => (
                format!("take: {number}"),
                56 + 8 + 24 * self.random.below(4),
            ),
            (Kind::Receipt, ..) => (format!("release: {number}"), 8),
            _ => (format!("deliver: {number}"), 0),
        };
        self.meet(&class);
        if number == 0 {
            self.length[server as usize] += size;
        }
        if (kind, number) == (Kind::Image, 0) {
            self.holder[point as usize] = server;
        }
        let reply = if number == 0 {
            Kind::Result
        } else {
            Kind::Refusal
        };
        (made != 0).then(|| self.keep(reply, point, party, made))
    }

    fn receive(&mut self) {
        let packet = self.packet(&[Kind::Result, Kind::Result, Kind::Refusal]);
        let desk = match self.known(packet).map(|p| p.party) {
            Some(desk) if !self.random.once_in(8) => desk,
            _ => self.party(),
        };
        self.receive_at(packet, desk);
    }

    fn receive_at(&mut self, packet: u32, desk: u32) {
        let line = self.line('r', &[i64::from(packet), i64::from(desk)]);
        let Some((number, _)) = self.put(&line) else {
            return;
        };
        match (number, self.known(packet).map(|p| p.kind)) {
            (0, Some(Kind::Result)) => self.meet("receive: result"),
            (0, Some(Kind::Refusal)) => self.meet("receive: refusal"),
            _ => self.meet(&format!("receive: {number}")),
        }
    }

    fn sync(&mut self, server: u32) {
        let line = self.line('y', &[i64::from(server)]);
        if self.put_of("sync", &line).is_some() {
            self.mark[server as usize] = self.length[server as usize];
        }
    }

    /// A power cut: at the mark, at the end, inside a record, outside.
    fn cut(&mut self, server: u32) {
        let (mark, length) = match server {
            0 | 1 => (self.mark[server as usize], self.length[server as usize]),
            _ => (8, 8),
        };
        let between = mark.min(length) + self.random.below(length.abs_diff(mark) + 1);
        let anywhere = self.random.below(400);
        let bytes = self.random.of(&[
            mark,
            length,
            between,
            between,
            between,
            mark.wrapping_sub(1),
            length + 1,
            8,
            anywhere,
        ]);
        let line = self.line('k', &[i64::from(server), i64::from(bytes)]);
        if self.put_of("cut", &line).is_some() {
            self.length[server as usize] = bytes - bytes % 4;
            self.mark[server as usize] = bytes - bytes % 4;
        }
    }

    fn give_any(&mut self) {
        let (server, point) = (self.party(), self.point());
        let destination = self.random.of(&[0, 1, 1, 2, 15, 16]);
        let point = if self.random.once_in(20) { 64 } else { point };
        self.give(server, point, destination);
    }

    fn give(&mut self, server: u32, point: u32, destination: u32) {
        let line = self.line(
            'g',
            &[i64::from(server), i64::from(point), i64::from(destination)],
        );
        if self.put_of("give", &line).is_some() {
            self.length[server as usize] += 8;
        }
    }

    fn image_any(&mut self) {
        let (server, point) = (self.party(), self.point());
        let point = if self.random.once_in(10) { 64 } else { point };
        self.image(server, point);
    }

    fn image(&mut self, server: u32, point: u32) -> Option<u32> {
        let line = self.line('x', &[i64::from(server), i64::from(point)]);
        let made = self.put_of("image", &line)?;
        Some(self.keep(Kind::Image, point, 1 - server, made))
    }

    fn receipt_any(&mut self) {
        let (server, point) = (self.party(), self.point());
        let point = if self.random.once_in(10) { 64 } else { point };
        self.receipt(server, point);
    }

    fn receipt(&mut self, server: u32, point: u32) -> Option<u32> {
        let line = self.line('f', &[i64::from(server), i64::from(point)]);
        let made = self.put_of("receipt", &line)?;
        Some(self.keep(Kind::Receipt, point, 1 - server, made))
    }

    /// Something else in between, sometimes.
    fn pause(&mut self) {
        match self.random.below(12) {
            0 => self.deliver(),
            1 => self.receive(),
            2 => {
                let server = self.random.below(2);
                self.cut(server);
            }
            3 => self.issue(),
            _ => {}
        }
    }

    /// A point moves, with power cuts, late packets and repeats in between.
    fn moved(&mut self) {
        let point = self.random.of(&[5, 5, 5, 6]);
        let from = if self.random.once_in(10) {
            self.random.below(2)
        } else {
            self.holder[point as usize]
        };
        let to = 1 - from;
        self.give(from, point, to);
        self.pause();
        if !self.random.once_in(8) {
            self.sync(from);
        }
        let image = self.image(from, point);
        self.pause();
        let Some(image) = image else { return };
        self.deliver_to(image, to);
        self.pause();
        if !self.random.once_in(8) {
            self.sync(to);
        }
        self.deliver();
        let receipt = self.receipt(to, point);
        self.pause();
        if let (Some(receipt), true) = (receipt, !self.random.once_in(3)) {
            self.deliver_to(receipt, from);
        }
    }

    /// A command from its issue to its result.
    fn served(&mut self) {
        let (desk, point) = (self.random.below(2), self.point());
        let argument = i64::from(self.random.below(30));
        let server = self.holder[point as usize];
        let Some(request) = self.issue_of(desk, 1, point, argument) else {
            return;
        };
        self.deliver_to(request, server);
        self.pause();
        self.sync(server);
        let reply = self.deliver_to(request, server);
        self.pause();
        if let Some(reply) = reply {
            self.receive_at(reply, desk);
        }
    }

    /// Calls until no more may be open.
    fn window(&mut self) {
        if !self.random.once_in(6) {
            return self.issue();
        }
        let desk = self.random.below(2);
        for _ in 0..17 {
            self.issue_of(desk, 2, 5, 1);
        }
    }

    /// A point goes and comes back, and the first receipt arrives after the second give.
    fn crossed(&mut self) {
        if !self.random.once_in(3) {
            return self.moved();
        }
        let mut late = None;
        for (from, to) in [(0, 1), (1, 0), (0, 1)] {
            self.give(from, 6, to);
            self.sync(from);
            if let (Some(receipt), 0) = (late, from) {
                self.deliver_to(receipt, 0);
            }
            let Some(image) = self.image(from, 6) else {
                return;
            };
            self.deliver_to(image, to);
            self.sync(to);
            late = late.or(self.receipt(to, 6));
        }
    }

    /// A line that is damaged, or no line at all.
    fn damaged(&mut self) {
        let good = self.random.of(&[
            &b"d 1 0"[..],
            b"y 0",
            b"i 0 1 5 7",
            b"k 1 8",
            b"r 2 0",
            b"g 0 5 1",
            b"x 0 5",
            b"f 1 5",
            b"s 0 1",
            b"i 1 2 5 -3",
        ]);
        let mut line = good.to_vec();
        let at = self.random.below(line.len() as u32) as usize;
        match self.random.below(14) {
            0 => line.insert(at, b' '),
            1 => line.push(b' '),
            2 => line.push(b'\r'),
            3 => line.insert(at, b'\t'),
            4 => line.truncate(at),
            5 => line.extend_from_slice(b" 0"),
            6 => line.extend_from_slice(b"00000000000"),
            7 => line.insert(at, b'-'),
            8 => line.insert(at, b'+'),
            9 => line[0] = line[0].to_ascii_uppercase(),
            10 => line[at] = self.random.below(256) as u8,
            11 => {
                line = self
                    .random
                    .of(&[
                        &b""[..],
                        b" ",
                        b"-",
                        b"i",
                        b"k 0 4294967296",
                        b"i 0 1 5 2147483648",
                        b"i 0 1 5 -2147483649",
                        b"d 1 99999999999999999999999",
                        b"i 0 0 5 -0",
                        b"y -0",
                    ])
                    .to_vec()
            }
            12 => line.insert(0, b'0'),
            _ => {
                line = (0..self.random.below(20))
                    .map(|_| self.random.below(256) as u8)
                    .collect()
            }
        }
        // a line feed would make two lines of it
        line.retain(|&b| b != b'\n');
        let Some((number, made)) = self.put(&line) else {
            return;
        };
        self.meet(if number == 1 {
            "damaged: 1"
        } else {
            "damaged: read"
        });
        if made != 0 {
            let kind = match line[0] {
                b'x' => Kind::Image,
                b'f' => Kind::Receipt,
                b'd' if number == 0 => Kind::Result,
                b'd' => Kind::Refusal,
                _ => Kind::Request,
            };
            self.keep(kind, 5, 0, made);
        }
    }
}
