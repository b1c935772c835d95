//! Paper 01, "The yard": a program (simulator) that runs small schedules.

use crate::answer::{Answer, Refusal};
use crate::client::{Client, Received};
use crate::image::{IMAGE_MAGIC, IMAGE_MAX};
use crate::packet::{write_grant, Grant, RECEIPT, RECEIPT_LEN, REQUEST, RESULT_LEN};
use crate::plan::{write_plan, Entry, Plan, PLAN_LEN};
use crate::server::{Server, STATE_LEN};

const LOG_LEN: usize = 16_384;
const LINES_MAX: usize = 60;

/// A line of a schedule.
#[derive(Clone, Copy, PartialEq, Eq, Debug)]
enum Line {
    Issue(u32, u32, u32, i32),
    Resend(u32, u32),
    Deliver(u32, u32),
    Receive(u32, u32),
    Sync(u32),
    Cut(u32, u32),
    Give(u32, u32, u32),
    Image(u32, u32),
    Receipt(u32, u32),
}

/// The answer of a line: number, packet made and value received.
#[derive(Clone, Copy, PartialEq, Eq, Debug, Default)]
pub struct LineAnswer {
    pub number: u32,
    pub packet: usize,
    pub value: i32,
}

impl LineAnswer {
    fn refused(refusal: Refusal) -> LineAnswer {
        LineAnswer {
            number: refusal.number(),
            ..LineAnswer::default()
        }
    }
}

struct Cabinet {
    server: Server,
    log: Vec<u8>,
}

pub struct Simulator {
    plan: [u8; PLAN_LEN],
    cabinets: Vec<Cabinet>,
    desks: Vec<Client>,
    packets: Vec<Vec<u8>>,
}

impl Default for Simulator {
    fn default() -> Simulator {
        Simulator::new()
    }
}

impl Simulator {
    pub fn new() -> Simulator {
        let plan = write_plan(&Plan::uniform(Entry {
            low: -100,
            high: 1000,
            fallback: 0,
            home: 0,
        }));
        Simulator {
            plan,
            cabinets: (0..2).map(|number| found(number, &plan)).collect(),
            desks: (1..=2).filter_map(start).collect(),
            packets: Vec::new(),
        }
    }

    /// Runs one line, without its line feed.
    pub fn run_line(&mut self, line: &[u8]) -> LineAnswer {
        match parse_line(line) {
            Some(line) => self.act(line),
            None => LineAnswer::refused(Refusal::Malformed),
        }
    }

    fn act(&mut self, line: Line) -> LineAnswer {
        match line {
            Line::Issue(desk, op, point, argument) => {
                self.with_desk(desk, |d| d.issue(op, point, argument))
            }
            Line::Resend(desk, call) => self.with_desk(desk, |d| d.resend(call)),
            Line::Deliver(packet, cabinet) => self.deliver(packet, cabinet),
            Line::Receive(packet, desk) => self.receive(packet, desk),
            Line::Sync(cabinet) => self.with_cabinet(cabinet, sync_all),
            Line::Cut(cabinet, bytes) => {
                let plan = self.plan;
                self.with_cabinet(cabinet, |c, _| cut(c, bytes, &plan))
            }
            Line::Give(cabinet, point, destination) => self.with_cabinet(cabinet, |c, _| {
                c.server.give(STATE_LEN, &mut c.log, point, destination)
            }),
            Line::Image(cabinet, point) => self.with_cabinet(cabinet, |c, output| {
                c.server.image(STATE_LEN, &c.log, point, output)
            }),
            Line::Receipt(cabinet, point) => self.with_cabinet(cabinet, |c, output| {
                let output = &mut output[..RECEIPT_LEN];
                c.server.receipt(STATE_LEN, &c.log, point, output)
            }),
        }
    }

    /// Numbers a packet made.
    fn keep(&mut self, packet: &[u8]) -> usize {
        self.packets.push(packet.to_vec());
        self.packets.len()
    }

    fn with_desk<const N: usize>(
        &mut self,
        desk: u32,
        call: impl FnOnce(&mut Client) -> Result<[u8; N], Refusal>,
    ) -> LineAnswer {
        let Some(desk) = self.desks.get_mut(desk as usize) else {
            return LineAnswer::refused(Refusal::Malformed);
        };
        match call(desk) {
            Ok(packet) => LineAnswer {
                packet: self.keep(&packet),
                ..LineAnswer::default()
            },
            Err(refusal) => LineAnswer::refused(refusal),
        }
    }

    fn with_cabinet(
        &mut self,
        cabinet: u32,
        call: impl FnOnce(&mut Cabinet, &mut [u8]) -> Answer,
    ) -> LineAnswer {
        let Some(cabinet) = self.cabinets.get_mut(cabinet as usize) else {
            return LineAnswer::refused(Refusal::Malformed);
        };
        let mut output = [0; IMAGE_MAX];
        let answer = call(cabinet, &mut output);
        let packet = match answer.written {
            0 => 0,
            written => self.keep(&output[..written]),
        };
        LineAnswer {
            number: answer.number,
            packet,
            value: 0,
        }
    }

    fn packet(&self, number: u32) -> Option<Vec<u8>> {
        let index = (number as usize).checked_sub(1)?;
        self.packets.get(index).cloned()
    }

    /// Request, take or release by the packet's first byte.
    fn deliver(&mut self, packet: u32, cabinet: u32) -> LineAnswer {
        if cabinet as usize >= self.cabinets.len() {
            return LineAnswer::refused(Refusal::Malformed);
        }
        let Some(packet) = self.packet(packet) else {
            return LineAnswer::refused(Refusal::Unknown);
        };
        self.with_cabinet(cabinet, |c, output| match packet[0] {
            REQUEST => {
                let output = &mut output[..RESULT_LEN];
                c.server.request(STATE_LEN, &mut c.log, &packet, output)
            }
            RECEIPT => c.server.release(STATE_LEN, &mut c.log, &packet),
            first if first == IMAGE_MAGIC[0] => c.server.take(STATE_LEN, &mut c.log, &packet),
            _ => Answer::refused(Refusal::Malformed),
        })
    }

    fn receive(&mut self, packet: u32, desk: u32) -> LineAnswer {
        if desk as usize >= self.desks.len() {
            return LineAnswer::refused(Refusal::Malformed);
        }
        let Some(packet) = self.packet(packet) else {
            return LineAnswer::refused(Refusal::Unknown);
        };
        match self.desks[desk as usize].receive(&packet) {
            Ok(Received::Result { effect, .. }) => LineAnswer {
                value: effect.value,
                ..LineAnswer::default()
            },
            Ok(_) => LineAnswer::default(),
            Err(refusal) => LineAnswer::refused(refusal),
        }
    }
}

fn found(number: u32, plan: &[u8]) -> Cabinet {
    let mut cabinet = Cabinet {
        server: Server::new(),
        log: vec![0; LOG_LEN],
    };
    cabinet
        .server
        .found(STATE_LEN, &mut cabinet.log, plan, number);
    cabinet
}

fn start(client: u32) -> Option<Client> {
    let grant = Grant {
        client,
        lease_end: 1000,
    };
    Client::start(&write_grant(&grant)).ok()
}

fn sync_all(c: &mut Cabinet, _: &mut [u8]) -> Answer {
    let length = c.server.length;
    c.server.sync(STATE_LEN, &c.log, length)
}

/// Keeps the log's first bytes and recovers from them.
fn cut(c: &mut Cabinet, bytes: u32, plan: &[u8]) -> Answer {
    let bytes = u64::from(bytes);
    if bytes < c.server.mark || bytes > c.server.length {
        return Answer::refused(Refusal::BadMark);
    }
    let kept = bytes as usize;
    c.log[kept..].fill(0);
    c.server.recover(STATE_LEN, &c.log[..kept], plan)
}

fn parse_line(line: &[u8]) -> Option<Line> {
    let mut fields = line.split(|&b| b == b' ');
    let word = fields.next()?;
    let mut number = || parse_number(fields.next()?);
    let parsed = match word {
        b"i" => {
            let (desk, op, point) = (number()?, number()?, number()?);
            Line::Issue(desk, op, point, parse_argument(fields.next()?)?)
        }
        b"s" => Line::Resend(number()?, number()?),
        b"d" => Line::Deliver(number()?, number()?),
        b"r" => Line::Receive(number()?, number()?),
        b"y" => Line::Sync(number()?),
        b"k" => Line::Cut(number()?, number()?),
        b"g" => Line::Give(number()?, number()?, number()?),
        b"x" => Line::Image(number()?, number()?),
        b"f" => Line::Receipt(number()?, number()?),
        _ => return None,
    };
    fields.next().is_none().then_some(parsed)
}

/// Decimal digits of a number of 32 bits.
fn parse_number(field: &[u8]) -> Option<u32> {
    u32::try_from(parse_digits(field)?).ok()
}

/// Decimal digits after an optional '-', of a signed number of 32 bits.
fn parse_argument(field: &[u8]) -> Option<i32> {
    let value = match field.strip_prefix(b"-") {
        Some(digits) => -parse_digits(digits)?,
        None => parse_digits(field)?,
    };
    i32::try_from(value).ok()
}

fn parse_digits(field: &[u8]) -> Option<i64> {
    if field.is_empty() {
        return None;
    }
    field.iter().try_fold(0i64, |sum, &b| {
        let digit = b.is_ascii_digit().then(|| i64::from(b - b'0'))?;
        sum.checked_mul(10)?.checked_add(digit)
    })
}

/// Runs a schedule: the answers, one a line.
pub fn run(input: &[u8]) -> String {
    let mut simulator = Simulator::new();
    let mut lines: Vec<&[u8]> = input.split(|&b| b == b'\n').collect();
    // What follows the last line feed is a line only if it has bytes.
    if lines.last().is_some_and(|last| last.is_empty()) {
        lines.pop();
    }
    let mut output = String::new();
    for (i, line) in lines.into_iter().take(LINES_MAX).enumerate() {
        let answer = simulator.run_line(line);
        output.push_str(&format!(
            "{} {} {} {}\n",
            i + 1,
            answer.number,
            answer.packet,
            answer.value
        ));
    }
    output
}
