//! The proved dispatcher above a server, from the static library kernel: its structs and
//! functions; the second program's in its terms; and what is due of any struct, made by
//! calls or not, written down by fields alone.

use crate::kernel::answer;
use crate::other;
use second::answer::Answer;
use second::bytes::put_u32;
use second::dispatcher;
use second::packet::{parse_request, Request, REQUEST, REQUEST_LEN};
use std::mem::{offset_of, size_of};

/// Places of a dispatcher.
pub const PLACES: usize = 32;

/// A place: a request that waits, or anything.
#[repr(C)]
#[derive(Clone, Copy, Debug, Default)]
pub struct Waiting {
    pub client: u32,
    pub call: u32,
    pub op: u8,
    pub point: u8,
    /// Holds anything; no call reads it.
    pub padding: [u8; 2],
    /// The argument + 2^31.
    pub argument: u32,
    pub done: u32,
    pub lease: u32,
}

#[repr(C)]
#[derive(Clone, Copy, PartialEq, Eq, Debug, Default)]
pub struct Dispatcher {
    /// So many places wait, first come first; read as 32 if it is greater.
    pub count: u32,
    pub requests: [Waiting; PLACES],
}

#[repr(C)]
#[derive(Clone, Copy, PartialEq, Eq, Debug)]
pub struct EnqueueReply {
    pub dispatcher: Dispatcher,
    pub number: u32,
}

#[repr(C)]
#[derive(Clone, Copy, PartialEq, Eq, Debug)]
pub struct ServeReply {
    pub dispatcher: Dispatcher,
    /// As that of a request.
    pub answer: u64,
}

const _: () = {
    assert!(size_of::<Waiting>() == 24);
    assert!(offset_of!(Waiting, argument) == 12);
    assert!(size_of::<Dispatcher>() == 772);
    assert!(offset_of!(Dispatcher, requests) == 4);
    assert!(size_of::<EnqueueReply>() == 776);
    assert!(size_of::<ServeReply>() == 784);
    assert!(offset_of!(ServeReply, answer) == 776);
};

mod c {
    use super::{Dispatcher, EnqueueReply, ServeReply};

    #[link(name = "kernel", kind = "static")]
    extern "C" {
        pub fn mantelorris_no_waiting() -> Dispatcher;
        pub fn mantelorris_enqueue(
            dispatcher: Dispatcher,
            packet: *const u8,
            packet_len: usize,
        ) -> EnqueueReply;
        pub fn mantelorris_serve(
            dispatcher: Dispatcher,
            state: *mut u8,
            state_len: usize,
            log: *mut u8,
            log_len: usize,
            out: *mut u8,
            out_len: usize,
        ) -> ServeReply;
    }
}

impl ServeReply {
    pub fn answer(&self) -> Answer {
        answer(self.answer)
    }
}

// A slice is a pointer and its length; the functions are proved to stay inside it, for all arguments.
// Each is inlined, so that a caller calls the proved code itself.

impl Dispatcher {
    /// Nobody waits.
    #[inline]
    pub fn new() -> Dispatcher {
        unsafe { c::mantelorris_no_waiting() }
    }

    #[inline]
    pub fn enqueue(self, packet: &[u8]) -> EnqueueReply {
        unsafe { c::mantelorris_enqueue(self, packet.as_ptr(), packet.len()) }
    }

    #[inline]
    pub fn serve(self, state: &mut [u8], log: &mut [u8], out: &mut [u8]) -> ServeReply {
        unsafe {
            c::mantelorris_serve(
                self,
                state.as_mut_ptr(),
                state.len(),
                log.as_mut_ptr(),
                log.len(),
                out.as_mut_ptr(),
                out.len(),
            )
        }
    }
}

// ---- what is due, by the fields

impl Waiting {
    pub fn of(request: &Request) -> Waiting {
        Waiting {
            client: request.client,
            call: request.call,
            op: request.op as u8,
            point: request.point,
            padding: [0; 2],
            argument: other::unsigned(request.argument),
            done: request.done,
            lease: request.lease_end,
        }
    }

    /// All but the padding.
    fn fields(&self) -> [u32; 7] {
        let (op, point) = (u32::from(self.op), u32::from(self.point));
        [
            self.client,
            self.call,
            op,
            point,
            self.argument,
            self.done,
            self.lease,
        ]
    }

    /// The request packet with these fields, well-formed or not.
    pub fn packet(&self) -> [u8; REQUEST_LEN] {
        let mut packet = [0; REQUEST_LEN];
        packet[..3].copy_from_slice(&[REQUEST, self.op, self.point]);
        put_u32(&mut packet, 4, self.client);
        put_u32(&mut packet, 8, self.call);
        put_u32(&mut packet, 12, self.done);
        put_u32(&mut packet, 16, self.lease);
        put_u32(&mut packet, 20, self.argument.wrapping_sub(1 << 31));
        packet
    }
}

impl PartialEq for Waiting {
    fn eq(&self, other: &Waiting) -> bool {
        self.fields() == other.fields()
    }
}

impl Eq for Waiting {}

impl Dispatcher {
    /// The places that wait.
    pub fn waiting(&self) -> &[Waiting] {
        &self.requests[..PLACES.min(self.count as usize)]
    }

    /// What enqueue is to answer: refused, the dispatcher is as it was.
    pub fn due_enqueue(&self, packet: &[u8]) -> EnqueueReply {
        let mut dispatcher = *self;
        let waiting = self.waiting();
        let number = match parse_request(packet) {
            None => 1,
            Some(request) if waiting.iter().any(|w| w.client == request.client) => 21,
            Some(_) if waiting.len() == PLACES => 8,
            Some(request) => {
                dispatcher.requests[waiting.len()] = Waiting::of(&request);
                dispatcher.count += 1;
                0
            }
        };
        EnqueueReply { dispatcher, number }
    }

    /// What a serving hands over, and the dispatcher after it: every place, used or not, moves
    /// one to the front, and the last one is 0. Nothing with nobody waiting.
    pub fn due_serve(&self) -> Option<([u8; REQUEST_LEN], Dispatcher)> {
        let first = self.waiting().first()?;
        let mut after = Dispatcher {
            count: self.waiting().len() as u32 - 1,
            ..Dispatcher::default()
        };
        after.requests[..PLACES - 1].copy_from_slice(&self.requests[1..]);
        Some((first.packet(), after))
    }
}

// ---- the second program

/// The fields of a dispatcher, as the proved one has them after calls alone: the places that
/// do not wait are 0.
pub fn fields(dispatcher: &dispatcher::Dispatcher) -> Dispatcher {
    let mut fields = Dispatcher {
        count: dispatcher.waiting.len() as u32,
        ..Dispatcher::default()
    };
    for (place, request) in fields.requests.iter_mut().zip(&dispatcher.waiting) {
        *place = Waiting::of(request);
    }
    fields
}

/// 0, or the refusal's number.
#[inline]
pub fn enqueue(dispatcher: &mut dispatcher::Dispatcher, packet: &[u8]) -> u32 {
    Answer::of(dispatcher.enqueue(packet)).number
}
