//! The proved server, from the static library kernel: the functions of
//! include/mantelorris.h, and one call on either program.

use second::answer::Answer;
use second::record::whole_end;
use second::server::Server;

/// The answer of the first walk over a log: a refusal's number, 0 for none, and the end
/// of the last whole record.
#[repr(C)]
#[derive(Clone, Copy, Debug, PartialEq, Eq)]
pub struct LogEnd {
    pub number: u32,
    pub end: u64,
}

mod c {
    use super::LogEnd;

    #[link(name = "kernel", kind = "static")]
    extern "C" {
        pub fn mantelorris_found(
            state: *mut u8,
            state_len: usize,
            log: *mut u8,
            log_len: usize,
            plan: *const u8,
            plan_len: usize,
            server: u32,
        ) -> u64;
        pub fn mantelorris_request(
            state: *mut u8,
            state_len: usize,
            log: *mut u8,
            log_len: usize,
            packet: *const u8,
            packet_len: usize,
            out: *mut u8,
            out_len: usize,
        ) -> u64;
        pub fn mantelorris_fetch(
            state: *const u8,
            state_len: usize,
            log: *const u8,
            log_len: usize,
            client: u32,
            call: u32,
            out: *mut u8,
            out_len: usize,
        ) -> u64;
        pub fn mantelorris_sync(
            state: *mut u8,
            state_len: usize,
            log: *const u8,
            log_len: usize,
            mark: u64,
        ) -> u64;
        pub fn mantelorris_notice(
            state: *mut u8,
            state_len: usize,
            log: *mut u8,
            log_len: usize,
            packet: *const u8,
            packet_len: usize,
        ) -> u64;
        pub fn mantelorris_give(
            state: *mut u8,
            state_len: usize,
            log: *mut u8,
            log_len: usize,
            point: u32,
            destination: u32,
        ) -> u64;
        pub fn mantelorris_image(
            state: *const u8,
            state_len: usize,
            log: *const u8,
            log_len: usize,
            point: u32,
            out: *mut u8,
            out_len: usize,
        ) -> u64;
        pub fn mantelorris_take(
            state: *mut u8,
            state_len: usize,
            log: *mut u8,
            log_len: usize,
            image: *const u8,
            image_len: usize,
        ) -> u64;
        pub fn mantelorris_receipt(
            state: *const u8,
            state_len: usize,
            log: *const u8,
            log_len: usize,
            point: u32,
            out: *mut u8,
            out_len: usize,
        ) -> u64;
        pub fn mantelorris_release(
            state: *mut u8,
            state_len: usize,
            log: *mut u8,
            log_len: usize,
            packet: *const u8,
            packet_len: usize,
        ) -> u64;
        pub fn mantelorris_recover(
            state: *mut u8,
            state_len: usize,
            log: *const u8,
            log_len: usize,
            plan: *const u8,
            plan_len: usize,
        ) -> u64;
        pub fn mantelorris_log_end(log: *const u8, log_len: usize) -> LogEnd;
    }
}

/// The low 32 bits are the number, the high 32 bits the bytes written.
pub(crate) fn answer(word: u64) -> Answer {
    Answer {
        number: word as u32,
        written: (word >> 32) as usize,
    }
}

// A slice is a pointer and its length; the functions are proved to stay inside it, for all arguments.

pub fn found(state: &mut [u8], log: &mut [u8], plan: &[u8], server: u32) -> Answer {
    answer(unsafe {
        c::mantelorris_found(
            state.as_mut_ptr(),
            state.len(),
            log.as_mut_ptr(),
            log.len(),
            plan.as_ptr(),
            plan.len(),
            server,
        )
    })
}

pub fn request(state: &mut [u8], log: &mut [u8], packet: &[u8], out: &mut [u8]) -> Answer {
    answer(unsafe {
        c::mantelorris_request(
            state.as_mut_ptr(),
            state.len(),
            log.as_mut_ptr(),
            log.len(),
            packet.as_ptr(),
            packet.len(),
            out.as_mut_ptr(),
            out.len(),
        )
    })
}

pub fn fetch(state: &[u8], log: &[u8], client: u32, call: u32, out: &mut [u8]) -> Answer {
    answer(unsafe {
        c::mantelorris_fetch(
            state.as_ptr(),
            state.len(),
            log.as_ptr(),
            log.len(),
            client,
            call,
            out.as_mut_ptr(),
            out.len(),
        )
    })
}

pub fn sync(state: &mut [u8], log: &[u8], mark: u64) -> Answer {
    answer(unsafe {
        c::mantelorris_sync(
            state.as_mut_ptr(),
            state.len(),
            log.as_ptr(),
            log.len(),
            mark,
        )
    })
}

pub fn notice(state: &mut [u8], log: &mut [u8], packet: &[u8]) -> Answer {
    answer(unsafe {
        c::mantelorris_notice(
            state.as_mut_ptr(),
            state.len(),
            log.as_mut_ptr(),
            log.len(),
            packet.as_ptr(),
            packet.len(),
        )
    })
}

pub fn give(state: &mut [u8], log: &mut [u8], point: u32, destination: u32) -> Answer {
    answer(unsafe {
        c::mantelorris_give(
            state.as_mut_ptr(),
            state.len(),
            log.as_mut_ptr(),
            log.len(),
            point,
            destination,
        )
    })
}

pub fn image(state: &[u8], log: &[u8], point: u32, out: &mut [u8]) -> Answer {
    answer(unsafe {
        c::mantelorris_image(
            state.as_ptr(),
            state.len(),
            log.as_ptr(),
            log.len(),
            point,
            out.as_mut_ptr(),
            out.len(),
        )
    })
}

pub fn take(state: &mut [u8], log: &mut [u8], image: &[u8]) -> Answer {
    answer(unsafe {
        c::mantelorris_take(
            state.as_mut_ptr(),
            state.len(),
            log.as_mut_ptr(),
            log.len(),
            image.as_ptr(),
            image.len(),
        )
    })
}

pub fn receipt(state: &[u8], log: &[u8], point: u32, out: &mut [u8]) -> Answer {
    answer(unsafe {
        c::mantelorris_receipt(
            state.as_ptr(),
            state.len(),
            log.as_ptr(),
            log.len(),
            point,
            out.as_mut_ptr(),
            out.len(),
        )
    })
}

pub fn release(state: &mut [u8], log: &mut [u8], packet: &[u8]) -> Answer {
    answer(unsafe {
        c::mantelorris_release(
            state.as_mut_ptr(),
            state.len(),
            log.as_mut_ptr(),
            log.len(),
            packet.as_ptr(),
            packet.len(),
        )
    })
}

pub fn recover(state: &mut [u8], log: &[u8], plan: &[u8]) -> Answer {
    answer(unsafe {
        c::mantelorris_recover(
            state.as_mut_ptr(),
            state.len(),
            log.as_ptr(),
            log.len(),
            plan.as_ptr(),
            plan.len(),
        )
    })
}

#[inline(never)]
pub fn log_end(log: &[u8]) -> LogEnd {
    unsafe { c::mantelorris_log_end(log.as_ptr(), log.len()) }
}

/// The second program's, in the same form.
#[inline(never)]
pub fn second_log_end(log: &[u8]) -> LogEnd {
    match whole_end(log) {
        Ok(end) => LogEnd {
            number: 0,
            end: end as u64,
        },
        Err(refusal) => LogEnd {
            number: refusal as u32,
            end: 0,
        },
    }
}

/// A call with its arguments, lent memory aside.
#[derive(Clone, Debug)]
pub enum Call {
    Found(Vec<u8>, u32),
    Request(Vec<u8>),
    Fetch(u32, u32),
    Sync(u64),
    Notice(Vec<u8>),
    Give(u32, u32),
    Image(u32),
    Take(Vec<u8>),
    Receipt(u32),
    Release(Vec<u8>),
    Recover(Vec<u8>),
}

impl Call {
    pub fn name(&self) -> &'static str {
        match self {
            Call::Found(..) => "found",
            Call::Request(_) => "request",
            Call::Fetch(..) => "fetch",
            Call::Sync(_) => "sync",
            Call::Notice(_) => "notice",
            Call::Give(..) => "give",
            Call::Image(_) => "image",
            Call::Take(_) => "take",
            Call::Receipt(_) => "receipt",
            Call::Release(_) => "release",
            Call::Recover(_) => "recover",
        }
    }

    /// On the proved server.
    #[inline(never)]
    pub fn proved(&self, state: &mut [u8], log: &mut [u8], out: &mut [u8]) -> Answer {
        match self {
            Call::Found(plan, number) => found(state, log, plan, *number),
            Call::Request(packet) => request(state, log, packet, out),
            Call::Fetch(client, call) => fetch(state, log, *client, *call, out),
            Call::Sync(mark) => sync(state, log, *mark),
            Call::Notice(packet) => notice(state, log, packet),
            Call::Give(point, destination) => give(state, log, *point, *destination),
            Call::Image(point) => image(state, log, *point, out),
            Call::Take(image) => take(state, log, image),
            Call::Receipt(point) => receipt(state, log, *point, out),
            Call::Release(packet) => release(state, log, packet),
            Call::Recover(plan) => recover(state, log, plan),
        }
    }

    /// On the second program's server, of whose buffer only the length counts.
    #[inline(never)]
    pub fn second(&self, server: &mut Server, n: usize, log: &mut [u8], out: &mut [u8]) -> Answer {
        match self {
            Call::Found(plan, number) => server.found(n, log, plan, *number),
            Call::Request(packet) => server.request(n, log, packet, out),
            Call::Fetch(client, call) => server.fetch(n, log, *client, *call, out),
            Call::Sync(mark) => server.sync(n, log, *mark),
            Call::Notice(packet) => server.notice(n, log, packet),
            Call::Give(point, destination) => server.give(n, log, *point, *destination),
            Call::Image(point) => server.image(n, log, *point, out),
            Call::Take(image) => server.take(n, log, image),
            Call::Receipt(point) => server.receipt(n, log, *point, out),
            Call::Release(packet) => server.release(n, log, packet),
            Call::Recover(plan) => server.recover(n, log, plan),
        }
    }
}
