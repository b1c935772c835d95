//! Checkpoint, recovery from a checkpoint and its tail, and inspect of the proved server, from the
//! static library kernel; the second program's inspect in the same form.

use crate::kernel::answer;
use second::answer::{Answer, Refusal};
use second::server::Server;

/// The answer of inspect: a refusal's number, or 0, what holds the completion record, and the
/// place of its bytes.
#[repr(C)]
#[derive(Clone, Copy, Debug, PartialEq, Eq)]
pub struct Place {
    pub number: u32,
    pub source: u32,
    pub start: usize,
    pub end: usize,
}

impl Place {
    pub fn refused(refusal: Refusal) -> Place {
        Place {
            number: refusal as u32,
            source: 0,
            start: 0,
            end: 0,
        }
    }
}

mod c {
    use super::Place;

    #[link(name = "kernel", kind = "static")]
    extern "C" {
        pub fn mantelorris_checkpoint(
            state: *mut u8,
            state_len: usize,
            log: *const u8,
            log_len: usize,
            checkpoint: *mut u8,
            checkpoint_len: usize,
            tail: *mut u8,
            tail_len: usize,
        ) -> u64;
        pub fn mantelorris_recover_checkpoint(
            state: *mut u8,
            state_len: usize,
            checkpoint: *const u8,
            checkpoint_len: usize,
            tail: *const u8,
            tail_len: usize,
        ) -> u64;
        pub fn mantelorris_inspect(
            state: *const u8,
            state_len: usize,
            checkpoint: *const u8,
            checkpoint_len: usize,
            tail: *const u8,
            tail_len: usize,
            client: u32,
            call: u32,
        ) -> Place;
    }
}

#[inline(never)]
pub fn checkpoint(state: &mut [u8], log: &[u8], checkpoint: &mut [u8], tail: &mut [u8]) -> Answer {
    answer(unsafe {
        c::mantelorris_checkpoint(
            state.as_mut_ptr(),
            state.len(),
            log.as_ptr(),
            log.len(),
            checkpoint.as_mut_ptr(),
            checkpoint.len(),
            tail.as_mut_ptr(),
            tail.len(),
        )
    })
}

#[inline(never)]
pub fn recover_checkpoint(state: &mut [u8], checkpoint: &[u8], tail: &[u8]) -> Answer {
    answer(unsafe {
        c::mantelorris_recover_checkpoint(
            state.as_mut_ptr(),
            state.len(),
            checkpoint.as_ptr(),
            checkpoint.len(),
            tail.as_ptr(),
            tail.len(),
        )
    })
}

#[inline(never)]
pub fn inspect(state: &[u8], checkpoint: &[u8], tail: &[u8], (client, call): (u32, u32)) -> Place {
    unsafe {
        c::mantelorris_inspect(
            state.as_ptr(),
            state.len(),
            checkpoint.as_ptr(),
            checkpoint.len(),
            tail.as_ptr(),
            tail.len(),
            client,
            call,
        )
    }
}

/// The second program's, of whose buffer only the length counts.
#[inline(never)]
pub fn second_inspect(
    server: &Server,
    n: usize,
    checkpoint: &[u8],
    tail: &[u8],
    (client, call): (u32, u32),
) -> Place {
    match server.inspect(n, checkpoint, tail, client, call) {
        Ok(place) => Place {
            number: 0,
            source: place.source as u32,
            start: place.from,
            end: place.to,
        },
        Err(refusal) => Place::refused(refusal),
    }
}
