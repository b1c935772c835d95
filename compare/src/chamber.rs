//! The proved controller of a lock chamber, from the static library chamber_c: structs and
//! functions of include/mantelorris_chamber.h; and the second program's in its terms.

use crate::other;
use crate::proved::{self, ReceiveReply, SendReply};
use second::chamber;
use second::rule::INVALID;

#[repr(C)]
#[derive(Clone, Copy, PartialEq, Eq, Debug)]
pub struct LockPoints {
    pub upper: u8,
    pub lower: u8,
    pub level1: u8,
    pub level2: u8,
    pub level3: u8,
}

#[repr(C)]
#[derive(Clone, Copy, PartialEq, Eq, Debug)]
pub struct LatestRead {
    /// 0 if there is none; then the value is 0 and invalid.
    pub call: u32,
    /// The value + 2^31.
    pub value: u32,
    pub quality: u8,
}

#[repr(C)]
#[derive(Clone, Copy, PartialEq, Eq, Debug)]
pub struct Chamber {
    pub client: proved::Client,
    pub points: LockPoints,
    /// The call of the last set or part, 0 if there is none.
    pub moved: u32,
    pub reads: [LatestRead; 5],
}

#[repr(C)]
#[derive(Clone, Copy, PartialEq, Eq, Debug)]
pub struct StartReply {
    pub chamber: Chamber,
    pub number: u32,
}

#[repr(C)]
#[derive(Clone, Copy, PartialEq, Eq, Debug)]
pub struct ChamberSendReply {
    pub chamber: Chamber,
    pub reply: SendReply,
}

#[repr(C)]
#[derive(Clone, Copy, PartialEq, Eq, Debug)]
pub struct ChamberReceiveReply {
    pub chamber: Chamber,
    pub reply: ReceiveReply,
}

mod c {
    use super::{Chamber, ChamberReceiveReply, ChamberSendReply, StartReply};

    #[link(name = "chamber_c", kind = "static")]
    extern "C" {
        pub fn mantelorris_chamber_start(
            packet: *const u8,
            length: usize,
            upper: u32,
            lower: u32,
            level1: u32,
            level2: u32,
            level3: u32,
        ) -> StartReply;
        pub fn mantelorris_chamber_issue(
            chamber: Chamber,
            op: u32,
            point: u32,
            argument: i32,
        ) -> ChamberSendReply;
        pub fn mantelorris_chamber_resend(chamber: Chamber, call: u32) -> ChamberSendReply;
        pub fn mantelorris_chamber_receive(
            chamber: Chamber,
            packet: *const u8,
            length: usize,
        ) -> ChamberReceiveReply;
    }
}

// A slice is a pointer and its length; the functions are proved to stay inside it, for all arguments.
// Each is inlined, so that a caller calls the proved code itself.

impl Chamber {
    #[inline]
    pub fn start(packet: &[u8], points: [u32; 5]) -> StartReply {
        let [upper, lower, level1, level2, level3] = points;
        unsafe {
            c::mantelorris_chamber_start(
                packet.as_ptr(),
                packet.len(),
                upper,
                lower,
                level1,
                level2,
                level3,
            )
        }
    }

    #[inline]
    pub fn issue(self, op: u32, point: u32, argument: i32) -> ChamberSendReply {
        unsafe { c::mantelorris_chamber_issue(self, op, point, argument) }
    }

    #[inline]
    pub fn resend(self, call: u32) -> ChamberSendReply {
        unsafe { c::mantelorris_chamber_resend(self, call) }
    }

    #[inline]
    pub fn receive(self, packet: &[u8]) -> ChamberReceiveReply {
        unsafe { c::mantelorris_chamber_receive(self, packet.as_ptr(), packet.len()) }
    }
}

// ---- the second program

/// The fields of a controller, as the proved one has them.
pub fn fields(c: &chamber::Chamber) -> Chamber {
    let [upper, lower, level1, level2, level3] = c.points.numbers();
    Chamber {
        client: other::client_fields(&c.client),
        points: LockPoints {
            upper,
            lower,
            level1,
            level2,
            level3,
        },
        moved: c.moved,
        reads: c.reads.map(|read| {
            let read = read.unwrap_or(NO_READ);
            LatestRead {
                call: read.call,
                value: other::unsigned(read.value),
                quality: read.quality,
            }
        }),
    }
}

/// How the proved controller has a point that it has not read.
const NO_READ: chamber::LatestRead = chamber::LatestRead {
    call: 0,
    value: 0,
    quality: INVALID,
};

/// No controller where refused.
pub fn start(packet: &[u8], points: [u32; 5]) -> (Option<chamber::Chamber>, u32) {
    match chamber::Chamber::start(packet, points) {
        Ok(chamber) => (Some(chamber), 0),
        Err(refusal) => (None, refusal.number()),
    }
}

#[inline]
pub fn receive(c: &mut chamber::Chamber, packet: &[u8]) -> ReceiveReply {
    other::received(packet, c.receive(packet))
}
