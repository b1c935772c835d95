//! The proved client and lease manager, from the static library client_exports: structs
//! and functions of include/mantelorris_client.h.

#[repr(C)]
#[derive(Clone, Copy, PartialEq, Eq, Debug)]
pub struct OpenCall {
    /// 0 for a free place.
    pub call: u32,
    pub op: u8,
    pub point: u8,
    /// The argument + 2^31.
    pub argument: u32,
}

#[repr(C)]
#[derive(Clone, Copy, PartialEq, Eq, Debug)]
pub struct Client {
    pub client: u32,
    pub lease: u32,
    pub next: u32,
    /// At the place call mod 16.
    pub calls: [OpenCall; 16],
}

#[repr(C)]
#[derive(Clone, Copy, PartialEq, Eq, Debug)]
pub struct StartReply {
    pub client: Client,
    pub number: u32,
}

#[repr(C)]
#[derive(Clone, Copy, PartialEq, Eq, Debug)]
pub struct SendReply {
    pub number: u32,
    pub call: u32,
    pub length: u32,
    pub packet: [u8; 24],
}

#[repr(C)]
#[derive(Clone, Copy, PartialEq, Eq, Debug, Default)]
pub struct ReceiveReply {
    pub number: u32,
    pub kind: u32,
    pub call: u32,
    pub value: i32,
    pub lease: u32,
    pub point: u8,
    pub outcome: u8,
    pub quality: u8,
    pub refusal: u8,
    /// Of a result: its time of execution.
    pub time: u32,
}

#[repr(C)]
#[derive(Clone, Copy, PartialEq, Eq, Debug)]
pub struct Lease {
    /// 0 for a free place.
    pub client: u32,
    pub lease: u32,
}

#[repr(C)]
#[derive(Clone, Copy, PartialEq, Eq, Debug)]
pub struct LeaseManager {
    pub time: u32,
    pub issued: u32,
    pub leases: [Lease; 32],
}

#[repr(C)]
#[derive(Clone, Copy, PartialEq, Eq, Debug)]
pub struct LeaseReply {
    pub number: u32,
    pub kind: u32,
    pub length: u32,
    pub packet: [u8; 12],
}

mod c {
    use super::{Client, LeaseManager, LeaseReply, ReceiveReply, SendReply, StartReply};

    #[link(name = "client_exports", kind = "static")]
    extern "C" {
        pub fn mantelorris_start(packet: *const u8, length: usize) -> StartReply;
        pub fn mantelorris_issue(
            client: *mut Client,
            op: u32,
            point: u32,
            argument: i32,
        ) -> SendReply;
        pub fn mantelorris_resend(client: *mut Client, call: u32) -> SendReply;
        pub fn mantelorris_receive(
            client: *mut Client,
            packet: *const u8,
            length: usize,
        ) -> ReceiveReply;
        pub fn mantelorris_leases() -> LeaseManager;
        pub fn mantelorris_open(manager: *mut LeaseManager, time: u32, span: u32) -> LeaseReply;
        pub fn mantelorris_renew(
            manager: *mut LeaseManager,
            client: u32,
            time: u32,
            span: u32,
        ) -> LeaseReply;
        pub fn mantelorris_query(manager: *mut LeaseManager, client: u32, time: u32) -> LeaseReply;
    }
}

// A slice is a pointer and its length; the functions are proved to stay inside it, for all arguments.
// Each is inlined, so that a caller calls the proved code itself.

impl Client {
    #[inline]
    pub fn start(packet: &[u8]) -> StartReply {
        unsafe { c::mantelorris_start(packet.as_ptr(), packet.len()) }
    }

    #[inline]
    pub fn issue(&mut self, op: u32, point: u32, argument: i32) -> SendReply {
        unsafe { c::mantelorris_issue(self, op, point, argument) }
    }

    #[inline]
    pub fn resend(&mut self, call: u32) -> SendReply {
        unsafe { c::mantelorris_resend(self, call) }
    }

    #[inline]
    pub fn receive(&mut self, packet: &[u8]) -> ReceiveReply {
        unsafe { c::mantelorris_receive(self, packet.as_ptr(), packet.len()) }
    }
}

impl LeaseManager {
    #[inline]
    pub fn new() -> LeaseManager {
        unsafe { c::mantelorris_leases() }
    }

    #[inline]
    pub fn open(&mut self, time: u32, span: u32) -> LeaseReply {
        unsafe { c::mantelorris_open(self, time, span) }
    }

    #[inline]
    pub fn renew(&mut self, client: u32, time: u32, span: u32) -> LeaseReply {
        unsafe { c::mantelorris_renew(self, client, time, span) }
    }

    #[inline]
    pub fn query(&mut self, client: u32, time: u32) -> LeaseReply {
        unsafe { c::mantelorris_query(self, client, time) }
    }
}

impl Default for LeaseManager {
    fn default() -> LeaseManager {
        LeaseManager::new()
    }
}
