//! A second program of the command kernel, written from paper 01 alone.
//!
//! Parties: the cabinet is the server, the desk the client, the lease office
//! the lease manager; the yard is the simulator and the book the sequential
//! specification. Words of the formats are those of paper 01.

pub mod answer;
pub mod bytes;
pub mod chamber;
pub mod checker;
pub mod checkpoint;
pub mod client;
pub mod dispatcher;
pub mod faults;
pub mod image;
pub mod leases;
pub mod lock;
pub mod packet;
pub mod plan;
pub mod program;
pub mod random;
pub mod record;
pub mod rule;
pub mod schedule;
pub mod sequential;
pub mod server;
pub mod simulator;
pub mod world;
