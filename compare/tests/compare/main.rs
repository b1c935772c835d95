//! The proved code, through its calls in C, against the second program.

mod by_hand;
mod chamber;
mod client;
mod command;
mod desk;
mod dispatcher;
mod ends;
mod image_state;
mod images;
mod kernel;
mod leases;
mod packets;
mod records;
mod rig;
mod times;
