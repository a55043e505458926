//! Codec, rules and rehearsal in plain Rust, written from `docs/` and from nothing else.

pub mod arrival;
pub mod bytes;
pub mod crc;
pub mod end;
pub mod fault;
pub mod frame;
pub mod lines;
pub mod listing;
pub mod numbers;
pub mod packet;
pub mod reason;
pub mod refusal;
pub mod role;
pub mod script;
pub mod sheet;
pub mod telegram;
pub mod wire;
