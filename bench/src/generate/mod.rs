//! What the two implementations are compared on: made at random, good and damaged.

pub mod damage;
pub mod frames;
pub mod large;
pub mod packets;
pub mod rehearsals;
pub mod scripts;
pub mod sheets;
