//! The link twice: written plainly from the documents alone, and the proved library behind its C
//! interface. The programs of this crate hold the two against each other.

pub mod capi;
pub mod coverage;
pub mod generate;
pub mod plain;
pub mod random;
pub mod rounds;
