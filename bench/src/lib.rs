//! A second, plain implementation of `admit`, `ports` and `evening`, written from MODEL.md and FORMATS.md alone.

pub mod admission;
pub mod agenda;
pub mod machine;
pub mod net;
pub mod printing;
pub mod program;
pub mod promises;
pub mod reading;
pub mod switch;
pub mod whole;

/// Rates are counted in millionths of a port.
pub const MILLION: u64 = 1_000_000;

pub const CLASSES: usize = 8;
pub const MOST_PORTS: usize = 64;
pub const MOST_FLOWS: usize = 256;
pub const LONGEST_ROAD: usize = 16;
pub const EDGE_ROOM: usize = 64;
pub const LAST_CLOCK: u64 = 1 << 40;
pub const MEMORY_OF_ALL: u64 = 4_194_304;
