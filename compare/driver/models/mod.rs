//! What must come out of each kind of case, by the rules of documents 01 and 02 over the published
//! Rust, and the lines of a list for it.

pub mod ceiling;
pub mod color;
pub mod directions;
pub mod findings;
pub mod gamut;
pub mod gaps;
pub mod job;
pub mod layout;
pub mod level_set;
pub mod orientation;
pub mod page;
pub mod pair;
pub mod palette;
pub mod placement;
pub mod search;
pub mod table;
