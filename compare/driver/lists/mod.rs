//! Which cases each list holds, a file a list.

pub mod ceiling;
pub mod color;
pub mod gamut;
pub mod level_set;
pub mod orientation;
pub mod page;
pub mod pair;
pub mod palette;
mod palette_edges;
pub mod placement;
pub mod rooms;
pub mod search;
mod small_gaps;
