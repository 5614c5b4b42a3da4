//! Times the filling of a whole gamut table, placements on rings of it, pairs of its rows, whole
//! searches of it, also pair by pair, its bests with one hue fixed and over sets of levels, back-offs
//! of what the searches find, pages of jobs, and ceilings of jobs over it, by our archive and by the
//! published Rust, or for pages by Rust's own formatting and for ceilings by the same rule in Rust, in
//! turns. See compare/README.md.

mod back_off;
mod ceiling;
mod given;
mod level_set;
mod orientation;
mod page;
mod pair;
mod placement;
mod search;
mod table;
mod timing;

// Of the driver's own files.
#[path = "../big.rs"]
mod big;
#[path = "../models/findings.rs"]
mod findings;
#[path = "../models/gaps.rs"]
mod gaps;
#[path = "../models/layout.rs"]
mod layout;
#[allow(dead_code)]
#[path = "../random.rs"]
mod random;
#[allow(dead_code)]
#[path = "../standins.rs"]
mod standins;

// Taken from the published files by compare/sources, which says what each holds.
#[path = "../chroma.rs"]
mod chroma;
#[allow(dead_code)]
#[path = "../color.rs"]
mod color;
#[path = "../deriving.rs"]
mod deriving;
#[path = "../pairing.rs"]
mod pairing;
#[path = "../palette.rs"]
mod palette;
#[path = "../placing.rs"]
mod placing;
#[allow(dead_code)]
#[path = "../validating.rs"]
mod validating;

use standins::{DIRECTIONS, LEVELS};

/// Tries the refusals, then times the parts.
fn main() {
    let (cos, sin) = standins::directions();
    table::refusals(&cos, &sin);
    placement::refusals();
    pair::refusals();
    search::refusals();
    orientation::refusals();
    level_set::refusals();
    back_off::refusals(&cos, &sin);
    page::refusals();
    ceiling::refusals();
    println!("# all that must be refused is refused");
    timing::heading();
    let table = table::filled(&cos, &sin);
    let gamut = pairing::over(LEVELS, DIRECTIONS, table.clone());
    placement::all(&table);
    pair::all(&table, &gamut);
    search::all(&table, &gamut);
    orientation::all(&table, &gamut);
    level_set::all(&table, &gamut);
    back_off::all(&gamut, &cos, &sin);
    page::all();
    ceiling::all(&table);
}
