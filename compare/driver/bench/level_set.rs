//! The bests over sets of levels that the bench times, over a whole table.

use crate::given::{found, refused, Given, LENT};
use crate::pairing::{best_for_level_set, Gamut};
use crate::placing::step;
use crate::standins::DIRECTIONS;
use crate::timing::{compare, row, sums, Times, TURNS};

/// Four levels that the published report goes through among others.
const FOUR: [usize; 4] = [20, 40, 120, 140];
/// How many sets of four levels there are.
const SETS: usize = 20;
/// How long a work buffer must be: one lap.
const ROOM: usize = DIRECTIONS;

unsafe extern "C" {
    /// The function of crates/exports: a slice is its address, then its length.
    fn tengcuvo_level_set(
        table: *const f32,
        entries: usize,
        levels: *const usize,
        count: usize,
        k: usize,
        work: *mut u16,
        room: usize,
        hues: *mut [u16; 16],
        chroma: *mut [f32; 1],
    ) -> u32;
}

/// The best of a table over a set of levels, by our archive.
fn best(table: &[f32], levels: &[usize], k: usize, work: &mut [u16]) -> Given {
    let mut given = LENT;
    // What is lent lives through the call, and nothing that is written is lent twice.
    given.number = unsafe {
        tengcuvo_level_set(
            table.as_ptr(),
            table.len(),
            levels.as_ptr(),
            levels.len(),
            k,
            work.as_mut_ptr(),
            work.len(),
            &mut given.hues,
            &mut given.chroma,
        )
    };
    given
}

/// Checks that our archive refuses what it must, and that it reads no row that is not named.
pub fn refusals() {
    let table = [40.0; 3 * DIRECTIONS];
    let mut bad = table;
    bad[DIRECTIONS] = f32::NAN;
    for (number, table, levels, k, room) in [
        (1, &table[..], &[0][..], 0, ROOM),
        (1, &bad[1..], &[], 17, 0),
        (6, &table[1..], &[0], 2, ROOM),
        (6, &[], &[], 2, 0),
        (8, &table, &[0], 2, ROOM - 1),
        (8, &bad, &[], 2, ROOM - 1),
        (18, &table, &[], 2, ROOM),
        (18, &bad, &[1, 1, 1, 1, 1, 1, 1, 1, 3], 2, ROOM),
        (11, &table, &[0, 3], 2, ROOM),
        (11, &bad, &[1, 1 << 32], 2, ROOM),
        (11, &table, &[usize::MAX], 2, ROOM),
        (7, &bad, &[0, 1], 2, ROOM),
    ] {
        refused(number, room, |work| best(table, levels, k, work));
    }
    let given = best(&bad, &[0, 2], 1, &mut [0; ROOM]);
    let found = Given::of_best(Some((40.0, vec![0])));
    assert!(given == found, "a row that is not named is read");
}

/// Sets of four levels, of which the first is one of the report's.
fn sets() -> Vec<[usize; 4]> {
    let [a, b, c, d] = FOUR;
    let set = |i: usize| [a + i, b + 2 * i, c - i, d + i];
    (0..SETS).map(set).collect()
}

/// Gives the bests of all sets for one hue count by both sides, and gives the times and how many are
/// found.
fn timed(table: &[f32], gamut: &Gamut, k: usize) -> (Times, usize) {
    let mut work = vec![0; ROOM];
    let (times, given) = compare(
        (&format!("{SETS} sets of levels, k = {k}"), TURNS),
        &sets(),
        |set| best(table, set, k, &mut work),
        |set| best_for_level_set(gamut, set, k, step(k)),
        |_, theirs| Given::of_best(theirs),
    );
    (times, found(&given))
}

/// Gives the bests of all sets for 1 to 8 hues and for sixteen by both sides.
pub fn all(table: &[f32], gamut: &Gamut) {
    let counts = (1..=8).chain([16]);
    let (each, found): (Vec<_>, Vec<_>) = counts.map(|k| timed(table, gamut, k)).unzip();
    let name = format!("{SETS} sets of levels, k = 1 to 8");
    row(&name, &sums(&each[..8]));
    let found: usize = found.iter().sum();
    println!("# all bests over sets are equal bit for bit, {found} of them with a chroma");
}
