//! The bests with one hue fixed that the bench times, over a whole table.

use crate::given::{found, refused, Given, LENT};
use crate::pairing::{best_at_orientation, Gamut};
use crate::search::{expected, GAP};
use crate::standins::DIRECTIONS;
use crate::timing::{compare, FEW_TURNS};

/// How many positions two of the fixed hues lie apart.
const APART: usize = 36;
/// The least gap, and the greatest at which a pair of levels qualifies.
const LEAST_GAP: f32 = 0.0;
const GREATEST_GAP: f32 = 83.0;

unsafe extern "C" {
    /// The function of crates/exports: a slice is its address, then its length.
    fn tengcuvo_orientation(
        gap: f32,
        table: *const f32,
        entries: usize,
        hue: usize,
        hues: *mut [u16; 16],
        levels: *mut [usize; 2],
        chroma: *mut [f32; 1],
    ) -> u32;
}

/// The best of a table with one hue fixed, by our archive.
fn best(table: &[f32], gap: f32, hue: usize) -> Given {
    let mut given = LENT;
    // What is lent lives through the call, and nothing that is written is lent twice.
    given.number = unsafe {
        tengcuvo_orientation(
            gap,
            table.as_ptr(),
            table.len(),
            hue,
            &mut given.hues,
            &mut given.levels,
            &mut given.chroma,
        )
    };
    given
}

/// Checks that our archive refuses what it must.
pub fn refusals() {
    let table = [40.0; 3 * DIRECTIONS];
    let mut bad = table;
    bad[table.len() - 1] = f32::NAN;
    for (number, table, gap, hue) in [
        (2, &table[..], f32::NAN, 0),
        (2, &table, -0.0, 0),
        (2, &table, 84.00001, 0),
        (2, &bad[1..], 85.0, 720),
        (6, &table[1..], GAP, 0),
        (6, &[], GAP, 720),
        (6, &bad[1..], GAP, 720),
        (7, &bad, GAP, 0),
        (7, &bad, GAP, 720),
        (12, &table, GAP, 720),
        (12, &table, GAP, 65_536),
        (12, &table, GAP, 1 << 32),
        (12, &table, GAP, usize::MAX),
    ] {
        refused(number, 0, |_| best(table, gap, hue));
    }
}

/// Gives the bests with all hues at three gaps by both sides.
pub fn all(table: &[f32], gamut: &Gamut) {
    let hues: Vec<usize> = (0..DIRECTIONS).step_by(APART).collect();
    let mut count = 0;
    for gap in [GAP, LEAST_GAP, GREATEST_GAP] {
        let (_, given) = compare(
            (&format!("{} hues fixed, gap {gap}", hues.len()), FEW_TURNS),
            &hues,
            |hue| best(table, gap, *hue),
            // A hue is half as many degrees, which is exact.
            |hue| best_at_orientation(gamut, *hue as f32 * 0.5, gap),
            |_, theirs| expected(theirs),
        );
        count += found(&given);
    }
    println!("# all bests with one hue fixed are equal bit for bit, {count} of them with a chroma");
}
