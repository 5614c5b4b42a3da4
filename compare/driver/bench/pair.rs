//! The pairs of rows that the bench times.

use crate::given::{found, refused, Given, LENT};
use crate::pairing::{best_for_levels, Gamut};
use crate::placement::Asked;
use crate::placing::step;
use crate::standins::{DIRECTIONS, LEVELS};
use crate::table::row_of;
use crate::timing::{compare, TURNS};

/// The floor of each pair.
pub const FLOOR: f32 = 35.0;
/// How many levels the two of a pair lie apart at least: 41 units of lightness.
pub const APART: usize = 82;

unsafe extern "C" {
    /// The function of crates/exports: a slice is its address, then its length.
    fn tengcuvo_best(
        a: *const f32,
        entries_a: usize,
        b: *const f32,
        entries_b: usize,
        k: usize,
        step: usize,
        floor: f32,
        work: *mut u16,
        room: usize,
        hues: *mut [u16; 16],
        tightest: *mut [usize; 1],
        chroma: *mut [f32; 1],
    ) -> u32;
}

/// Searches a pair of rows by our archive.
pub fn best([a, b]: [&[f32]; 2], asked: &Asked, work: &mut [u16]) -> Given {
    let mut given = LENT;
    // What is lent lives through the call, and nothing that is written is lent twice.
    given.number = unsafe {
        tengcuvo_best(
            a.as_ptr(),
            a.len(),
            b.as_ptr(),
            b.len(),
            asked.k,
            asked.step,
            asked.c,
            work.as_mut_ptr(),
            work.len(),
            &mut given.hues,
            &mut given.tightest,
            &mut given.chroma,
        )
    };
    given
}

/// Checks that our archive refuses what it must.
pub fn refusals() {
    let (row, bad) = ([40.0; 8], [f32::NAN; 8]);
    for (number, a, b, k, step, c, room) in [
        (1, &row[..], &row[..], 17, 2, FLOOR, 8),
        (3, &row, &row, 2, 2, -0.0, 8),
        (4, &row, &row[..7], 2, 2, FLOOR, 8),
        (4, &row[..0], &row[..0], 2, 2, FLOOR, 8),
        (5, &row, &row, 2, usize::MAX, FLOOR, 8),
        (7, &bad, &row, 2, 2, FLOOR, 8),
        (7, &row, &bad, 2, 2, FLOOR, 8),
        (8, &row, &row, 2, 2, FLOOR, 7),
    ] {
        let asked = Asked { k, step, c };
        refused(number, room, |work| best([a, b], &asked, work));
    }
}

/// Pairs of levels that lie far enough apart, for 1 to 8 hues with their step.
fn questions() -> Vec<([usize; 2], Asked)> {
    let mut questions = vec![];
    for dark in (0..LEVELS - APART).step_by(6) {
        for light in (dark + APART..LEVELS).step_by(6) {
            questions.extend((1..=8).map(|k| {
                let (step, c) = (step(k), FLOOR);
                ([dark, light], Asked { k, step, c })
            }));
        }
    }
    questions
}

/// Searches all pairs by both sides.
pub fn all(table: &[f32], gamut: &Gamut) {
    let questions = questions();
    let mut work = vec![0; DIRECTIONS];
    let (_, given) = compare(
        (&format!("{} pairs of rows", questions.len()), TURNS),
        &questions,
        |(pair, asked)| best(pair.map(|level| row_of(table, level)), asked, &mut work),
        |([dark, light], a)| best_for_levels(gamut, *dark, *light, a.k, a.step, a.c),
        |(_, asked), theirs| Given::of_best(theirs).with_gap(asked.k),
    );
    let found = found(&given);
    println!("# all pairs are equal bit for bit, {found} of them with a chroma");
}
