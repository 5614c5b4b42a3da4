//! The gamut table that the bench fills and then uses.

use crate::chroma::{l_of, max_chroma};
use crate::standins::{BAD_DIRECTIONS, BAD_LEVEL, BAD_ROW, DIRECTIONS, LEVELS};
use crate::timing::{in_turns, row, TURNS};

unsafe extern "C" {
    /// The function of crates/exports: a slice is its address, then its length.
    fn tengcuvo_fill_row(
        level: usize,
        cos: *const f32,
        cosines: usize,
        sin: *const f32,
        sines: usize,
        row: *mut f32,
        entries: usize,
    ) -> u32;
}

/// Fills a row by our archive and gives 0, or the number of the refusal.
fn fill_row(level: usize, cos: &[f32], sin: &[f32], row: &mut [f32]) -> u32 {
    // The three slices live through the call, and the row is no part of the other two.
    unsafe {
        tengcuvo_fill_row(
            level,
            cos.as_ptr(),
            cos.len(),
            sin.as_ptr(),
            sin.len(),
            row.as_mut_ptr(),
            row.len(),
        )
    }
}

/// Checks that our archive refuses what it must, and that the row is then as before.
pub fn refusals(cos: &[f32], sin: &[f32]) {
    let (full, cut) = (DIRECTIONS, DIRECTIONS - 1);
    for (number, level, cosines, sines, entries) in [
        (BAD_DIRECTIONS, 0, cut, full, full),
        (BAD_DIRECTIONS, 0, full, cut, full),
        (BAD_ROW, 0, full, full, cut),
        (BAD_LEVEL, LEVELS, full, full, full),
        (BAD_LEVEL, usize::MAX, full, full, full),
    ] {
        let mut row = vec![-1.0; entries];
        let given = fill_row(level, &cos[..cosines], &sin[..sines], &mut row);
        assert!(given == number, "refused by {given} and not {number}");
        assert!(row.iter().all(|v| *v == -1.0), "a refused row is changed");
    }
}

/// Fills a table by our archive.
fn ours(cos: &[f32], sin: &[f32], table: &mut [f32]) {
    for (level, row) in table.chunks_mut(DIRECTIONS).enumerate() {
        let number = fill_row(level, cos, sin, row);
        assert!(number == 0, "level {level} is refused by {number}");
    }
}

/// Fills a table by the published Rust.
fn theirs(cos: &[f32], sin: &[f32], table: &mut [f32]) {
    for (level, row) in table.chunks_mut(DIRECTIONS).enumerate() {
        let l = l_of(level);
        for (j, entry) in row.iter_mut().enumerate() {
            *entry = max_chroma(l, cos[j], sin[j]);
        }
    }
}

/// Fills a table by each side, compares the two, and gives one.
pub fn filled(cos: &[f32], sin: &[f32]) -> Vec<f32> {
    let [mut one, mut other] = [(); 2].map(|()| vec![0f32; LEVELS * DIRECTIONS]);
    let times = in_turns(
        TURNS,
        [
            &mut || {
                one.fill(f32::NAN);
                ours(cos, sin, &mut one);
            },
            &mut || {
                other.fill(f32::NAN);
                theirs(cos, sin, &mut other);
            },
        ],
    );
    let alike = |(a, b): (&f32, &f32)| a.to_bits() == b.to_bits();
    assert!(one.iter().zip(&other).all(alike), "the tables differ");
    row(&format!("{LEVELS} x {DIRECTIONS} entries"), &times);
    println!("# both tables are equal bit for bit");
    one
}

/// The row of a level.
pub fn row_of(table: &[f32], level: usize) -> &[f32] {
    &table[level * DIRECTIONS..][..DIRECTIONS]
}
