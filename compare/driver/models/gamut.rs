//! The lines of a list of gamut cases: rows, entries, chromas found and lightnesses.

use crate::chroma::{l_of, max_chroma};
use crate::models::directions::Directed;
use crate::standins::{takes_directions, BAD_DIRECTIONS, BAD_LEVEL, BAD_ROW, DIRECTIONS, LEVELS};
use crate::words::{digest, word};
use std::io;

/// What one row is lent in place of all directions and of 720 entries.
#[derive(Default)]
pub struct Lent {
    /// A component: among the cosines (0) or sines (1), at this place, this one.
    pub bad: Option<(usize, usize, f32)>,
    /// How many cosines and sines.
    pub lengths: Option<(usize, usize)>,
    /// How many entries.
    pub size: Option<usize>,
}

/// Fills a row and gives 0, or the number of the refusal.
fn fill_row(level: u32, cos: &[f32], sin: &[f32], row: &mut [f32]) -> u32 {
    if !takes_directions(cos, sin) {
        return BAD_DIRECTIONS;
    }
    if row.len() != DIRECTIONS {
        return BAD_ROW;
    }
    if level as usize >= LEVELS {
        return BAD_LEVEL;
    }
    for (j, entry) in row.iter_mut().enumerate() {
        *entry = max_chroma(l_of(level as usize), cos[j], sin[j]);
    }
    0
}

impl Directed<'_> {
    /// Writes one row with all directions and 720 entries.
    pub fn row(&mut self, level: u32) -> io::Result<()> {
        self.row_lent(level, Lent::default())
    }

    /// Writes one row with what it is lent, over entries that stand for their places.
    pub fn row_lent(&mut self, level: u32, lent: Lent) -> io::Result<()> {
        let mut kept = None;
        if let Some((which, j, v)) = lent.bad {
            kept = Some((which, j, self.bad(which, j, v)?));
        }
        if let Some((c, s)) = lent.lengths {
            self.lengths(c, s)?;
        }
        if let Some(size) = lent.size {
            self.files.set("size", &[size as u32])?;
        }
        let answer = self.row_answer(level, &lent);
        if let Some((which, j, v)) = kept {
            self.component(which, j, v);
        }
        self.files.case("row", &[level], &answer)
    }

    /// What comes out of a row with these lengths, over entries that stand for their places: the number
    /// of its refusal or 0, and the digest of the row after it.
    fn row_answer(&self, level: u32, lent: &Lent) -> [u32; 3] {
        let (c, s) = lent.lengths.unwrap_or((DIRECTIONS, DIRECTIONS));
        let places = 0..lent.size.unwrap_or(DIRECTIONS) as u32;
        let mut row: Vec<f32> = places.map(|i| f32::from_bits(0x3f80_0000 + i)).collect();
        let number = fill_row(level, &self.cos[..c], &self.sin[..s], &mut row);
        let [high, low] = digest(row.iter().flat_map(|entry| entry.to_bits().to_le_bytes()));
        [number, high, low]
    }

    /// Writes the entry of one level and direction.
    pub fn entry(&mut self, level: u32, j: usize) -> io::Result<()> {
        let entry = max_chroma(l_of(level as usize), self.cos[j], self.sin[j]);
        self.files.case("ent", &[level, j as u32], &[word(entry)])
    }

    /// Writes the chroma found at a lightness in a direction.
    pub fn max_chroma(&mut self, l: f32, cos: f32, sin: f32) -> io::Result<()> {
        let found = max_chroma(l, cos, sin);
        self.files
            .case("maxc", &[l, cos, sin].map(word), &[word(found)])
    }

    /// Writes the lightness of a level.
    pub fn lightness(&mut self, level: u16) -> io::Result<()> {
        self.files
            .case("lof", &[level.into()], &[word(l_of(level.into()))])
    }
}
