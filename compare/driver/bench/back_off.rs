//! The back-offs that the bench times, of the designs that the published search finds.

use crate::chroma::l_of;
use crate::color::Srgb8;
use crate::deriving::{self, solution, Solution};
use crate::findings::finding;
use crate::pairing::{self, Gamut};
use crate::search::{self, GAP};
use crate::standins::{tables, BAD_DIRECTIONS, BAD_LEVEL, DIRECTIONS, LEVELS};
use crate::timing::{compare, row, sums, Times, FEW_TURNS};

/// The greatest hue count for which a table has a palette.
const HUES: usize = 6;
/// The greatest hue count for which back-offs begin at the greatest chroma too.
const FEW_HUES: usize = 2;
/// The greatest chroma that is taken.
const MOST: f32 = 200.0;
/// How many levels the light one is moved, so that its lightness is 39 above the dark one's and no
/// chroma passes.
const NEARER: usize = 4;
/// What each colour and the chroma are before a back-off.
const BEFORE_COLOR: u32 = 0x47_1147;
const BEFORE_CHROMA: f32 = 47.11;
/// What our archive gives where no chroma passes, but for the last finding.
const NONE_PASSES: u32 = 240;

unsafe extern "C" {
    /// The function of crates/exports: a slice is its address, then its length.
    fn tengcuvo_back_off(
        k: usize,
        dark: usize,
        light: usize,
        hues: *const [u16; 16],
        chroma: f32,
        cos: *const f32,
        cosines: usize,
        sin: *const f32,
        sines: usize,
        colors: *mut [u32; 32],
        passed: *mut [f32; 1],
    ) -> u32;
}

/// A back-off to be made: for how many hues, of which levels and hues, from which chroma.
#[derive(Clone, Copy)]
struct Asked {
    k: usize,
    levels: [usize; 2],
    hues: [u16; 16],
    chroma: f32,
}

impl Asked {
    /// The published form: lightnesses, and hues in degrees.
    fn solution(&self) -> Solution {
        let hues = self.hues.iter().take(self.k);
        let degrees = hues.map(|j| f32::from(*j) * 0.5).collect();
        solution(self.chroma, self.levels.map(l_of), degrees)
    }
}

/// What a back-off gives: the number, the colours, and the bits of the chroma.
type BackedOff = (u32, [u32; 32], u32);

/// Backs off by our archive.
fn back_off(asked: &Asked, cos: &[f32], sin: &[f32]) -> BackedOff {
    let mut colors = [BEFORE_COLOR; 32];
    let mut passed = [BEFORE_CHROMA];
    // What is lent lives through the call, and nothing that is written is lent twice.
    let number = unsafe {
        tengcuvo_back_off(
            asked.k,
            asked.levels[0],
            asked.levels[1],
            &asked.hues,
            asked.chroma,
            cos.as_ptr(),
            cos.len(),
            sin.as_ptr(),
            sin.len(),
            &mut colors,
            &mut passed,
        )
    };
    (number, colors, passed[0].to_bits())
}

/// Checks that our archive refuses what it must, with all that it is lent to write then as before,
/// and that it tries no chroma below 35.
pub fn refusals(cos: &[f32], sin: &[f32]) {
    let (full, cut) = (DIRECTIONS, DIRECTIONS - 1);
    for (number, k, light, hue, chroma, cosines, sines) in [
        (1, 0, 132, 0, 40.0, full, full),
        (1, 17, 132, 0, 40.0, full, full),
        (3, 2, 132, 0, f32::NAN, full, full),
        (3, 2, 132, 0, -0.0, full, full),
        (BAD_DIRECTIONS, 2, 132, 0, 40.0, cut, full),
        (BAD_DIRECTIONS, 2, 132, 0, 40.0, full, cut),
        (BAD_LEVEL, 2, LEVELS, 0, 40.0, full, full),
        (BAD_LEVEL, 2, usize::MAX, 0, 40.0, full, full),
        (12, 2, 132, 720, 40.0, full, full),
        (NONE_PASSES, 2, 132, 0, 34.9, full, full),
    ] {
        let asked = Asked {
            k,
            levels: [40, light],
            hues: [hue; 16],
            chroma,
        };
        let given = back_off(&asked, &cos[..cosines], &sin[..sines]);
        let written = number == NONE_PASSES;
        let color = if written { 0 } else { BEFORE_COLOR };
        let expected = (number, [color; 32], BEFORE_CHROMA.to_bits());
        assert!(given == expected, "a back-off does not give {number}");
    }
}

/// What our archive must give where the published back-off gives this.
fn expected(theirs: Result<(Solution, Vec<Srgb8>), &str>) -> BackedOff {
    let mut all = [0; 32];
    match theirs {
        Ok((solution, colors)) => {
            for (color, to) in colors.iter().zip(&mut all) {
                *to = color.to_hex();
            }
            (0, all, deriving::chroma(&solution).to_bits())
        }
        Err(text) => (NONE_PASSES + finding(text), all, BEFORE_CHROMA.to_bits()),
    }
}

/// Back-offs of what the published search finds for one hue count: from the chroma found, and for
/// a few hues from the greatest.
fn found(gamut: &Gamut, k: usize) -> Vec<Asked> {
    let given = search::expected(pairing::search(gamut, k, GAP));
    assert!(given.is_found(), "no palette for {k} hues");
    let from = |chroma: f32| Asked {
        k,
        levels: given.levels,
        hues: given.hues,
        chroma,
    };
    let mut asked = vec![from(given.chroma[0])];
    if k <= FEW_HUES {
        asked.push(from(MOST));
    }
    asked
}

/// Makes back-offs by both sides, of which all pass or none, and gives the times.
fn timed(name: &str, asked: &[Asked], pass: bool, cos: &[f32], sin: &[f32]) -> Times {
    let both: Vec<_> = asked.iter().map(|a| (a, a.solution())).collect();
    let (times, given) = compare(
        (name, FEW_TURNS),
        &both,
        |(asked, _)| back_off(asked, cos, sin),
        |(_, solution)| deriving::back_off(solution, cos, sin),
        |_, theirs| expected(theirs),
    );
    let ends = given.iter().all(|(number, ..)| (*number == 0) == pass);
    assert!(ends, "a back-off ends otherwise");
    times
}

/// Makes all back-offs by both sides: those that pass, then those of levels too near each other.
pub fn all(gamut: &Gamut, cos: &[f32], sin: &[f32]) {
    // The constants of the transfer functions are worked out before the first turn.
    tables();
    let mut found: Vec<_> = (1..=HUES).map(|k| found(gamut, k)).collect();
    let passing = found.concat();
    let name = format!("{} back-offs that pass", passing.len());
    timed(&name, &passing, true, cos, sin);
    let mut each = vec![];
    for asked in &mut found {
        asked.iter_mut().for_each(|a| a.levels[1] -= NEARER);
        let name = format!("back-offs to a finding, k = {}", asked[0].k);
        each.push(timed(&name, asked, false, cos, sin));
    }
    let name = format!("back-offs to a finding, k = 1 to {HUES}");
    row(&name, &sums(&each));
    println!("# all back-offs are equal bit for bit");
}
