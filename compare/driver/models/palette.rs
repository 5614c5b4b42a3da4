//! The lines of a list of palette cases: a design, colours, and derivations, validations and
//! back-offs over them.

use crate::chroma::l_of;
use crate::color::Srgb8;
use crate::deriving;
use crate::files::Files;
use crate::models::directions::Directed;
use crate::models::findings::finding;
use crate::models::placement::takes;
use crate::standins::{takes_directions, BAD_DIRECTIONS, BAD_LEVEL, DIRECTIONS, LEVELS};
use crate::validating::{Palette, PaletteMetrics};
use crate::words::word;
use std::io;

/// Refusals: the hue count, the chroma, a hue index, the colour count.
const BAD_HUE_COUNT: u32 = 1;
const BAD_CHROMA: u32 = 3;
const BAD_HUE: u32 = 12;
const BAD_COLORS: u32 = 13;
/// How many colours a call is lent or hands out.
pub const COLORS: usize = 32;
/// No light at all.
pub const BLACK: Srgb8 = Srgb8::new(0, 0, 0);

/// What a palette is derived from, but for its chroma: a hue count, the dark and the light
/// level index, and the hue indices.
#[derive(Clone, Copy, PartialEq)]
pub struct Design {
    pub k: u32,
    pub levels: [u32; 2],
    pub hues: [u16; 16],
}

/// What the next case is lent in place of all directions.
#[derive(Clone, Copy, Default)]
pub struct Lent {
    /// A component: among the cosines (0) or sines (1), at this place, this one.
    pub bad: Option<(usize, usize, f32)>,
    /// How many cosines and sines; those after the 720th are 0.
    pub lengths: Option<(usize, usize)>,
}

/// Cosines and sines.
type Directions = (Vec<f32>, Vec<f32>);

/// What a derivation gives: colours, or the number of its refusal.
type Derived = Result<Vec<Srgb8>, u32>;

/// What a validation gives: the metrics and the finding, 0 where there is none, or the number of
/// its refusal.
type Judged = Result<([f32; 4], u32), u32>;

/// What a back-off gives: a chroma with its colours or the last finding, or the number of its
/// refusal.
type BackedOff = Result<Result<(f32, Vec<Srgb8>), u32>, u32>;

/// The words for 32 colours, zeros after the given ones.
fn color_words(colors: &[Srgb8]) -> Vec<u32> {
    let mut words: Vec<u32> = colors.iter().map(|c| c.to_hex()).collect();
    words.resize(COLORS, 0);
    words
}

/// The words of a derivation: the number of its refusal or 0, and 32 colours.
fn derived_words(derived: &Derived) -> Vec<u32> {
    match derived {
        Ok(colors) => [vec![0], color_words(colors)].concat(),
        Err(number) => [vec![*number], color_words(&[])].concat(),
    }
}

/// The words of a validation: 0, the four metrics and the finding, or the number of its refusal.
fn judged_words(judged: &Judged) -> Vec<u32> {
    match judged {
        Ok((metrics, finding)) => [&[0][..], &metrics.map(word), &[*finding]].concat(),
        Err(number) => vec![*number],
    }
}

/// The words of a back-off: the number of its refusal or 0, whether a chroma passed, that chroma or
/// the last finding, and 32 colours.
fn backed_off_words(end: &BackedOff) -> Vec<u32> {
    let (first, colors) = match end {
        Ok(Ok((passed, colors))) => ([0, 1, word(*passed)], &colors[..]),
        Ok(Err(finding)) => ([0, 0, *finding], &[][..]),
        Err(number) => ([*number, 0, 0], &[][..]),
    };
    [first.to_vec(), color_words(colors)].concat()
}

/// The number of the first fault.
fn first(asked: &[(u32, bool)]) -> Option<u32> {
    let wrong = asked.iter().find(|(_, fine)| !fine);
    wrong.map(|(number, _)| *number)
}

/// The number of the first refusal of a derivation or a back-off.
fn design_refusal(design: &Design, chroma: f32, (cos, sin): &Directions) -> Option<u32> {
    let mut levels = design.levels.iter();
    let mut hues = design.hues.iter().take(design.k as usize);
    first(&[
        (BAD_HUE_COUNT, (1..=16).contains(&design.k)),
        (BAD_CHROMA, takes(chroma)),
        (BAD_DIRECTIONS, takes_directions(cos, sin)),
        (BAD_LEVEL, levels.all(|i| (*i as usize) < LEVELS)),
        (BAD_HUE, hues.all(|j| usize::from(*j) < DIRECTIONS)),
    ])
}

/// The number of the first refusal of a validation.
fn palette_refusal(k: u32, count: u32, (cos, sin): &Directions) -> Option<u32> {
    first(&[
        (BAD_HUE_COUNT, (1..=16).contains(&k)),
        (BAD_DIRECTIONS, takes_directions(cos, sin)),
        (BAD_COLORS, u64::from(count) == 2 * u64::from(k)),
    ])
}

/// The four metrics of a palette and its finding, 0 where it has none.
fn judged(k: usize, colors: &[Srgb8], cos: &[f32], sin: &[f32]) -> ([f32; 4], u32) {
    let four = |m: PaletteMetrics| {
        let light = [m.inter_level_gap, m.intra_level_spread];
        [light[0], light[1], m.min_hue_sep, m.min_chroma]
    };
    let palette = Palette::new(k, colors);
    let metrics = four(palette.measured(cos, sin));
    match palette.validate(cos, sin).map(four) {
        Ok(again) => {
            assert!(again.map(word) == metrics.map(word), "other metrics");
            (metrics, 0)
        }
        Err(text) => (metrics, finding(text)),
    }
}

/// The published form of a design at a chroma: hues in degrees, lightnesses.
fn solution(design: &Design, chroma: f32) -> deriving::Solution {
    let levels = design.levels.map(|level| l_of(level as usize));
    let hues = design.hues.iter().take(design.k as usize);
    let degrees = hues.map(|j| f32::from(*j) * 0.5).collect();
    deriving::solution(chroma, levels, degrees)
}

/// How many answers of each kind a list holds.
#[derive(Default)]
struct Tally {
    derived: u64,
    measured: [u64; 5],
    at_once: u64,
    lowered: u64,
    ended: [u64; 5],
    refused: [u64; 3],
}

/// A list of palette cases being written.
pub struct Palettes<'a> {
    pub list: Directed<'a>,
    /// The colours that the next validation is of, and those that the last line set.
    colors: [Srgb8; COLORS],
    written: [Srgb8; COLORS],
    design: Option<Design>,
    lent: Lent,
    tally: Tally,
}

impl Palettes<'_> {
    /// Begins a list: its head and the directions.
    pub fn begin(files: &mut Files) -> io::Result<Palettes<'_>> {
        let sources = "crates/lcr-core/src/palette.rs and xtask/src/palette.rs";
        Ok(Palettes {
            list: Directed::begin(files, "Palette", sources)?,
            colors: [BLACK; COLORS],
            written: [BLACK; COLORS],
            design: None,
            lent: Lent::default(),
            tally: Tally::default(),
        })
    }

    /// The 32 colours.
    pub fn colors(&self) -> [Srgb8; COLORS] {
        self.colors
    }

    /// The finding of 2k colours in all directions, 0 where there is none.
    pub fn finding(&self, colors: &[Srgb8]) -> u32 {
        let (cos, sin) = (&self.list.cos, &self.list.sin);
        judged(colors.len() / 2, colors, cos, sin).1
    }

    /// Sets the colours: these, and zeros after them.
    pub fn paint(&mut self, colors: &[Srgb8]) {
        self.colors = [BLACK; COLORS];
        self.more(0, colors);
    }

    /// Sets colours from a place on.
    pub fn more(&mut self, at: usize, colors: &[Srgb8]) {
        self.colors[at..at + colors.len()].copy_from_slice(colors);
    }

    /// Writes the line that sets the colours, unless they are set already.
    fn write_colors(&mut self) -> io::Result<()> {
        if self.written == self.colors {
            return Ok(());
        }
        self.written = self.colors;
        let last = self.colors.iter().rposition(|c| *c != BLACK);
        let shown = &color_words(&self.colors)[..last.map_or(1, |last| last + 1)];
        self.list.files.set("colors", shown)
    }

    /// Sets the design.
    pub fn plan(&mut self, design: Design) -> io::Result<()> {
        if self.design == Some(design) {
            return Ok(());
        }
        self.design = Some(design);
        let last = design.hues.iter().rposition(|j| *j != 0);
        let shown = &design.hues[..last.map_or(0, |last| last + 1)];
        let mut words = vec![design.k, design.levels[0], design.levels[1]];
        words.extend(shown.iter().map(|j| u32::from(*j)));
        self.list.files.set("design", &words)
    }

    /// Has the next case be lent other directions.
    pub fn lend(&mut self, lent: Lent) {
        self.lent = lent;
    }

    /// The directions that the next case is lent.
    fn directions(&self) -> Directions {
        let mut both = [self.list.cos.clone(), self.list.sin.clone()];
        if let Some((which, j, v)) = self.lent.bad {
            both[which][j] = v;
        }
        let [mut cos, mut sin] = both;
        if let Some((c, s)) = self.lent.lengths {
            cos.resize(c, 0.0);
            sin.resize(s, 0.0);
        }
        (cos, sin)
    }

    /// Writes a case, after the lines for what it is lent.
    fn case(&mut self, operation: &str, words: &[u32], answer: &[u32]) -> io::Result<()> {
        let lent = std::mem::take(&mut self.lent);
        if let Some((which, j, v)) = lent.bad {
            let words = [which as u32, j as u32, word(v)];
            self.list.files.set("bad", &words)?;
        }
        if let Some((c, s)) = lent.lengths {
            self.list.lengths(c, s)?;
        }
        self.list.files.case(operation, words, answer)
    }

    /// What a derivation of the design gives.
    fn derived(&self, chroma: f32) -> Derived {
        let design = self.design.expect("a design");
        let directions = self.directions();
        if let Some(number) = design_refusal(&design, chroma, &directions) {
            return Err(number);
        }
        let (cos, sin) = &directions;
        Ok(deriving::derive(&solution(&design, chroma), cos, sin))
    }

    /// Writes a derivation of the design; the colours are the derived ones afterwards.
    pub fn derive(&mut self, chroma: f32) -> io::Result<()> {
        let derived = self.derived(chroma);
        match &derived {
            Ok(colors) => {
                self.tally.derived += 1;
                self.paint(colors);
            }
            Err(_) => self.tally.refused[0] += 1,
        }
        self.case("derive", &[word(chroma)], &derived_words(&derived))
    }

    /// What a validation of the colours gives.
    fn judged(&self, k: u32, count: u32) -> Judged {
        let directions = self.directions();
        if let Some(number) = palette_refusal(k, count, &directions) {
            return Err(number);
        }
        let (cos, sin) = &directions;
        Ok(judged(k as usize, &self.colors[..count as usize], cos, sin))
    }

    /// Writes a validation of the colours.
    pub fn validate(&mut self, k: u32, count: u32) -> io::Result<()> {
        let judged = self.judged(k, count);
        match judged {
            Ok((_, finding)) => self.tally.measured[finding as usize] += 1,
            Err(_) => self.tally.refused[1] += 1,
        }
        self.write_colors()?;
        self.case("validate", &[k, count], &judged_words(&judged))
    }

    /// What a back-off of the design gives.
    fn backed_off(&self, chroma: f32) -> BackedOff {
        let design = self.design.expect("a design");
        let directions = self.directions();
        if let Some(number) = design_refusal(&design, chroma, &directions) {
            return Err(number);
        }
        let (cos, sin) = &directions;
        Ok(
            match deriving::back_off(&solution(&design, chroma), cos, sin) {
                Ok((found, colors)) => Ok((deriving::chroma(&found), colors)),
                Err(text) => Err(finding(text)),
            },
        )
    }

    /// Writes a back-off of the design; the colours are those handed out where there are any.
    pub fn back_off(&mut self, chroma: f32) -> io::Result<()> {
        let end = self.backed_off(chroma);
        match &end {
            Ok(Ok((passed, colors))) => {
                self.tally.at_once += u64::from(*passed == chroma);
                self.tally.lowered += u64::from(*passed != chroma);
                self.paint(colors);
            }
            Ok(Err(finding)) => self.tally.ended[*finding as usize] += 1,
            Err(_) => self.tally.refused[2] += 1,
        }
        self.case("backoff", &[word(chroma)], &backed_off_words(&end))
    }

    /// Ends the list with how many answers of each kind it holds.
    pub fn end(&mut self) -> io::Result<()> {
        let t = &self.tally;
        let [none, gap, spread, separation, chroma] = t.measured;
        let [untried, gaps, spreads, separations, chromas] = t.ended;
        let lines = [
            format!(
                "Derivations: {} derived, {} refused.",
                t.derived, t.refused[0]
            ),
            format!(
                "Validations: {none} without a finding, {gap} gap, {spread} spread, {separation} separation, {chroma} chroma, {} refused.",
                t.refused[1]
            ),
            format!(
                "Back-offs: {} passed at once, {} lower, {gaps} gap, {spreads} spread, {separations} separation, {chromas} chroma, {untried} untried, {} refused.",
                t.at_once, t.lowered, t.refused[2]
            ),
        ];
        lines
            .iter()
            .try_for_each(|text| self.list.files.comment(text))
    }
}
