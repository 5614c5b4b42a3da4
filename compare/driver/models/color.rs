//! The cases of the colour list, each an operation whose result turns on its words and the directions.

use crate::color::{self, Lab, Linear, Srgb8};
use crate::models::directions::Directed;
use crate::standins;
use crate::words::{word, words};
use std::io;

/// The operations.
pub const OPERATIONS: [&str; 18] = [
    "sqrt", "cbrt", "labf", "labfinv", "s2l", "l2s", "l2x", "x2l", "x2lab", "lab2x", "l2lab",
    "lab2l", "s2lab", "clamp", "gamut", "chroma", "hue", "clip",
];

/// The words of a refusable result: the number, then the value or 0.
fn refusable(result: Result<f32, u32>) -> Vec<u32> {
    match result {
        Ok(v) => vec![0, word(v)],
        Err(number) => vec![number, 0],
    }
}

/// The output words of an operation, as the patched colour file gives them.
fn answer(operation: &str, input: &[u32], cos: &[f32], sin: &[f32]) -> Vec<u32> {
    let float = |i: usize| f32::from_bits(input[i]);
    let byte = |i: usize| u8::try_from(input[i]).expect("a code");
    let code = || Srgb8::new(byte(0), byte(1), byte(2));
    let linear = || Linear::new(float(0), float(1), float(2));
    let lab = || Lab::new(float(0), float(1), float(2));
    let xyz = || [float(0), float(1), float(2)];
    let of_code = |c: Srgb8| vec![c.r.into(), c.g.into(), c.b.into()];
    let of_xyz = |v: [f32; 3]| v.map(word).to_vec();
    let of_linear = |c: Linear| of_xyz([c.r, c.g, c.b]);
    let of_lab = |c: Lab| of_xyz([c.l, c.a, c.b]);
    match operation {
        "sqrt" => refusable(standins::root_asked(float(0), 2)),
        "cbrt" => refusable(standins::root_asked(float(0), 3)),
        "labf" => vec![word(color::lab_f(float(0)))],
        "labfinv" => vec![word(color::lab_f_inv(float(0)))],
        "s2l" => of_linear(color::srgb8_to_linear(code())),
        "l2s" => of_code(color::linear_to_srgb8(linear())),
        "l2x" => of_xyz(color::linear_to_xyz(linear())),
        "x2l" => of_linear(color::xyz_to_linear(xyz())),
        "x2lab" => of_lab(color::xyz_to_lab(xyz())),
        "lab2x" => of_xyz(color::lab_to_xyz(lab())),
        "l2lab" => of_lab(color::linear_to_lab(linear())),
        "lab2l" => of_linear(color::lab_to_linear(lab())),
        "s2lab" => of_lab(color::srgb8_to_lab(code())),
        "clamp" => of_linear(linear().clamped()),
        "gamut" => vec![linear().in_gamut().into()],
        "chroma" => vec![word(lab().chroma())],
        "hue" => refusable(lab().hue_deg(cos, sin)),
        "clip" => {
            let (c, chroma) =
                color::lch_to_srgb8_gamut_clipped(float(0), float(1), float(2), float(3));
            [of_code(c), vec![word(chroma)]].concat()
        }
        _ => unreachable!("no operation {operation}"),
    }
}

impl Directed<'_> {
    /// Writes one case of an operation over floats.
    pub fn floats(&mut self, operation: &str, input: &[f32]) -> io::Result<()> {
        self.over(operation, &words(input))
    }

    /// Writes one case of an operation over words.
    pub fn over(&mut self, operation: &str, input: &[u32]) -> io::Result<()> {
        let output = answer(operation, input, &self.cos, &self.sin);
        self.files.case(operation, input, &output)
    }

    /// Writes one hue with a component replaced: a cosine (which = 0) or a sine (1).
    pub fn hue_bad(&mut self, which: usize, j: usize, v: f32, lab: [f32; 3]) -> io::Result<()> {
        let kept = self.bad(which, j, v)?;
        self.floats("hue", &lab)?;
        self.component(which, j, kept);
        Ok(())
    }

    /// Writes one hue with only the first c cosines and the first s sines.
    pub fn hue_len(&mut self, c: usize, s: usize, lab: [f32; 3]) -> io::Result<()> {
        self.lengths(c, s)?;
        let input = lab.map(word);
        let output = answer("hue", &input, &self.cos[..c], &self.sin[..s]);
        self.files.case("hue", &input, &output)
    }
}
