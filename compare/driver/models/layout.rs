//! The text of a page by Req 06 of document 02, in Rust's own formatting.

use std::io::{self, Write};

/// How many units a chroma of 1 has; every chroma from 35 to 200 is a whole number of them.
const UNITS: u64 = 1 << 18;

/// A chroma in units, which is exact.
pub fn units(chroma: f32) -> f64 {
    f64::from(chroma) * UNITS as f64
}

/// The whole hundredths of a chroma, and what they leave of a hundred times its units.
pub fn hundredths(chroma: f32) -> [u64; 2] {
    let hundredfold = 100 * units(chroma) as u64;
    [hundredfold / UNITS, hundredfold % UNITS]
}

/// Writes a line of 40 bytes and its newline: a word and a number.
fn write_line(out: &mut impl Write, word: &str, number: u64) -> io::Result<()> {
    writeln!(out, "{word:<10}{number:>30}")
}

/// Writes the page of a job with this hue count, best and hues.
pub fn write_page(
    out: &mut impl Write,
    k: u32,
    best: Option<(f32, u32, u32)>,
    hues: &[u16; 16],
) -> io::Result<()> {
    write_line(out, "hues", k.into())?;
    let Some((chroma, dark, light)) = best else {
        return write_line(out, "none", 0);
    };
    let [whole, rest] = hundredths(chroma);
    write_line(out, "dark", dark.into())?;
    write_line(out, "light", light.into())?;
    write_line(out, "chroma", whole)?;
    write_line(out, "rest", rest)?;
    for hue in &hues[..k as usize] {
        write_line(out, "hue", (*hue).into())?;
    }
    Ok(())
}
