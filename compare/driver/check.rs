//! Checks of the stand-ins themselves; a failed one stops the driver.

use crate::big::Big;
use crate::color::{self, Lab, Linear, Srgb8};
use crate::published;
use crate::random::Random;
use crate::standins::{self, parts, tables};
use std::cmp::Ordering;
use std::io::{self, Write};

/// Runs every check and writes a line for each.
pub fn all(out: &mut dyn Write) -> io::Result<()> {
    square_roots(out)?;
    cube_roots(out)?;
    codes(out)?;
    clamp(out)?;
    near_the_library(out)
}

/// Compares the square root with the library's, which is exact, on random operands.
fn square_roots(out: &mut dyn Write) -> io::Result<()> {
    let mut random = Random(2);
    let count = 10_000_000;
    for i in 0..count {
        // Every eighth operand is subnormal.
        let x = f32::from_bits(random.bits() >> if i % 8 == 0 { 9 } else { 1 });
        let (ours, library) = (standins::sqrt(x), x.sqrt());
        assert!(
            ours.to_bits() == library.to_bits() || x.is_nan(),
            "sqrt of {x:e}"
        );
    }
    writeln!(out, "sqrt: {count} operands, all as the library's")
}

/// Compares the cube of quarters / 4 * 2^power with x, both scaled to whole numbers.
fn cube_against(quarters: u32, power: i32, x: f32) -> Ordering {
    let cube = Big::new(1).times_power(quarters, 3);
    let (whole, x_power) = parts(x.to_bits());
    let cube = cube.shifted((3 * (power - 2) + 400) as u32);
    cube.compare(&Big::new(whole).shifted((x_power + 400) as u32))
}

/// Checks cube roots by the cubes of the two half way marks beside them.
fn cube_roots(out: &mut dyn Write) -> io::Result<()> {
    let mut random = Random(3);
    let (count, mut other) = (100_000, 0);
    for i in 0..count {
        let x = f32::from_bits(random.bits() >> if i % 8 == 0 { 9 } else { 1 });
        if !x.is_finite() || x == 0.0 {
            continue;
        }
        let root = standins::cbrt(x);
        let (whole, power) = parts(root.to_bits());
        // Below a power of two the numbers lie twice as near.
        let down = if whole == 0x80_0000 { 1 } else { 2 };
        assert!(
            cube_against(4 * whole - down, power, x) == Ordering::Less,
            "cbrt of {x:e}"
        );
        assert!(
            cube_against(4 * whole + 2, power, x) == Ordering::Greater,
            "cbrt of {x:e}"
        );
        other += u32::from(root != x.cbrt());
    }
    writeln!(
        out,
        "cbrt: {count} operands, all nearest; the library's differs on {other}"
    )
}

/// Checks that encoding undoes decoding and that both tables rise.
fn codes(out: &mut dyn Write) -> io::Result<()> {
    for n in 0..=255 {
        assert!(standins::encode(standins::decode(n)) == n, "code {n}");
    }
    assert!(tables().decode.windows(2).all(|w| w[0] < w[1]));
    assert!(tables().thresholds.windows(2).all(|w| w[0] < w[1]));
    assert!(tables().decode[255] == 1.0);
    writeln!(out, "codes: all 256 come back, both tables rise")
}

/// Checks that this compiler's clamp keeps minus zero and NaN, which the lists lean on.
fn clamp(out: &mut dyn Write) -> io::Result<()> {
    let odd = std::hint::black_box(Linear::new(-0.0, f32::NAN, -1.0)).clamped();
    assert!(odd.r.to_bits() == 0x8000_0000 && odd.g.is_nan() && odd.b.to_bits() == 0);
    writeln!(out, "clamp: keeps minus zero and NaN")
}

/// Compares the patched file with the published one over the library's functions.
fn near_the_library(out: &mut dyn Write) -> io::Result<()> {
    let mut random = Random(4);
    let (cos, sin) = standins::directions();
    let count = 1_000_000;
    let (mut decode, mut lab, mut chroma, mut hue, mut clipped) = (0f32, 0f32, 0f32, 0f32, 0f32);
    let (mut code, mut code_off, mut clip_code, mut clip_code_off) = (0u8, 0, 0u8, 0);
    let apart = |c: Srgb8, d: published::Srgb8| {
        (c.r.abs_diff(d.r))
            .max(c.g.abs_diff(d.g))
            .max(c.b.abs_diff(d.b))
    };
    for _ in 0..count {
        let [r, g, b] = [(); 3].map(|()| (random.bits() >> 24) as u8);
        let ours = color::srgb8_to_linear(Srgb8::new(r, g, b));
        let theirs = published::srgb8_to_linear(published::Srgb8::new(r, g, b));
        decode = decode.max((ours.r - theirs.r).abs() / theirs.r.max(1e-9));

        let [r, g, b] = [(); 3].map(|()| random.between(-0.1, 1.1));
        let ours = color::linear_to_srgb8(Linear::new(r, g, b));
        let theirs = published::linear_to_srgb8(published::Linear::new(r, g, b));
        code = code.max(apart(ours, theirs));
        code_off += u32::from(apart(ours, theirs) != 0);

        let ours = color::linear_to_lab(Linear::new(r, g, b));
        let theirs = published::linear_to_lab(published::Linear::new(r, g, b));
        for difference in [ours.l - theirs.l, ours.a - theirs.a, ours.b - theirs.b] {
            lab = lab.max(difference.abs());
        }

        let (a, b) = (random.between(-128.0, 128.0), random.between(-128.0, 128.0));
        let ours = Lab::new(50.0, a, b);
        let theirs = published::Lab::new(50.0, a, b);
        chroma = chroma.max((ours.chroma() - theirs.chroma()).abs());
        let turn = (ours.hue_deg(&cos, &sin).unwrap() - theirs.hue_deg()).abs();
        hue = hue.max(turn.min(360.0 - turn));
    }
    for _ in 0..count / 10 {
        let j = random.below(standins::DIRECTIONS);
        let (l, c) = (random.between(0.0, 100.0), random.between(0.0, 200.0));
        let ours = color::lch_to_srgb8_gamut_clipped(l, c, cos[j], sin[j]);
        let theirs = published::lch_to_srgb8_gamut_clipped(l, c, j as f32 / 2.0);
        clipped = clipped.max((ours.1 - theirs.1).abs());
        clip_code = clip_code.max(apart(ours.0, theirs.0));
        clip_code_off += u32::from(apart(ours.0, theirs.0) != 0);
    }
    writeln!(
        out,
        "against the library's functions, {count} cases each (clip {}):",
        count / 10
    )?;
    writeln!(out, "  decoding differs by at most {decode:e} of the value")?;
    writeln!(
        out,
        "  encoding differs by at most {code}, in {code_off} cases"
    )?;
    writeln!(
        out,
        "  Lab differs by at most {lab:e}, chroma by {chroma:e}, hue by {hue:e} degrees"
    )?;
    writeln!(out, "  clip differs by at most {clip_code}, in {clip_code_off} cases; its chroma by {clipped:e}")?;
    assert!(decode < 1e-6 && code <= 1 && lab < 1e-3 && chroma == 0.0 && hue < 1e-2);
    Ok(())
}
