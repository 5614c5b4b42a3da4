//! The stand-ins of document 01 for the library functions, exact by whole numbers.

use crate::big::Big;
use std::cmp::Ordering;
use std::sync::OnceLock;

/// Refusal: a slice of directions is not 720 long, or a component is not in -1 to 1.
pub const BAD_DIRECTIONS: u32 = 9;
/// Refusal: a row to fill is not 720 long.
pub const BAD_ROW: u32 = 10;
/// Refusal: a level index is above 168, or not below a table's number of levels.
pub const BAD_LEVEL: u32 = 11;
/// Refusal: a root's or a hue's operand lies outside its limits.
pub const BAD_NUMBER: u32 = 16;
/// How many directions there are, half a degree apart.
pub const DIRECTIONS: usize = 720;
/// How many levels a table has.
pub const LEVELS: usize = 169;

/// Splits a finite f32 without sign into a whole number and its power of two.
pub fn parts(bits: u32) -> (u32, i32) {
    let fraction = bits & 0x7f_ffff;
    match bits >> 23 {
        0 => (fraction, -149),
        exponent => (fraction | 0x80_0000, exponent as i32 - 150),
    }
}

/// The f32 nearest the exact n-th root, n being 2 or 3; zeros, NaN and plus infinity stay.
fn root(x: f32, n: u32) -> f32 {
    if x.is_nan() || x == 0.0 || x == f32::INFINITY {
        return x;
    }
    assert!(x > 0.0, "root of a negative number");
    // x = whole * 2^power with 24 bits in whole.
    let (whole, power) = parts(x.to_bits());
    let lift = whole.leading_zeros() - 8;
    let (whole, power) = (u128::from(whole) << lift, power - lift as i32);
    // Shifted on, so that the power divides by n and the whole root has 24 bits.
    let least = 23 * (n as i32 - 1);
    let shift = least + (power - least).rem_euclid(n as i32);
    let scaled = whole << shift;
    let power = (power - shift) / n as i32;
    let mut q = 0u128;
    for bit in (0..24).rev() {
        let tried = q | 1 << bit;
        if tried.pow(n) <= scaled {
            q = tried;
        }
    }
    // The next whole number is nearer when the root lies above q + 1/2; it never lies on it.
    if (2 * q + 1).pow(n) < scaled << n {
        q += 1;
    }
    f32::from_bits((((power + 150) as u32) << 23) + (q as u32 - 0x80_0000))
}

/// The square root as it is inside the conversions.
pub fn sqrt(x: f32) -> f32 {
    root(x, 2)
}

/// The cube root as it is inside the conversions.
pub fn cbrt(x: f32) -> f32 {
    root(x, 3)
}

/// The n-th root of one number handed over, which may be refused.
pub fn root_asked(x: f32, n: u32) -> Result<f32, u32> {
    if !x.is_finite() || x.is_sign_negative() {
        return Err(BAD_NUMBER);
    }
    Ok(root(x, n))
}

/// The constants that stand for the two transfer functions.
pub struct Tables {
    /// Entry n is the linear value of code n.
    pub decode: Vec<f32>,
    /// Entry n - 1 is the least value that code n stands for.
    pub thresholds: Vec<f32>,
}

/// Compares whole / 2^down with the exact linear value of code half / 2.
fn against_code(whole: u32, down: u32, half: u32) -> Ordering {
    let (left, right) = if half <= 20 {
        let left = Big::new(whole).times(2 * 16473);
        (left, Big::new(5 * half).shifted(down))
    } else {
        let left = Big::new(1).times_power(whole, 5).times_power(53805, 12);
        let right = Big::new(1).times_power(100 * half + 2805, 12);
        (left, right.shifted(5 * down))
    };
    left.compare(&right)
}

/// Compares the f32 of these bits, from 0 to a little above 1, as above.
fn bits_against_code(bits: u32, half: u32) -> Ordering {
    let (whole, power) = parts(bits);
    against_code(whole, -power as u32, half)
}

/// The least bits up to one f32 above 1 that pass a test which all later ones pass too.
fn least_bits(test: impl Fn(u32) -> bool) -> u32 {
    let (mut low, mut high) = (0, 1f32.to_bits() + 1);
    while low < high {
        let mid = (low + high) / 2;
        if test(mid) {
            high = mid;
        } else {
            low = mid + 1;
        }
    }
    low
}

/// The f32 nearest the exact linear value of a code.
fn decode_constant(code: u32) -> f32 {
    let above = least_bits(|bits| bits_against_code(bits, 2 * code) == Ordering::Greater);
    let below = above - 1;
    let (whole, power) = parts(below);
    match against_code(2 * whole + 1, (1 - power) as u32, 2 * code) {
        Ordering::Less => f32::from_bits(above),
        Ordering::Greater => f32::from_bits(below),
        Ordering::Equal => unreachable!("half way between two numbers"),
    }
}

/// The least f32 at or above the exact linear value half a code below this one.
fn threshold(code: u32) -> f32 {
    f32::from_bits(least_bits(|bits| {
        bits_against_code(bits, 2 * code - 1) != Ordering::Less
    }))
}

/// The constants, worked out on first use.
pub fn tables() -> &'static Tables {
    static TABLES: OnceLock<Tables> = OnceLock::new();
    TABLES.get_or_init(|| Tables {
        decode: (0..=255).map(decode_constant).collect(),
        thresholds: (1..=255).map(threshold).collect(),
    })
}

/// The linear value of a code.
pub fn decode(code: u8) -> f32 {
    tables().decode[usize::from(code)]
}

/// The code of a linear value: how many thresholds are not above it.
pub fn encode(v: f32) -> u8 {
    tables().thresholds.iter().filter(|t| **t <= v).count() as u8
}

/// Whether two slices are taken as the cosines and sines of all directions.
pub fn takes_directions(cos: &[f32], sin: &[f32]) -> bool {
    let within = |v: &f32| (-1.0..=1.0).contains(v);
    let long = cos.len() == DIRECTIONS && sin.len() == DIRECTIONS;
    long && cos.iter().chain(sin).all(within)
}

/// The hue of a and b in degrees, found among the lent directions.
pub fn hue(a: f32, b: f32, cos: &[f32], sin: &[f32]) -> Result<f32, u32> {
    if !takes_directions(cos, sin) {
        return Err(BAD_DIRECTIONS);
    }
    if !(a.abs() <= 1000.0 && b.abs() <= 1000.0) {
        return Err(BAD_NUMBER);
    }
    let side = |j: usize| cos[j % DIRECTIONS] * b - sin[j % DIRECTIONS] * a;
    for j in 0..DIRECTIONS {
        let (x, next) = (side(j), side(j + 1));
        if x >= 0.0 && next < 0.0 {
            let y = -next;
            return Ok(0.5 * (j as f32 + x / (x + y)));
        }
    }
    Ok(0.0)
}

/// The multiple of 2^-24 nearest a cosine or sine, well clear of the half way mark.
fn nearest_step(v: f64) -> f32 {
    let scaled = v * f64::from(1 << 24);
    let whole = scaled.round();
    assert!(
        (scaled - whole).abs() < 0.4999,
        "too near the half way mark"
    );
    // Adding plus zero takes the sign off a zero.
    (whole / f64::from(1 << 24)) as f32 + 0.0
}

/// The cosines and sines of all directions.
pub fn directions() -> (Vec<f32>, Vec<f32>) {
    let angle = |j: usize| (j as f64 / 2.0).to_radians();
    let cos = (0..DIRECTIONS).map(|j| nearest_step(angle(j).cos()));
    let sin = (0..DIRECTIONS).map(|j| nearest_step(angle(j).sin()));
    (cos.collect(), sin.collect())
}
