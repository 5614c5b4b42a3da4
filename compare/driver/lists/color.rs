//! The colour list, for `color_cases`: roots, the conversions of sRGB and CIE 15, the gamut test, hues
//! and clipped colours.
//!
//! The fixed list holds every code through the decoder and every threshold through the encoder with
//! the f32 on both sides; each power of two under both roots, perfect powers, operands whose root lies
//! very near half way between two f32, and those that are refused; both branches of `lab_f` and
//! `lab_f_inv` around their edges; corners, odd numbers and random ones of every conversion; the edges
//! of the gamut test in each channel; hues on and between all directions, at the limits, over
//! directions that are refused or changed; and clipped colours. A random list draws from all of them.

use crate::color::{linear_to_xyz, srgb8_to_lab, Linear, Srgb8};
use crate::files::Files;
use crate::models::color::OPERATIONS;
use crate::models::directions::Directed;
use crate::random::Random;
use crate::standins::{decode, tables, DIRECTIONS};
use crate::words::float_step as step;
use std::io;

/// Where lab_f and lab_f_inv change their branch.
const BRANCHES: [f32; 2] = [216.0 / 24389.0, 6.0 / 29.0];
/// The edges of the gamut test.
const EDGES: [f32; 2] = [-1e-4, 1.0 + 1e-4];
/// NaN, both infinities and both zeros.
pub const ODD: [f32; 5] = [f32::NAN, f32::INFINITY, f32::NEG_INFINITY, 0.0, -0.0];
/// Components that are refused and components on the edge.
pub const COMPONENTS: [f32; 9] = [
    f32::NAN,
    f32::INFINITY,
    f32::NEG_INFINITY,
    1.0000001,
    -1.0000001,
    1.0,
    -1.0,
    0.0,
    -0.0,
];

/// An operand whose n-th root lies very near half way between two numbers.
fn near_tie(random: &mut Random, n: u32) -> f32 {
    let q = 1u128 << 23 | u128::from(random.bits() >> 9);
    let power = (2 * q + 1).pow(n);
    let shift = 104 - power.leading_zeros();
    let fraction = (power >> shift) as u32 - (1 << 23) + random.below(2) as u32;
    let exponent = (shift + 150 - n) % n + n * (1 + random.below(240 / n as usize) as u32);
    f32::from_bits((exponent << 23) + fraction)
}

/// A random operand for an n-th root, mostly one that is not refused.
fn root_operand(random: &mut Random, n: u32) -> f32 {
    match random.below(8) {
        0 => f32::from_bits(random.bits()),
        1 => f32::from_bits(random.bits() & 0x7f_ffff >> random.below(23)),
        2 | 3 => near_tie(random, n),
        _ => f32::from_bits(random.bits() >> 1),
    }
}

/// A random linear value for the encoder, often at a threshold.
fn encoder_value(random: &mut Random) -> f32 {
    match random.below(8) {
        0 => random.mixed(-0.1, 1.1),
        1 | 2 => random.between(0.0, 1.0),
        _ => {
            let threshold = random.pick(&tables().thresholds);
            random.near(threshold)
        }
    }
}

/// A random channel for the gamut test, often at an edge.
fn gamut_value(random: &mut Random) -> f32 {
    match random.below(8) {
        0 => random.mixed(-0.001, 1.001),
        1 | 2 => {
            let edge = random.pick(&EDGES);
            random.near(edge)
        }
        3 => random.between(-3e-4, 3e-4),
        4 => random.between(0.9997, 1.0003),
        _ => random.between(0.0, 1.0),
    }
}

/// A random Lab colour for a hue, often on a direction.
fn hue_value(random: &mut Random, cos: &[f32], sin: &[f32]) -> [f32; 3] {
    let j = random.below(DIRECTIONS);
    let l = random.between(0.0, 100.0);
    match random.below(8) {
        0 => [
            l,
            random.between(-1000.0, 1000.0),
            random.between(-1000.0, 1000.0),
        ],
        1 => {
            let tiny = f32::from_bits(random.bits() >> 8);
            [
                l,
                random.between(-1.0, 1.0) * tiny,
                random.between(-1.0, 1.0) * tiny,
            ]
        }
        2 | 3 => {
            let radius = random.between(0.0, 200.0);
            let (a, b) = (radius * cos[j], radius * sin[j]);
            [l, random.near(a), random.near(b)]
        }
        _ => random.triple([(0.0, 100.0), (-128.0, 128.0), (-128.0, 128.0)]),
    }
}

/// A random colour to be clipped, mostly in a direction of the list.
fn clip_value(random: &mut Random, cos: &[f32], sin: &[f32]) -> [f32; 4] {
    let j = random.below(DIRECTIONS);
    let l = random.between(0.0, 100.0);
    match random.below(8) {
        0 => {
            let [l, c, cos] = random.triple([(-20.0, 120.0), (-50.0, 250.0), (-1.0, 1.0)]);
            [l, c, cos, random.mixed(-1.0, 1.0)]
        }
        1 => [
            random.between(30.0, 70.0),
            random.between(0.0, 25.0),
            cos[j],
            sin[j],
        ],
        _ => [l, random.between(0.0, 200.0), cos[j], sin[j]],
    }
}

/// Writes one random case of an operation.
fn random_case(list: &mut Directed, random: &mut Random, operation: &str) -> io::Result<()> {
    let linear = [(-0.1, 1.1); 3];
    let lab = [(0.0, 100.0), (-128.0, 128.0), (-128.0, 128.0)];
    let input = match operation {
        "s2l" | "s2lab" => {
            let codes = [(); 3].map(|()| random.bits() >> 24);
            return list.over(operation, &codes);
        }
        "sqrt" => vec![root_operand(random, 2)],
        "cbrt" => vec![root_operand(random, 3)],
        "labf" | "labfinv" => vec![match random.below(4) {
            0 => random.mixed(-1.0, 2.0),
            1 => random.between(0.0, 0.25),
            _ => random.between(0.0, 1.2),
        }],
        "l2s" => [(); 3].map(|()| encoder_value(random)).to_vec(),
        "gamut" => [(); 3].map(|()| gamut_value(random)).to_vec(),
        "l2x" | "l2lab" | "clamp" => random.triple(linear).to_vec(),
        "x2l" | "x2lab" => random.triple([(-0.05, 1.1); 3]).to_vec(),
        "lab2x" | "lab2l" | "chroma" => random.triple(lab).to_vec(),
        "hue" => hue_value(random, &list.cos, &list.sin).to_vec(),
        "clip" => clip_value(random, &list.cos, &list.sin).to_vec(),
        _ => unreachable!("no operation {operation}"),
    };
    list.floats(operation, &input)
}

/// Writes one random hue with a component replaced or with slices cut short.
fn random_directions_case(list: &mut Directed, random: &mut Random) -> io::Result<()> {
    let lab = hue_value(random, &list.cos, &list.sin);
    if random.below(4) == 0 {
        let lengths = [0, 1, DIRECTIONS - 1, DIRECTIONS, DIRECTIONS];
        return list.hue_len(random.pick(&lengths), random.pick(&lengths), lab);
    }
    let v = match random.below(2) {
        0 => random.pick(&COMPONENTS),
        _ => random.between(-1.0, 1.0),
    };
    list.hue_bad(random.below(2), random.below(DIRECTIONS), v, lab)
}

/// Begins a list of colour cases.
fn begin(files: &mut Files) -> io::Result<Directed<'_>> {
    Directed::begin(files, "Colour", "crates/lcr-core/src/color.rs")
}

/// Writes a random list of this many cases over all operations.
pub fn many(files: &mut Files, seed: u64, count: usize) -> io::Result<()> {
    let mut list = begin(files)?;
    let mut random = Random(seed);
    for _ in 0..count {
        let operation = random.pick(&OPERATIONS);
        if operation == "hue" && random.below(8) == 0 {
            random_directions_case(&mut list, &mut random)?;
        } else {
            random_case(&mut list, &mut random, operation)?;
        }
    }
    Ok(())
}

/// Writes the fixed list.
pub fn fixed(files: &mut Files) -> io::Result<()> {
    let mut list = begin(files)?;
    let mut random = Random(1);
    codes(&mut list)?;
    for n in [2, 3] {
        roots(&mut list, &mut random, n)?;
    }
    lab_functions(&mut list, &mut random)?;
    conversions(&mut list, &mut random)?;
    gamut_edges(&mut list)?;
    hues(&mut list, &mut random)?;
    lent_directions(&mut list)?;
    clips(&mut list, &mut random)?;
    let codes = ["s2l 100 0 0", "s2l 0 100 0", "s2lab 0 0 100"];
    list.damaged(&codes, DIRECTIONS, ("clip", &[0; 4]))
}

/// Writes every code through the decoder and every threshold through the encoder.
fn codes(list: &mut Directed) -> io::Result<()> {
    for n in 0..=255 {
        list.over("s2l", &[n, n, n])?;
        list.over("s2lab", &[n, n, n])?;
    }
    for t in &tables().thresholds {
        let (below, above) = (step(*t, -1), step(*t, 1));
        list.floats("l2s", &[below, *t, above])?;
        list.floats("l2s", &[*t, above, below])?;
        list.floats("l2s", &[above, below, *t])?;
    }
    for n in 0..=255 {
        let decoded = decode(n);
        list.floats("l2s", &[decoded; 3])?;
    }
    let values = [
        -1e-45,
        -0.5,
        -f32::MAX,
        1e-45,
        0.5,
        1.0,
        1.0000001,
        2.0,
        f32::MAX,
    ];
    for v in values.into_iter().chain(ODD) {
        list.floats("l2s", &[v, 0.25, 0.75])?;
        list.floats("l2s", &[0.25, v, 0.75])?;
        list.floats("l2s", &[0.25, 0.75, v])?;
    }
    Ok(())
}

/// Writes the cases of the n-th root.
fn roots(list: &mut Directed, random: &mut Random, n: u32) -> io::Result<()> {
    let operation = if n == 2 { "sqrt" } else { "cbrt" };
    let subnormal = (0..23).map(|bit| 1 << bit);
    let normal = (1..=254).map(|exponent| exponent << 23);
    for power in subnormal.chain(normal) {
        for bits in [power - 1, power, power + 1] {
            list.floats(operation, &[f32::from_bits(bits)])?;
        }
    }
    // The largest subnormals, the largest numbers and what is refused.
    for bits in [
        0x7f_fffd,
        0x7f_fffe,
        0x7f7f_fffe,
        0x7f7f_ffff,
        0x7f80_0000,
        0x7fc0_0000,
    ] {
        list.floats(operation, &[f32::from_bits(bits)])?;
        list.floats(operation, &[-f32::from_bits(bits)])?;
    }
    for v in [-0.0, -1e-45, -1.0, -4.0, -8.0] {
        list.floats(operation, &[v])?;
    }
    // Perfect powers; the first ones with both neighbours.
    for q in 1..=255 {
        let v = (q as f32).powi(n as i32);
        let around = if q <= 60 { -1..=1 } else { 0..=0 };
        for by in around {
            list.floats(operation, &[step(v, by)])?;
        }
    }
    let largest = if n == 2 { 4095 } else { 255 };
    for _ in 0..200 {
        let q = (1 + random.below(largest)) as f32;
        let scale = 2f32.powi(n as i32 * (random.below(60) as i32 - 40));
        list.floats(operation, &[q.powi(n as i32) * scale])?;
    }
    for _ in 0..200 {
        list.floats(operation, &[near_tie(random, n)])?;
    }
    for _ in 0..100 {
        list.floats(operation, &[f32::from_bits(random.bits() >> 9)])?;
    }
    for _ in 0..1000 {
        list.floats(operation, &[f32::from_bits(random.bits() >> 1)])?;
    }
    Ok(())
}

/// Writes the cases of lab_f and lab_f_inv.
fn lab_functions(list: &mut Directed, random: &mut Random) -> io::Result<()> {
    for operation in ["labf", "labfinv"] {
        for branch in BRANCHES {
            for by in -3..=3 {
                list.floats(operation, &[step(branch, by)])?;
                list.floats(operation, &[-step(branch, by)])?;
            }
        }
        let values = [1e-45, -1e-45, 1.0, -1.0, 4.0 / 29.0, f32::MAX, f32::MIN];
        for v in values.into_iter().chain(ODD) {
            list.floats(operation, &[v])?;
        }
        for _ in 0..100 {
            list.floats(operation, &[f32::from_bits(random.bits())])?;
        }
        for _ in 0..300 {
            random_case(list, random, operation)?;
        }
    }
    Ok(())
}

/// Writes corners, odd numbers and random cases of every conversion.
fn conversions(list: &mut Directed, random: &mut Random) -> io::Result<()> {
    for operation in ["s2l", "s2lab"] {
        for corner in 0..8u32 {
            list.over(operation, &[0, 1, 2].map(|i| (corner >> i & 1) * 255))?;
        }
        for _ in 0..200 {
            random_case(list, random, operation)?;
        }
    }
    let over_linear = ["l2s", "l2x", "l2lab", "clamp", "gamut"];
    let over_xyz = ["x2l", "x2lab"];
    let over_lab = ["lab2x", "lab2l", "chroma"];
    let odd = [ODD.as_slice(), &[0.5]].concat();
    for operation in over_linear.into_iter().chain(over_xyz).chain(over_lab) {
        for corner in 0..8u8 {
            let bit = |i: u8| corner >> i & 1;
            let linear = Linear::new(bit(0).into(), bit(1).into(), bit(2).into());
            let input = if over_linear.contains(&operation) {
                [linear.r, linear.g, linear.b]
            } else if over_xyz.contains(&operation) {
                linear_to_xyz(linear)
            } else {
                let lab = srgb8_to_lab(Srgb8::new(bit(0) * 255, bit(1) * 255, bit(2) * 255));
                [lab.l, lab.a, lab.b]
            };
            list.floats(operation, &input)?;
        }
        for i in 0..odd.len().pow(3) {
            let place = |n: usize| odd[i / odd.len().pow(n as u32) % odd.len()];
            list.floats(operation, &[place(0), place(1), place(2)])?;
        }
        for _ in 0..200 {
            random_case(list, random, operation)?;
        }
        for _ in 0..40 {
            let any = [(); 3].map(|()| f32::from_bits(random.bits()));
            list.floats(operation, &any)?;
        }
    }
    Ok(())
}

/// Writes the edges of the gamut test with their neighbours, in each channel.
fn gamut_edges(list: &mut Directed) -> io::Result<()> {
    for edge in EDGES {
        for by in -2..=2 {
            for channel in 0..3 {
                let mut input = [0.5; 3];
                input[channel] = step(edge, by);
                list.floats("gamut", &input)?;
            }
        }
    }
    Ok(())
}

/// Writes hues on and between all directions, at the limits and at random.
fn hues(list: &mut Directed, random: &mut Random) -> io::Result<()> {
    for j in 0..DIRECTIONS {
        let next = (j + 1) % DIRECTIONS;
        let (a, b) = (list.cos[j], list.sin[j]);
        let (a2, b2) = (a + list.cos[next], b + list.sin[next]);
        list.floats("hue", &[50.0, 50.0 * a, 50.0 * b])?;
        list.floats("hue", &[50.0, 25.0 * a2, 25.0 * b2])?;
    }
    let beyond = step(1000.0, 1);
    let values = [1000.0, -1000.0, beyond, -beyond, 1e-45, -1e-45, 30.0];
    let values = [values.as_slice(), &ODD].concat();
    for a in &values {
        for b in &values {
            list.floats("hue", &[50.0, *a, *b])?;
        }
    }
    // The lightness is not looked at.
    for l in ODD {
        list.floats("hue", &[l, 30.0, 40.0])?;
    }
    // Just below the whole turn.
    for b in [-1e-3, -1e-5, -1e-7, -1e-20, -1e-44] {
        list.floats("hue", &[50.0, 50.0, b])?;
    }
    for _ in 0..300 {
        random_case(list, random, "hue")?;
    }
    Ok(())
}

/// Writes hues over directions that are refused or changed.
fn lent_directions(list: &mut Directed) -> io::Result<()> {
    let (cut, full) = (DIRECTIONS - 1, DIRECTIONS);
    for (c, s) in [
        (cut, full),
        (full, cut),
        (cut, cut),
        (0, full),
        (full, 0),
        (0, 0),
        (full, full),
    ] {
        list.hue_len(c, s, [50.0, 30.0, 40.0])?;
        // The directions are checked before the numbers.
        list.hue_len(c, s, [50.0, f32::NAN, 40.0])?;
    }
    for which in [0, 1] {
        for j in [0, 1, 107, 180, 360, 540, 719] {
            for v in COMPONENTS {
                list.hue_bad(which, j, v, [50.0, 30.0, 40.0])?;
            }
        }
        for v in COMPONENTS {
            list.hue_bad(which, 300, v, [50.0, f32::NAN, 40.0])?;
            list.hue_bad(which, 0, v, [50.0, 30.0, -1e-3])?;
            list.hue_bad(which, 719, v, [50.0, 30.0, -0.1])?;
        }
    }
    // The changes above were for one line each.
    list.floats("hue", &[50.0, 30.0, 40.0])
}

/// Writes the cases of clipping.
fn clips(list: &mut Directed, random: &mut Random) -> io::Result<()> {
    let beyond = [-20.0, 150.0, 1e-45, f32::MAX, f32::MIN];
    for v in beyond.into_iter().chain(ODD) {
        for j in [0, 75, 180, 333, 360, 540] {
            let (cos, sin) = (list.cos[j], list.sin[j]);
            list.floats("clip", &[60.0, v, cos, sin])?;
            list.floats("clip", &[v, 20.0, cos, sin])?;
            list.floats("clip", &[v, 120.0, cos, sin])?;
        }
        for c in [20.0, 120.0, -120.0] {
            list.floats("clip", &[60.0, c, v, 1.0])?;
            list.floats("clip", &[60.0, c, 1.0, v])?;
            list.floats("clip", &[60.0, c, v, v])?;
        }
    }
    for _ in 0..100 {
        let j = random.below(DIRECTIONS);
        let l = random.between(30.0, 70.0);
        let c = random.between(-25.0, 25.0);
        list.floats("clip", &[l, c, list.cos[j], list.sin[j]])?;
    }
    for _ in 0..400 {
        random_case(list, random, "clip")?;
    }
    Ok(())
}
