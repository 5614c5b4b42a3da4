//! The placement list, for `placement_cases`: rings, and on each of them placements and sweeps; and the
//! steps for hue counts.
//!
//! The fixed list holds R1 to R8 and S1 to S4 of document 01; work buffers of every length that
//! matters; placements refused for each reason and for two, of which the lowest number is given;
//! lengths, hue counts, spacings, chromas and entries at and beyond their ends; rings on which the last
//! start succeeds or closing gaps fail; every placement on every ring of three values and up to 4
//! entries, by a digest; random rings; and rings on which the first gap, one between or the closing one
//! is the tightest, which must come out as they stand here, else the driver stops. A call that does not
//! choose its work buffer for its own sake has the rooms that `rooms` gives it.
//!
//! A random list goes through the lengths 1 to 720 in turn, with 32 calls on each ring; two rings of
//! three hide a placement with little room to spare, and half of the calls on those ask for it, as it
//! is or moved a little. `all` holds every ring of 1 to 8 entries of three values, and for each every
//! hue count, every spacing and nine chromas: each value with the f32 below and above it.

use crate::files::Files;
use crate::lists::rooms::{at_random, edges};
use crate::models::placement::{Call, Placements, STORED};
use crate::random::Random;
use crate::words::float_step;
use std::io;

/// The ring of document 01's marked cases.
pub const MARKED: [f32; 8] = [50.0, 10.0, 45.0, 20.0, 60.0, 30.0, 41.0, 12.0];
/// Chromas and entries that are refused.
pub const REFUSED: [f32; 8] = [
    f32::NAN,
    f32::INFINITY,
    f32::NEG_INFINITY,
    -0.0,
    -1e-45,
    -40.0,
    200.00002,
    f32::MAX,
];
/// Chromas and entries that are taken, at the ends and among subnormal numbers.
pub const EDGES: [f32; 7] = [
    0.0,
    1e-45,
    3e-45,
    1e-39,
    f32::MIN_POSITIVE,
    199.99998,
    200.0,
];
/// Hue counts, refused ones among them; some are taken where their high bits get lost.
pub const COUNTS: [u32; 10] = [0, 1, 2, 15, 16, 17, 257, 65536, 65537, u32::MAX];
/// The entries of the rings that are swept.
const VALUES: [f32; 3] = [12.0, 40.0, 40.5];

/// Writes the fixed list.
pub fn fixed(files: &mut Files) -> io::Result<()> {
    let mut list = Placements::begin(files)?;
    let mut random = Random(7);
    marked(&mut list)?;
    one_lap(&mut list)?;
    steps(&mut list)?;
    refusals(&mut list)?;
    boundaries(&mut list)?;
    chromas(&mut list)?;
    entries(&mut list)?;
    shapes(&mut list)?;
    sweep_all(&mut list, 4)?;
    for n in [
        9, 16, 23, 24, 47, 100, 180, 250, 360, 500, 600, 719, 720, 720,
    ] {
        random_ring(&mut list, &mut random, (n, 60), Placements::in_turn)?;
    }
    gaps(&mut list)?;
    list.end()?;
    for line in ["ring 321", "ring 1 0 0", "more 2d0 0", "place 1 1 0 961"] {
        files.malformed(line)?;
    }
    files.damaged("place", &[2, 3, 0, 8])
}

/// Writes every placement on every ring of three values and at most 8 entries.
pub fn all(files: &mut Files) -> io::Result<()> {
    let mut list = Placements::begin(files)?;
    sweep_all(&mut list, 8)?;
    list.end()
}

/// Writes a random list of this many placements, on rings of every length in turn.
pub fn many(files: &mut Files, seed: u64, count: usize) -> io::Result<()> {
    let mut list = Placements::begin(files)?;
    let mut random = Random(seed);
    let mut left = count;
    while left > 0 {
        let n = (count - left) / 32 % 720 + 1;
        let some = left.min(32);
        random_ring(&mut list, &mut random, (n, some), Placements::place)?;
        left -= some;
    }
    list.end()
}

/// Writes document 01's marked cases.
fn marked(list: &mut Placements) -> io::Result<()> {
    list.set(&MARKED)?;
    for (k, step, c) in [
        (2, 3, 40.0),
        (2, 3, 50.0),
        (2, 3, 51.0),
        (1, 8, 40.0),
        (2, 5, 40.0),
        (4, 2, 40.0),
        (3, 2, 40.0),
    ] {
        list.at(k, step, c)?;
    }
    list.set(&[50.0, 50.0, 0.0, 0.0, 0.0, 50.0, 0.0, 0.0])?;
    list.at(2, 4, 40.0)?;
    [1, 2, 7, 16].into_iter().try_for_each(|k| list.step(k))
}

/// Writes placements on a ring of 8 with work buffers at and beside the edge, and on small rings on
/// which the indices that are tried go all the way round.
fn one_lap(list: &mut Placements) -> io::Result<()> {
    list.set(&MARKED)?;
    for room in edges(MARKED.len()) {
        list.place(Call {
            k: 2,
            step: 3,
            c: 40.0,
            room,
        })?;
    }
    list.set(&[0.0, 50.0, 0.0, 50.0])?;
    list.must((3, 1, 40.0), None)?;
    list.must((2, 1, 40.0), Some((2, &[1, 3])))?;
    list.set(&[50.0, 0.0])?;
    list.must((2, 1, 40.0), None)?;
    list.must((1, 1, 40.0), Some((2, &[0])))
}

/// Writes the steps for all hue counts, and for some that are refused.
fn steps(list: &mut Placements) -> io::Result<()> {
    (0..=17).try_for_each(|k| list.step(k))?;
    for k in [18, 32, 255, 256, 257, 272, 599, 600, 601, 65535] {
        list.step(k)?;
    }
    for k in [65536, 65537, 65552, 1 << 31, u32::MAX - 1, u32::MAX] {
        list.step(k)?;
    }
    Ok(())
}

/// Writes placements refused for each reason and for two, of which the lowest is given.
fn refusals(list: &mut Placements) -> io::Result<()> {
    list.set(&[40.0; STORED])?;
    for n in [8, 0, 720, 721, STORED] {
        list.resize(n)?;
        faults(list)?;
        for i in [0, n / 2, n.saturating_sub(1)] {
            if i < n {
                list.more(i, &[f32::NAN])?;
                faults(list)?;
                list.more(i, &[40.0])?;
            }
        }
    }
    Ok(())
}

/// Writes placements on this ring with no, one and two of the faults that a call can have.
fn faults(list: &mut Placements) -> io::Result<()> {
    let n = list.ring().len();
    let fine = Call {
        k: 2,
        step: 3,
        c: 40.0,
        room: n,
    };
    let faults: [fn(&mut Call, usize); 8] = [
        |call, _| call.k = 0,
        |call, _| call.k = 17,
        |call, _| call.c = f32::NAN,
        |call, _| call.c = -0.0,
        |call, _| call.step = 0,
        |call, n| call.step = n as u32 + 1,
        |call, n| call.room = n.saturating_sub(1),
        |call, _| call.room = 0,
    ];
    list.in_turn(fine)?;
    for (i, first) in faults.iter().enumerate() {
        for second in &faults[i..] {
            let mut call = fine;
            first(&mut call, n);
            second(&mut call, n);
            list.in_turn(call)?;
        }
    }
    Ok(())
}

/// Writes placements at the ends of what is taken: length, hue count, spacing, work buffer.
fn boundaries(list: &mut Placements) -> io::Result<()> {
    list.set(&[60.0; STORED])?;
    for n in [1, 2, 719, 720, 721, 0] {
        list.resize(n)?;
        let (n, third) = (n as u32, n as u32 / 3);
        for k in COUNTS {
            for step in [0, 1, third, n / 16, n / 2, n, n + 1, 65537, u32::MAX] {
                list.at(k, step, 60.0)?;
            }
        }
        for room in edges(n as usize) {
            for k in [1, 2] {
                list.place(Call {
                    k,
                    step: 1,
                    c: 60.0,
                    room,
                })?;
            }
        }
    }
    Ok(())
}

/// Writes placements at chromas that are refused, at the ends, and next to the entries.
fn chromas(list: &mut Placements) -> io::Result<()> {
    let near = [40.0, 60.0, 61.5].map(|v| [float_step(v, -1), v, float_step(v, 1)]);
    let chromas = [&REFUSED[..], &EDGES, near.as_flattened()].concat();
    let subnormal = [
        0.0,
        1e-45,
        3e-45,
        1e-39,
        0.0,
        1e-45,
        2e-38,
        f32::MIN_POSITIVE,
    ];
    let high = [200.0, 199.99998, 60.0, 200.0, 61.5, 40.0, 200.0, 199.99998];
    for ring in [MARKED, subnormal, high, [60.0; 8], [0.0; 8]] {
        list.set(&ring)?;
        for c in &chromas {
            for (k, step) in [(1, 8), (2, 3), (3, 2)] {
                list.at(k, step, *c)?;
            }
        }
    }
    Ok(())
}

/// Writes placements on rings with one other entry, in the first, a middle and the last place.
fn entries(list: &mut Placements) -> io::Result<()> {
    let near = [float_step(40.0, -1), 40.0, float_step(40.0, 1)];
    let odd = [&REFUSED[..], &EDGES, &near].concat();
    for (n, k, step) in [(6, 2, 3), (720, 16, 45)] {
        list.set(&vec![40.0; n])?;
        for i in [0, n / 2, n - 1] {
            for v in &odd {
                list.more(i, &[*v])?;
                list.at(k, step, 40.0)?;
            }
            list.more(i, &[40.0])?;
        }
        list.at(k, step, 40.0)?;
    }
    Ok(())
}

/// Writes rings on which the last start succeeds, on which closing gaps fail, and with no
/// placement. A placement is left on the ring only from index step - 1 on, and each allowed
/// index before that has a closing gap that is too small.
fn shapes(list: &mut Placements) -> io::Result<()> {
    for (k, step) in [
        (2, 4),
        (3, 5),
        (5, 3),
        (7, 2),
        (2, 30),
        (16, 4),
        (16, 45),
        (2, 301),
    ] {
        for slack in [0, 1, step - 1] {
            let n = k * step + slack;
            if n > 720 {
                continue;
            }
            let mut ring = vec![10.0; n];
            (1..=k).for_each(|i| ring[i * step - 1] = 40.0);
            list.set(&ring)?;
            for early in [step - 1, 0, step / 2, step - 2] {
                list.more(early, &[40.0])?;
                let (k, step) = (k as u32, step as u32);
                for (k, step) in [(k, step), (k, step + 1), (k, step - 1), (k + 1, step)] {
                    list.at(k, step, 40.0)?;
                }
            }
            // Without the last of them only the early starts are left.
            list.more(k * step - 1, &[39.0])?;
            list.at(k as u32, step as u32, 40.0)?;
        }
    }
    Ok(())
}

/// Writes every ring of three values and up to so many entries, with all its placements.
fn sweep_all(list: &mut Placements, most: u32) -> io::Result<()> {
    let chromas = VALUES.map(|v| [float_step(v, -1), v, float_step(v, 1)]);
    for n in 1..=most {
        for code in 0..3usize.pow(n) {
            let ring: Vec<f32> = (0..n).map(|i| VALUES[code / 3usize.pow(i) % 3]).collect();
            list.set(&ring)?;
            list.sweep(chromas.as_flattened())?;
        }
    }
    Ok(())
}

/// Writes placements whose tightest gap follows from the rule: the first, one between or the closing one
/// is the smallest, or all are equal, or there is one hue and the gap is the whole ring.
fn gaps(list: &mut Placements) -> io::Result<()> {
    for (n, allowed, gap) in [
        (3, &[0, 2][..], 1),
        (3, &[0, 1], 1),
        (9, &[1, 3, 6], 2),
        (9, &[0, 3, 5], 2),
        (9, &[1, 4, 8], 2),
        (9, &[1, 4, 7], 3),
        (720, &[719], 720),
        (720, &[1, 361], 360),
        (720, &[0, 361], 359),
        (720, &[0, 719], 1),
    ] {
        let mut ring = vec![0.0; n];
        allowed.iter().for_each(|hue| ring[*hue as usize] = 50.0);
        list.set(&ring)?;
        list.must((allowed.len() as u32, 1, 40.0), Some((gap, allowed)))?;
    }
    Ok(())
}

/// A hue count and a spacing that leave little room on a ring of this length.
pub fn tight(random: &mut Random, n: usize) -> (usize, usize) {
    let k = random.below(n.min(16)) + 1;
    let step = (n / k).saturating_sub(random.below(3));
    (k, step.max(1))
}

/// Entries of which those at a hidden placement are allowed at c, and others now and then.
pub fn hidden(random: &mut Random, n: usize, k: usize, step: usize, c: f32) -> Vec<f32> {
    let rare = random.pick(&[2, 8, 64, 100_000]);
    let mut ring: Vec<f32> = (0..n)
        .map(|_| match random.below(rare) {
            0 => c + random.between(0.0, 200.0 - c),
            1 => float_step(c, -1),
            _ => random.between(0.0, 1.0) * float_step(c, -1),
        })
        .collect();
    let mut at = random.below(step.min(n - (k - 1) * step));
    for left in (0..k).rev() {
        ring[at] = random.pick(&[c, c, float_step(c, 1), 200.0]);
        let spare = n - 1 - at - left * step;
        at += step + random.below(2.min(spare + 1));
    }
    ring
}

/// Entries in runs, as a panel has them.
pub fn runs(random: &mut Random, n: usize) -> Vec<f32> {
    let mut v = random.between(0.0, 100.0);
    let turn = random.below(30) + 1;
    (0..n)
        .map(|_| {
            v = match random.below(turn) {
                0 => random.between(0.0, 200.0),
                _ => (v + random.between(-2.0, 2.0)).clamp(0.0, 200.0),
            };
            v
        })
        .collect()
}

/// Writes a random ring of this length with this many placements, each of them by `write`.
fn random_ring<'a>(
    list: &mut Placements<'a>,
    random: &mut Random,
    (n, some): (usize, usize),
    write: fn(&mut Placements<'a>, Call) -> io::Result<()>,
) -> io::Result<()> {
    let (k, step) = tight(random, n);
    let c = random.between(1.0, 190.0);
    let is_hidden = random.below(3) > 0;
    if is_hidden {
        let ring = hidden(random, n, k, step, c);
        list.set(&ring)?;
    } else {
        let ring = runs(random, n);
        list.set(&ring)?;
    }
    for _ in 0..some {
        let mut call = random_call(random, list.ring());
        if is_hidden && random.below(2) == 0 {
            (call.k, call.step, call.c) = (k as u32, step as u32, c);
            nudge(random, &mut call, n);
        }
        write(list, call)?;
    }
    Ok(())
}

/// Moves one part of a call a little, mostly.
pub fn nudge(random: &mut Random, call: &mut Call, n: usize) {
    match random.below(8) {
        0 => call.k += 1,
        1 => call.k -= 1,
        2 => call.step += 1,
        3 => call.step -= 1,
        4 => call.c = random.near(call.c),
        5 => call.step = random.below(n) as u32 + 1,
        _ => {}
    }
}

/// A random call on a ring, seldom one that is refused.
fn random_call(random: &mut Random, ring: &[f32]) -> Call {
    let n = ring.len();
    let (k, step) = tight(random, n);
    let mut call = Call {
        k: k as u32,
        step: step as u32,
        c: random.pick(ring),
        room: at_random(random, n),
    };
    match random.below(64) {
        0 => call.k = random.pick(&COUNTS),
        1 => call.c = random.pick(&REFUSED),
        2 => call.step = random.pick(&[0, n as u32 + 1, u32::MAX]),
        3 => call.room = random.below(n),
        4..8 => call.c = random.near(call.c),
        8..24 => call.step = random.below(n) as u32 + 1,
        24..40 => call.c = random.between(0.0, 200.0),
        40..50 => call.step = (n / (2 * k)).max(1) as u32,
        _ => {}
    }
    call
}
