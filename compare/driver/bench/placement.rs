//! The placements that the bench times, on rings of a whole table.

use crate::given::{found, refused, Given, LENT, NOTHING};
use crate::pair::APART;
use crate::placing::{feasible, step};
use crate::standins::DIRECTIONS;
use crate::table::row_of;
use crate::timing::{compare, TURNS};

unsafe extern "C" {
    /// The function of crates/exports: a slice is its address, then its length.
    fn tengcuvo_place(
        m: *const f32,
        entries: usize,
        c: f32,
        k: usize,
        step: usize,
        work: *mut u16,
        room: usize,
        hues: *mut [u16; 16],
        tightest: *mut [usize; 1],
    ) -> u32;
}

/// How many hues are asked for, how far apart, and at which chroma or from which one up.
pub struct Asked {
    pub k: usize,
    pub step: usize,
    pub c: f32,
}

/// Makes a placement by our archive.
fn place(m: &[f32], asked: &Asked, work: &mut [u16]) -> Given {
    let mut given = LENT;
    // What is lent lives through the call, and nothing of it is lent twice.
    given.number = unsafe {
        tengcuvo_place(
            m.as_ptr(),
            m.len(),
            asked.c,
            asked.k,
            asked.step,
            work.as_mut_ptr(),
            work.len(),
            &mut given.hues,
            &mut given.tightest,
        )
    };
    given
}

/// Checks that our archive refuses what it must.
pub fn refusals() {
    let ring = [40.0; 8];
    for (number, length, k, step, c, room) in [
        (1, 8, 0, 2, 40.0, 8),
        (1, 8, 17, 2, 40.0, 8),
        (3, 8, 2, 2, f32::NAN, 8),
        (4, 0, 2, 2, 40.0, 8),
        (5, 8, 2, 9, 40.0, 8),
        (5, 8, 2, usize::MAX, 40.0, 8),
        (8, 8, 2, 2, 40.0, 7),
    ] {
        let asked = Asked { k, step, c };
        refused(number, room, |work| place(&ring[..length], &asked, work));
    }
}

/// Rings of a table, each the lesser of two rows.
fn rings(table: &[f32]) -> Vec<Vec<f32>> {
    let lesser = |(a, b): (&f32, &f32)| a.min(*b);
    let ring = |dark: usize| {
        let [a, b] = [dark, dark + APART].map(|level| row_of(table, level));
        a.iter().zip(b).map(lesser).collect()
    };
    (0..80).step_by(4).map(ring).collect()
}

/// What is asked of each ring: every hue count with its step, at chromas up to the greatest.
fn questions(rings: &[Vec<f32>]) -> Vec<(&[f32], Asked)> {
    let mut asked = vec![];
    for ring in rings {
        let most = ring.iter().copied().fold(0.0, f32::max);
        for k in 1..=16 {
            for part in 0..16 {
                let (c, step) = (most * (part as f32 / 16.0), step(k));
                asked.push((&ring[..], Asked { k, step, c }));
            }
        }
    }
    asked
}

/// Makes all placements by both sides.
pub fn all(table: &[f32]) {
    let rings = rings(table);
    let questions = questions(&rings);
    let mut work = vec![0; DIRECTIONS];
    let (_, given) = compare(
        (&format!("{} placements", questions.len()), TURNS),
        &questions,
        |(ring, asked)| place(ring, asked, &mut work),
        |(ring, asked)| feasible(ring, DIRECTIONS, asked.k, asked.step, asked.c),
        |(_, asked), theirs| {
            let hues = theirs.as_deref();
            hues.map_or(NOTHING, Given::of_hues).with_gap(asked.k)
        },
    );
    let found = found(&given);
    println!("# all placements are equal, {found} of them with hues");
}
