//! The ceilings of jobs that the bench times, over a whole table. The published Rust has no ceiling:
//! its side is the same rule, with the largest entry of each row taken once and no entry checked.

use crate::chroma::l_of;
use crate::given::{found, refused, Given, LENT, NONE};
use crate::page::{broken, Job, FOUND, NOTHING};
use crate::search::GAP;
use crate::standins::{DIRECTIONS, LEVELS};
use crate::timing::{compare, TURNS};

/// How many pairs a job over the whole table has.
const PAIRS: usize = LEVELS * LEVELS;
/// The gap of a kept job, the greatest gap at which a pair is far enough apart, and one at which none is.
const KEPT_GAP: f32 = 0.0;
const LAST_GAP: f32 = 83.0;
const NO_GAP: f32 = 84.0;
/// How many positions two lie apart at which both sides are compared.
const APART: usize = 1009;

unsafe extern "C" {
    /// The function of crates/exports: a slice is its address, then its length.
    fn tengcuvo_ceiling(
        found: bool,
        k: usize,
        gap: f32,
        levels: usize,
        position: usize,
        chroma: f32,
        dark: usize,
        light: usize,
        hues: *const [u16; 16],
        tightest: usize,
        table: *const f32,
        entries: usize,
        ceiling: *mut [f32; 1],
    ) -> u32;
}

/// The ceiling of a job over a table by our archive, in the place of a chroma.
fn ours(job: &Job, table: &[f32]) -> Given {
    let mut given = LENT;
    let (chroma, dark, light) = job.best.unwrap_or_default();
    // What is lent lives through the call, and nothing that is written is lent twice.
    given.number = unsafe {
        tengcuvo_ceiling(
            job.best.is_some(),
            job.k,
            job.gap,
            job.levels,
            job.position,
            chroma,
            dark as usize,
            light as usize,
            &job.hues,
            job.tightest,
            table.as_ptr(),
            table.len(),
            &mut given.chroma,
        )
    };
    given
}

/// The ceiling of a job over a table by the rule in Rust, neither of which is refused.
fn theirs(job: &Job, table: &[f32]) -> Option<f32> {
    let rows = table.chunks(DIRECTIONS);
    let largest = |row: &[f32]| row.iter().copied().fold(f32::MIN, f32::max);
    let largest: Vec<f32> = rows.map(largest).collect();
    let n = job.levels;
    (job.position..n * n)
        .map(|position| (position / n, position % n))
        .filter(|(dark, light)| l_of(*light) - l_of(*dark) >= job.gap + 1.0)
        .map(|(dark, light)| largest[dark].min(largest[light]))
        .reduce(f32::max)
}

/// What our archive must give where the rule in Rust gives this.
fn expected(theirs: Option<f32>) -> Given {
    let number = theirs.map_or(NONE, |_| 0);
    let chroma = theirs.map_or(LENT.chroma, |ceiling| [ceiling]);
    Given {
        number,
        chroma,
        ..LENT
    }
}

/// Checks that our archive refuses what it must, a finished job as any other, with all that it is lent
/// to write then as before.
pub fn refusals() {
    let table = vec![40.0; LEVELS * DIRECTIONS];
    let mut bad = table.clone();
    bad[table.len() - 1] = f32::NAN;
    for job in broken() {
        for table in [&table[..], &bad, &bad[1..], &[]] {
            refused(15, 0, |_| ours(&job, table));
        }
    }
    for job in [FOUND, NOTHING, begun(GAP, 0)] {
        for table in [&table[1..], &bad[1..], &bad[DIRECTIONS..], &[]] {
            refused(6, 0, |_| ours(&job, table));
        }
        refused(7, 0, |_| ours(&job, &bad));
    }
}

/// A job for four hues with this gap and none so far, at this position.
fn begun(gap: f32, position: usize) -> Job {
    let k = 4;
    Job {
        k,
        gap,
        position,
        ..NOTHING
    }
}

/// Compares the ceilings of jobs with several gaps and at many positions, and gives some of them by both
/// sides.
pub fn all(table: &[f32]) {
    let mut given = vec![];
    for gap in [GAP, KEPT_GAP, LAST_GAP, NO_GAP] {
        let positions = (0..PAIRS).step_by(APART);
        // At `LAST_GAP` the one pair far enough apart is the first level with the last, at position 168.
        for position in positions.chain([LEVELS - 1, LEVELS, PAIRS]) {
            let job = begun(gap, position);
            given.push(ours(&job, table));
            let expected = expected(theirs(&job, table));
            assert!(given.last() == Some(&expected), "a ceiling differs");
        }
    }
    for (gap, position) in [(GAP, 0), (KEPT_GAP, 0), (GAP, PAIRS / 2)] {
        compare(
            (&format!("ceiling, position {position}, gap {gap}"), TURNS),
            &[begun(gap, position)],
            |job| ours(job, table),
            |job| theirs(job, table),
            |_, theirs| expected(theirs),
        );
    }
    let (found, all) = (found(&given), given.len());
    println!("# all ceilings are equal bit for bit; of {all} jobs {found} have one");
}
