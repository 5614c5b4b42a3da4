//! The whole searches of a table that the bench times, in one call and pair by pair.

use crate::chroma::l_of;
use crate::given::{refused, Given, LENT, NONE, NOTHING};
use crate::pair::{self, APART, FLOOR};
use crate::pairing::{self, best_for_levels, parts_of, Gamut, Solution};
use crate::placement::Asked;
use crate::placing::step;
use crate::standins::{DIRECTIONS, LEVELS};
use crate::table::row_of;
use crate::timing::{compare, row, sums, Times, FEW_TURNS};

/// The gap of each search.
pub const GAP: f32 = 40.0;

unsafe extern "C" {
    /// The function of crates/exports: a slice is its address, then its length.
    fn tengcuvo_search(
        k: usize,
        gap: f32,
        table: *const f32,
        entries: usize,
        work: *mut u16,
        room: usize,
        hues: *mut [u16; 16],
        tightest: *mut [usize; 1],
        levels: *mut [usize; 2],
        chroma: *mut [f32; 1],
    ) -> u32;
}

/// Searches a table by our archive.
fn search(table: &[f32], k: usize, gap: f32, work: &mut [u16]) -> Given {
    let mut given = LENT;
    // What is lent lives through the call, and nothing that is written is lent twice.
    given.number = unsafe {
        tengcuvo_search(
            k,
            gap,
            table.as_ptr(),
            table.len(),
            work.as_mut_ptr(),
            work.len(),
            &mut given.hues,
            &mut given.tightest,
            &mut given.levels,
            &mut given.chroma,
        )
    };
    given
}

/// Checks that our archive refuses what it must.
pub fn refusals() {
    let (table, bad) = ([40.0; 3 * DIRECTIONS], [f32::NAN; 3 * DIRECTIONS]);
    let room = DIRECTIONS;
    for (number, table, k, gap, room) in [
        (1, &table[..], 17, GAP, room),
        (2, &table, 2, f32::NAN, room),
        (2, &table, 2, -0.0, room),
        (2, &table, 2, 0.0, room),
        (2, &table, 2, GAP.next_down(), room),
        (6, &table[1..], 2, GAP, room),
        (6, &[], 2, GAP, room),
        (7, &bad, 2, GAP, room),
        (8, &table, 2, GAP, room - 1),
    ] {
        refused(number, room, |work| search(table, k, gap, work));
    }
}

/// What our archive must give where the published search, or the published best with one hue
/// fixed, gives this.
pub fn expected(theirs: Option<Solution>) -> Given {
    let Some(solution) = theirs else {
        return NOTHING;
    };
    let (chroma, levels, hues) = parts_of(solution);
    // A hue is half as many degrees, a level half as many units above the first; both are exact.
    let hues: Vec<usize> = hues.iter().map(|hue| (hue * 2.0) as usize).collect();
    Given {
        levels: levels.map(|level| ((level - l_of(0)) * 2.0) as usize),
        chroma: [chroma],
        ..Given::of_hues(&hues)
    }
}

/// Searches the whole table for one hue count by both sides, and gives the times and whether
/// something is found.
fn searched(table: &[f32], gamut: &Gamut, k: usize) -> (Times, bool) {
    let mut work = vec![0; DIRECTIONS];
    let (times, given) = compare(
        (&format!("search, k = {k}"), FEW_TURNS),
        &[k],
        |k| search(table, *k, GAP, &mut work),
        |k| pairing::search(gamut, *k, GAP),
        |k, theirs| expected(theirs).with_gap(*k),
    );
    (times, given[0].is_found())
}

/// The best over all pairs of levels far enough apart, with the two levels: one pair by one in the
/// order of a job's positions, each from the best chroma so far or the floor up, as a step has it.
fn one_by_one<H>(
    mut best: impl FnMut([usize; 2], f32) -> Option<(f32, H)>,
) -> Option<([usize; 2], (f32, H))> {
    let mut so_far = None;
    let mut floor = FLOOR;
    for dark in 0..LEVELS {
        for light in dark + APART..LEVELS {
            let pair = [dark, light];
            if let Some(found) = best(pair, floor)
                && (so_far.is_none() || found.0 > floor)
            {
                floor = found.0;
                so_far = Some((pair, found));
            }
        }
    }
    so_far
}

/// Searches all pairs one by one for one hue count by both sides, and holds what they end with to the
/// whole search.
fn stepped(table: &[f32], gamut: &Gamut, k: usize) {
    let (step, mut work) = (step(k), vec![0; DIRECTIONS]);
    let whole = search(table, k, GAP, &mut work);
    let mut ours = |pair: [usize; 2], c: f32| {
        let rows = pair.map(|level| row_of(table, level));
        let given = pair::best(rows, &Asked { k, step, c }, &mut work);
        assert!([0, NONE].contains(&given.number), "a pair is refused");
        given.is_found().then_some((given.chroma[0], given))
    };
    let theirs = |[a, b]: [usize; 2], c: f32| best_for_levels(gamut, a, b, k, step, c);
    let expected = |best: (f32, _)| (best.0, Given::of_best(Some(best)).with_gap(k));
    let (_, ends) = compare(
        (&format!("pairs one by one, k = {k}"), FEW_TURNS),
        &[()],
        |()| one_by_one(&mut ours),
        |()| one_by_one(theirs),
        |(), end| end.map(|(levels, best)| (levels, expected(best))),
    );
    let found = ends[0].map(|(levels, (_, given))| Given { levels, ..given });
    let found = found.unwrap_or(NOTHING.with_gap(k));
    assert!(found == whole, "one by one there is another end");
}

/// Searches the whole table for 1 to 8 hues and for sixteen by both sides, and for two of these hue
/// counts pair by pair.
pub fn all(table: &[f32], gamut: &Gamut) {
    let counts = (1..=8).chain([16]);
    let (each, found): (Vec<_>, Vec<_>) = counts.map(|k| searched(table, gamut, k)).unzip();
    row("search, k = 1 to 8", &sums(&each[..8]));
    let found = found.iter().filter(|found| **found).count();
    println!("# all searches are equal bit for bit, {found} of them with a chroma");
    for k in [4, 16] {
        stepped(table, gamut, k);
    }
    println!("# all qualifying pairs one by one, as the steps of a job do, are equal bit for bit,");
    println!("# and end as the whole search does");
}
