//! The pages that the bench times, of jobs with sixteen hues. The published Rust has no page: its side
//! writes the same lines with Rust's own formatting into a fixed buffer.

use crate::given::tightest;
use crate::layout::write_page;
use crate::random::Random;
use crate::search::GAP;
use crate::standins::{DIRECTIONS, LEVELS};
use crate::timing::{compare, TURNS};
use std::hint::black_box;

/// How many jobs there are for one hue count.
const JOBS: usize = 1000;
/// How many bytes the page of sixteen hues has.
const BYTES: usize = 861;
/// What each byte is before a page.
const BEFORE_BYTE: u8 = 0x47;
/// What the count of bytes is before a page.
const BEFORE_COUNT: usize = 471_147;

unsafe extern "C" {
    /// The function of crates/exports: a slice is its address, then its length.
    fn tengcuvo_page(
        found: bool,
        k: usize,
        gap: f32,
        levels: usize,
        position: usize,
        chroma: f32,
        dark: usize,
        light: usize,
        hues: *const [u16; 16],
        tightest: usize,
        page: *mut u8,
        bytes: usize,
        written: *mut [usize; 1],
    ) -> u32;
}

/// A job record; the best is a chroma with the dark and the light level index.
#[derive(Clone, Copy)]
pub struct Job {
    pub k: usize,
    pub gap: f32,
    pub levels: usize,
    pub position: usize,
    pub best: Option<(f32, u32, u32)>,
    pub hues: [u16; 16],
    pub tightest: usize,
}

/// A finished job with sixteen hues, and one with none so far. Hues that are all one have no tightest gap
/// that a job may have: it is 1.
pub const FOUND: Job = Job {
    k: 16,
    gap: GAP,
    levels: LEVELS,
    position: LEVELS * LEVELS,
    best: Some((60.7, 49, 131)),
    hues: [719; 16],
    tightest: 1,
};
pub const NOTHING: Job = Job {
    best: None,
    hues: [0; 16],
    tightest: 0,
    ..FOUND
};

/// What a page gives: the number, and the count of bytes.
type Laid = (u32, usize);

/// Lays out the page of a job by our archive.
fn ours(job: &Job, page: &mut [u8]) -> Laid {
    let mut written = [BEFORE_COUNT];
    let (chroma, dark, light) = job.best.unwrap_or_default();
    let (address, bytes) = (page.as_mut_ptr(), page.len());
    // What is lent lives through the call, and nothing that is written is lent twice.
    let number = unsafe {
        tengcuvo_page(
            job.best.is_some(),
            job.k,
            job.gap,
            job.levels,
            job.position,
            chroma,
            dark as usize,
            light as usize,
            &job.hues,
            job.tightest,
            address,
            bytes,
            &mut written,
        )
    };
    (number, written[0])
}

/// Lays out the page of a job that is not broken, in a buffer that is long enough, by Rust's own
/// formatting.
fn theirs(job: &Job, page: &mut [u8]) -> Laid {
    let bytes = page.len();
    let mut rest = page;
    write_page(&mut rest, job.k as u32, job.best, &job.hues).expect("room for the page");
    (0, bytes - rest.len())
}

/// Records with one field out of its range, or with one that does not fit another.
pub fn broken() -> Vec<Job> {
    let with = |best: (f32, u32, u32)| Job {
        best: Some(best),
        ..FOUND
    };
    let at = |position: usize| Job { position, ..FOUND };
    let of = |k: usize| Job { k, ..FOUND };
    let apart = |gap: f32| Job { gap, ..FOUND };
    let over = |levels: usize| Job { levels, ..FOUND };
    let tight = |job: Job, tightest: usize| Job { tightest, ..job };
    let (best, hues) = (None, [720; 16]);
    vec![
        of(0),
        of(17),
        of((1 << 32) + 16),
        apart(f32::NAN),
        apart(-0.0),
        over(0),
        over(LEVELS + 1),
        at(LEVELS * LEVELS + 1),
        at(1 << 32),
        with((34.999996, 49, 131)),
        with((f32::NAN, 49, 131)),
        with((60.7, LEVELS as u32, 131)),
        with((60.7, 49, LEVELS as u32)),
        Job { hues, ..FOUND },
        of(15),
        Job { best, ..FOUND },
        tight(FOUND, 0),
        tight(FOUND, DIRECTIONS + 1),
        tight(FOUND, (1 << 32) + 1),
        tight(NOTHING, 1),
    ]
}

/// Checks that our archive refuses what it must, with all that it is lent to write then as before.
pub fn refusals() {
    let sizes = [BYTES, BYTES - 1, 0];
    let broken = broken().into_iter();
    let broken = broken.flat_map(|job| sizes.map(|size| (15, job, size)));
    for (number, job, size) in broken.chain([
        (19, FOUND, BYTES - 1),
        (19, FOUND, 82),
        (19, FOUND, 0),
        (19, NOTHING, 81),
    ]) {
        let mut page = vec![BEFORE_BYTE; size];
        let given = ours(&job, &mut page);
        assert!(given == (number, BEFORE_COUNT), "not refused by {number}");
        assert!(
            page.iter().all(|byte| *byte == BEFORE_BYTE),
            "a refused page is changed"
        );
    }
}

/// Random jobs with this hue count that are not broken.
fn jobs(k: usize) -> Vec<Job> {
    let mut random = Random(k as u64);
    let [least, most] = [35f32, 200.0].map(f32::to_bits);
    let job = |_| {
        let levels = random.below(LEVELS) + 1;
        let chroma = f32::from_bits(least + random.below((most - least) as usize + 1) as u32);
        let [dark, light] = [(); 2].map(|()| random.below(levels) as u32);
        let mut hues = [0; 16];
        hues[..k].fill_with(|| random.below(DIRECTIONS) as u16);
        Job {
            k,
            gap: random.between(0.0, 84.0),
            levels,
            position: random.below(levels * levels + 1),
            best: Some((chroma, dark, light)),
            hues,
            // Two of them may be the same.
            tightest: tightest(&hues[..k]).max(1),
        }
    };
    (0..JOBS).map(job).collect()
}

/// Lays out the page of a job by both sides in a buffer of this size, and compares all bytes of it.
fn equal(job: &Job, size: usize) {
    let mut pages = [(); 2].map(|()| vec![BEFORE_BYTE; size]);
    let given = ours(job, &mut pages[0]);
    assert!(given == theirs(job, &mut pages[1]), "a count differs");
    assert!(pages[0] == pages[1], "a page differs");
}

/// Compares the pages of jobs with every hue count and of one with none so far, and lays out those
/// with sixteen hues by both sides.
pub fn all() {
    for job in (1..=16).flat_map(jobs).chain([NOTHING]) {
        equal(&job, BYTES);
        equal(&job, BYTES + 7);
    }
    let [mut one, mut other] = [[0; BYTES]; 2];
    let (_, given) = compare(
        (&format!("{JOBS} pages of 16 hues"), TURNS),
        &jobs(16),
        // No page is left out because nobody reads it.
        |job| ours(job, black_box(&mut one)),
        |job| theirs(job, black_box(&mut other)),
        |_, theirs| theirs,
    );
    let whole = given.iter().all(|laid| *laid == (0, BYTES));
    assert!(whole, "a page is not laid out");
    println!("# all pages are equal byte for byte");
}
