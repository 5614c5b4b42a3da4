//! The page list, for `page_cases`: pages of a job, laid out by Rust's own formatting, `{:<10}{:>30}` for
//! each line. A chroma times 2^18 is exact in an f64 and must be whole there, else the driver stops; a
//! hundred times that is divided by 2^18 in whole numbers of 64 bits.
//!
//! The fixed list holds five pages that must come out as they are written out here, else the driver
//! stops; pages for every hue count, of a job that has a best and of one with none so far, in buffers of
//! up to three bytes fewer and more than the page has, of 0, 81 to 83, 860 to 862 and 1,024 bytes, and
//! some of 1 to 3; chromas 35, 64, 100, 128, 163.84 and 200, whole hundredths that leave nothing and
//! others that an f32 only comes near, each with the f32 on both sides, of which those outside 35 to 200
//! break the job; the least and the greatest rest with every number of digits, from 35, 64, 100 and 128
//! up; the greatest rest of all, which must be 262140 over all f32 from 35 to 200, else the driver
//! stops; dark and light levels 0, 9, 10, 99, 100 and 168 in every combination, the greater of which is
//! the last level that the job has; hues 0, 9, 10, 99, 100 and 719, alone, rising, falling and again and
//! again; jobs at their start, on their way, finished and one position beyond; kept jobs with gaps from
//! 0 to the f32 before 40, and others with gaps from 40 to 84, in a buffer just long enough and in one a
//! byte shorter; records with each field out of its range, and with all of them, in buffers of 1,024, of
//! 40 and of no bytes, which have number 15 in each; and tightest gaps of 0 and 721 with a best and 5
//! with none so far, which are broken, and 1 and 720 with a best, which are not.
//!
//! A random list has pages of random jobs, about one in eight of them of the job of the page before:
//! chromas at or near those with a rule of their own or a whole number of hundredths, or any f32 from 35
//! to 200; half of the gaps below 40; level indices, hues and positions at their ends, where a digit
//! more begins, or any; about one job in four with none so far, and about one in eight with a field out
//! of its range or of any bits. Sizes lie at or near the length of the job's page, 82 or 861, at the
//! ends, or anywhere from 0 to 1,024.

use crate::files::Files;
use crate::lists::search::{damaged, MIDST, SMALL, SMALL_GAPS, WORST};
use crate::lists::small_gaps::near;
use crate::models::job::{sixteen, Job, FLOOR, LEAST_GAP};
use crate::models::layout::{hundredths, units};
use crate::models::page::{length, Pages, STORED};
use crate::random::Random;
use crate::standins::{DIRECTIONS, LEVELS};
use std::io;

/// The greatest chroma that a job may have.
const MOST_CHROMA: f32 = 200.0;
/// The greatest rest of all chromas.
const MOST_REST: u64 = 262_140;
/// How many bytes the page of a job with none so far has, and that of one with sixteen hues.
const SHORTEST: usize = 82;
const LONGEST: usize = 861;
/// The sizes that each broken record has: one that is enough for every page, one for none, and 0.
const ALL_SIZES: [usize; 3] = [STORED, 40, 0];
/// Level indices and hues at the ends and where a number gets a digit more.
const INDICES: [u32; 6] = [0, 9, 10, 99, 100, LEVELS as u32 - 1];
const HUES: [usize; 6] = [0, 9, 10, 99, 100, DIRECTIONS - 1];
/// Chromas at the ends, where the last place of an f32 doubles, where the hundredths get a digit
/// more, and where a hundred times the units pass 32 bits.
const CHROMAS: [f32; 6] = [FLOOR, 64.0, 100.0, 128.0, 163.84, MOST_CHROMA];
/// Chromas of whole hundredths that leave nothing.
const QUARTERS: [f32; 8] = [35.25, 50.0, 63.75, 64.25, 99.5, 127.75, 128.25, 199.75];
/// Chromas of about so many hundredths.
const HUNDREDTHS: [u32; 8] = [3501, 3599, 4999, 6401, 9999, 10_001, 16_385, 19_999];
/// A chroma of 3502 whole hundredths, of which an f32 product with 100 makes 3503.
const ROUNDED: f32 = f32::from_bits(0x420c_1eb8);

/// Writes the fixed list.
pub fn fixed(files: &mut Files) -> io::Result<()> {
    let mut list = Pages::begin(files)?;
    by_hand(&mut list)?;
    sizes(&mut list)?;
    chromas(&mut list)?;
    rests(&mut list)?;
    levels(&mut list)?;
    hues(&mut list)?;
    positions(&mut list)?;
    gaps(&mut list)?;
    broken(&mut list)?;
    list.aside(tightest_gaps)?;
    list.end()?;
    files.malformed("page 401 0")?;
    files.damaged("page", &[0, 0])
}

/// Writes a random list of this many pages, of which about one in eight is of the job of the one
/// before.
pub fn many(files: &mut Files, seed: u64, count: usize) -> io::Result<()> {
    let mut list = Pages::begin(files)?;
    let mut random = Random(seed);
    for turn in 0..count {
        if turn == 0 || random.below(8) > 0 {
            list.lend(random_job(&mut random))?;
        }
        let size = random_size(&mut random, &list.job());
        list.page(size)?;
    }
    list.end()
}

/// A finished job with this hue count, whose hues pass 719 on their way.
pub fn finished(k: u32) -> Job {
    let job = Job {
        k,
        gap: LEAST_GAP,
        levels: LEVELS as u32,
        position: (LEVELS * LEVELS) as u32,
        best: Some((60.7, 49, 131)),
        hues: sixteen((0..k as usize).map(|i| (653 + 45 * i) % DIRECTIONS)),
        tightest: 0,
    };
    job.filled_in()
}

/// The same job with none so far.
pub fn with_none(job: Job) -> Job {
    Job {
        best: None,
        hues: [0; 16],
        tightest: 0,
        ..job
    }
}

/// The same job with this chroma.
pub fn with_chroma(job: Job, chroma: f32) -> Job {
    let best = job.best.map(|(_, dark, light)| (chroma, dark, light));
    Job { best, ..job }
}

/// Pages that are written out by hand.
const NONE_SO_FAR: &str = "\
hues                                   7
none                                   0
";
const ONE_HUE: &str = "\
hues                                   1
dark                                   0
light                                168
chroma                              3500
rest                                   0
hue                                    9
";
const TWO_HUES: &str = "\
hues                                   2
dark                                  49
light                                131
chroma                              6071
rest                               46176
hue                                  272
hue                                  653
";
const THREE_HUES: &str = "\
hues                                   3
dark                                 100
light                                 10
chroma                              3502
rest                              262112
hue                                  719
hue                                    0
hue                                   99
";
const SIXTEEN_HUES: &str = "\
hues                                  16
dark                                  49
light                                131
chroma                             16384
rest                                 304
hue                                  653
hue                                  698
hue                                   23
hue                                   68
hue                                  113
hue                                  158
hue                                  203
hue                                  248
hue                                  293
hue                                  338
hue                                  383
hue                                  428
hue                                  473
hue                                  518
hue                                  563
hue                                  608
";

/// Writes pages that must be as they are written out by hand, of finished jobs and of kept ones that
/// are not finished.
fn by_hand(list: &mut Pages) -> io::Result<()> {
    let of = |best: (f32, u32, u32), hues: &[usize]| {
        let job = Job {
            best: Some(best),
            hues: sixteen(hues.iter().copied()),
            ..finished(hues.len() as u32)
        };
        job.filled_in()
    };
    let kept = |job: Job| Job {
        gap: 12.5,
        position: 7,
        ..job
    };
    let two = (f32::from_bits(0x4272_d8d8), 49, 131);
    let passed = f32::from_bits(0x4323_d70b);
    list.must(kept(with_none(finished(7))), NONE_SO_FAR)?;
    list.must(of((FLOOR, 0, 168), &[9]), ONE_HUE)?;
    list.must(of(two, &[272, 653]), TWO_HUES)?;
    list.must(kept(of((ROUNDED, 100, 10), &[719, 0, 99])), THREE_HUES)?;
    list.must(with_chroma(finished(16), passed), SIXTEEN_HUES)
}

/// Writes pages for every hue count, of a job that has a best and of one with none so far, in buffers
/// at and beside the lengths of this page, of the shortest and of the longest, and at the ends.
fn sizes(list: &mut Pages) -> io::Result<()> {
    let beside = |n: usize, by: usize| n - by..=n + by;
    for k in 1..=16 {
        for job in [finished(k), with_none(finished(k))] {
            let mut sizes = vec![0, STORED];
            sizes.extend(beside(length(&job), 3));
            sizes.extend(beside(SHORTEST, 1).chain(beside(LONGEST, 1)));
            sizes.sort_unstable();
            sizes.dedup();
            list.lend(job)?;
            for size in sizes {
                list.page(size)?;
            }
        }
    }
    Ok(())
}

/// Writes the page of a job in a buffer with a few bytes to spare.
fn spare(list: &mut Pages, job: Job) -> io::Result<()> {
    list.lend(job)?;
    list.page(length(&job) + 4)
}

/// Writes pages of chromas with a rule of their own and the f32 on both sides of each; a job whose
/// chroma lies below 35 or above 200 is broken.
fn chromas(list: &mut Pages) -> io::Result<()> {
    let nothing_left = |chroma: &f32| hundredths(*chroma)[1] == 0;
    assert!(QUARTERS.iter().all(nothing_left), "something is left");
    let about = HUNDREDTHS.map(|all| all as f32 / 100.0);
    for chroma in [&CHROMAS[..], &[ROUNDED], &QUARTERS, &about].concat() {
        for chroma in near(chroma) {
            spare(list, with_chroma(finished(1), chroma))?;
        }
    }
    Ok(())
}

/// Writes pages with the least and the greatest rest of every number of digits, where a rest is a
/// multiple of 4, 8 or 16, and with the greatest of all.
fn rests(list: &mut Pages) -> io::Result<()> {
    for (from, unit) in [(FLOOR, 4), (64.0, 8), (100.0, 8), (128.0, 16)] {
        for digits in 1..=6 {
            let power = 10_u64.pow(digits - 1);
            let least = if digits == 1 { 0 } else { power };
            let most = MOST_REST.min(10 * power - 1);
            for rest in [least.next_multiple_of(unit), most / unit * unit] {
                spare(list, with_chroma(finished(1), with_rest(from, rest)))?;
            }
        }
    }
    spare(list, with_chroma(finished(1), with_most_left()))
}

/// The first chroma from one on that leaves this.
fn with_rest(from: f32, rest: u64) -> f32 {
    let mut all = (from.to_bits()..=MOST_CHROMA.to_bits()).map(f32::from_bits);
    let found = all.find(|chroma| hundredths(*chroma)[1] == rest);
    found.expect("a chroma that leaves this")
}

/// The last of all chromas that leave the most; each of all is held to be whole in units.
fn with_most_left() -> f32 {
    let all = (FLOOR.to_bits()..=MOST_CHROMA.to_bits()).map(f32::from_bits);
    let left = |chroma: &f32| {
        assert!(units(*chroma).fract() == 0.0, "a chroma between two units");
        hundredths(*chroma)[1]
    };
    let found = all.max_by_key(left).expect("a chroma");
    assert!(left(&found) == MOST_REST, "another rest is the greatest");
    found
}

/// Writes pages of level indices with one, two and three digits, of which the greater is the last
/// one of its job.
fn levels(list: &mut Pages) -> io::Result<()> {
    for dark in INDICES {
        for light in INDICES {
            let levels = dark.max(light) + 1;
            spare(
                list,
                Job {
                    levels,
                    position: levels * levels,
                    best: Some((FLOOR, dark, light)),
                    ..finished(2)
                },
            )?;
        }
    }
    Ok(())
}

/// Writes pages of hues with one, two and three digits, in several orders and again and again.
fn hues(list: &mut Pages) -> io::Result<()> {
    let rising = HUES.into_iter();
    let mut each: Vec<Vec<usize>> = rising.clone().map(|hue| vec![hue]).collect();
    each.extend([rising.clone().collect(), rising.clone().rev().collect()]);
    each.push(rising.rev().cycle().take(16).collect());
    each.extend([vec![0; 16], vec![DIRECTIONS - 1; 16]]);
    for hues in each {
        let job = finished(hues.len() as u32);
        let hues = sixteen(hues.into_iter());
        spare(list, Job { hues, ..job }.filled_in())?;
    }
    Ok(())
}

/// Writes pages of jobs at their start, on their way, finished, and beyond, which are broken.
fn positions(list: &mut Pages) -> io::Result<()> {
    for levels in [1, 2, LEVELS as u32] {
        let pairs = levels * levels;
        for position in [0, 1, pairs / 2, pairs - 1, pairs, pairs + 1] {
            let job = Job {
                levels,
                position,
                best: Some((MOST_CHROMA, levels - 1, 0)),
                ..finished(4)
            };
            spare(list, job)?;
            spare(list, with_none(job))?;
        }
    }
    Ok(())
}

/// Writes pages of kept jobs and of new ones, in a buffer just long enough and in one a byte shorter.
fn gaps(list: &mut Pages) -> io::Result<()> {
    let kept = [&SMALL_GAPS[..], &[12.5, 39.9999]].concat();
    for gap in kept.into_iter().chain([LEAST_GAP, 40.5, 84.0]) {
        let job = Job { gap, ..finished(5) };
        for job in [job, with_none(job)] {
            list.lend(job)?;
            let n = length(&job);
            list.page(n)?;
            list.page(n - 1)?;
        }
    }
    Ok(())
}

/// Sets a record that must be broken.
fn lend_broken(list: &mut Pages, job: Job) -> io::Result<()> {
    assert!(!job.is_whole(), "a record that is not broken");
    list.lend(job)
}

/// Writes pages of records with one field out of its range or with all: in a long buffer, in a short
/// one and in an empty one. Those of other jobs, and with none so far, have one of these in turn.
fn broken(list: &mut Pages) -> io::Result<()> {
    for job in damaged(finished(3)).into_iter().chain([WORST]) {
        lend_broken(list, job)?;
        for size in ALL_SIZES {
            list.page(size)?;
        }
    }
    let others = [damaged(finished(16)), damaged(MIDST)].concat();
    let none = damaged(finished(2)).into_iter().map(with_none);
    let hued = [0, 1, 2, 15].map(|at| {
        let mut job = with_none(finished(2));
        job.hues[at] = 1;
        job
    });
    let none = none.filter(|job| !job.is_whole()).chain(hued);
    for (i, job) in others.into_iter().chain(none).enumerate() {
        lend_broken(list, job)?;
        list.page(ALL_SIZES[i % ALL_SIZES.len()])?;
    }
    Ok(())
}

/// Writes pages of records by their tightest gap: beyond the ends of its range, which are broken, as are
/// all but 0 with none so far, and at its ends, which are laid out as with any other in it.
fn tightest_gaps(list: &mut Pages) -> io::Result<()> {
    let job = finished(3);
    let with = |job: Job, tightest: u32| Job { tightest, ..job };
    for job in [with(job, 0), with(job, 721), with(with_none(job), 5)] {
        lend_broken(list, job)?;
        for size in ALL_SIZES {
            list.page(size)?;
        }
    }
    for tightest in [1, 720] {
        spare(list, with(job, tightest))?;
        list.page(length(&job))?;
        list.page(length(&job) - 1)?;
    }
    Ok(())
}

/// A random chroma from 35 to 200: at or near one with a rule of its own, at or near a whole number
/// of hundredths, or any.
fn random_chroma(random: &mut Random) -> f32 {
    let [least, most] = [FLOOR, MOST_CHROMA].map(f32::to_bits);
    let chroma = match random.below(4) {
        0 => {
            let one = random.pick(&CHROMAS);
            random.near(one)
        }
        1 => {
            let all = 3500 + random.below(16_501);
            random.near(all as f32 / 100.0)
        }
        _ => f32::from_bits(least + random.below((most - least) as usize + 1) as u32),
    };
    chroma.clamp(FLOOR, MOST_CHROMA)
}

/// A random number below another, often at an end or one with another number of digits than the one
/// beside it.
fn random_below(random: &mut Random, n: u32) -> u32 {
    let edge = random.pick(&[0, 9, 10, 99, 100, n - 1]);
    match random.below(4) {
        0 => edge.min(n - 1),
        _ => random.below(n as usize) as u32,
    }
}

/// A random gap that a job may have, half the time that of a kept one.
fn random_gap(random: &mut Random) -> f32 {
    let small = random.pick(&SMALL_GAPS);
    match random.below(6) {
        0 => small,
        1 | 2 => random.between(0.0, SMALL),
        3 => random.pick(&[LEAST_GAP, 84.0]),
        _ => random.between(LEAST_GAP, 84.0),
    }
}

/// A random job that is not broken and has a best.
fn random_found(random: &mut Random) -> Job {
    let k = random.below(16) as u32 + 1;
    let levels = random_below(random, LEVELS as u32) + 1;
    found_over(random, k, levels)
}

/// A random job for so many hues over so many levels that is not broken and has a best.
pub fn found_over(random: &mut Random, k: u32, levels: u32) -> Job {
    let pairs = levels * levels;
    let between = random.below(pairs as usize) as u32;
    let best = (
        random_chroma(random),
        random_below(random, levels),
        random_below(random, levels),
    );
    let hues: Vec<usize> = (0..k)
        .map(|_| random_below(random, DIRECTIONS as u32) as usize)
        .collect();
    let job = Job {
        k,
        gap: random_gap(random),
        levels,
        position: random.pick(&[0, between, between, pairs]),
        best: Some(best),
        hues: sixteen(hues.into_iter()),
        tightest: 0,
    };
    job.filled_in()
}

/// A random job with one field of any bits, which may still be in its range.
fn random_field(random: &mut Random, job: Job) -> Job {
    let mut job = job;
    let bits = random.bits() >> random.below(32);
    let float = random.mixed(0.0, 250.0);
    let (chroma, dark, light) = job.best.expect("a best");
    match random.below(8) {
        0 => job.k = bits,
        1 => job.gap = float,
        2 => job.levels = bits,
        3 => job.position = bits,
        4 => job.best = Some((float, dark, light)),
        5 => job.best = Some((chroma, bits, light)),
        6 => job.best = Some((chroma, dark, bits)),
        _ => job.hues[random.below(16)] = bits as u16,
    }
    job
}

/// A random job: about one in four with none so far, and one in eight with a field out of its range
/// or of any bits.
fn random_job(random: &mut Random) -> Job {
    let mut job = random_found(random);
    if random.below(8) == 0 {
        job = match random.below(2) {
            0 => random.pick(&damaged(job)),
            _ => random_field(random, job),
        };
    }
    match random.below(4) {
        0 => with_none(job),
        _ => job,
    }
}

/// A random size of a buffer: at or near the length of a job's page, of the shortest or of the
/// longest, at the ends, or any.
fn random_size(random: &mut Random, job: &Job) -> usize {
    let beside = |random: &mut Random, n: usize| n - 3 + random.below(7);
    match random.below(8) {
        0..3 => beside(random, length(job)),
        3 => beside(random, SHORTEST),
        4 => beside(random, LONGEST),
        5 => random.pick(&[0, 1, 2, 3, length(job), STORED - 1, STORED]),
        _ => random.below(STORED + 1),
    }
}
