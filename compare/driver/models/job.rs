//! The job by the rules of documents 01 and 02, and the whole search of the published file. A new
//! job is one that a start begins; a kept one was begun by document 01's start, which took smaller
//! gaps too.

use crate::chroma::l_of;
use crate::files::Files;
use crate::models::gaps::tightest;
use crate::models::placement::takes;
use crate::pairing;
use crate::placing;
use crate::standins::{DIRECTIONS, LEVELS};
use crate::words::word;
use std::io;

/// Refusals: the hue count, the gap, the table's length, an entry, the work buffer, a finished
/// job, a broken record.
pub const BAD_HUE_COUNT: u32 = 1;
pub const BAD_GAP: u32 = 2;
pub const BAD_TABLE: u32 = 6;
pub const BAD_ENTRY: u32 = 7;
pub const BAD_WORK: u32 = 8;
pub const FINISHED: u32 = 14;
pub const BROKEN: u32 = 15;
/// The least chroma that a palette may have.
pub const FLOOR: f32 = 35.0;
/// The least gap that a new job may have.
pub const LEAST_GAP: f32 = 40.0;
/// How long a work buffer must be: one lap.
pub const ROOM: usize = DIRECTIONS;

/// A job record; the best is a chroma with the dark and the light level index, and beside the hues
/// stands their tightest gap.
#[derive(Clone, Copy)]
pub struct Job {
    pub k: u32,
    pub gap: f32,
    pub levels: u32,
    pub position: u32,
    pub best: Option<(f32, u32, u32)>,
    pub hues: [u16; 16],
    pub tightest: u32,
}

/// The record of a list in which no line has set one.
pub const BLANK: Job = Job {
    k: 0,
    gap: 0.0,
    levels: 0,
    position: 0,
    best: None,
    hues: [0; 16],
    tightest: 0,
};

/// Whether a record may have this gap, and a best with one hue fixed be asked for with it.
pub fn takes_gap(v: f32) -> bool {
    !v.is_nan() && v.is_sign_positive() && v <= 84.0
}

/// Whether a new job may have this gap.
fn starts_gap(v: f32) -> bool {
    takes_gap(v) && v >= LEAST_GAP
}

/// Sixteen hues, zeros after the given ones.
pub fn sixteen(given: impl Iterator<Item = usize>) -> [u16; 16] {
    let mut hues = [0; 16];
    given.zip(&mut hues).for_each(|(hue, to)| *to = hue as u16);
    hues
}

/// The tightest gap round the circle of the first k of these hues.
fn tightest_of(hues: &[u16; 16], k: u32) -> u32 {
    let hues: Vec<usize> = hues[..k as usize].iter().map(|hue| (*hue).into()).collect();
    tightest(&hues, DIRECTIONS) as u32
}

impl Job {
    /// The words of a record: hue count, gap, levels, position, tightest gap, whether there is a best,
    /// its chroma and its two level indices, and the hues.
    pub fn words(&self) -> [u32; 25] {
        let mut words = [0; 25];
        words[..4].copy_from_slice(&[self.k, word(self.gap), self.levels, self.position]);
        words[4] = self.tightest;
        if let Some((chroma, dark, light)) = self.best {
            words[5..9].copy_from_slice(&[1, word(chroma), dark, light]);
        }
        for (hue, to) in self.hues.iter().zip(&mut words[9..]) {
            *to = u32::from(*hue);
        }
        words
    }

    /// The words of the best in an answer: 1, its chroma and its two level indices, or 0 where there is
    /// none.
    pub fn shown_best(&self) -> Vec<u32> {
        let words = self.words();
        let best = if self.best.is_some() { 5..9 } else { 5..6 };
        words[best].to_vec()
    }

    /// The words of a record in an answer: those of `words`, but for the best where there is none.
    pub fn shown(&self) -> Vec<u32> {
        let words = self.words();
        [&words[..5], &self.shown_best(), &words[9..]].concat()
    }

    /// Writes the lines of a list that set this record; where there is a best, the tightest gap
    /// stands beside it, and the first line has 0.
    pub fn write(&self, files: &mut Files) -> io::Result<()> {
        let words = self.words();
        let hues = words[9..].iter().rposition(|hue| *hue != 0);
        let mut shown = [&words[..5], &words[9..9 + hues.map_or(0, |last| last + 1)]].concat();
        if self.best.is_none() {
            return files.set("job", &shown);
        }
        shown[4] = 0;
        files.set("job", &shown)?;
        files.set("best", &[&words[6..9], &words[4..5]].concat())
    }

    /// The bytes of a record in a digest: hue count, gap, levels and position, whether there is
    /// a best and if so its chroma and its two level indices, the hues, and the tightest gap.
    pub fn bytes(&self) -> Vec<u8> {
        let words = self.words();
        let of = |words: &[u32]| words.iter().flat_map(|word| word.to_le_bytes()).collect();
        let mut bytes: Vec<u8> = of(&words[..4]);
        bytes.push(u8::from(self.best.is_some()));
        if self.best.is_some() {
            bytes.extend::<Vec<u8>>(of(&words[6..9]));
        }
        bytes.extend(self.hues.iter().flat_map(|hue| hue.to_le_bytes()));
        bytes.extend(self.tightest.to_le_bytes());
        bytes
    }

    /// The same record with the tightest gap that its hues have, where it has a best, and else 0. Hues
    /// that are made up may be equal, and 0 would break the record: then it is 1.
    pub fn filled_in(self) -> Job {
        let tightest = match self.best {
            Some(_) => tightest_of(&self.hues, self.k).max(1),
            None => 0,
        };
        Job { tightest, ..self }
    }

    /// How many pairs there are to go through.
    pub fn pairs(&self) -> u64 {
        u64::from(self.levels) * u64::from(self.levels)
    }

    /// Whether every field is in its range.
    pub fn is_whole(&self) -> bool {
        let shown = self.best.map_or(0, |_| self.k as usize);
        let held = |(i, hue): (usize, &u16)| *hue <= if i < shown { 719 } else { 0 };
        let gaps = self.best.map_or(0..=0, |_| 1..=DIRECTIONS as u32);
        let below = |level: u32| level < self.levels;
        (1..=16).contains(&self.k)
            && takes_gap(self.gap)
            && (1..=LEVELS as u32).contains(&self.levels)
            && u64::from(self.position) <= self.pairs()
            && self.best.is_none_or(|(chroma, dark, light)| {
                (FLOOR..=200.0).contains(&chroma) && below(dark) && below(light)
            })
            && self.hues.iter().enumerate().all(held)
            && gaps.contains(&self.tightest)
    }

    /// Whether this is a record that no start gives, but that document 01's gave or led to.
    pub fn is_kept(&self) -> bool {
        self.is_whole() && !starts_gap(self.gap)
    }

    /// The dark and the light level index of the next pair.
    fn next_pair(&self) -> [u32; 2] {
        [self.position / self.levels, self.position % self.levels]
    }

    /// Whether the next pair is far enough apart.
    pub fn qualifies(&self) -> bool {
        let [dark, light] = self.next_pair().map(|level| l_of(level as usize));
        light - dark >= self.gap + 1.0
    }

    /// The rows of the next pair.
    pub fn rows<'a>(&self, table: &'a [f32]) -> [&'a [f32]; 2] {
        self.next_pair()
            .map(|level| &table[level as usize * DIRECTIONS..][..DIRECTIONS])
    }

    /// What the published pair gives for the next pair, from 35 or the best so far.
    pub fn found(&self, table: &[f32]) -> Option<(f32, Vec<usize>)> {
        let gamut = pairing::over(2, DIRECTIONS, self.rows(table).concat());
        let floor = self.best.map_or(FLOOR, |(chroma, ..)| chroma);
        let k = self.k as usize;
        pairing::best_for_levels(&gamut, 0, 1, k, placing::step(k), floor)
    }
}

/// Whether a table has a number of whole rows that is taken.
pub fn whole_rows(table: &[f32]) -> bool {
    let levels = table.len() / DIRECTIONS;
    table.len() == levels * DIRECTIONS && (1..=LEVELS).contains(&levels)
}

/// The first of these numbers whose question is not fine.
pub fn first_refusal(asked: &[(u32, bool)]) -> Option<u32> {
    asked
        .iter()
        .find(|(_, fine)| !fine)
        .map(|(number, _)| *number)
}

/// The number of the first refusal of a gap, which is taken or not, and a whole table.
pub fn table_refusal(gap_taken: bool, table: &[f32]) -> Option<u32> {
    first_refusal(&[
        (BAD_GAP, gap_taken),
        (BAD_TABLE, whole_rows(table)),
        (BAD_ENTRY, table.iter().copied().all(takes)),
    ])
}

/// A start with a gap that is taken or not: the job after it, or the number of its refusal.
fn started(k: u32, gap: f32, gap_taken: bool, table: &[f32]) -> Result<Job, u32> {
    if !(1..=16).contains(&k) {
        return Err(BAD_HUE_COUNT);
    }
    if let Some(number) = table_refusal(gap_taken, table) {
        return Err(number);
    }
    Ok(Job {
        k,
        gap,
        levels: (table.len() / DIRECTIONS) as u32,
        position: 0,
        best: None,
        hues: [0; 16],
        tightest: 0,
    })
}

/// A start: the job after it, or the number of its refusal.
pub fn start(k: u32, gap: f32, table: &[f32]) -> Result<Job, u32> {
    started(k, gap, starts_gap(gap), table)
}

/// Document 01's start: the job after it, or the number of its refusal.
pub fn began(k: u32, gap: f32, table: &[f32]) -> Result<Job, u32> {
    started(k, gap, takes_gap(gap), table)
}

/// The kept job of document 01's start, where a start refuses the gap and nothing else.
pub fn kept(k: u32, gap: f32, table: &[f32]) -> Option<Job> {
    began(k, gap, table).ok().filter(Job::is_kept)
}

/// The number of the first refusal of a step, in the order of document 01; entries are asked for
/// only where the next pair is far enough apart, and only its own.
pub fn step_refusal(table: &[f32], room: usize, job: &Job) -> Option<u32> {
    let taken = || job.rows(table).concat().into_iter().all(takes);
    let asked = [
        (BROKEN, job.is_whole()),
        (FINISHED, u64::from(job.position) != job.pairs()),
        (BAD_TABLE, table.len() == job.levels as usize * DIRECTIONS),
        (BAD_WORK, ROOM <= room),
    ];
    first_refusal(&asked).or_else(|| (job.qualifies() && !taken()).then_some(BAD_ENTRY))
}

/// A step: the job after it, or the number of its refusal.
pub fn step(table: &[f32], room: usize, job: Job) -> Result<Job, u32> {
    if let Some(number) = step_refusal(table, room, &job) {
        return Err(number);
    }
    let mut next = Job {
        position: job.position + 1,
        ..job
    };
    if !job.qualifies() {
        return Ok(next);
    }
    if let Some((chroma, hues)) = job.found(table)
        && job.best.is_none_or(|(best, ..)| chroma > best)
    {
        let [dark, light] = job.next_pair();
        next.best = Some((chroma, dark, light));
        next.tightest = tightest(&hues, DIRECTIONS) as u32;
        next.hues = sixteen(hues.into_iter());
    }
    Ok(next)
}

/// The indices of two levels by their lightness, of which two neighbours lie half a unit apart,
/// which is exact.
pub fn indices(levels: [f32; 2]) -> [u32; 2] {
    levels.map(|level| ((level - l_of(0)) * 2.0) as u32)
}

/// The same answer where a work buffer of this length is long enough, and else number 8, unless it
/// is a refusal already.
pub fn in_room(answer: Result<Job, u32>, room: usize) -> Result<Job, u32> {
    if room < ROOM {
        return answer.and(Err(BAD_WORK));
    }
    answer
}

/// A job that has just begun, new or kept, after all of its steps: by the published search at its
/// gap.
pub fn ended(begun: Job, table: &[f32]) -> Job {
    let mut job = begun;
    let gamut = pairing::over(job.levels as usize, DIRECTIONS, table.to_vec());
    job.position = job.pairs() as u32;
    if let Some(solution) = pairing::search(&gamut, job.k as usize, job.gap) {
        let (chroma, levels, hues) = pairing::parts_of(solution);
        let [dark, light] = indices(levels);
        job.best = Some((chroma, dark, light));
        // Hues lie half a degree apart, which is exact.
        job.hues = sixteen(hues.into_iter().map(|hue| (hue * 2.0) as usize));
        job.tightest = tightest_of(&job.hues, job.k);
    }
    job
}

/// A whole search by the published file: the job after it, or the number of its refusal.
pub fn search(k: u32, gap: f32, table: &[f32], room: usize) -> Result<Job, u32> {
    let begun = in_room(start(k, gap, table), room)?;
    Ok(ended(begun, table))
}
