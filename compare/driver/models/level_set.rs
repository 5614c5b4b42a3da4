//! The best over a set of levels: the call with its refusals, and its lines in a list.

use crate::files::{Files, Tally};
use crate::lists::rooms::{sides, Rooms};
use crate::models::gaps::tightest;
use crate::models::job::{whole_rows, BAD_ENTRY, BAD_HUE_COUNT, BAD_TABLE, BAD_WORK, ROOM};
use crate::models::placement::{sixteen, takes};
use crate::models::table::Tables;
use crate::pairing;
use crate::placing::{feasible, step};
use crate::standins::{BAD_LEVEL, DIRECTIONS};
use crate::words::{float_step, word};
use std::io;

/// The refusal of a list of levels by its length.
const BAD_LIST: u32 = 18;
/// How many level indices a list has at most that is taken.
pub const MOST: usize = 8;
/// How many level indices one line can set.
pub const NAMED_A_LINE: usize = 23;
/// How far above the chroma found a common value can lie at most.
const NEAR: f64 = 1.0 / 32_768.0;

/// What is asked of a table and a list of levels: a hue count, and the length of a work buffer.
pub type Asked = (u32, usize);

/// A chroma with its hues.
type Best = (f32, Vec<usize>);

/// The best or none, or the number of a refusal.
type Answer = Result<Option<Best>, u32>;

/// The row of a level.
fn row(table: &[f32], level: u32) -> &[f32] {
    &table[level as usize * DIRECTIONS..][..DIRECTIONS]
}

/// The number of the first refusal that applies to a call, in the order in which they are asked
/// for; what comes later need not make sense where one applies.
fn refusal(table: &[f32], levels: &[u32], (k, room): Asked) -> Option<u32> {
    let below = |level: &u32| (*level as usize) < table.len() / DIRECTIONS;
    let taken = |level: &u32| row(table, *level).iter().copied().all(takes);
    let asked: [(u32, &dyn Fn() -> bool); 6] = [
        (BAD_HUE_COUNT, &|| (1..=16).contains(&k)),
        (BAD_TABLE, &|| whole_rows(table)),
        (BAD_WORK, &|| ROOM <= room),
        (BAD_LIST, &|| (1..=MOST).contains(&levels.len())),
        (BAD_LEVEL, &|| levels.iter().all(below)),
        (BAD_ENTRY, &|| levels.iter().all(taken)),
    ];
    asked
        .iter()
        .find(|(_, fine)| !fine())
        .map(|(number, _)| *number)
}

/// The answer: the first refusal that applies, or what the published function gives.
fn answer(table: &[f32], levels: &[u32], asked: Asked) -> Answer {
    if let Some(number) = refusal(table, levels, asked) {
        return Err(number);
    }
    let gamut = pairing::over(table.len() / DIRECTIONS, DIRECTIONS, table.to_vec());
    let levels: Vec<usize> = levels.iter().map(|level| *level as usize).collect();
    let k = asked.0 as usize;
    Ok(pairing::best_for_level_set(&gamut, &levels, k, step(k)))
}

/// The least value over the levels at each hue; values are compared as whole numbers, which their
/// patterns are.
fn common(table: &[f32], levels: &[u32]) -> Vec<f32> {
    let least = |hue: usize| {
        let bits = levels.iter().map(|level| row(table, *level)[hue].to_bits());
        f32::from_bits(bits.min().expect("a level"))
    };
    (0..DIRECTIONS).map(least).collect()
}

/// The least f32 that lies more than 2^-15 above a chroma.
fn beyond(chroma: f32) -> f32 {
    // From half of 2^-15 up the difference is exact.
    let above = |v: f32| f64::from(v) - NEAR > f64::from(chroma);
    // The f32 before the nearest one is not above.
    let mut v = float_step((f64::from(chroma) + NEAR) as f32, -1);
    while !above(v) {
        v = float_step(v, 1);
    }
    v
}

/// Whether hues lie at least so far apart all round, the last one and the first among them.
fn apart(hues: &[usize], step: usize) -> bool {
    let next = hues.iter().cycle().skip(1);
    let gap = |(hue, next): (&usize, &usize)| (next + DIRECTIONS - hue - 1) % DIRECTIONS + 1;
    let gaps: Vec<usize> = hues.iter().zip(next).map(gap).collect();
    gaps.iter().all(|gap| *gap >= step) && gaps.iter().sum::<usize>() == DIRECTIONS
}

/// Holds what is found to the values themselves: there is none where no hue has a value above 0 and
/// nowhere else; the hues found are k, far enough apart, and have the chroma; and no k hues so far
/// apart have a common value more than 2^-15 above it.
fn hold(m: &[f32], k: usize, best: &Option<Best>) {
    let some = m.iter().any(|v| v.to_bits() != 0);
    assert!(best.is_some() == some, "none, or not none");
    let Some((chroma, hues)) = best else {
        return;
    };
    assert!(hues.len() == k, "not so many hues");
    assert!(apart(hues, step(k)), "hues too near");
    let reached = |hue: &usize| m[*hue].to_bits() >= chroma.to_bits();
    assert!(hues.iter().all(reached), "a hue has not the chroma");
    let more = feasible(m, m.len(), k, step(k), beyond(*chroma));
    assert!(more.is_none(), "a common value lies far above");
}

/// What an answer is by hand: the number of its refusal or 0 and the tightest gap, then the chroma and
/// the hues where there are some.
fn by_hand(answer: &Answer) -> Vec<u32> {
    match answer {
        Ok(Some((chroma, hues))) => {
            let gap = tightest(hues, DIRECTIONS) as u32;
            let hues = hues.iter().map(|hue| *hue as u32);
            [0, gap, word(*chroma)].into_iter().chain(hues).collect()
        }
        Ok(None) => vec![0; 2],
        Err(number) => vec![*number, 0],
    }
}

/// The words of an answer: the number of its refusal or 0, whether something is found, the chroma or 0,
/// the tightest gap, sixteen hues, and after a refusal what is left in the work buffer.
fn answer_words(answer: &Answer, left: [u32; 2]) -> Vec<u32> {
    match answer {
        Ok(Some((chroma, hues))) => {
            let gap = tightest(hues, DIRECTIONS) as u32;
            [&[0, 1, word(*chroma), gap][..], &sixteen(hues)].concat()
        }
        Ok(None) => vec![0; 20],
        Err(number) => [&[*number][..], &[0; 19], &left].concat(),
    }
}

/// Calls with a list of levels, over the tables of a list, and what they answer.
pub struct LevelSets<'a> {
    pub tables: Tables<'a>,
    pub rooms: Rooms,
    levels: Vec<u32>,
    tally: Tally,
    zero: u64,
    moved: u64,
    again: u64,
}

impl LevelSets<'_> {
    /// Begins a list with these rooms: its head and the directions; the list of levels is empty.
    pub fn begin(files: &mut Files, rooms: Rooms) -> io::Result<LevelSets<'_>> {
        Ok(LevelSets {
            tables: Tables::begin(files, "Level set")?,
            rooms,
            levels: vec![],
            tally: Tally::default(),
            zero: 0,
            moved: 0,
            again: 0,
        })
    }

    /// Sets the list of levels; one that stands already needs no line.
    pub fn name(&mut self, levels: &[u32]) -> io::Result<()> {
        if self.levels == levels {
            return Ok(());
        }
        assert!(levels.len() <= NAMED_A_LINE, "too many for a line");
        self.levels = levels.to_vec();
        let words = [&[levels.len() as u32], levels].concat();
        self.tables.files.set("levels", &words)
    }

    /// The answer to a call.
    fn answer(&self, asked: Asked) -> Answer {
        answer(self.tables.table(), &self.levels, asked)
    }

    /// Counts an answer; one that is accepted is held to the values.
    fn count(&mut self, k: usize, answer: &Answer) {
        let best = match answer {
            Ok(best) => best,
            Err(number) => return *self.tally.refused.entry(*number).or_default() += 1,
        };
        let m = common(self.tables.table(), &self.levels);
        hold(&m, k, best);
        let Some((chroma, hues)) = best else {
            return self.tally.nothing += 1;
        };
        let first = feasible(&m, m.len(), k, step(k), 0.0);
        let twice = |i: usize| self.levels[..i].contains(&self.levels[i]);
        self.tally.found += 1;
        self.zero += u64::from(*chroma == 0.0);
        self.moved += u64::from(first.as_ref() != Some(hues));
        self.again += u64::from((0..self.levels.len()).any(twice));
    }

    /// Writes a call, and gives what the answer is by hand.
    pub fn set_in(&mut self, asked: Asked) -> io::Result<Vec<u32>> {
        let (k, room) = asked;
        let answer = self.answer(asked);
        self.count(k as usize, &answer);
        let files = &mut self.tables.files;
        files.case(
            "set",
            &[k, room as u32],
            &answer_words(&answer, files.left(room)),
        )?;
        Ok(by_hand(&answer))
    }

    /// Writes a call for this hue count with the rooms that the list gives it, and gives what the answer
    /// with one that is long enough is by hand.
    pub fn set(&mut self, k: u32) -> io::Result<Vec<u32>> {
        let table = self.tables.table();
        let refused = sides(ROOM).map(|room| refusal(table, &self.levels, (k, room)));
        let mut given = vec![];
        for room in self.rooms.next(ROOM, refused) {
            given = self.set_in((k, room))?;
        }
        Ok(given)
    }

    /// Writes a call for this hue count with the rooms that the list gives it; the answer with one
    /// that is long enough is worked out by hand, and must be this.
    pub fn must(&mut self, k: u32, expected: &[u32]) -> io::Result<()> {
        let given = self.set(k)?;
        assert!(given == expected, "not what is worked out by hand");
        Ok(())
    }

    /// Writes a call that must be refused by this number.
    pub fn must_refuse(&mut self, asked: Asked, number: u32) -> io::Result<()> {
        let given = self.set_in(asked)?;
        assert!(given == [number, 0], "not what is worked out by hand");
        Ok(())
    }

    /// Writes how many answers of each kind there are.
    pub fn end(&mut self) -> io::Result<()> {
        let (zero, moved, again) = (self.zero, self.moved, self.again);
        let files = &mut *self.tables.files;
        self.tally.write(files, "Sets of levels")?;
        files.comment(&format!(
            "Of those found, {zero} have the chroma 0, {moved} have other hues than at 0, and {again} name a level twice."
        ))
    }
}
