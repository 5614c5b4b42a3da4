//! The lines of a list of pair cases: two rows, and the best over them.

use crate::files::{Files, BESIDE, SEARCH_FILE};
use crate::lists::rooms::{sides, Rooms};
use crate::models::gaps::tightest;
use crate::models::placement::{refusal, sixteen, Call, STORED};
use crate::pairing;
use crate::placing;
use crate::words::{word, words};
use std::io;

/// How many entries one line can set.
const ENTRIES_A_LINE: usize = 22;

/// What a pair answers.
enum Answer {
    Found(f32, Vec<usize>),
    Nothing,
    Refused(u32),
}

/// The answer: a refusal, or what the published Rust gives.
fn answer(rows: [&[f32]; 2], call: Call) -> Answer {
    if let Some(number) = refusal(&rows, call) {
        return Answer::Refused(number);
    }
    let gamut = pairing::over(2, rows[0].len(), rows.concat());
    let (k, step) = (call.k as usize, call.step as usize);
    match pairing::best_for_levels(&gamut, 0, 1, k, step, call.c) {
        Some((chroma, hues)) => Answer::Found(chroma, hues),
        None => Answer::Nothing,
    }
}

/// The words of an answer over rows of n entries: the number of its refusal or 0, whether something is
/// found, the chroma or 0, the tightest gap, sixteen hues, and after a refusal what is left in the work
/// buffer.
fn answer_words(answer: &Answer, n: usize, left: [u32; 2]) -> Vec<u32> {
    match answer {
        Answer::Found(chroma, hues) => {
            let gap = tightest(hues, n) as u32;
            [&[0, 1, word(*chroma), gap][..], &sixteen(hues)].concat()
        }
        Answer::Nothing => vec![0; 20],
        Answer::Refused(number) => [&[*number][..], &[0; 19], &left].concat(),
    }
}

/// The lesser value of two rows at each hue that both have.
pub fn lesser(rows: [&[f32]; 2]) -> Vec<f32> {
    let both = rows[0].iter().zip(rows[1]);
    both.map(|(a, b)| a.min(*b)).collect()
}

/// The largest of some values.
pub fn largest(values: &[f32]) -> f32 {
    values.iter().copied().fold(0.0, f32::max)
}

/// A list of pair cases being written.
pub struct Pairs<'a> {
    files: &'a mut Files,
    entries: [[f32; STORED]; 2],
    lengths: [usize; 2],
    rooms: Rooms,
    found: u64,
    nothing: u64,
    refused: u64,
    moved: u64,
    largest: u64,
    low: u64,
}

impl Pairs<'_> {
    /// Begins a list.
    pub fn begin(files: &mut Files) -> io::Result<Pairs<'_>> {
        files.head("Pair", SEARCH_FILE, BESIDE)?;
        Ok(Pairs {
            files,
            entries: [[0.0; STORED]; 2],
            lengths: [0; 2],
            rooms: Rooms::InTurn(0),
            found: 0,
            nothing: 0,
            refused: 0,
            moved: 0,
            largest: 0,
            low: 0,
        })
    }

    /// The two rows.
    pub fn rows(&self) -> [&[f32]; 2] {
        [0, 1].map(|which| &self.entries[which][..self.lengths[which]])
    }

    /// Sets the length of a row; entries stay where they stand.
    pub fn resize(&mut self, which: usize, length: usize) -> io::Result<()> {
        self.lengths[which] = length;
        self.files.set("row", &[which as u32, length as u32])
    }

    /// Sets entries of a row from a place on.
    pub fn more(&mut self, which: usize, at: usize, entries: &[f32]) -> io::Result<()> {
        self.entries[which][at..at + entries.len()].copy_from_slice(entries);
        let words = [vec![which as u32, at as u32], words(entries)];
        self.files.set("more", &words.concat())
    }

    /// Sets so many entries of a row, from a place on, to one value.
    pub fn same(&mut self, which: usize, at: usize, count: usize, v: f32) -> io::Result<()> {
        self.entries[which][at..at + count].fill(v);
        let words = [which as u32, at as u32, count as u32, word(v)];
        self.files.set("same", &words)
    }

    /// Sets a row and all of its entries, those of a long run of one value in one line.
    pub fn set(&mut self, which: usize, row: &[f32]) -> io::Result<()> {
        self.resize(which, row.len())?;
        let run = |at: usize| {
            let equal = |v: &&f32| v.to_bits() == row[at].to_bits();
            row[at..].iter().take_while(equal).count()
        };
        let mut at = 0;
        while at < row.len() {
            let count = run(at);
            if count > ENTRIES_A_LINE {
                self.same(which, at, count, row[at])?;
                at += count;
                continue;
            }
            let most = row.len().min(at + ENTRIES_A_LINE);
            let end = (at..most).find(|i| run(*i) > ENTRIES_A_LINE);
            let end = end.unwrap_or(most);
            self.more(which, at, &row[at..end])?;
            at = end;
        }
        Ok(())
    }

    /// Sets both rows.
    pub fn both(&mut self, rows: [&[f32]; 2]) -> io::Result<()> {
        self.set(0, rows[0])?;
        self.set(1, rows[1])
    }

    /// Counts an answer to a call.
    fn count(&mut self, call: Call, answer: &Answer) {
        let (chroma, hues) = match answer {
            Answer::Found(chroma, hues) => (*chroma, hues),
            Answer::Nothing => return self.nothing += 1,
            Answer::Refused(_) => return self.refused += 1,
        };
        let m = lesser(self.rows());
        let (k, step) = (call.k as usize, call.step as usize);
        let first = placing::feasible(&m, m.len(), k, step, call.c);
        self.found += 1;
        self.moved += u64::from(first.as_ref() != Some(hues));
        self.largest += u64::from(chroma == largest(&m));
        self.low += u64::from(call.c < 35.0);
    }

    /// Writes the best of a pair, and gives its chroma where there is one.
    pub fn best(&mut self, call: Call) -> io::Result<Option<f32>> {
        let answer = answer(self.rows(), call);
        self.count(call, &answer);
        let asked = [call.k, call.step, word(call.c), call.room as u32];
        let left = self.files.left(call.room);
        let words = answer_words(&answer, self.lengths[0], left);
        self.files.case("best", &asked, &words)?;
        Ok(match answer {
            Answer::Found(chroma, _) => Some(chroma),
            Answer::Nothing | Answer::Refused(_) => None,
        })
    }

    /// Writes the best of a pair with the rooms that a fixed list gives it, and gives its chroma; a
    /// room that is too short stays.
    pub fn in_turn(&mut self, call: Call) -> io::Result<Option<f32>> {
        let n = self.lengths[0];
        if call.room < n {
            return self.best(call);
        }
        let with = |room: usize| Call { room, ..call };
        let refused = sides(n).map(|room| refusal(&self.rows(), with(room)));
        let mut chroma = None;
        for room in self.rooms.next(n, refused) {
            chroma = self.best(with(room))?;
        }
        Ok(chroma)
    }

    /// Writes the best of a pair with the rooms that a fixed list gives it, and gives its chroma.
    pub fn from(&mut self, floor: f32, k: u32, step: u32) -> io::Result<Option<f32>> {
        let room = self.lengths[0];
        self.in_turn(Call {
            k,
            step,
            c: floor,
            room,
        })
    }

    /// Writes the best of a pair with the rooms that a fixed list gives it; its tightest gap and its hues
    /// are worked out by hand, and must be these.
    pub fn must(
        &mut self,
        (c, k, step): (f32, u32, u32),
        gap: u32,
        hues: &[u32],
    ) -> io::Result<()> {
        let room = self.lengths[0];
        let call = Call { k, step, c, room };
        let Answer::Found(_, given) = answer(self.rows(), call) else {
            panic!("nothing is found");
        };
        let same = given.iter().map(|hue| *hue as u32).eq(hues.iter().copied());
        let same = same && tightest(&given, room) == gap as usize;
        assert!(same, "not what is worked out by hand");
        self.from(c, k, step).map(|_| ())
    }

    /// Ends the list with how many answers of each kind it holds.
    pub fn end(self) -> io::Result<()> {
        let (found, nothing, refused) = (self.found, self.nothing, self.refused);
        let (moved, largest, low) = (self.moved, self.largest, self.low);
        self.files.comment(&format!(
            "Answers: {found} found, {nothing} none, {refused} refused."
        ))?;
        self.files.comment(&format!(
            "Of those found, {moved} have other hues than at the floor, {largest} are the largest value, and {low} have a floor below 35."
        ))
    }
}
