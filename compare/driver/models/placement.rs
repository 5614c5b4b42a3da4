//! The lines of a list of placement cases: rings, steps, placements and sweeps.

use crate::files::{Files, BESIDE, SEARCH_FILE};
use crate::lists::rooms::{sides, Rooms};
use crate::models::gaps::tightest;
use crate::placing;
use crate::words::{digest, word, words};
use std::io;

/// Refusals: the hue count, the chroma, the ring's length, the spacing, an entry, the work buffer.
const BAD_HUE_COUNT: u32 = 1;
const BAD_CHROMA: u32 = 3;
const BAD_LENGTH: u32 = 4;
const BAD_SPACING: u32 = 5;
const BAD_ENTRY: u32 = 7;
const BAD_WORK: u32 = 8;
/// How many entries a ring can have that is lent, the ones refused among them.
pub const STORED: usize = 800;
/// How many entries one line can set.
const ENTRIES_A_LINE: usize = 23;

/// What a placement answers.
enum Answer {
    Placed(Vec<usize>),
    Nowhere,
    Refused(u32),
}

/// What a placement is asked, besides the ring, or a pair, besides its rows.
#[derive(Clone, Copy)]
pub struct Call {
    pub k: u32,
    pub step: u32,
    pub c: f32,
    pub room: usize,
}

/// Whether a chroma or an entry is taken.
pub fn takes(v: f32) -> bool {
    !v.is_nan() && v.is_sign_positive() && v <= 200.0
}

/// The number of the first refusal that applies to a call on these rows, in the order of
/// document 01; a ring is one row.
pub fn refusal(rows: &[&[f32]], call: Call) -> Option<u32> {
    let (n, step) = (rows[0].len(), call.step as usize);
    let alike = rows.iter().all(|row| row.len() == n);
    let asked = [
        (BAD_HUE_COUNT, (1..=16).contains(&call.k)),
        (BAD_CHROMA, takes(call.c)),
        (BAD_LENGTH, alike && (1..=720).contains(&n)),
        (BAD_SPACING, 1 <= step && step <= n),
        (BAD_ENTRY, rows.concat().into_iter().all(takes)),
        (BAD_WORK, n <= call.room),
    ];
    asked
        .iter()
        .find(|(_, fine)| !fine)
        .map(|(number, _)| *number)
}

/// The answer: a refusal, or what the published Rust gives.
fn answer(ring: &[f32], call: Call) -> Answer {
    if let Some(number) = refusal(&[ring], call) {
        return Answer::Refused(number);
    }
    let (k, step) = (call.k as usize, call.step as usize);
    match placing::feasible(ring, ring.len(), k, step, call.c) {
        Some(hues) => Answer::Placed(hues),
        None => Answer::Nowhere,
    }
}

/// The tightest gap of what a placement on a ring of n positions answers: 0 where nothing is placed.
fn tightest_of(answer: &Answer, n: usize) -> usize {
    match answer {
        Answer::Placed(hues) => tightest(hues, n),
        Answer::Nowhere | Answer::Refused(_) => 0,
    }
}

/// The last of k indices from a start, each the earliest allowed one at least a step further
/// on, as long as they stay on the ring; `next` gives the earliest allowed index over two laps.
fn reached(next: &[usize], call: Call, start: usize) -> Option<usize> {
    let stop = start + next.len() / 2;
    let mut at = start;
    for _ in 1..call.k {
        at = *next.get(at + call.step as usize)?;
        if at >= stop {
            return None;
        }
    }
    Some(at)
}

/// Whether an accepted call meets a start that fails by its closing gap alone, and whether
/// what it places is from the last allowed start that has room for k - 1 steps.
fn kinds(ring: &[f32], call: Call, answer: &Answer) -> (bool, bool) {
    let n = ring.len();
    let mut next = vec![usize::MAX; 2 * n];
    let mut seen = usize::MAX;
    for i in (0..2 * n).rev() {
        if ring[i % n] >= call.c {
            seen = i;
        }
        next[i] = seen;
    }
    let first = match answer {
        Answer::Placed(hues) => hues[0],
        _ => n,
    };
    let short = |start: usize| match reached(&next, call, start) {
        Some(at) => start + n - at < call.step as usize,
        None => false,
    };
    let closing = (0..first).any(|start| next[start] == start && short(start));
    let room = (call.k as usize - 1) * call.step as usize;
    let later = |start: usize| next[start] == start && start + room < n;
    (closing, first < n && !(first + 1..n).any(later))
}

/// The bytes of an answer on a ring of n positions in a digest: its kind, then sixteen hues and the
/// tightest gap, each of two bytes.
fn bytes_of(answer: &Answer, n: usize) -> [u8; 35] {
    let mut bytes = [0; 35];
    match answer {
        Answer::Placed(hues) => {
            bytes[0] = 255;
            for (i, hue) in hues.iter().enumerate() {
                bytes[2 * i + 1..][..2].copy_from_slice(&(*hue as u16).to_le_bytes());
            }
        }
        Answer::Nowhere => {}
        Answer::Refused(number) => bytes[0] = *number as u8,
    }
    bytes[33..].copy_from_slice(&(tightest_of(answer, n) as u16).to_le_bytes());
    bytes
}

/// What comes out for a hue count: 0 and its step, or the number of a refusal and 0.
fn step_answer(k: u32) -> [u32; 2] {
    if !(1..=16).contains(&k) {
        return [BAD_HUE_COUNT, 0];
    }
    let step = placing::step(k as usize) as u32;
    assert!(step == 600u32.div_ceil(k) + 1, "the step for {k}");
    [0, step]
}

/// The words for sixteen hues, zeros after the given ones.
pub fn sixteen(hues: &[usize]) -> [u32; 16] {
    let mut words = [0; 16];
    let given = hues.iter().zip(&mut words);
    given.for_each(|(hue, to)| *to = *hue as u32);
    words
}

/// The words of an answer on a ring of n positions: the number of its refusal or 0, whether something
/// is placed, the tightest gap, sixteen hues, and after a refusal what is left in the work buffer.
fn answer_words(answer: &Answer, n: usize, left: [u32; 2]) -> Vec<u32> {
    let gap = tightest_of(answer, n) as u32;
    match answer {
        Answer::Placed(hues) => [&[0, 1, gap][..], &sixteen(hues)].concat(),
        Answer::Nowhere => vec![0; 19],
        Answer::Refused(number) => [&[*number][..], &[0; 18], &left].concat(),
    }
}

/// A list of placement cases being written.
pub struct Placements<'a> {
    pub files: &'a mut Files,
    entries: [f32; STORED],
    length: usize,
    rooms: Rooms,
    placed: u64,
    nowhere: u64,
    refused: u64,
    closing: u64,
    last: u64,
}

impl Placements<'_> {
    /// Begins a list.
    pub fn begin(files: &mut Files) -> io::Result<Placements<'_>> {
        files.head("Placement", SEARCH_FILE, BESIDE)?;
        Ok(Placements {
            files,
            entries: [0.0; STORED],
            length: 0,
            rooms: Rooms::InTurn(0),
            placed: 0,
            nowhere: 0,
            refused: 0,
            closing: 0,
            last: 0,
        })
    }

    /// The ring.
    pub fn ring(&self) -> &[f32] {
        &self.entries[..self.length]
    }

    /// Sets the ring and all of its entries.
    pub fn set(&mut self, ring: &[f32]) -> io::Result<()> {
        let first = ring.len().min(ENTRIES_A_LINE);
        let entries = [vec![ring.len() as u32], words(&ring[..first])];
        self.files.set("ring", &entries.concat())?;
        self.length = ring.len();
        self.entries[..first].copy_from_slice(&ring[..first]);
        for at in (first..ring.len()).step_by(ENTRIES_A_LINE) {
            let end = ring.len().min(at + ENTRIES_A_LINE);
            self.more(at, &ring[at..end])?;
        }
        Ok(())
    }

    /// Sets the ring's length; entries stay where they stand.
    pub fn resize(&mut self, length: usize) -> io::Result<()> {
        self.length = length;
        self.files.set("ring", &[length as u32])
    }

    /// Sets entries of the ring from a place on.
    pub fn more(&mut self, at: usize, entries: &[f32]) -> io::Result<()> {
        self.entries[at..at + entries.len()].copy_from_slice(entries);
        let words = [vec![at as u32], words(entries)];
        self.files.set("more", &words.concat())
    }

    /// Writes the step for a hue count.
    pub fn step(&mut self, k: u32) -> io::Result<()> {
        self.files.case("step", &[k], &step_answer(k))
    }

    /// Gives the answer to a call on the ring, and counts it.
    fn answered(&mut self, call: Call) -> Answer {
        let answer = answer(self.ring(), call);
        match answer {
            Answer::Placed(_) => self.placed += 1,
            Answer::Nowhere => self.nowhere += 1,
            Answer::Refused(_) => {
                self.refused += 1;
                return answer;
            }
        }
        let (closing, last) = kinds(self.ring(), call, &answer);
        self.closing += u64::from(closing);
        self.last += u64::from(last);
        answer
    }

    /// Writes a placement.
    pub fn place(&mut self, call: Call) -> io::Result<()> {
        let left = self.files.left(call.room);
        let answer = answer_words(&self.answered(call), self.length, left);
        let asked = [call.k, call.step, word(call.c), call.room as u32];
        self.files.case("place", &asked, &answer)
    }

    /// Writes a placement with the rooms that a fixed list gives it; one that is too short stays.
    pub fn in_turn(&mut self, call: Call) -> io::Result<()> {
        let n = self.length;
        if call.room < n {
            return self.place(call);
        }
        let with = |room: usize| Call { room, ..call };
        let refused = sides(n).map(|room| refusal(&[self.ring()], with(room)));
        let rooms = self.rooms.next(n, refused).into_iter();
        rooms.map(with).try_for_each(|call| self.place(call))
    }

    /// Writes a placement with the rooms that a fixed list gives it.
    pub fn at(&mut self, k: u32, step: u32, c: f32) -> io::Result<()> {
        let room = self.length;
        self.in_turn(Call { k, step, c, room })
    }

    /// Writes a placement whose tightest gap and hues are worked out by hand and must be these, or none.
    pub fn must(
        &mut self,
        (k, step, c): (u32, u32, f32),
        expected: Option<(u32, &[u32])>,
    ) -> io::Result<()> {
        let call = Call {
            k,
            step,
            c,
            room: self.length,
        };
        let given = match answer(self.ring(), call) {
            Answer::Placed(hues) => Some(hues),
            Answer::Nowhere => None,
            Answer::Refused(number) => panic!("refused by {number}"),
        };
        let expected = expected.map(|(gap, hues)| {
            let hues: Vec<usize> = hues.iter().map(|hue| *hue as usize).collect();
            assert!(tightest(&hues, call.room) == gap as usize, "another gap");
            hues
        });
        assert!(given == expected, "not what is worked out by hand");
        self.at(k, step, c)
    }

    /// Every call on the ring at these chromas, with a work buffer just long enough.
    fn calls(&self, chromas: &[f32]) -> Vec<Call> {
        let room = self.length;
        let mut calls = vec![];
        for k in 1..=16 {
            for step in 1..=self.length as u32 {
                for c in chromas.iter().copied() {
                    calls.push(Call { k, step, c, room });
                }
            }
        }
        calls
    }

    /// Writes the digest of every placement on the ring at these chromas.
    pub fn sweep(&mut self, chromas: &[f32]) -> io::Result<()> {
        let (calls, n) = (self.calls(chromas).into_iter(), self.length);
        let bytes: Vec<_> = calls
            .map(|call| bytes_of(&self.answered(call), n))
            .collect();
        let sum = digest(bytes.into_iter().flatten());
        self.files.case("sweep", &words(chromas), &sum)
    }

    /// Ends the list with how many answers of each kind it holds.
    pub fn end(self) -> io::Result<()> {
        let (placed, nowhere, refused) = (self.placed, self.nowhere, self.refused);
        let (last, closing) = (self.last, self.closing);
        self.files.comment(&format!(
            "Answers: {placed} placed, {nowhere} none, {refused} refused."
        ))?;
        self.files.comment(&format!(
            "{last} are placed from the last start there is room for; in {closing} a start fails by its closing gap alone."
        ))
    }
}
