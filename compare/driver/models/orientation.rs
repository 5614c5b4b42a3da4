//! The best with one hue fixed: the call with its refusals, and its lines in a list.

use crate::files::{Files, Tally};
use crate::models::job::{indices, table_refusal, takes_gap, FLOOR};
use crate::models::table::{Tables, FEW_LEVELS};
use crate::pairing;
use crate::standins::DIRECTIONS;
use crate::words::word;
use std::io;
use std::ops::RangeInclusive;

/// The refusal of a fixed hue.
const BAD_HUE: u32 = 12;
/// How many positions on from the fixed hue its partner may lie.
const ON: RangeInclusive<u32> = 301..=419;

/// What is asked of a table: a gap, and the index of the fixed hue.
pub type Asked = (f32, u32);

/// A pair of levels by their indices with a partner, and its chroma.
#[derive(Clone, Copy, PartialEq)]
struct Best {
    chroma: f32,
    dark: u32,
    light: u32,
    partner: u32,
}

/// The best or none, or the number of a refusal.
type Answer = Result<Option<Best>, u32>;

/// The best by the published function; a hue is half as many degrees, which is exact.
fn published(table: &[f32], (gap, hue): Asked) -> Option<Best> {
    let gamut = pairing::over(table.len() / DIRECTIONS, DIRECTIONS, table.to_vec());
    let angle = hue as f32 * 0.5;
    let solution = pairing::best_at_orientation(&gamut, angle, gap)?;
    let (chroma, levels, hues) = pairing::parts_of(solution);
    assert!(hues[0] == angle, "the fixed hue is not the first");
    let [dark, light] = indices(levels);
    let partner = (hues[1] * 2.0) as u32;
    Some(Best {
        chroma,
        dark,
        light,
        partner,
    })
}

/// Every pair and partner that has the greatest value of all, if that reaches 35, in the order of
/// the rule; values are compared as whole numbers, which their patterns are.
fn greatest(table: &[f32], (gap, hue): Asked) -> Vec<Best> {
    let levels = (table.len() / DIRECTIONS) as u32;
    let entry = |level: u32, hue: u32| table[(level * DIRECTIONS as u32 + hue) as usize];
    let apart = (f64::from(gap + 1.0) * 2.0).ceil() as u32;
    let mut reached = vec![];
    for dark in 0..levels {
        for light in dark + apart..levels {
            for partner in ON.map(|on| (hue + on) % DIRECTIONS as u32) {
                let four = [(dark, hue), (light, hue), (dark, partner), (light, partner)];
                let bits = four.map(|(level, hue)| entry(level, hue).to_bits());
                let least = bits.into_iter().min().expect("four of them");
                reached.push(Best {
                    chroma: f32::from_bits(least),
                    dark,
                    light,
                    partner,
                });
            }
        }
    }
    let bits = |best: &Best| best.chroma.to_bits();
    let most = reached.iter().map(bits).max().unwrap_or(0);
    reached.retain(|best| bits(best) == most && most >= FLOOR.to_bits());
    reached
}

/// The answer: the first refusal that applies, or what the published function gives.
fn answer(table: &[f32], asked: Asked) -> Answer {
    let (gap, hue) = asked;
    match table_refusal(takes_gap(gap), table) {
        Some(number) => Err(number),
        None if hue as usize >= DIRECTIONS => Err(BAD_HUE),
        None => Ok(published(table, asked)),
    }
}

/// The words of an answer for this fixed hue: the number of its refusal or 0, whether something is
/// found, the chroma and the two level indices, and sixteen hues, the fixed one and its partner first.
fn answer_words(hue: u32, answer: Answer) -> Vec<u32> {
    let mut words = vec![0; 21];
    match answer {
        Ok(Some(best)) => {
            let found = [
                1,
                word(best.chroma),
                best.dark,
                best.light,
                hue,
                best.partner,
            ];
            words[1..7].copy_from_slice(&found);
        }
        Ok(None) => {}
        Err(number) => words[0] = number,
    }
    words
}

/// Calls with a hue fixed, over the tables of a list, and what they answer.
pub struct Orientations<'a> {
    pub tables: Tables<'a>,
    tally: Tally,
    below: u64,
    again: u64,
}

impl Orientations<'_> {
    /// Begins a list: its head and the directions.
    pub fn begin(files: &mut Files) -> io::Result<Orientations<'_>> {
        Ok(Orientations {
            tables: Tables::begin(files, "Orientation")?,
            tally: Tally::default(),
            below: 0,
            again: 0,
        })
    }

    /// Counts an answer; one over few levels must be the first of those with the greatest value.
    fn count(&mut self, asked: Asked, answer: Answer) {
        match answer {
            Ok(Some(best)) => {
                self.tally.found += 1;
                self.below += u64::from(best.partner < asked.1);
            }
            Ok(None) => self.tally.nothing += 1,
            Err(number) => *self.tally.refused.entry(number).or_default() += 1,
        }
        let table = self.tables.table();
        if let Ok(best) = answer
            && table.len() <= FEW_LEVELS as usize * DIRECTIONS
        {
            let all = greatest(table, asked);
            assert!(best == all.first().copied(), "the best is another");
            self.again += u64::from(all.len() > 1);
        }
    }

    /// Writes a call, and gives the chroma where one is found.
    pub fn orient(&mut self, asked: Asked) -> io::Result<Option<f32>> {
        let (gap, hue) = asked;
        let answer = answer(self.tables.table(), asked);
        self.count(asked, answer);
        let files = &mut self.tables.files;
        files.case("orient", &[word(gap), hue], &answer_words(hue, answer))?;
        Ok(answer.ok().flatten().map(|best| best.chroma))
    }

    /// Writes a call of which the answer is worked out by hand, and must be this: the number of a
    /// refusal or 0, then chroma, level indices and partner where something is found.
    pub fn must(&mut self, asked: Asked, expected: &[u32]) -> io::Result<()> {
        let given = match answer(self.tables.table(), asked) {
            Ok(Some(best)) => vec![0, word(best.chroma), best.dark, best.light, best.partner],
            Ok(None) => vec![0],
            Err(number) => vec![number],
        };
        assert!(given == expected, "not what is worked out by hand");
        self.orient(asked)?;
        Ok(())
    }

    /// Writes how many answers of each kind there are.
    pub fn end(&mut self) -> io::Result<()> {
        let (below, again) = (self.below, self.again);
        let files = &mut *self.tables.files;
        self.tally.write(files, "One hue fixed")?;
        files.comment(&format!(
            "Of those found, {below} have a partner below the fixed hue; in {again} over at most {FEW_LEVELS} levels another pair or partner reaches the chroma too."
        ))
    }
}
