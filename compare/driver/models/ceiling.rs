//! How good a job is already: its ceiling by the text of Req 08, with the refusals of the call, and
//! its lines in a list. The published Rust has no ceiling; its steps say how each record ends, and
//! what is said of the record is held to that.

use crate::files::{Files, Tally};
use crate::models::job::{
    self, first_refusal, Job, BAD_ENTRY, BAD_TABLE, BLANK, BROKEN, FLOOR, ROOM,
};
use crate::models::placement::takes;
use crate::models::table::Tables;
use crate::standins::DIRECTIONS;
use std::io;
use std::iter::successors;

/// The bits of the ceiling, or none where no pair far enough apart is left; or the number of a refusal.
type Answer = Result<Option<u32>, u32>;

/// The bits of the largest entry of a row; entries are compared as whole numbers, which the patterns
/// of those that are taken are.
fn largest(row: &[f32]) -> u32 {
    let bits = row.iter().map(|v| v.to_bits());
    bits.max().expect("an entry")
}

/// The bits of the ceiling of a record over a table, neither of which is refused: over the pairs still
/// to come that are far enough apart, the greatest of the lesser of both rows' largest entries. Both
/// rows are read anew for every pair.
fn ceiling(job: Job, table: &[f32]) -> Option<u32> {
    let to_come = (job.position..job.pairs() as u32).map(|position| Job { position, ..job });
    let lesser = |pair: Job| {
        let [dark, light] = pair.rows(table).map(largest);
        dark.min(light)
    };
    to_come.filter(Job::qualifies).map(lesser).max()
}

/// The answer: the first refusal that applies, or the ceiling.
fn answer(job: Job, table: &[f32]) -> Answer {
    let asked = [
        (BROKEN, job.is_whole()),
        (BAD_TABLE, table.len() == job.levels as usize * DIRECTIONS),
        (BAD_ENTRY, table.iter().copied().all(takes)),
    ];
    match first_refusal(&asked) {
        Some(number) => Err(number),
        None => Ok(ceiling(job, table)),
    }
}

/// The words of an answer for this record: the number of its refusal alone; or 0, the best so far as
/// in an answer with a job, and 1 and the ceiling, or 0 where no pair is left.
fn answer_words(job: Job, answer: Answer) -> Vec<u32> {
    match answer {
        Ok(Some(bits)) => [vec![0], job.shown_best(), vec![1, bits]].concat(),
        Ok(None) => [vec![0], job.shown_best(), vec![0]].concat(),
        Err(number) => vec![number],
    }
}

/// The records of a job from this one on, step by step to its end; where it has just begun, that must
/// be what the published search gives.
fn path(from: Job, table: &[f32]) -> Vec<Job> {
    let next = |job: &Job| job::step(table, ROOM, *job).ok();
    let path: Vec<Job> = successors(Some(from), next).collect();
    let end = path[path.len() - 1];
    let finished = u64::from(end.position) == end.pairs();
    assert!(finished, "a step is refused");
    if from.position == 0 && from.best.is_none() {
        let same = end.words() == job::ended(from, table).words();
        assert!(same, "a job ends otherwise than the search");
    }
    path
}

/// The bits of the best chroma of a record; none is less than every chroma.
fn chroma(job: Job) -> Option<u32> {
    job.best.map(|(chroma, ..)| chroma.to_bits())
}

/// Whether every row of a table is of one value.
fn is_even(table: &[f32]) -> bool {
    let mut rows = table.chunks(DIRECTIONS);
    rows.all(|row| row.iter().all(|v| v.to_bits() == row[0].to_bits()))
}

/// Holds what is said of a record to the job that it ends in: that does not exceed the larger of best
/// and ceiling, of those that are there, and where none of them reaches 35 it has no chroma. Where
/// every row is of one value, it has the larger of both or the f32 before it, at which halving may end.
fn hold(job: Job, ceiling: Option<u32>, end: Job, table: &[f32]) {
    let larger = chroma(job).max(ceiling);
    assert!(chroma(end) <= larger, "a job exceeds best and ceiling");
    if larger < Some(FLOOR.to_bits()) {
        assert!(end.best.is_none(), "a job has a chroma after all");
    } else if is_even(table) {
        let before = larger.map(|bits| bits - 1);
        assert!(chroma(end) >= before, "a job ends below both");
    }
}

/// Calls lent records over the tables of a list, and what they answer.
pub struct Ceilings<'a> {
    pub tables: Tables<'a>,
    /// The record that the lines so far have set, but for its position, which each case says.
    lent: Job,
    tally: Tally,
    below_best: u64,
    below_floor: u64,
    zero: u64,
    reached: u64,
}

impl Ceilings<'_> {
    /// Begins a list: its head and the directions.
    pub fn begin(files: &mut Files) -> io::Result<Ceilings<'_>> {
        files.title("Ceiling")?;
        files.comment("What must come out is in the file stdout; it is worked out by Req 08 of document 02 and held to what")?;
        files.comment("the steps of the published Rust, which has no ceiling, end with.")?;
        Ok(Ceilings {
            tables: Tables::headed(files)?,
            lent: BLANK,
            tally: Tally::default(),
            below_best: 0,
            below_floor: 0,
            zero: 0,
            reached: 0,
        })
    }

    /// Holds and counts the ceiling of a record that ends in this job.
    fn count(&mut self, job: Job, ceiling: Option<u32>, end: Job) {
        hold(job, ceiling, end, self.tables.table());
        let Some(bits) = ceiling else {
            return self.tally.nothing += 1;
        };
        self.tally.found += 1;
        self.below_best += u64::from(ceiling < chroma(job));
        self.below_floor += u64::from(bits < FLOOR.to_bits());
        self.zero += u64::from(bits == 0);
        self.reached += u64::from(ceiling == chroma(end));
    }

    /// Sets the record that the next case is lent, but for its position; one that stands already needs
    /// no line.
    fn lend(&mut self, job: Job) -> io::Result<()> {
        let lent = Job { position: 0, ..job };
        if self.lent.words() == lent.words() {
            return Ok(());
        }
        self.lent = lent;
        lent.write(self.tables.files)
    }

    /// Writes a call lent this record, and gives the answer; `end` gives the job in which a record ends
    /// that is accepted.
    fn call(&mut self, job: Job, end: impl FnOnce(&[f32]) -> Job) -> io::Result<Answer> {
        let answer = answer(job, self.tables.table());
        match answer {
            Ok(ceiling) => {
                let end = end(self.tables.table());
                self.count(job, ceiling, end);
            }
            Err(number) => *self.tally.refused.entry(number).or_default() += 1,
        }
        self.lend(job)?;
        let words = answer_words(job, answer);
        let files = &mut self.tables.files;
        files.case("ceiling", &[job.position], &words)?;
        Ok(answer)
    }

    /// Writes a call lent this record, and gives the words of the answer; a record that is accepted goes
    /// on to its end.
    pub fn ask(&mut self, job: Job) -> io::Result<Vec<u32>> {
        let answer = self.call(job, |table| {
            let path = path(job, table);
            path[path.len() - 1]
        })?;
        Ok(answer_words(job, answer))
    }

    /// Writes a call of which the answer is worked out by hand, and must have these words.
    pub fn must(&mut self, job: Job, expected: &[u32]) -> io::Result<()> {
        let words = self.ask(job)?;
        assert!(words == expected, "not what is worked out by hand");
        Ok(())
    }

    /// Writes calls lent the records that a job which has just begun has at these positions on its way;
    /// it is gone through once. From one of them to a later one the ceiling must not rise.
    pub fn along(&mut self, begun: Job, mut positions: Vec<u32>) -> io::Result<()> {
        positions.sort_unstable();
        let path = path(begun, self.tables.table());
        let end = path[path.len() - 1];
        let mut ceilings = vec![];
        for position in positions {
            let answer = self.call(path[position as usize], |_| end)?;
            ceilings.push(answer.expect("a record of a job"));
        }
        assert!(ceilings.is_sorted_by(|a, b| a >= b), "a ceiling rises");
        Ok(())
    }

    /// Writes how many answers of each kind there are.
    pub fn end(&mut self) -> io::Result<()> {
        let (below_best, below_floor) = (self.below_best, self.below_floor);
        let (zero, reached) = (self.zero, self.reached);
        let files = &mut *self.tables.files;
        self.tally.write(files, "Ceilings")?;
        files.comment(&format!(
            "Of those found, {below_best} lie below the best so far, {below_floor} below 35, and {zero} are 0; in {reached} calls the job ends exactly at the ceiling. None is where no pair far enough apart is left."
        ))
    }
}
