//! The lines of a list of search cases: a table, a job, and calls over both.

use crate::files::Files;
use crate::lists::rooms::{sides, Rooms};
use crate::models::job::{self, Job, BLANK, FINISHED, ROOM};
use crate::models::table::{Tables, FEW_LEVELS};
use crate::words::{digest, word};
use std::io;
use std::ops::{Deref, DerefMut};

/// How many levels a table has at most whose search is held to its steps: few pairs of them lie far
/// enough apart for a new job.
const SOME_LEVELS: u32 = 100;

/// The words of the answer to a call that was lent this job: the number of its refusal or 0, and the
/// job after it; after a refusal of a call that is lent a work buffer also what is left there.
fn answer_words(answer: Result<Job, u32>, lent: Job, left: &[u32]) -> Vec<u32> {
    let job = answer.unwrap_or(lent).shown();
    let mut words = [vec![answer.err().unwrap_or(0)], job].concat();
    if answer.is_err() {
        words.extend(left);
    }
    words
}

/// What whole searches or kept jobs ended with: how many found something and how many nothing, and
/// in how many of those that are looked through a later pair reaches the best chroma again.
#[derive(Default)]
struct Ends {
    found: u64,
    nothing: u64,
    again: u64,
}

impl Ends {
    /// Counts one.
    fn count(&mut self, job: Job, again: bool) {
        self.found += u64::from(job.best.is_some());
        self.nothing += u64::from(job.best.is_none());
        self.again += u64::from(again);
    }

    /// Writes them; looked through are those over at most so many levels.
    fn write(&self, files: &mut Files, what: &str, levels: u32) -> io::Result<()> {
        let Ends {
            found,
            nothing,
            again,
        } = self;
        files.comment(&format!(
            "{what}: {found} found, {nothing} none; in {again} of those over at most {levels} levels a later pair reaches the best chroma again."
        ))
    }
}

/// How many starts and searches are refused for a gap that is too small, where a start refuses
/// nothing else, how many of them are lent a kept job, and how many that are lent one are accepted.
#[derive(Default)]
struct Beginnings {
    small: u64,
    small_over_kept: u64,
    accepted_over_kept: u64,
}

/// A list of search cases being written.
pub struct Searches<'a> {
    tables: Tables<'a>,
    /// The rooms of the calls that do not choose one for its own sake.
    pub rooms: Rooms,
    job: Job,
    accepted: u64,
    of_kept: u64,
    refused: u64,
    searches: Ends,
    kept: Ends,
    beginnings: Beginnings,
}

impl<'a> Deref for Searches<'a> {
    type Target = Tables<'a>;

    fn deref(&self) -> &Tables<'a> {
        &self.tables
    }
}

impl DerefMut for Searches<'_> {
    fn deref_mut(&mut self) -> &mut Self::Target {
        &mut self.tables
    }
}

impl Searches<'_> {
    /// Begins a list with these rooms: its head and the directions.
    pub fn begin(files: &mut Files, rooms: Rooms) -> io::Result<Searches<'_>> {
        Ok(Searches {
            tables: Tables::begin(files, "Search")?,
            rooms,
            job: BLANK,
            accepted: 0,
            of_kept: 0,
            refused: 0,
            searches: Ends::default(),
            kept: Ends::default(),
            beginnings: Beginnings::default(),
        })
    }

    /// The job that the next call is lent.
    pub fn job(&self) -> Job {
        self.job
    }

    /// Sets the job that the next call is lent.
    pub fn lend(&mut self, job: Job) -> io::Result<()> {
        self.job = job;
        job.write(self.files)
    }

    /// Sets the job that the next call is lent, unless it is this one.
    fn lend_again(&mut self, job: Job) -> io::Result<()> {
        if self.job.words() == job.words() {
            return Ok(());
        }
        self.lend(job)
    }

    /// Takes the answer to a call.
    fn take(&mut self, answer: Result<Job, u32>) {
        match answer {
            Ok(job) => {
                self.accepted += 1;
                // Neither a start nor a search gives one.
                self.of_kept += u64::from(job.is_kept());
                self.job = job;
            }
            Err(_) => self.refused += 1,
        }
    }

    /// Writes a call with this answer, which is lent a work buffer of this length or none, and takes it.
    fn call(
        &mut self,
        operation: &str,
        words: &[u32],
        answer: Result<Job, u32>,
        room: Option<usize>,
    ) -> io::Result<()> {
        let left = room.map_or(vec![], |room| self.files.left(room).to_vec());
        let came_out = answer_words(answer, self.job, &left);
        self.take(answer);
        self.files.case(operation, words, &came_out)
    }

    /// Counts a start or a search with this answer before it is taken.
    fn begins(&mut self, k: u32, gap: f32, answer: Result<Job, u32>) {
        let small = u64::from(job::kept(k, gap, self.table()).is_some());
        let over_kept = u64::from(self.job.is_kept());
        self.beginnings.small += small;
        self.beginnings.small_over_kept += small * over_kept;
        self.beginnings.accepted_over_kept += u64::from(answer.is_ok()) * over_kept;
    }

    /// Writes a start and nothing after it.
    pub fn start_alone(&mut self, k: u32, gap: f32) -> io::Result<()> {
        let answer = job::start(k, gap, self.table());
        self.begins(k, gap, answer);
        self.call("start", &[k, word(gap)], answer, None)
    }

    /// Writes a start; where it is refused for nothing but a gap that is too small, the next call is
    /// lent the kept job.
    pub fn start(&mut self, k: u32, gap: f32) -> io::Result<()> {
        self.start_alone(k, gap)?;
        match job::kept(k, gap, self.table()) {
            Some(kept) => self.lend(kept),
            None => Ok(()),
        }
    }

    /// Writes a step in a work buffer of each of these lengths; each is lent the same job.
    pub fn step_in(&mut self, rooms: &[usize]) -> io::Result<()> {
        let lent = self.job;
        for room in rooms {
            self.lend_again(lent)?;
            let answer = job::step(self.table(), *room, lent);
            self.call("step", &[*room as u32], answer, Some(*room))?;
        }
        Ok(())
    }

    /// The rooms that the list gives the next step.
    fn step_rooms(&mut self) -> Vec<usize> {
        let refused = sides(ROOM).map(|room| job::step_refusal(self.table(), room, &self.job));
        self.rooms.next(ROOM, refused)
    }

    /// Writes a step with the rooms that the list gives it.
    pub fn step(&mut self) -> io::Result<()> {
        let rooms = self.step_rooms();
        self.step_in(&rooms)
    }

    /// Writes so many steps in one line, with the digest of the answers and the jobs after them and that
    /// of what those refused leave in the work buffer, in a work buffer of each of these lengths; the
    /// first of each is lent the same job.
    pub fn steps_in(&mut self, count: usize, rooms: &[usize]) -> io::Result<()> {
        let lent = self.job;
        for room in rooms {
            self.lend_again(lent)?;
            let (answers, sum) = self.stepped(count, *room);
            let refused = answers.iter().filter(|answer| answer.is_err());
            let left = digest(self.files.work(*room).repeat(refused.count()).into_iter());
            answers.into_iter().for_each(|answer| self.take(answer));
            let asked = [count as u32, *room as u32];
            self.files.case("steps", &asked, &[sum, left].concat())?;
        }
        Ok(())
    }

    /// Writes so many steps in one line with the rooms that the list gives the first of them.
    pub fn steps(&mut self, count: usize) -> io::Result<()> {
        let rooms = self.step_rooms();
        self.steps_in(count, &rooms)
    }

    /// The answers to so many steps in a work buffer of this length, and the digest of them with the jobs
    /// after them.
    fn stepped(&self, count: usize, room: usize) -> (Vec<Result<Job, u32>>, [u32; 2]) {
        let (mut job, mut answers, mut bytes) = (self.job, vec![], vec![]);
        for _ in 0..count {
            let answer = job::step(self.table(), room, job);
            job = answer.unwrap_or(job);
            bytes.push(answer.err().unwrap_or(0) as u8);
            bytes.extend(job.bytes());
            answers.push(answer);
        }
        (answers, digest(bytes.into_iter()))
    }

    /// Writes a start and all steps of the job that it begins, or of the kept job, with one more
    /// that is refused; they must end in what the published search gives.
    pub fn run(&mut self, k: u32, gap: f32) -> io::Result<()> {
        let begun = job::began(k, gap, self.table()).expect("a start");
        self.start(k, gap)?;
        self.steps(begun.pairs() as usize + 1)?;
        let ended = job::ended(begun, self.table());
        self.hold(ended);
        if begun.is_kept() {
            let again = self.reached_again(ended, FEW_LEVELS);
            self.kept.count(ended, again);
        }
        Ok(())
    }

    /// Holds the job that the last call left to this one.
    fn hold(&self, ended: Job) {
        assert!(
            self.job.words() == ended.words(),
            "a job ends otherwise than the search"
        );
    }

    /// Whether a later pair reaches the best chroma again; the steps must end in this job. A job
    /// over more than so many levels is not looked through.
    fn reached_again(&self, ended: Job, levels: u32) -> bool {
        if ended.levels > levels {
            return false;
        }
        let mut again = false;
        let mut job = job::began(ended.k, ended.gap, self.table()).expect("a start");
        while u64::from(job.position) < job.pairs() {
            let next = job::step(self.table(), ROOM, job).expect("a step");
            let chroma = |job: &Job| job.best.map(|(chroma, ..)| chroma);
            if chroma(&next) != chroma(&job) {
                again = false;
            } else if job.best.is_some() && job.qualifies() {
                again |= job.found(self.table()).is_some();
            }
            job = next;
        }
        assert!(job.words() == ended.words(), "the steps end otherwise");
        again
    }

    /// Writes a whole search in a work buffer of each of these lengths and nothing after it.
    pub fn search_alone(&mut self, k: u32, gap: f32, rooms: &[usize]) -> io::Result<()> {
        let start = job::start(k, gap, self.table());
        let ended = start.map(|begun| job::ended(begun, self.table()));
        let again = ended.is_ok_and(|ended| self.reached_again(ended, SOME_LEVELS));
        for room in rooms {
            let answer = job::in_room(ended, *room);
            self.begins(k, gap, answer);
            if let Ok(job) = answer {
                self.searches.count(job, again);
            }
            let asked = [k, word(gap), *room as u32];
            self.call("search", &asked, answer, Some(*room))?;
        }
        Ok(())
    }

    /// Writes a kept job run to its end in a work buffer of each of these lengths: all steps but the
    /// last in one line, and the last; they must end in what the published search gives. In one that
    /// is too short the first step is refused. At last there is one step more, of the finished job;
    /// where all are too short the next call is lent the job from before.
    fn run_kept(&mut self, kept: Job, rooms: &[usize]) -> io::Result<()> {
        let before = self.job;
        let ended = job::ended(kept, self.table());
        let again = self.reached_again(ended, FEW_LEVELS);
        for room in rooms {
            self.lend_again(kept)?;
            if *room < ROOM {
                self.step_in(&[*room])?;
                continue;
            }
            if kept.pairs() > 1 {
                self.steps_in(kept.pairs() as usize - 1, &[*room])?;
            }
            self.step_in(&[*room])?;
            self.hold(ended);
            self.kept.count(ended, again);
        }
        if self.job.words() != ended.words() {
            return self.lend_again(before);
        }
        let number = job::step_refusal(self.table(), ROOM, &self.job);
        assert!(number == Some(FINISHED), "a finished job goes on");
        self.step_in(&[ROOM])
    }

    /// Writes a whole search in a work buffer of each of these lengths; where its gap is too small and
    /// a start refuses nothing else, the kept job is run to its end in them.
    pub fn search_in(&mut self, k: u32, gap: f32, rooms: &[usize]) -> io::Result<()> {
        self.search_alone(k, gap, rooms)?;
        match job::kept(k, gap, self.table()) {
            Some(kept) => self.run_kept(kept, rooms),
            None => Ok(()),
        }
    }

    /// Writes a whole search with the rooms that the list gives it, or the kept job after it.
    pub fn search(&mut self, k: u32, gap: f32) -> io::Result<()> {
        let began = job::began(k, gap, self.table());
        let refused = sides(ROOM).map(|room| job::in_room(began, room).err());
        let rooms = self.rooms.next(ROOM, refused);
        self.search_in(k, gap, &rooms)
    }

    /// Writes how many answers of each kind the list holds.
    pub fn end(&mut self) -> io::Result<()> {
        let (accepted, of_kept, refused) = (self.accepted, self.of_kept, self.refused);
        let files = &mut *self.tables.files;
        files.comment(&format!(
            "Answers: {accepted} accepted, {of_kept} of them steps of kept jobs, {refused} refused."
        ))?;
        self.searches.write(files, "Whole searches", SOME_LEVELS)?;
        self.kept
            .write(files, "Kept jobs run to their end", FEW_LEVELS)?;
        let Beginnings {
            small,
            small_over_kept,
            accepted_over_kept,
        } = self.beginnings;
        files.comment(&format!(
            "Starts and searches refused for a gap below 40, where a start refuses nothing else: {small}, {small_over_kept} of them lent a kept job; {accepted_over_kept} that were lent one were accepted."
        ))
    }
}
