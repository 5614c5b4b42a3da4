//! The page of a job with its refusals, which the published Rust does not have, and the lines of a
//! list of page cases: a job, and pages of it.

use crate::files::{Files, Tally};
use crate::models::job::{Job, BLANK, BROKEN};
use crate::models::layout::{units, write_page};
use crate::words::digest;
use std::io;

/// The refusal of a buffer that is shorter than what is to be written into it.
const BAD_BUFFER: u32 = 19;
/// How many bytes a buffer can have that is lent.
pub const STORED: usize = 1024;
/// How many bytes a line of a page has, its newline among them.
const LINE: usize = 41;
/// More fills than any list has, but for those of the cases that stand aside.
const ASIDE: u32 = 1 << 31;

/// How many bytes the page of a job has; more than sixteen hues, which break it, count as sixteen.
pub fn length(job: &Job) -> usize {
    let hues = job.k.min(16) as usize;
    LINE * job.best.map_or(2, |_| 5 + hues)
}

/// The page of a job that is not broken.
fn page_of(job: &Job) -> Vec<u8> {
    if let Some((chroma, ..)) = job.best {
        assert!(units(chroma).fract() == 0.0, "a chroma between two units");
    }
    let mut page = vec![];
    write_page(&mut page, job.k, job.best, &job.hues).expect("room for every page");
    assert!(page.len() == length(job), "a page of another length");
    page
}

/// The page of a job in a buffer of this size, or the number of its refusal.
type Answer = Result<Vec<u8>, u32>;

/// Lays out the page of a job, if neither it nor a buffer of this size is refused.
fn lay_out(job: &Job, size: usize) -> Answer {
    if !job.is_whole() {
        return Err(BROKEN);
    }
    let page = page_of(job);
    if size < page.len() {
        return Err(BAD_BUFFER);
    }
    Ok(page)
}

/// A list of page cases being written.
pub struct Pages<'a> {
    files: &'a mut Files,
    job: Job,
    fills: u32,
    tally: Tally,
    kept: u64,
    unfinished: u64,
    longer: u64,
}

impl Pages<'_> {
    /// Begins a list.
    pub fn begin(files: &mut Files) -> io::Result<Pages<'_>> {
        files.title("Page")?;
        files.comment("What must come out is in the file stdout; it is worked out by Req 06 of document 02 with Rust's own")?;
        files.comment("formatting; the published Rust has no page.")?;
        Ok(Pages {
            files,
            job: BLANK,
            fills: 0,
            tally: Tally::default(),
            kept: 0,
            unfinished: 0,
            longer: 0,
        })
    }

    /// The job of which the next page is.
    pub fn job(&self) -> Job {
        self.job
    }

    /// Sets the job of which the pages from here on are.
    pub fn lend(&mut self, job: Job) -> io::Result<()> {
        self.job = job;
        job.write(self.files)
    }

    /// A fill for the next buffer, another than that of every one before; its lowest byte is another
    /// than that of the 255 before.
    fn fill(&mut self) -> u32 {
        self.fills += 1;
        self.fills.wrapping_mul(0x9e37_79b1)
    }

    /// Writes cases whose fills are none of the others', so that the cases after them have the same
    /// fills as without them.
    pub fn aside(&mut self, cases: fn(&mut Self) -> io::Result<()>) -> io::Result<()> {
        let fills = std::mem::replace(&mut self.fills, ASIDE);
        cases(self)?;
        self.fills = fills;
        Ok(())
    }

    /// Counts an answer with a buffer of this size.
    fn count(&mut self, size: usize, answer: &Answer) {
        let written = match answer {
            Ok(page) => page.len(),
            Err(number) => return *self.tally.refused.entry(*number).or_default() += 1,
        };
        let job = &self.job;
        self.tally.found += u64::from(job.best.is_some());
        self.tally.nothing += u64::from(job.best.is_none());
        self.kept += u64::from(job.is_kept());
        self.unfinished += u64::from(u64::from(job.position) < job.pairs());
        self.longer += u64::from(written < size);
    }

    /// Writes a page in a buffer of this size: the number of its refusal or 0, how many bytes it has, and
    /// the digest of the whole buffer after it; then the page.
    pub fn page(&mut self, size: usize) -> io::Result<()> {
        assert!(size <= STORED, "a buffer too long");
        let asked = [size as u32, self.fill()];
        let answer = lay_out(&self.job, size);
        self.count(size, &answer);
        let number = *answer.as_ref().err().unwrap_or(&0);
        let page = answer.unwrap_or_default();
        let byte = |i: u32| asked[1].wrapping_add(i.wrapping_mul(0x3d)) as u8;
        let rest = (page.len() as u32..asked[0]).map(byte);
        let [high, low] = digest(page.iter().copied().chain(rest));
        let answer = [number, page.len() as u32, high, low];
        self.files.case("page", &asked, &answer)?;
        self.files.text(&page)
    }

    /// Sets a job of which the page is written out by hand, and must be this text; writes it in the
    /// least buffers, in one that is a byte too short and in one just long enough.
    pub fn must(&mut self, job: Job, text: &str) -> io::Result<()> {
        assert!(page_of(&job) == text.as_bytes(), "not the page by hand");
        self.lend(job)?;
        let n = text.len();
        for size in (0..4).chain([n - 1, n]) {
            self.page(size)?;
        }
        Ok(())
    }

    /// Ends the list with how many answers of each kind it holds.
    pub fn end(self) -> io::Result<()> {
        self.tally.write(self.files, "Pages")?;
        let (kept, unfinished, longer) = (self.kept, self.unfinished, self.longer);
        self.files.comment(&format!(
            "Of those laid out, {kept} are of kept jobs, {unfinished} of unfinished ones, and {longer} leave a rest of the buffer."
        ))
    }
}
