//! A list whose cases are lent a table, with the lines that set it.

use crate::chroma::{l_of, max_chroma};
use crate::files::{Files, BESIDE, SEARCH_FILE};
use crate::models::directions::Directed;
use crate::standins::{DIRECTIONS, LEVELS};
use crate::words::{word, words};
use std::io;

/// How many entries a table can have that is lent, the ones refused among them.
pub const STORED: usize = (LEVELS + 1) * DIRECTIONS;
/// How many entries one line can set.
pub const ENTRIES_A_LINE: usize = 23;
/// How many levels a table has at most that is looked through pair by pair.
pub const FEW_LEVELS: u32 = 12;

/// Whether two slices have the same bits.
fn equal(a: &[f32], b: &[f32]) -> bool {
    let bits = |row: &[f32]| row.iter().map(|v| v.to_bits()).collect::<Vec<_>>();
    bits(a) == bits(b)
}

/// The rows of every level in these directions.
pub fn panel(cos: &[f32], sin: &[f32]) -> Vec<f32> {
    let entry = |level: usize, j: usize| max_chroma(l_of(level), cos[j], sin[j]);
    let row = |level: usize| (0..DIRECTIONS).map(move |j| entry(level, j));
    (0..LEVELS).flat_map(row).collect()
}

/// The list and its table.
pub struct Tables<'a> {
    pub files: &'a mut Files,
    panel: Vec<f32>,
    entries: Vec<f32>,
    length: usize,
}

impl Tables<'_> {
    /// Begins a list of cases of this kind: its head and the directions.
    pub fn begin<'a>(files: &'a mut Files, kind: &str) -> io::Result<Tables<'a>> {
        let with = format!("the stand-ins of document 01, {BESIDE}");
        files.head(kind, SEARCH_FILE, &with)?;
        Tables::headed(files)
    }

    /// Begins a list that has its head: the directions.
    pub fn headed(files: &mut Files) -> io::Result<Tables<'_>> {
        let Directed { files, cos, sin } = Directed::set_all(files)?;
        Ok(Tables {
            files,
            panel: panel(&cos, &sin),
            entries: vec![0.0; STORED],
            length: 0,
        })
    }

    /// The table.
    pub fn table(&self) -> &[f32] {
        &self.entries[..self.length]
    }

    /// Sets the length of the table; entries stay where they stand.
    pub fn resize(&mut self, length: usize) -> io::Result<()> {
        self.length = length;
        self.files.set("table", &[length as u32])
    }

    /// Sets entries from a place on.
    pub fn more(&mut self, at: usize, entries: &[f32]) -> io::Result<()> {
        self.entries[at..at + entries.len()].copy_from_slice(entries);
        let words = [vec![at as u32], words(entries)];
        self.files.set("more", &words.concat())
    }

    /// Sets so many entries, from a place on, to one value.
    pub fn same(&mut self, at: usize, count: usize, v: f32) -> io::Result<()> {
        self.entries[at..at + count].fill(v);
        self.files.set("same", &[at as u32, count as u32, word(v)])
    }

    /// Sets so many entries, from a place on, to those from another place on.
    fn copy(&mut self, at: usize, from: usize, count: usize) -> io::Result<()> {
        self.entries.copy_within(from..from + count, at);
        self.files
            .set("copy", &[at as u32, from as u32, count as u32])
    }

    /// Sets the table to the rows of the panel for so many levels from one of them on.
    pub fn panel(&mut self, first: usize, count: usize) -> io::Result<()> {
        self.resize(count * DIRECTIONS)?;
        let rows = &self.panel[first * DIRECTIONS..][..count * DIRECTIONS];
        self.entries[..rows.len()].copy_from_slice(rows);
        self.files.set("panel", &[first as u32, count as u32])
    }

    /// Sets entries from a place on, those of a long run of one value in one line.
    fn runs(&mut self, from: usize, row: &[f32]) -> io::Result<()> {
        let run = |at: usize| {
            let alike = |v: &&f32| v.to_bits() == row[at].to_bits();
            row[at..].iter().take_while(alike).count()
        };
        let mut at = 0;
        while at < row.len() {
            let count = run(at);
            if count > 1 {
                self.same(from + at, count, row[at])?;
                at += count;
                continue;
            }
            let most = row.len().min(at + ENTRIES_A_LINE);
            let end = (at..most).find(|i| run(*i) > 1).unwrap_or(most);
            self.more(from + at, &row[at..end])?;
            at = end;
        }
        Ok(())
    }

    /// Sets the table and all of its entries; a row that stands already needs no line, and one
    /// that stands before it in the table needs one.
    pub fn set(&mut self, table: &[f32]) -> io::Result<()> {
        self.resize(table.len())?;
        for (i, row) in table.chunks(DIRECTIONS).enumerate() {
            let at = i * DIRECTIONS;
            if equal(row, &self.entries[at..at + row.len()]) {
                continue;
            }
            let before = table[..at].chunks(DIRECTIONS);
            match before.enumerate().find(|(_, other)| equal(row, other)) {
                Some((other, _)) => self.copy(at, other * DIRECTIONS, row.len())?,
                None => self.runs(at, row)?,
            }
        }
        Ok(())
    }

    /// Ends the list with lines that it may not have: of this operation, those of its own, and tables,
    /// entries and rows that there are not.
    pub fn damaged(&mut self, own: &[&str], case: (&str, &[u32])) -> io::Result<()> {
        for line in [
            "dir 2d0 0 0",
            "table 1de21",
            "table",
            "more 1de20 0",
            "same 1de20 1 0",
            "copy 1de20 0 1",
            "copy 0 1de20 1",
            "panel a9 1",
            "panel 0 ab",
        ] {
            self.files.malformed(line)?;
        }
        own.iter().try_for_each(|line| self.files.malformed(line))?;
        self.files.damaged(case.0, case.1)
    }
}
