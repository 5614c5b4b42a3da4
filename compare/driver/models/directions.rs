//! A list whose cases are lent directions, with the lines that set them and those by which the next
//! case is lent others.

use crate::files::Files;
use crate::standins::{directions, DIRECTIONS};
use crate::words::word;
use std::io;

/// The list and its directions.
pub struct Directed<'a> {
    pub files: &'a mut Files,
    pub cos: Vec<f32>,
    pub sin: Vec<f32>,
}

impl Directed<'_> {
    /// Begins a list of cases of this kind, worked out by this published file: its head and the
    /// directions.
    pub fn begin<'a>(files: &'a mut Files, kind: &str, source: &str) -> io::Result<Directed<'a>> {
        files.head(kind, source, "the stand-ins of document 01")?;
        Directed::set_all(files)
    }

    /// Writes the directions of a list that has its head.
    pub fn set_all(files: &mut Files) -> io::Result<Directed<'_>> {
        let (cos, sin) = directions();
        let mut list = Directed { files, cos, sin };
        for j in 0..DIRECTIONS {
            list.direction(j, list.cos[j], list.sin[j])?;
        }
        Ok(list)
    }

    /// Sets direction j.
    pub fn direction(&mut self, j: usize, cos: f32, sin: f32) -> io::Result<()> {
        self.cos[j] = cos;
        self.sin[j] = sin;
        self.files.set("dir", &[j as u32, word(cos), word(sin)])
    }

    /// Writes that the next case has a component replaced, among the cosines (which = 0) or the sines
    /// (1), and gives the one it had before.
    pub fn bad(&mut self, which: usize, j: usize, v: f32) -> io::Result<f32> {
        self.files.set("bad", &[which as u32, j as u32, word(v)])?;
        Ok(self.component(which, j, v))
    }

    /// Replaces a component and gives the one it had before.
    pub fn component(&mut self, which: usize, j: usize, v: f32) -> f32 {
        let slice = if which == 0 {
            &mut self.cos
        } else {
            &mut self.sin
        };
        std::mem::replace(&mut slice[j], v)
    }

    /// Writes that the next case is lent only the first c cosines and the first s sines.
    pub fn lengths(&mut self, c: usize, s: usize) -> io::Result<()> {
        self.files.set("len", &[c as u32, s as u32])
    }

    /// Ends the list with lines that it may not have: those of its own, directions that there are not,
    /// slices longer than can be lent, a second component where one waits, and what no list may have,
    /// for this operation. At last the component still waits for its case.
    pub fn damaged(
        &mut self,
        own: &[&str],
        longest: usize,
        (operation, words): (&str, &[u32]),
    ) -> io::Result<()> {
        let long = longest + 1;
        let lengths = [format!("len {long:x} 0"), format!("len 0 {long:x}")];
        for line in [
            "dir 2d0 0 0",
            "bad 2 0 0",
            "bad 0 2d0 0",
            &lengths[0],
            &lengths[1],
        ] {
            self.files.malformed(line)?;
        }
        own.iter().try_for_each(|line| self.files.malformed(line))?;
        self.files.set("bad", &[0, 0, 0])?;
        self.files.malformed("bad 0 0 0")?;
        self.files.damaged(operation, words)?;
        self.files.text(b"malformed\n")
    }
}
