//! The two files of a list: `stdin`, which a program reads, and `stdout`, which it must answer. A
//! case is a line of both: in `stdin` an operation and its words, in `stdout` the same, a `=`, and
//! the words of what comes out. A line that only sets something has no answer.

use crate::words::digest;
use crate::work_buffer;
use std::collections::BTreeMap;
use std::fs::{self, File};
use std::io::{self, BufWriter, Write};
use std::path::Path;

/// How many words a line can have.
pub const MOST: usize = 40;

/// The published files that most lists are worked out by.
pub const SEARCH_FILE: &str = "xtask/src/palette.rs";
/// What the lists of placements, pairs and searches put beside the published file.
pub const BESIDE: &str =
    "the refusals of documents 01 and 02 and the tightest gap worked out from the hues";

/// A list being written.
pub struct Files {
    stdin: BufWriter<File>,
    stdout: BufWriter<File>,
    /// How many lines `stdin` has so far.
    lines: u32,
}

/// An operation with its words in hexadecimal.
fn text_of(operation: &str, words: &[u32]) -> String {
    let words = words.iter().map(|word| format!(" {word:x}"));
    operation.to_owned() + &words.collect::<String>()
}

impl Files {
    /// Begins a list in this folder.
    pub fn create(folder: &Path) -> io::Result<Files> {
        fs::create_dir_all(folder)?;
        let file = |name| File::create(folder.join(name)).map(BufWriter::new);
        Ok(Files {
            stdin: file("stdin")?,
            stdout: file("stdout")?,
            lines: 0,
        })
    }

    /// Writes the first lines of a list of cases of this kind.
    pub fn title(&mut self, kind: &str) -> io::Result<()> {
        self.comment(&format!(
            "{kind} cases, one a line: an operation and its words in hexadecimal."
        ))?;
        self.comment("A float is its 32 bits, every NaN 7fc00000. See compare/README.md.")
    }

    /// Writes the head of a list of cases of this kind, worked out by this published file with this
    /// beside it.
    pub fn head(&mut self, kind: &str, source: &str, with: &str) -> io::Result<()> {
        self.title(kind)?;
        self.comment(&format!(
            "What must come out is in the file stdout; it is worked out by {source} of the"
        ))?;
        self.comment(&format!(
            "repository TheRincon/lcr-codes 7e9e1755be with {with}."
        ))
    }

    /// Writes a line of `stdin`.
    fn line(&mut self, line: &str) -> io::Result<()> {
        self.lines += 1;
        writeln!(self.stdin, "{line}")
    }

    /// Writes a comment.
    pub fn comment(&mut self, text: &str) -> io::Result<()> {
        self.line(&format!("# {text}"))
    }

    /// The bytes of what a work buffer of this length holds before the next case, and after it where
    /// that is refused.
    pub fn work(&self, room: usize) -> Vec<u8> {
        work_buffer::filled(self.lines + 1, room)
    }

    /// The two words for the digest of that.
    pub fn left(&self, room: usize) -> [u32; 2] {
        digest(self.work(room).into_iter())
    }

    /// Writes a line that sets something.
    pub fn set(&mut self, operation: &str, words: &[u32]) -> io::Result<()> {
        assert!(words.len() <= MOST, "{operation}: too many words");
        self.line(&text_of(operation, words))
    }

    /// Writes a case and what must come out.
    pub fn case(&mut self, operation: &str, words: &[u32], answer: &[u32]) -> io::Result<()> {
        self.set(operation, words)?;
        assert!(answer.len() <= MOST, "{operation}: too long an answer");
        let text = text_of(operation, words);
        writeln!(self.stdout, "{}", text_of(&format!("{text} ="), answer))
    }

    /// Writes bytes that must come out after the answer to a case.
    pub fn text(&mut self, bytes: &[u8]) -> io::Result<()> {
        self.stdout.write_all(bytes)
    }

    /// Writes a line that a list may not have, which must be answered by `malformed`.
    pub fn malformed(&mut self, line: &str) -> io::Result<()> {
        self.line(line)?;
        writeln!(self.stdout, "malformed")
    }

    /// Ends the list with a line that has no newline, which must be answered by `malformed`.
    fn cut(&mut self, line: &str) -> io::Result<()> {
        write!(self.stdin, "{line}")?;
        writeln!(self.stdout, "malformed")
    }

    /// Ends a list with lines that it may not have: some that no list may, and for this operation of
    /// its own, a case, one with too few words and one with too many, and one that is cut.
    pub fn damaged(&mut self, operation: &str, words: &[u32]) -> io::Result<()> {
        self.comment("Lines that a list may not have.")?;
        let whole = text_of(operation, words);
        let longest = text_of(operation, &[0; MOST + 1]);
        for line in [
            " ",
            "?",
            "nowhere",
            "nowhere 1",
            "overlongs 1",
            &operation.to_uppercase(),
            &format!(" {whole}"),
            &format!("{whole} "),
            &whole.replacen(' ', "  ", 1),
            &format!("{whole}\r"),
            &format!("{whole}\0"),
            &format!("{operation} 123456789"),
            &format!("{operation} A"),
            &format!("{operation} -1"),
            &text_of(operation, &words[..words.len() - 1]),
            &text_of(operation, &[words, &[0]].concat()),
            &longest,
        ] {
            self.malformed(line)?;
        }
        self.cut(&whole)
    }

    /// Writes what is still to be written.
    pub fn finish(mut self) -> io::Result<()> {
        self.stdin.flush()?;
        self.stdout.flush()
    }
}

/// How many answers of each kind there are: found, none, and refused by each number.
#[derive(Default)]
pub struct Tally {
    pub found: u64,
    pub nothing: u64,
    pub refused: BTreeMap<u32, u64>,
}

impl Tally {
    /// Writes it, of calls of one kind.
    pub fn write(&self, files: &mut Files, what: &str) -> io::Result<()> {
        let Tally { found, nothing, .. } = self;
        let all: u64 = self.refused.values().sum();
        let each = self.refused.iter();
        let by: Vec<_> = each.map(|(n, times)| format!("{times} by {n}")).collect();
        let by = by.join(", ");
        files.comment(&format!(
            "{what}: {found} found, {nothing} none, {all} refused: {by}."
        ))
    }
}
