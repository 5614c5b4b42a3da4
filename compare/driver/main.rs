//! Writes lists of cases with what must come out, by the published files with the stand-ins of
//! document 01 put in, and by document 02 where they have nothing. See compare/README.md.

mod big;
mod check;
mod chroma; // max_chroma and l_of, taken from the published file by compare/sources
#[allow(dead_code)]
mod color; // the published file, patched by compare/sources
mod deriving; // derive and back_off, taken from the published file by compare/sources
mod files;
mod lists;
mod models;
mod pairing; // best_for_levels, best_for_level_set, search, best_at_orientation and their table, likewise
mod palette; // the white point, likewise
mod placing; // feasible, place_from and the step, likewise
#[allow(dead_code)]
mod published; // the published file as it is, for `check`
mod random;
mod standins;
#[allow(dead_code)]
mod validating; // a palette, its validation and the printed ones, likewise
mod words;
mod work_buffer;

use files::Files;
use std::io::{self, Write};
use std::path::Path;
use std::process::ExitCode;

/// What writes a list.
type Fixed = fn(&mut Files) -> io::Result<()>;

/// What writes a random list by a seed and a count.
type Many = fn(&mut Files, u64, usize) -> io::Result<()>;

/// Every list: its name, which is that of its program less `_cases`, what writes the fixed one, what
/// writes random ones, and what writes all cases of a kind, where that can be had.
const LISTS: [(&str, Fixed, Many, Option<Fixed>); 10] = {
    use lists::*;
    [
        ("color", color::fixed, color::many, None),
        ("gamut", gamut::fixed, gamut::many, Some(gamut::all)),
        (
            "placement",
            placement::fixed,
            placement::many,
            Some(placement::all),
        ),
        ("pair", pair::fixed, pair::many, None),
        ("search", search::fixed, search::many, None),
        ("orientation", orientation::fixed, orientation::many, None),
        ("level_set", level_set::fixed, level_set::many, None),
        ("palette", palette::fixed, palette::many, None),
        ("page", page::fixed, page::many, None),
        ("ceiling", ceiling::fixed, ceiling::many, None),
    ]
};

/// Runs the command named on the command line.
fn main() -> ExitCode {
    let words: Vec<String> = std::env::args().skip(1).collect();
    let words: Vec<&str> = words.iter().map(String::as_str).collect();
    match run(&words) {
        Some(Ok(())) => ExitCode::SUCCESS,
        Some(Err(problem)) => {
            eprintln!("driver: {problem}");
            ExitCode::FAILURE
        }
        None => {
            let names: Vec<&str> = LISTS.iter().map(|(name, ..)| *name).collect();
            eprintln!(
                "usage: driver write NAME | many NAME SEED COUNT FOLDER | all NAME FOLDER | tables | check"
            );
            eprintln!("NAME is one of {}", names.join(", "));
            ExitCode::from(2)
        }
    }
}

/// Runs a command, if there is such a one.
fn run(words: &[&str]) -> Option<io::Result<()>> {
    let list = |name: &str| LISTS.iter().find(|(other, ..)| *other == name);
    Some(match words {
        ["write", name] => {
            let folder = format!("crates/{name}_cases");
            written(&folder, list(name)?.1)
        }
        ["many", name, seed, count, folder] => {
            let (many, seed, count) = (list(name)?.2, seed.parse().ok()?, count.parse().ok()?);
            written(folder, |files| many(files, seed, count))
        }
        ["all", name, folder] => written(folder, list(name)?.3?),
        ["tables"] => tables(&mut io::stdout().lock()),
        ["check"] => check::all(&mut io::stdout().lock()),
        _ => return None,
    })
}

/// Writes a list into a folder.
fn written(folder: &str, write: impl FnOnce(&mut Files) -> io::Result<()>) -> io::Result<()> {
    let mut files = Files::create(Path::new(folder))?;
    write(&mut files)?;
    files.finish()
}

/// Writes the bit patterns of the 256 decode constants, then of the 255 thresholds.
fn tables(out: &mut dyn Write) -> io::Result<()> {
    let tables = standins::tables();
    for constant in tables.decode.iter().chain(&tables.thresholds) {
        writeln!(out, "{}", constant.to_bits())?;
    }
    Ok(())
}
