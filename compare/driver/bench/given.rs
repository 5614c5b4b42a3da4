//! What a call of our archive gives and writes, and what it must by what the published Rust gives.

use crate::gaps;
use crate::standins::DIRECTIONS;

/// What each hue and each number of a work buffer is before a call.
const BEFORE: u16 = 4711;
/// What our archive gives where there is no placement, or no chroma is found.
pub const NONE: u32 = 255;

/// The number that a call gives, and all that one can be lent to write but a work buffer.
#[derive(Clone, Copy)]
pub struct Given {
    pub number: u32,
    pub hues: [u16; 16],
    pub tightest: [usize; 1],
    pub levels: [usize; 2],
    pub chroma: [f32; 1],
}

/// What is there before a call.
pub const LENT: Given = Given {
    number: u32::MAX,
    hues: [BEFORE; 16],
    tightest: [47_114_711],
    levels: [471_147; 2],
    chroma: [47.11],
};
/// What must be there where nothing is found.
pub const NOTHING: Given = Given {
    number: NONE,
    hues: [0; 16],
    ..LENT
};

impl PartialEq for Given {
    /// Whether two are equal bit for bit.
    fn eq(&self, other: &Given) -> bool {
        let chroma = |given: &Given| given.chroma.map(f32::to_bits);
        let rest = |given: &Given| (given.number, given.hues, given.tightest, given.levels);
        chroma(self) == chroma(other) && rest(self) == rest(other)
    }
}

impl Given {
    /// What must be there where these hues are found.
    pub fn of_hues(found: &[usize]) -> Given {
        let mut hues = [0; 16];
        for (hue, to) in found.iter().zip(&mut hues) {
            *to = *hue as u16;
        }
        let number = 0;
        Given {
            number,
            hues,
            ..LENT
        }
    }

    /// What must be there where this chroma and these hues are found, or nothing.
    pub fn of_best(found: Option<(f32, Vec<usize>)>) -> Given {
        found.map_or(NOTHING, |(chroma, hues)| Given {
            chroma: [chroma],
            ..Given::of_hues(&hues)
        })
    }

    /// The same with the tightest gap of its k hues, which is 0 where nothing is found.
    pub fn with_gap(self, k: usize) -> Given {
        let hues = &self.hues[..if self.is_found() { k } else { 0 }];
        let tightest = [tightest(hues)];
        Given { tightest, ..self }
    }

    /// Whether something is found.
    pub fn is_found(&self) -> bool {
        self.number == 0
    }
}

/// How many of these found something.
pub fn found(given: &[Given]) -> usize {
    given.iter().filter(|given| given.is_found()).count()
}

/// The tightest gap of some hues.
pub fn tightest(hues: &[u16]) -> usize {
    let hues: Vec<usize> = hues.iter().map(|hue| (*hue).into()).collect();
    gaps::tightest(&hues, DIRECTIONS)
}

/// Checks that a call with a work buffer of this room is refused by this number, and that all that it is
/// lent is then as before.
pub fn refused(number: u32, room: usize, call: impl FnOnce(&mut [u16]) -> Given) {
    let mut work = vec![BEFORE; room];
    let given = call(&mut work);
    let expected = Given { number, ..LENT };
    assert!(given == expected, "not refused by {number}");
    let kept = work.iter().all(|v| *v == BEFORE);
    assert!(kept, "a refused buffer is changed");
}
