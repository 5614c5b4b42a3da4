//! How long the work buffers are that the lists lend. Over a ring of n entries a lap is n numbers,
//! and a lap is long enough.

use crate::random::Random;

/// The rooms of those calls of a list that do not choose one for its own sake.
pub enum Rooms {
    /// Those of a fixed list, and how many calls there were so far.
    InTurn(usize),
    /// Those of a random list.
    AtRandom(Random),
}

/// A lap less one number, and a lap: the rooms on both sides of the edge.
pub fn sides(n: usize) -> [usize; 2] {
    [n.saturating_sub(1), n]
}

/// One lap and three.
pub fn laps(n: usize) -> [usize; 2] {
    [n, 3 * n]
}

/// Rooms at the edge and beside it, two laps, three and beside them, and the least ones.
pub fn edges(n: usize) -> Vec<usize> {
    let three = 3 * n;
    let beside = [n, three].map(|room| [room.saturating_sub(1), room, room + 1]);
    let mut rooms = [&[0, 1, 2 * n], beside.as_flattened()].concat();
    rooms.sort_unstable();
    rooms.dedup();
    rooms
}

/// A random room that is long enough: one lap or three, and up to three numbers more.
pub fn at_random(random: &mut Random, n: usize) -> usize {
    let any = random.below(8);
    laps(n)[any / 4] + any % 4
}

impl Rooms {
    /// Those of a random list with this seed, from which the list itself draws other numbers.
    pub fn of_seed(seed: u64) -> Rooms {
        Rooms::AtRandom(Random(!seed))
    }

    /// Leaves out a turn of a fixed list.
    pub fn skip(&mut self) {
        if let Rooms::InTurn(turn) = self {
            *turn += 1;
        }
    }

    /// The rooms with which a call over a ring of n entries is written, each in a line of its own;
    /// `refused` says by which number, if any, it is refused with each room of `sides`. In a fixed
    /// list the first of them is a lap less one number, a lap, one number more, two laps or three,
    /// in turn; where the call is accepted, one lap and three come after it, and where a short room
    /// hides by which number it is refused, one lap. In a random list it is one that is enough.
    pub fn next(&mut self, n: usize, refused: [Option<u32>; 2]) -> Vec<usize> {
        let turn = match self {
            Rooms::InTurn(turn) => turn,
            Rooms::AtRandom(random) => return vec![at_random(random, n)],
        };
        let five = [n.saturating_sub(1), n, n + 1, 2 * n, 3 * n];
        let first = five[*turn % five.len()];
        *turn += 1;
        let others = match refused {
            [_, None] => laps(n).to_vec(),
            [short, enough] if first < n && short != enough => vec![n],
            _ => vec![],
        };
        let others = others.into_iter().filter(|room| *room != first);
        [first].into_iter().chain(others).collect()
    }
}
