//! What the programs put into a work buffer before a call: numbers that no call wrote, others at each
//! line.

/// The seed after this one (xorshift with 32 bits).
fn next_seed(seed: u32) -> u32 {
    let first = seed ^ (seed << 13);
    let second = first ^ (first >> 17);
    second ^ (second << 5)
}

/// The number that a seed gives: half of them could be indices of a ring of 720, and half are any.
fn number_of(seed: u32) -> u16 {
    if seed < 1 << 31 {
        (seed % 1440) as u16
    } else {
        seed as u16
    }
}

/// The bytes of a work buffer of this length before the call of a line, by the number of that.
pub fn filled(line: u32, room: usize) -> Vec<u8> {
    let seeds = std::iter::successors(Some(next_seed(line)), |seed| Some(next_seed(*seed)));
    let numbers = seeds.take(room).map(number_of);
    numbers.flat_map(u16::to_le_bytes).collect()
}
