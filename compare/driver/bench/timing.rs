//! The times that our archive and the Rust take for the same work in turns, and the rows that say them.

/// How many times each side does what takes little time.
pub const TURNS: usize = 41;
/// How many times each side does what takes longer.
pub const FEW_TURNS: usize = 15;
/// The clock that counts the processor time of the thread that asks.
const THREAD_CLOCK: i32 = 3;
/// What the columns of a row are after its name.
const COLUMNS: &str = "  ours least ours middle  Rust least Rust middle    of least    of pairs";

unsafe extern "C" {
    /// The function of the C library, which writes whole seconds, then nanoseconds.
    fn clock_gettime(clock: i32, time: *mut [i64; 2]) -> i32;
}

/// The times of ours and of the Rust, turn by turn, in milliseconds.
pub type Times = [Vec<f64>; 2];

/// The processor time of this thread so far in milliseconds.
fn now() -> f64 {
    let mut time = [0; 2];
    // The array lives through the call.
    let failed = unsafe { clock_gettime(THREAD_CLOCK, &mut time) };
    assert!(failed == 0, "the processor time cannot be read");
    time[0] as f64 * 1e3 + time[1] as f64 * 1e-6
}

/// Has two sides work so many times in turns, and gives the times of both.
pub fn in_turns(turns: usize, sides: [&mut dyn FnMut(); 2]) -> Times {
    let mut times = [vec![], vec![]];
    for turn in 0..2 * turns {
        // Two turns are a pair; whoever went second in one goes first in the next.
        let side = (turn + 1) / 2 % 2;
        let start = now();
        sides[side]();
        times[side].push(now() - start);
    }
    times
}

/// The times of both sides turn by turn, over several parts of as many turns.
pub fn sums(parts: &[Times]) -> Times {
    [0, 1].map(|side| {
        let turns = 0..parts[0][side].len();
        let sum = |turn: usize| parts.iter().map(|times| times[side][turn]).sum();
        turns.map(sum).collect()
    })
}

/// The least and the middle of some numbers.
fn spread(mut numbers: Vec<f64>) -> [f64; 2] {
    numbers.sort_by(f64::total_cmp);
    [0, numbers.len() / 2].map(|i| numbers[i])
}

/// Writes what the columns of the rows are.
pub fn heading() {
    println!("# processor time in ms; ours / Rust of the least times, and in the middle of pairs");
    println!("{:<36}{COLUMNS}", "#");
}

/// Writes a row.
pub fn row(name: &str, [ours, theirs]: &Times) {
    let pairs = ours.iter().zip(theirs).map(|(ours, theirs)| ours / theirs);
    let [_, of_pairs] = spread(pairs.collect());
    let [[a, b], [c, d]] = [ours, theirs].map(|times| spread(times.clone()));
    let columns = [a, b, c, d, a / c, of_pairs].map(|v| format!("{v:>12.3}"));
    println!("{name:<36}{}", columns.concat());
}

/// Has both sides answer all questions so many times in turns, writes a row, and gives the times and the
/// answers, which must be those that are expected by the Rust's.
pub fn compare<Q, A: PartialEq, T>(
    (name, turns): (&str, usize),
    questions: &[Q],
    mut ours: impl FnMut(&Q) -> A,
    mut theirs: impl FnMut(&Q) -> T,
    expected: impl Fn(&Q, T) -> A,
) -> (Times, Vec<A>) {
    let (mut one, mut other) = (vec![], vec![]);
    let times = in_turns(
        turns,
        [
            &mut || one = questions.iter().map(&mut ours).collect(),
            &mut || other = questions.iter().map(&mut theirs).collect(),
        ],
    );
    for ((question, ours), theirs) in questions.iter().zip(&one).zip(other) {
        assert!(*ours == expected(question, theirs), "{name}: not equal");
    }
    row(name, &times);
    (times, one)
}
