//! The findings of the published validation and back-off, which it gives as texts, by number.

/// A word of the text of each finding, which no other text has, at the finding's number; at 0
/// that of the text where nothing was tried.
const WORDS: [&str; 5] = ["candidate", "gap", "spread", "separation", "chroma"];

/// The number of a finding by its text.
pub fn finding(text: &str) -> u32 {
    let has = |(_, word): &(usize, &&str)| text.contains(**word);
    let found: Vec<usize> = WORDS.iter().enumerate().filter(has).map(|w| w.0).collect();
    assert!(found.len() == 1, "no text of a finding: {text}");
    found[0] as u32
}
