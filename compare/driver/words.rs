//! The words of a list: floats by their bits, and digests.

/// The word for a float, which is the same for every NaN.
pub fn word(v: f32) -> u32 {
    if v.is_nan() {
        0x7fc0_0000
    } else {
        v.to_bits()
    }
}

/// The words for some floats.
pub fn words(floats: &[f32]) -> Vec<u32> {
    floats.iter().copied().map(word).collect()
}

/// The f32 whose bits lie this many steps further on.
pub fn float_step(v: f32, by: i32) -> f32 {
    f32::from_bits(v.to_bits().wrapping_add_signed(by))
}

/// The two words for the digest of some bytes, the high half first: FNV-1a with 64 bits.
pub fn digest(bytes: impl Iterator<Item = u8>) -> [u32; 2] {
    let sum = bytes.fold(0xcbf2_9ce4_8422_2325, |sum: u64, byte| {
        (sum ^ u64::from(byte)).wrapping_mul(0x100_0000_01b3)
    });
    [(sum >> 32) as u32, sum as u32]
}
