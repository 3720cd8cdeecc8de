//! SHA-256 as FIPS 180-4 has it. The build script tells the published files by it.

/// The state before the first block.
const START: [u32; 8] = [
    0x6a09e667, 0xbb67ae85, 0x3c6ef372, 0xa54ff53a, 0x510e527f, 0x9b05688c, 0x1f83d9ab, 0x5be0cd19,
];

/// What each round adds.
const ROUNDS: [u32; 64] = [
    0x428a2f98, 0x71374491, 0xb5c0fbcf, 0xe9b5dba5, 0x3956c25b, 0x59f111f1, 0x923f82a4, 0xab1c5ed5,
    0xd807aa98, 0x12835b01, 0x243185be, 0x550c7dc3, 0x72be5d74, 0x80deb1fe, 0x9bdc06a7, 0xc19bf174,
    0xe49b69c1, 0xefbe4786, 0x0fc19dc6, 0x240ca1cc, 0x2de92c6f, 0x4a7484aa, 0x5cb0a9dc, 0x76f988da,
    0x983e5152, 0xa831c66d, 0xb00327c8, 0xbf597fc7, 0xc6e00bf3, 0xd5a79147, 0x06ca6351, 0x14292967,
    0x27b70a85, 0x2e1b2138, 0x4d2c6dfc, 0x53380d13, 0x650a7354, 0x766a0abb, 0x81c2c92e, 0x92722c85,
    0xa2bfe8a1, 0xa81a664b, 0xc24b8b70, 0xc76c51a3, 0xd192e819, 0xd6990624, 0xf40e3585, 0x106aa070,
    0x19a4c116, 0x1e376c08, 0x2748774c, 0x34b0bcb5, 0x391c0cb3, 0x4ed8aa4a, 0x5b9cca4f, 0x682e6ff3,
    0x748f82ee, 0x78a5636f, 0x84c87814, 0x8cc70208, 0x90befffa, 0xa4506ceb, 0xbef9a3f7, 0xc67178f2,
];

/// The digest of the bytes, in lower-case hex.
pub fn digest(bytes: &[u8]) -> String {
    // A one, zeros, and the length in bits fill the last block.
    let zeros = vec![0; (119 - bytes.len() % 64) % 64];
    let bits = (bytes.len() as u64 * 8).to_be_bytes();
    let padded = [bytes, &[0x80], &zeros, &bits].concat();
    let state = padded.chunks_exact(64).fold(START, mixed);
    state.iter().map(|word| format!("{word:08x}")).collect()
}

/// The state after one more block.
fn mixed(state: [u32; 8], block: &[u8]) -> [u32; 8] {
    let mut words = [0; 64];
    for (word, bytes) in words.iter_mut().zip(block.chunks_exact(4)) {
        *word = u32::from_be_bytes([bytes[0], bytes[1], bytes[2], bytes[3]]);
    }
    for at in 16..64 {
        let (far, near) = (words[at - 15], words[at - 2]);
        let far = rotated(far, [7, 18]) ^ (far >> 3);
        let near = rotated(near, [17, 19]) ^ (near >> 10);
        words[at] = sum(&[words[at - 16], far, words[at - 7], near]);
    }
    let mut turned = state;
    for (word, round) in words.into_iter().zip(ROUNDS) {
        let [a, b, c, d, e, f, g, h] = turned;
        let choice = (e & f) ^ (!e & g);
        let first = sum(&[h, rotated(e, [6, 11, 25]), choice, round, word]);
        let majority = (a & b) ^ (a & c) ^ (b & c);
        let second = sum(&[rotated(a, [2, 13, 22]), majority]);
        turned = [sum(&[first, second]), a, b, c, sum(&[d, first]), e, f, g];
    }
    std::array::from_fn(|at| sum(&[state[at], turned[at]]))
}

/// The word rotated by each of the amounts, all of them together.
fn rotated<const N: usize>(word: u32, amounts: [u32; N]) -> u32 {
    let rotations = amounts.map(|amount| word.rotate_right(amount));
    rotations.iter().fold(0, |all, rotation| all ^ rotation)
}

fn sum(words: &[u32]) -> u32 {
    words.iter().fold(0, |sum, word| sum.wrapping_add(*word))
}
