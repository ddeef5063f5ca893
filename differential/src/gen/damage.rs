//! Damage to bytes.
use crate::bytes::{put_u32, u32_at};
use crate::rng::Rng;

/// Words at which sums and products of 32 bits overflow, and the sheet's own limits.
const EDGES: [u32; 12] = [
    0x8000_0000, 0x7FFF_FFFF, 0xFFFF_FFFF, 0x4000_0000, 0x2000_0000, 0xFFFF_FFF8, 0xFFFF_FFF4, 0xAAAA_AAAB, 16_384, 16_385, 65_535, 65_536,
];

/// A few bytes changed, cut off, added, doubled or moved.
pub fn damage(rng: &mut Rng, bytes: &mut Vec<u8>) {
    for _ in 0..1 + rng.small(3) {
        let n = bytes.len();
        match rng.below(9) {
            0 | 1 if n > 0 => {
                let at = rng.below(n);
                bytes[at] = match rng.below(4) {
                    0 => rng.byte(),
                    1 => bytes[at] ^ (1 << rng.below(8)),
                    2 => bytes[at].wrapping_add(1),
                    _ => *rng.pick(&[0, 1, 2, 127, 128, 255]),
                };
            }
            2 | 3 if n >= 4 => {
                let at = rng.below(n / 4) * 4;
                let old = u32_at(bytes, at);
                let new = match rng.below(7) {
                    0 => old.wrapping_add(1),
                    1 => old.wrapping_sub(1),
                    2 => 0,
                    3 => rng.u32(),
                    4 => rng.below(n + 9) as u32,
                    _ => *rng.pick(&EDGES),
                };
                put_u32(bytes, at, new);
            }
            4 => bytes.truncate(rng.below(n + 1)),
            5 => bytes.truncate(n.saturating_sub(rng.range(1, 12))),
            6 => { let k = rng.range(1, 12); let more = rng.bytes(k); bytes.extend(more); }
            7 if n >= 24 => {
                let at = rng.below(n / 4) * 4;
                let k = (*rng.pick(&[4, 8, 12, 24])).min(n - at);
                bytes.drain(at..at + k);
            }
            _ if n >= 24 => {
                let at = rng.below(n / 4) * 4;
                let k = (*rng.pick(&[4, 8, 12, 24])).min(n - at);
                let part = bytes[at..at + k].to_vec();
                bytes.splice(at..at, part);
            }
            _ => {}
        }
    }
}
