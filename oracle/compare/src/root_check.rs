//! The root beside the machine's, which IEEE 754 has rounded to nearest even too.

use crate::calls::same;
use crate::random::Random;

/// A NaN and an infinity of either sign, the ends of the subnormal and of the
/// normal numbers, and 64 neighbours on either side of every power of two.
pub fn telling() -> impl Iterator<Item = f64> {
    let powers = (0..2048_u64)
        .flat_map(|e| (0..=128_u64).map(move |k| (e << 52).wrapping_add(k).wrapping_sub(64)));
    let short = (0..52).flat_map(|e| (0..=16_u64).map(move |k| (1_u64 << e) + k));
    let lowest = 0..=1_000_u64;
    powers
        .chain(short)
        .chain(lowest)
        .chain([f64::NAN.to_bits(), 0x7ff0_0000_0000_0001])
        .flat_map(|bits| [bits, bits ^ 1 << 63])
        .map(f64::from_bits)
}

/// Any pattern; not below zero; subnormal, of any length; an exact square or a
/// rounded one, or a few units beside it; near the end of a binade.
pub fn pattern(r: &mut Random) -> f64 {
    match r.below(8) {
        0 => f64::from_bits(r.bits()),
        1 | 2 => f64::from_bits(r.bits() >> 1),
        3 => f64::from_bits(r.bits() >> (12 + r.below(52))),
        4 => {
            let q = (r.bits() >> 38) | 1;
            let square = (q * q) as f64 * 4.0_f64.powi(r.below(900) as i32 - 500);
            beside(r, square)
        }
        5 | 6 => {
            let q = r.between(1.0, 2.0) * 2.0_f64.powi(r.below(1_000) as i32 - 500);
            beside(r, q * q)
        }
        _ => {
            let (binade, digits) = ((r.bits() % 2047) << 52, r.bits() >> (44 + r.below(20)));
            let flip = if r.one_in(2) { (1 << 52) - 1 } else { 0 };
            f64::from_bits(binade | (digits ^ flip))
        }
    }
}

/// Up to two units in the last place away.
fn beside(r: &mut Random, x: f64) -> f64 {
    f64::from_bits(x.to_bits().wrapping_add(r.below(5) as u64).wrapping_sub(2))
}

pub fn root(root: fn(f64) -> f64, x: f64) -> Result<(), String> {
    let (got, wanted) = (root(x), x.sqrt());
    if same(got, wanted) {
        return Ok(());
    }
    Err(format!(
        "root of {:016x} is {:016x}, the machine's {:016x}",
        x.to_bits(),
        got.to_bits(),
        wanted.to_bits()
    ))
}
