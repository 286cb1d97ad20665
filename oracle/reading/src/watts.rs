//! Rules Q of docs/RULES.md: the watts of a sky, and the share.

use crate::sky::sky;
use crate::{refuse, Refusal, PLACE_TOLD};

/// Rays that one call weighs at most.
pub const MOST_RAYS: usize = 1_048_576;

/// The sky's places, and shaded, open, refused and total watts, then the share.
/// The sky's refusals, 27 and 28 refuse the whole call, which then writes nothing.
#[allow(clippy::too_many_arguments)]
pub fn watts(
    triangles: &[f64],
    materials: &[u32],
    index: &[u32],
    boxes: &[f64],
    links: &[u32],
    rays: &[f64],
    weights: &[u32],
    times: &mut [f64],
    told: &mut [u64],
) -> Result<[u64; 6], Refusal> {
    // On a copy, so that 27 and 28 come after the sky's refusals and write nothing.
    let (mut filled_times, mut filled_told) = (times.to_vec(), told.to_vec());
    sky(
        triangles,
        materials,
        index,
        boxes,
        links,
        rays,
        &mut filled_times,
        &mut filled_told,
    )?;
    let n = rays.len() / 6;
    if weights.len() != n {
        return refuse(27, 0);
    }
    if n > MOST_RAYS {
        return refuse(28, 0);
    }
    times.copy_from_slice(&filled_times);
    told.copy_from_slice(&filled_told);
    let watts = |wanted: &dyn Fn(u64) -> bool| -> u64 {
        let outcomes = told.iter().step_by(PLACE_TOLD).zip(weights);
        outcomes
            .filter(|(outcome, _)| wanted(**outcome))
            .map(|(_, weight)| u64::from(*weight))
            .sum()
    };
    let (shaded, open) = (watts(&|o| o == 100), watts(&|o| o == 0));
    let refused = watts(&|o| o != 100 && o != 0);
    let total = weights.iter().map(|weight| u64::from(*weight)).sum();
    let [above, below] = share(shaded, open);
    Ok([shaded, open, refused, total, above, below])
}

/// Shaded over shaded and open together, in lowest terms; 0/1 where both are 0;
/// 0/0 where the lower number would pass 64 bits.
pub fn share(shaded: u64, open: u64) -> [u64; 2] {
    let answered = u128::from(shaded) + u128::from(open);
    if answered == 0 {
        return [0, 1];
    }
    let common = common_divisor(u128::from(shaded), answered);
    match u64::try_from(answered / common) {
        Ok(below) => [shaded / common as u64, below],
        Err(_) => [0, 0],
    }
}

/// By halving and subtracting: not the way of the code.
fn common_divisor(mut a: u128, mut b: u128) -> u128 {
    if a == 0 {
        return b;
    }
    let twos = (a | b).trailing_zeros();
    a >>= a.trailing_zeros();
    while b != 0 {
        b >>= b.trailing_zeros();
        (a, b) = (a.min(b), a.abs_diff(b));
    }
    a << twos
}
