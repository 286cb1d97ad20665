//! Rules S of docs/RULES.md: the choice of a split.

use crate::boxes::{area, greater, lesser, union, Bounds, EMPTY};
use crate::triangles::{bounds, centroid, triangle};

const BINS: usize = 16;

pub struct Split {
    pub axis: usize,
    pub position: f64,
}

#[derive(Clone, Copy)]
struct Bin {
    count: u32,
    bounds: Bounds,
}

const BLANK: Bin = Bin {
    count: 0,
    bounds: EMPTY,
};

fn join(a: Bin, b: Bin) -> Bin {
    Bin {
        count: a.count + b.count,
        bounds: union(a.bounds, b.bounds),
    }
}

/// The greatest whole k in 0..15 with k <= (c - min)·scale.
fn bin(c: f64, min: f64, scale: f64) -> usize {
    let place = (c - min) * scale;
    (0..BINS).rev().find(|k| *k as f64 <= place).unwrap_or(0)
}

/// None at 4 or fewer, or when the parent area is <= 1e-12; else the first of
/// the least costs below count·1.5, axes x, y, z, boundaries 0..14.
pub fn best(mesh: &[f64], range: &[u32], parent: Bounds) -> Option<Split> {
    let parent = area(parent);
    if range.len() <= 4 || parent <= 1e-12 {
        return None;
    }
    let mut least = range.len() as f64 * 1.5;
    let mut found = None;
    for axis in 0..3 {
        let at = |i: &u32| centroid(&triangle(mesh, *i as usize), axis);
        let min = range.iter().map(at).fold(f64::INFINITY, lesser);
        let max = range.iter().map(at).fold(f64::NEG_INFINITY, greater);
        if max - min < 1e-6 {
            continue;
        }
        let scale = 16.0 / (max - min);
        let mut bins = [BLANK; BINS];
        for i in range {
            let k = bin(at(i), min, scale);
            let own = bounds(&triangle(mesh, *i as usize));
            bins[k] = join(
                bins[k],
                Bin {
                    count: 1,
                    bounds: own,
                },
            );
        }
        for i in 0..BINS - 1 {
            let left = bins[..=i].iter().copied().fold(BLANK, join);
            let right = bins[i + 1..].iter().rev().copied().fold(BLANK, join);
            if left.count == 0 || right.count == 0 {
                continue;
            }
            let side = |b: Bin| (area(b.bounds) * f64::from(b.count)) * 1.5;
            let cost = 1.0 + (side(left) + side(right)) / parent;
            if cost < least {
                least = cost;
                let position = min + (i + 1) as f64 * (1.0 / scale);
                found = Some(Split { axis, position });
            }
        }
    }
    found
}
