//! Rules V and B of docs/RULES.md: vectors, boxes, the slab test.

use crate::{within, REACH};

/// min x, y, z, max x, y, z.
pub type Bounds = [f64; 6];
/// Origin, direction.
pub type Ray = [f64; 6];

const INF: f64 = f64::INFINITY;
pub const EMPTY: Bounds = [INF, INF, INF, -INF, -INF, -INF];

/// A NaN yields the other number; of equal ones the first is kept.
pub fn lesser(first: f64, second: f64) -> f64 {
    if first.is_nan() || second < first {
        second
    } else {
        first
    }
}

/// As `lesser`.
pub fn greater(first: f64, second: f64) -> f64 {
    if first.is_nan() || second > first {
        second
    } else {
        first
    }
}

pub fn union(a: Bounds, b: Bounds) -> Bounds {
    [
        lesser(a[0], b[0]),
        lesser(a[1], b[1]),
        lesser(a[2], b[2]),
        greater(a[3], b[3]),
        greater(a[4], b[4]),
        greater(a[5], b[5]),
    ]
}

pub fn grow(b: Bounds, p: [f64; 3]) -> Bounds {
    union(b, [p[0], p[1], p[2], p[0], p[1], p[2]])
}

/// 0 if an extent is negative, else 2·((dx·dy + dy·dz) + dz·dx).
pub fn area(b: Bounds) -> f64 {
    let [dx, dy, dz] = [b[3] - b[0], b[4] - b[1], b[5] - b[2]];
    if dx < 0.0 || dy < 0.0 || dz < 0.0 {
        return 0.0;
    }
    2.0 * ((dx * dy + dy * dz) + dz * dx)
}

/// Six finite numbers of magnitude at most 2^40, each min at most its max; or
/// exactly the empty box.
pub fn usable(b: Bounds) -> bool {
    let ordered = b[0] <= b[3] && b[1] <= b[4] && b[2] <= b[5];
    b == EMPTY || (within(&b, REACH) && ordered)
}

/// The slab test: enter and exit, or none.
pub fn slab(b: Bounds, ray: Ray) -> Option<[f64; 2]> {
    let (mut enter, mut exit) = (0.0, INF);
    for axis in 0..3 {
        let (origin, dir) = (ray[axis], ray[axis + 3]);
        let (min, max) = (b[axis], b[axis + 3]);
        if dir.abs() < 1e-12 {
            if origin < min || origin > max {
                return None;
            }
            continue;
        }
        let inv = 1.0 / dir;
        let (mut t0, mut t1) = ((min - origin) * inv, (max - origin) * inv);
        if t0 > t1 {
            (t0, t1) = (t1, t0);
        }
        enter = greater(enter, t0);
        exit = lesser(exit, t1);
        if enter > exit {
            return None;
        }
    }
    if exit < 0.0 {
        return None;
    }
    Some([enter, exit])
}
