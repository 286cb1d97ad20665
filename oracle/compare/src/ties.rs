//! The published walk and rule E1. At numerically equal t the Rust keeps the
//! first visited, rule E1 the lowest triangle number; all else is the same.

use crate::calls::{all, same};
use crate::world::{self, Tree};
use optics_core::Ray;
use published::counts::{intersect_blas_counted, intersect_blas_ruled};
use published::spots::Spot;
use published::triangle::Triangle;

/// What rule E1 wants of a walk.
#[derive(Debug)]
pub struct Ruled {
    pub hit: Option<Spot>,
    pub boxes: u64,
    pub tests: u64,
    /// Another triangle is met at the hit's t.
    pub tied: bool,
    /// The Rust answers another one than the lowest.
    pub moved: bool,
}

/// The published text with rule E1, held to the text as it stands:
/// hit or miss, the bits of t and the counts always, and the whole hit but where
/// the Rust keeps one that is tied with a lower number.
pub fn walk(ray: &Ray, tree: &Tree, triangles: &[Triangle]) -> Result<Ruled, String> {
    let (hit, boxes, tests, tied) =
        intersect_blas_ruled(ray, &tree.nodes, triangles, &tree.indices);
    let (kept, kept_boxes, kept_tests) =
        intersect_blas_counted(ray, &tree.nodes, triangles, &tree.indices);
    let moved = match (&hit, &kept) {
        (None, None) => false,
        (Some(h), Some(k)) if h.surface_index == k.surface_index => {
            if !all(&world::numbers(h), &world::numbers(k), same)
                || h.is_front_face != k.is_front_face
            {
                return Err("oracle: one triangle, two hits".into());
            }
            false
        }
        (Some(h), Some(k)) if tied > 0 && same(h.t, k.t) && h.surface_index < k.surface_index => {
            true
        }
        _ => return Err(format!("oracle: {hit:?} by the rule, {kept:?} by the Rust")),
    };
    if (boxes, tests) != (kept_boxes, kept_tests) {
        return Err("oracle: the rule counts otherwise than the Rust".into());
    }
    Ok(Ruled {
        hit,
        boxes,
        tests,
        tied: tied > 0,
        moved,
    })
}
