//! The published Rust, compiled over the small `optics_core`. build.rs says
//! which text is unchanged and what was made of it.

use std::cell::Cell;

include!(concat!(env!("OUT_DIR"), "/modules.rs"));

/// In place of scene.rs, which needs nalgebra: `intersect_blas` as published,
/// and what cost.rs names of a scene, with one instance that moves nothing.
pub mod scene {
    use crate::builder::BvhNode;
    use crate::triangle::Triangle;
    use optics_core::{HitRecord, Ray};

    include!(concat!(env!("OUT_DIR"), "/intersect_blas.rs"));

    pub struct BlasInstance {
        pub blas_index: usize,
    }

    impl BlasInstance {
        pub fn transform_ray(&self, ray: &Ray) -> Option<Ray> {
            Some(*ray)
        }
    }

    pub struct BvhScene {
        pub tlas: Vec<BvhNode>,
        pub blas: Vec<Vec<BvhNode>>,
        pub blas_indices: Vec<Vec<usize>>,
        pub triangles: Vec<Vec<Triangle>>,
        pub instances: Vec<BlasInstance>,
    }
}

/// The triangle test of triangle.rs with u and v, which its record has not.
pub mod spots {
    use crate::triangle::Triangle;
    use optics_core::{HitRecord, Ray};
    use std::ops::Deref;

    #[derive(Clone, Copy, Debug, PartialEq)]
    pub struct Spot {
        pub hit: HitRecord,
        pub u: f64,
        pub v: f64,
    }

    /// So that the published text reads a hit's t as it stands.
    impl Deref for Spot {
        type Target = HitRecord;
        fn deref(&self) -> &HitRecord {
            &self.hit
        }
    }

    include!(concat!(env!("OUT_DIR"), "/spotted.rs"));
}

/// The texts that count: from scene.rs, as it stands and with rule E1
/// at a tie, and from cost.rs.
pub mod counts {
    use crate::builder::BvhNode;
    use crate::spots::Spot;
    use crate::triangle::Triangle;
    use optics_core::Ray;

    include!(concat!(env!("OUT_DIR"), "/counted.rs"));
    include!(concat!(env!("OUT_DIR"), "/ruled.rs"));
    include!(concat!(env!("OUT_DIR"), "/cost_loop.rs"));
}

thread_local! {
    static FALLBACKS: Cell<u64> = const { Cell::new(0) };
}

pub(crate) fn fallback_ran() {
    FALLBACKS.set(FALLBACKS.get() + 1);
}

/// How often the second build (`ordered`) came to the fallback, on this thread.
pub fn fallbacks() -> u64 {
    FALLBACKS.get()
}

/// A scene for the unchanged cost.rs around one tree. Its top box holds every
/// ray, so `trace_bvh_cost` is 1 and the inner loop's figure.
pub fn lone_scene(
    nodes: Vec<builder::BvhNode>,
    indices: Vec<usize>,
    triangles: Vec<triangle::Triangle>,
) -> scene::BvhScene {
    let (most, least) = (f64::INFINITY, f64::NEG_INFINITY);
    let everywhere = aabb::Aabb {
        min: optics_core::Vec3::new(least, least, least),
        max: optics_core::Vec3::new(most, most, most),
    };
    scene::BvhScene {
        tlas: vec![builder::BvhNode::leaf(everywhere, 0, 1)],
        blas: vec![nodes],
        blas_indices: vec![indices],
        triangles: vec![triangles],
        instances: vec![scene::BlasInstance { blas_index: 0 }],
    }
}
