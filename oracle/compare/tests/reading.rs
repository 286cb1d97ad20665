//! The reading against the published Rust, before anything else is compared
//! with either.

use compare::calls::READING;
use compare::run::{all, Plan};

#[test]
fn the_reading_is_the_rust() {
    let plan = Plan {
        seed: 77,
        meshes: 600,
        rays_per_mesh: 8,
        large_meshes: 1,
        hostile: 500,
        skies: 500,
        watts: 300,
        shares: 2_000,
        functions: 20_000,
        roots: 20_000,
        accepts: 1_000,
        files: 2_000,
        rearranged: 100,
    };
    assert_eq!(all(&READING, &plan), 0);
}
