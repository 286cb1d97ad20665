//! The smallest mesh on which the Rust and rule E1 name different triangles.

use compare::calls::READING;
use compare::random::Random;
use compare::{meshes, rays, ties, world, Lent};
use published::builder::BvhNode;
use published::counts::intersect_blas_counted;
use published::scene::intersect_blas;
use reading::{HIT_NUMBERS, WALK_TOLD};

#[test]
fn five_triangles_show_it() {
    let (mesh, lent_ray) = meshes::wall_twice();
    let triangles = world::triangles(&mesh);
    let tree = world::build(&triangles);
    assert_eq!(tree.indices, [4, 3, 2, 1, 0]);
    let ray = world::ray(&lent_ray);
    let rust = intersect_blas(&ray, &tree.nodes, &triangles, &tree.indices, 0).unwrap();
    let kept = intersect_blas_counted(&ray, &tree.nodes, &triangles, &tree.indices).0;
    assert_eq!((rust.t, kept.unwrap().surface_index), (5., 1));
    let lent = Lent {
        mesh: &mesh,
        materials: &[70, 71, 72, 73, 74],
        lists: &tree.lists(),
    };
    let (mut numbers, mut told) = ([0.; HIT_NUMBERS], [0; WALK_TOLD]);
    let answer = READING.walk_lent(lent, &lent_ray, &mut numbers, &mut told);
    assert_eq!((answer, numbers[0]), (100, 5.));
    assert_eq!((told[0], told[4]), (0, 70));
}

/// Up to four triangles are one leaf, its list in ascending order: no tie there
/// can tell the two rules apart.
#[test]
fn four_cannot() {
    for n in 0..5 {
        let mesh = &meshes::wall_twice().0[..12].repeat(n);
        let tree = world::build(&world::triangles(mesh));
        assert_eq!(tree.nodes.len(), 1);
        assert!(tree.indices.into_iter().eq(0..n));
    }
}

/// Party walls: the Rust keeps the higher number in one leaf and across two.
#[test]
fn walls_tie_within_a_leaf_and_across() {
    let (mut within, mut across) = (0, 0);
    for seed in 0..400 {
        let mut r = Random::new(seed);
        let mesh = meshes::party_walls(&mut r, 30);
        let triangles = world::triangles(&mesh);
        let tree = world::build(&triangles);
        let leaf_of = |number: usize| {
            let place = tree.indices.iter().position(|i| *i == number).unwrap() as u32;
            let holds = |n: &BvhNode| n.is_leaf && place.wrapping_sub(n.left_or_first) < n.count;
            tree.nodes.iter().position(holds)
        };
        for _ in 0..20 {
            let ray = world::ray(&rays::KINDS[0].1(&mut r, &mesh));
            let ruled = ties::walk(&ray, &tree, &triangles).unwrap();
            if ruled.moved {
                let kept = intersect_blas_counted(&ray, &tree.nodes, &triangles, &tree.indices).0;
                let [a, b] = [ruled.hit, kept].map(|h| leaf_of(h.unwrap().surface_index));
                *if a == b { &mut within } else { &mut across } += 1;
            }
        }
    }
    assert!(
        within > 50 && across > 50,
        "{within} within, {across} across"
    );
}
