//! The probe table (docs/RULES.md), called from Rust.

use pigeonmast::{build_bvh, ray_aabb_slab_test, Aabb, Bvh, Ray, Triangle, Vec3, Walk};

const DOWN: Vec3 = Vec3::new(0.0, 0.0, -1.0);

fn triangle(s: f64, side: f64) -> Triangle {
    Triangle {
        v0: Vec3::new(s, 0.0, 0.0),
        v1: Vec3::new(s + side, 0.0, 0.0),
        v2: Vec3::new(s, side, 0.0),
        normal: Vec3::new(0.0, 0.0, 1.0),
    }
}

fn one() -> Bvh {
    build_bvh(&[triangle(0.0, 1.0)]).expect("T is admitted")
}

fn row() -> Bvh {
    build_bvh(&[0.0, 16.0, 32.0, 48.0, 64.0].map(|s| triangle(s, 3.0))).expect("P10 is built")
}

fn walk(bvh: &Bvh, x: f64, y: f64, z: f64, direction: Vec3) -> Walk {
    let ray = Ray::new(Vec3::new(x, y, z), direction);
    bvh.intersect(&ray).expect("the ray is admitted")
}

fn counts(walk: &Walk) -> (u64, u64) {
    (walk.box_tests, walk.triangle_tests)
}

#[test]
fn p1_no_triangles() {
    let bvh = build_bvh(&[]).expect("none are a mesh");
    assert_eq!((bvh.node_count(), bvh.leaf_count()), (1, 1));
    let root = bvh.nodes().next().expect("the root");
    assert_eq!(root.aabb, Aabb::empty());
    assert_eq!((root.left_or_first, root.count, root.is_leaf), (0, 0, true));
    let at = Vec3::new(0.0, 0.0, 0.0);
    let slanted = Ray::new(at, Vec3::new(1.0, 1.0, 1.0));
    assert_eq!(
        ray_aabb_slab_test(&slanted, &root.aabb),
        Some((0.0, f64::INFINITY))
    );
    assert_eq!(ray_aabb_slab_test(&Ray::new(at, DOWN), &root.aabb), None);
}

#[test]
fn p2_to_p7_one_triangle() {
    let bvh = one();
    let p2 = walk(&bvh, 0.25, 0.25, 1.0, DOWN);
    let hit = p2.hit.expect("P2");
    assert_eq!(
        (hit.t, hit.point, hit.is_front_face),
        (1.0, Vec3::new(0.25, 0.25, 0.0), true)
    );
    assert_eq!((hit.u, hit.v), (0.25, 0.25));
    assert_eq!(counts(&p2), (1, 1));
    let p3 = walk(&bvh, 0.25, 0.25, -1.0, Vec3::new(0.0, 0.0, 1.0))
        .hit
        .expect("P3");
    assert_eq!((p3.t, p3.is_front_face, p3.normal.z), (1.0, false, -1.0));
    let p4 = walk(&bvh, 0.75, 0.75, 1.0, DOWN);
    assert_eq!((p4.hit, counts(&p4)), (None, (1, 1)));
    let p5 = walk(&bvh, 2.0, 0.25, 1.0, DOWN);
    assert_eq!((p5.hit, counts(&p5)), (None, (1, 0)));
    let p6 = walk(&bvh, 0.5, 0.5, 1.0, DOWN).hit.expect("P6");
    assert_eq!((p6.t, p6.u, p6.v), (1.0, 0.5, 0.5));
    assert!(walk(&bvh, 0.25, 0.25, 2.0_f64.powi(-20), DOWN)
        .hit
        .is_none());
    assert!(walk(&bvh, 0.25, 0.25, 2.0_f64.powi(-19), DOWN)
        .hit
        .is_some());
}

#[test]
fn p8_the_slab_test() {
    let unit = Aabb {
        min: Vec3::new(0.0, 0.0, 0.0),
        max: Vec3::new(1.0, 1.0, 1.0),
    };
    let to = |z: f64| Ray::new(Vec3::new(0.5, 0.5, 2.0), Vec3::new(0.0, 0.0, z));
    assert_eq!(unit.intersect_ray(&to(-(2.0_f64.powi(-40)))), None);
    let times = (2.0_f64.powi(39), 2.0_f64.powi(40));
    assert_eq!(unit.intersect_ray(&to(-(2.0_f64.powi(-39)))), Some(times));
}

#[test]
fn p9_five_copies() {
    let bvh = build_bvh(&[triangle(0.0, 1.0); 5]).expect("P9 is built");
    let root = bvh.nodes().next().expect("the root");
    assert_eq!((bvh.node_count(), root.count), (1, 5));
}

#[test]
fn p10_to_p12_five_in_a_row() {
    let bvh = row();
    assert_eq!(bvh.indices(), [0, 1, 3, 4, 2]);
    let links: Vec<_> = bvh
        .nodes()
        .map(|n| (n.left_or_first, n.count, n.is_leaf))
        .collect();
    assert_eq!(links, [(1, 0, false), (0, 2, true), (2, 3, true)]);
    let p11 = walk(&bvh, 17.0, 1.0, 1.0, DOWN);
    let hit = p11.hit.expect("P11");
    assert_eq!((hit.triangle, hit.t, counts(&p11)), (1, 1.0, (3, 2)));
    assert_eq!((hit.u, hit.v), (1.0 / 3.0, 1.0 / 3.0));
    let p12 = walk(&bvh, 25.0, 1.0, 1.0, DOWN);
    assert_eq!((p12.hit, counts(&p12)), (None, (3, 0)));
}
