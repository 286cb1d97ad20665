//! Normals worked out from corners, and the root that they need, through the
//! crate's own types.

use pigeonmast::{raw, refill_normals, Triangle, Vec3};

fn at(x: f64, y: f64, z: f64) -> Vec3 {
    Vec3::new(x, y, z)
}

/// A triangle of a mesh whose normals were left zero.
fn bare(v0: Vec3, v1: Vec3, v2: Vec3) -> Triangle {
    let normal = at(0.0, 0.0, 0.0);
    Triangle { v0, v1, v2, normal }
}

#[test]
fn the_root_is_the_machines() {
    for x in [
        0.0,
        -0.0,
        1.0,
        2.0,
        0.1,
        1e-12,
        5e-324,
        f64::MIN_POSITIVE,
        f64::MAX,
        f64::INFINITY,
    ] {
        assert_eq!(raw::root(x).to_bits(), x.sqrt().to_bits(), "{x}");
    }
    for x in [-1.0, -5e-324, f64::NEG_INFINITY, f64::NAN] {
        assert!(raw::root(x).is_nan(), "{x}");
    }
}

#[test]
fn a_squared_length_of_a_trillionth_is_too_short() {
    // The edges are 1 and e apart at a right angle, so the squared length is e·e.
    let normal =
        |e: f64| Triangle::new(at(0.0, 0.0, 0.0), at(1.0, 0.0, 0.0), at(0.0, e, 0.0)).normal;
    assert!(1e-6 * 1e-6 <= 1e-12);
    assert_eq!(normal(1e-6), at(0.0, 1.0, 0.0));
    assert_eq!(normal(1.01e-6), at(0.0, 0.0, 1.0));
}

#[test]
fn the_normal_follows_the_corners() {
    let [a, b, c] = [at(0.0, 0.0, 0.0), at(0.0, 2.0, 0.0), at(0.0, 0.0, 2.0)];
    assert_eq!(Triangle::new(a, b, c).normal, at(1.0, 0.0, 0.0));
    assert_eq!(Triangle::new(a, c, b).normal, at(-1.0, 0.0, 0.0));
    assert!(
        Triangle::new(a, b, at(f64::INFINITY, 0.0, f64::NAN))
            .normal
            .y
            == 1.0
    );
}

#[test]
fn a_mesh_is_refilled_or_left_alone() {
    let wall = bare(at(0.0, 0.0, 0.0), at(3.0, 0.0, 0.0), at(0.0, 0.0, 3.0));
    let line = bare(at(0.0, 0.0, 0.0), at(1.0, 1.0, 1.0), at(2.0, 2.0, 2.0));
    let mut far = wall;
    far.v2.y = 1e13;
    let mut mesh = vec![wall, far, line];
    let before = mesh.clone();
    let refusal = refill_normals(&mut mesh).unwrap_err();
    assert_eq!((refusal.number(), refusal.at(), &mesh), (5, 1, &before));
    mesh.remove(1);
    assert_eq!(refill_normals(&mut mesh), Ok(()));
    let normals: Vec<Vec3> = mesh.iter().map(|t| t.normal).collect();
    assert_eq!(normals, [at(0.0, -1.0, 0.0), at(0.0, 1.0, 0.0)]);
    assert_eq!((mesh[0].v1, mesh[1].v2), (wall.v1, line.v2));
    // Once more changes nothing.
    let once = mesh.clone();
    assert_eq!(refill_normals(&mut mesh), Ok(()));
    assert_eq!(mesh, once);
}

#[test]
fn too_many_are_refused() {
    let one = bare(at(0.0, 0.0, 0.0), at(1.0, 0.0, 0.0), at(0.0, 1.0, 0.0));
    let mut mesh = vec![one; 65_537];
    let refusal = refill_normals(&mut mesh).unwrap_err();
    assert_eq!((refusal.number(), refusal.at()), (2, 65_537));
    assert_eq!(mesh[0].normal, one.normal);
    mesh.pop();
    assert_eq!(refill_normals(&mut mesh), Ok(()));
    assert_eq!(mesh[65_535].normal, at(0.0, 0.0, 1.0));
}
