//! Normals worked out from corners: `Triangle::new` on every pattern, and whole
//! meshes, admitted and not.

use crate::calls::{all, same, Calls, READING};
use crate::meshes;
use crate::random::Random;
use crate::world;

/// Corners of any pattern, or of a triangle whose cross product has a squared
/// length about 1e-12, or about as long as an admitted one's may be.
pub fn corners_case(r: &mut Random) -> [f64; 9] {
    if r.one_in(3) {
        let e = match r.below(3) {
            0 => r.near(1e-6),
            1 => r.near(1e-3),
            _ => 1e-12_f64.powf(r.between(0.4, 0.6)),
        };
        let other = if r.one_in(2) { 1.0 } else { 1e-6 / e };
        let [x, y, z] = std::array::from_fn(|_| r.between(-1.0, 1.0).round());
        return [x, y, z, x + other, y, z, x, y + e, z];
    }
    let scale = r.pick(&[1.0, 1e-3, 1e-6, 1_099_511_627_776.0, 4.0]);
    let mut corners: [f64; 9] = std::array::from_fn(|_| r.between(-1.0, 1.0) * scale);
    if r.one_in(3) {
        corners = corners.map(f64::round);
    }
    for _ in 0..r.pick(&[0, 0, 0, 1, 2, 9]) {
        corners[r.below(9)] = r.wild();
    }
    corners
}

/// Whether the normal is worked out, and not (0, 1, 0).
pub fn corners(calls: &Calls, corners: &[f64; 9]) -> Result<bool, String> {
    let run = |calls: &Calls| {
        let mut made = [-7.5; 12];
        (calls.new)(corners, &mut made);
        made
    };
    let made = run(calls);
    let judges = [
        ("the Rust", world::new_triangle(corners)),
        ("the reading", run(&READING)),
    ];
    for (who, wanted) in judges {
        if !all(&made, &wanted, same) {
            return Err(format!("new answers {made:?}, {who} {wanted:?}"));
        }
    }
    Ok(made[9..] != [0.0, 1.0, 0.0])
}

/// A mesh of any kind, its normals often zero; sometimes with a number put in
/// anywhere, or of an odd length.
pub fn mesh_case(r: &mut Random) -> Vec<f64> {
    let make = meshes::KINDS[r.below(meshes::KINDS.len())].1;
    let n = r.whole(0, 40);
    let mut mesh = make(r, n);
    if r.one_in(2) {
        for t in mesh.chunks_exact_mut(12) {
            t[9..].fill(0.0);
        }
    }
    if r.one_in(3) && !mesh.is_empty() {
        let k = r.below(mesh.len());
        mesh[k] = r.wild();
    }
    if r.one_in(20) {
        mesh.truncate(mesh.len().saturating_sub(r.whole(1, 11)));
    }
    mesh
}

/// The answer. A mesh that is served is refilled as the Rust's `Triangle::new`
/// has each triangle, is admitted, and stays as it is the second time.
pub fn mesh(calls: &Calls, mesh: &[f64]) -> Result<u32, String> {
    let run = |calls: &Calls, mesh: &[f64]| {
        let (mut after, mut told) = (mesh.to_vec(), [99]);
        let number = (calls.normals)(&mut after, &mut told);
        (number, told, after)
    };
    let (number, told, after) = run(calls, mesh);
    let (wanted, wanted_told, wanted_after) = run(&READING, mesh);
    if (number, told) != (wanted, wanted_told) || !all(&after, &wanted_after, same) {
        return Err(format!(
            "normals answers {number} {told:?}, the reading {wanted} {wanted_told:?}, or leaves other triangles"
        ));
    }
    if number != 0 {
        return Ok(number);
    }
    for (i, t) in after.chunks_exact(12).enumerate() {
        let made = world::new_triangle(&mesh[12 * i..]);
        if !all(t, &made, same) {
            return Err(format!("triangle {i} is {t:?}, the Rust's {made:?}"));
        }
    }
    let again = run(calls, &after);
    if (again.0, again.1) != (0, [0]) || !all(&again.2, &after, same) {
        return Err(format!(
            "refilled again, it answers {} {:?}, or changes",
            again.0, again.1
        ));
    }
    Ok(0)
}
