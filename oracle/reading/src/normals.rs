//! Rules F8, T6 and T7: normals worked out from corners.

use crate::triangles::{admitted, cross, dot, minus, part, triangle, Triangle};
use crate::{refuse, triangle_count, Refusal};

/// The triangle with these corners.
pub fn new(corners: &[f64; 9]) -> Triangle {
    let v0 = part(corners, 0);
    let across = cross(minus(part(corners, 1), v0), minus(part(corners, 2), v0));
    let squared = dot(across, across);
    let normal = if squared > 1e-12 {
        across.map(|x| x / squared.sqrt())
    } else {
        [0.0, 1.0, 0.0]
    };
    std::array::from_fn(|k| if k < 9 { corners[k] } else { normal[k - 9] })
}

/// Refusals 1, 2 and 5 (the lowest triangle), with the mesh unchanged.
pub fn refill(mesh: &mut [f64]) -> Result<(), Refusal> {
    let n = triangle_count(mesh)?;
    if let Some(i) = (0..n).find(|&i| !admitted(&triangle(mesh, i))) {
        return refuse(5, i);
    }
    for t in mesh.chunks_exact_mut(12) {
        let corners: [f64; 9] = std::array::from_fn(|k| t[k]);
        t.copy_from_slice(&new(&corners));
    }
    Ok(())
}
