//! A differing input, as small as a short search makes it, so that it can be
//! looked at and put into a test: numbers as their bits.

use crate::calls::Calls;
use crate::hostile::Hostile;
use crate::mesh_check::{check, Case, Tally};

pub fn bits(numbers: &[f64]) -> String {
    let words: Vec<String> = numbers
        .iter()
        .map(|x| format!("{:016x}", x.to_bits()))
        .collect();
    words.join(" ")
}

/// Leaves out triangles, in halves and then one by one, and all rays but one,
/// as long as something differs.
pub fn smallest(calls: &Calls, case: &Case) -> Case {
    let differs = |case: &Case| check(calls, case, &mut Tally::default()).is_err();
    let mut best = case.clone();
    for ray in case.rays.iter().map(|r| vec![*r]).chain([vec![]]) {
        let fewer = Case {
            rays: ray,
            ..case.clone()
        };
        if differs(&fewer) {
            best = fewer;
        }
    }
    let mut step = (best.mesh.len() / 12).div_ceil(2);
    let mut left = 3_000;
    while step > 0 && left > 0 {
        let mut at = 0;
        while at < best.mesh.len() / 12 && left > 0 {
            left -= 1;
            let mut fewer = best.clone();
            let end = (12 * (at + step)).min(fewer.mesh.len());
            fewer.mesh.drain(12 * at..end);
            if differs(&fewer) {
                best = fewer;
            } else {
                at += step;
            }
        }
        step /= 2;
    }
    best
}

pub fn mesh(case: &Case) -> String {
    let mut text = format!("{} triangles, seed {}\n", case.mesh.len() / 12, case.seed);
    for (k, t) in case.mesh.chunks(12).enumerate().take(100) {
        text += &format!("  triangle {k}: {}\n", bits(t));
    }
    for ray in &case.rays {
        text += &format!("  ray: {}\n", bits(ray));
    }
    text
}

pub fn hostile(case: &Hostile) -> String {
    let lists = &case.lists;
    let mut text = format!(
        "{} triangle numbers, {} materials, {} index entries, {} box numbers, {} links\n",
        case.mesh.len(),
        case.materials.len(),
        lists.index.len(),
        lists.boxes.len(),
        lists.links.len()
    );
    for (k, t) in case.mesh.chunks(12).enumerate().take(30) {
        text += &format!("  triangle {k}: {}\n", bits(t));
    }
    let materials = &case.materials[..case.materials.len().min(30)];
    text += &format!("  materials: {materials:?}\n");
    text += &format!(
        "  index: {:?}\n",
        &lists.index[..lists.index.len().min(100)]
    );
    for (k, l) in lists.links.chunks(3).enumerate().take(150) {
        let bounds = lists.boxes.get(6 * k..6 * k + 6).unwrap_or(&[]);
        text += &format!("  node {k}: {l:?} {}\n", bits(bounds));
    }
    text += &format!("  ray: {}\n", bits(&case.ray));
    text
}
