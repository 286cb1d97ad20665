//! Rules W and E of docs/RULES.md: the walk, with every refusal in the order of
//! steps, and ties.

use crate::boxes::{slab, usable, Bounds, Ray};
use crate::triangles::{admitted, meet, ray_admitted, triangle, Met};
use crate::{mesh_count, refuse, Refusal, MOST_NODES, MOST_PENDING};

/// Box tests and triangle tests.
#[derive(Clone, Copy, Debug, Default, PartialEq, Eq)]
pub struct Counts {
    pub boxes: u64,
    pub triangles: u64,
}

/// A hit carries the triangle's number and its material.
#[derive(Clone, Copy, Debug, PartialEq)]
pub struct Hit {
    pub met: Met,
    pub triangle: u32,
    pub material: u32,
}

#[derive(Clone, Copy, Debug, PartialEq)]
pub enum Answer {
    Hit(Hit, Counts),
    Miss(Counts),
}

struct Lent<'a> {
    triangles: &'a [f64],
    n: usize,
    index: &'a [u32],
    boxes: &'a [f64],
    links: &'a [u32],
}

pub fn walk(
    triangles: &[f64],
    materials: &[u32],
    index: &[u32],
    boxes: &[f64],
    links: &[u32],
    ray: &Ray,
) -> Result<Answer, Refusal> {
    let n = mesh_count(triangles, materials)?;
    if !ray_admitted(ray) {
        return refuse(7, 0);
    }
    let nodes = links.len() / 3;
    let whole = !links.is_empty() && links.len() % 3 == 0;
    if !whole || nodes > MOST_NODES || boxes.len() != 2 * links.len() {
        return refuse(8, 0);
    }
    let lent = Lent {
        triangles,
        n,
        index,
        boxes,
        links,
    };
    let (best, counts) = steps(&lent, nodes, ray)?;
    Ok(match best {
        Some((met, triangle)) => {
            let material = materials[triangle as usize];
            let hit = Hit {
                met,
                triangle,
                material,
            };
            Answer::Hit(hit, counts)
        }
        None => Answer::Miss(counts),
    })
}

/// The nearest, with its triangle's number.
type Best = Option<(Met, u32)>;

fn steps(lent: &Lent, nodes: usize, ray: &Ray) -> Result<(Best, Counts), Refusal> {
    let mut pending = vec![0_usize];
    let mut counts = Counts::default();
    let mut best: Best = None;
    while let Some(node) = pending.pop() {
        if counts.boxes == nodes as u64 {
            return refuse(12, node);
        }
        let [link, count, kind] = [0, 1, 2].map(|k| lent.links[3 * node + k]);
        let bounds: Bounds = std::array::from_fn(|k| lent.boxes[6 * node + k]);
        if kind > 1 || !usable(bounds) || (kind == 0 && count != 0) {
            return refuse(9, node);
        }
        counts.boxes += 1;
        if slab(bounds, *ray).is_none() {
            continue;
        }
        if kind == 1 {
            leaf(lent, node, link, count, ray, &mut counts, &mut best)?;
            continue;
        }
        let left = link as usize;
        if left + 1 >= nodes {
            return refuse(9, node);
        }
        if pending.len() + 2 > MOST_PENDING {
            return refuse(11, node);
        }
        pending.extend([left + 1, left]);
    }
    Ok((best, counts))
}

fn leaf(
    lent: &Lent,
    node: usize,
    first: u32,
    count: u32,
    ray: &Ray,
    counts: &mut Counts,
    best: &mut Best,
) -> Result<(), Refusal> {
    let (first, count) = (first as usize, count as usize);
    if first + count > lent.index.len() {
        return refuse(9, node);
    }
    for place in first..first + count {
        let entry = lent.index[place];
        if entry as usize >= lent.n {
            return refuse(10, place);
        }
        let tested = triangle(lent.triangles, entry as usize);
        if !admitted(&tested) {
            return refuse(5, entry as usize);
        }
        counts.triangles += 1;
        if let Some(met) = meet(&tested, ray) {
            let replaces = match *best {
                None => met.numbers[0] < f64::INFINITY,
                Some((b, held)) => {
                    let (t, least) = (met.numbers[0], b.numbers[0]);
                    t < least || (t == least && entry < held)
                }
            };
            if replaces {
                *best = Some((met, entry));
            }
        }
    }
    Ok(())
}
