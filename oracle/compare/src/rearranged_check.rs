//! Two trees with the same leaves (request A9): those of a built tree are put
//! together another way, accepted, and walked. All must be the same but the box
//! tests.

use crate::calls::{self, Calls};
use crate::random::Random;
use crate::rays::Ray;
use crate::{meshes, node_room, Lent, Lists};
use reading::boxes::{union, Bounds};
use reading::{HIT_NUMBERS, WALK_TOLD};

/// A leaf's box, and the triangles that it holds.
type Leaf = (Bounds, Vec<u32>);

fn leaves(lists: &Lists, nodes: usize) -> Vec<Leaf> {
    let nodes = lists.links.chunks_exact(3).take(nodes);
    let nodes = nodes.zip(lists.boxes.chunks_exact(6));
    nodes
        .filter(|(links, _)| links[2] == 1)
        .map(|(links, bounds)| {
            let (first, count) = (links[0] as usize, links[1] as usize);
            let bounds = bounds.try_into().expect("six numbers");
            (bounds, lists.index[first..first + count].to_vec())
        })
        .collect()
}

/// Any way of putting them together, no deeper than 63: other inner nodes,
/// other numbers of nodes, another order of the leaves and of the triangles in
/// each, a -0 for a 0.
fn rearranged(r: &mut Random, mut leaves: Vec<Leaf>) -> Lists {
    r.shuffle(&mut leaves);
    for (bounds, held) in &mut leaves {
        r.shuffle(held);
        for x in bounds.iter_mut().filter(|x| **x == 0.0) {
            *x = r.pick(&[0.0, -0.0]);
        }
    }
    let nodes = 2 * leaves.len() - 1;
    let mut pairs: Vec<usize> = (1..leaves.len()).map(|k| 2 * k - 1).collect();
    r.shuffle(&mut pairs);
    let mut lists = Lists {
        index: Vec::new(),
        boxes: vec![0.0; 6 * nodes],
        links: vec![0; 3 * nodes],
    };
    node(r, &mut lists, &mut pairs, 0, &leaves, 0);
    lists
}

fn node(
    r: &mut Random,
    lists: &mut Lists,
    pairs: &mut Vec<usize>,
    at: usize,
    leaves: &[Leaf],
    depth: usize,
) -> Bounds {
    let (bounds, links) = if let [(bounds, held)] = leaves {
        let first = lists.index.len() as u32;
        lists.index.extend(held);
        (*bounds, [first, held.len() as u32, 1])
    } else {
        let left = pairs.pop().expect("a pair for each internal node");
        // Halves, once it is deep: 2^20 leaves are then no deeper than 63.
        let k = if depth < 40 {
            r.whole(1, leaves.len() - 1)
        } else {
            leaves.len() / 2
        };
        let a = node(r, lists, pairs, left, &leaves[..k], depth + 1);
        let b = node(r, lists, pairs, left + 1, &leaves[k..], depth + 1);
        (union(a, b), [left as u32, 0, 0])
    };
    lists.links[3 * at..3 * at + 3].copy_from_slice(&links);
    lists.boxes[6 * at..6 * at + 6].copy_from_slice(&bounds);
    bounds
}

fn accepted(calls: &Calls, mesh: &[f64], lists: &Lists) -> Result<(), String> {
    let mut work = vec![0; lists.links.len() / 3 + mesh.len() / 12];
    let mut told = [0; 2];
    match (calls.accept)(
        mesh,
        &lists.index,
        &lists.boxes,
        &lists.links,
        &mut work,
        &mut told,
    ) {
        0 => Ok(()),
        number => Err(format!("not accepted: {number} {told:?}")),
    }
}

/// Answers how many rays were walked through both trees, and for how many the
/// box tests differ; none where the mesh has no tree.
pub fn check(
    calls: &Calls,
    r: &mut Random,
    mesh: &[f64],
    rays: &[Ray],
) -> Result<[u64; 2], String> {
    let n = mesh.len() / 12;
    let room = node_room(n);
    let (mut built, mut told) = (Lists::rooms(r, n, 6 * room, 3 * room), [0; 2]);
    let Lists {
        index,
        boxes,
        links,
    } = &mut built;
    if (calls.build)(mesh, index, boxes, links, &mut told) != 0 {
        return Ok([0, 0]);
    }
    let nodes = told[0] as usize;
    built.boxes.truncate(6 * nodes);
    built.links.truncate(3 * nodes);
    let other = rearranged(r, leaves(&built, nodes));
    accepted(calls, mesh, &built)?;
    accepted(calls, mesh, &other)?;
    let materials = meshes::materials(r.bits(), n);
    let mut differ = 0;
    for ray in rays {
        let walk = |lists: &Lists| {
            let lent = Lent {
                mesh,
                materials: &materials,
                lists,
            };
            let (mut numbers, mut told) = ([-7.5; HIT_NUMBERS], [u64::MAX; WALK_TOLD]);
            let number = calls.walk_lent(lent, ray, &mut numbers, &mut told);
            (number, numbers, told)
        };
        let (a, b) = (walk(&built), walk(&other));
        differ += u64::from(a.2[2] != b.2[2]);
        let told = |t: [u64; WALK_TOLD]| [t[0], t[1], t[3], t[4]];
        if a.0 != b.0 || !calls::all(&a.1, &b.1, calls::same) || told(a.2) != told(b.2) {
            return Err(format!(
                "{a:?} of the built tree, {b:?} of the other, ray {ray:?}"
            ));
        }
    }
    Ok([rays.len() as u64, differ])
}
