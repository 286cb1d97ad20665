//! Lists that no builder made: looping trees, children beyond the nodes, bad
//! kinds, boxes and entries, too many pending. The Rust has no refusals, so the
//! reading judges; `foreign_check` holds the Rust to it where none is due, and at
//! the 65th pending, where the Rust panics.

use crate::random::Random;
use crate::rays::{self, Ray};
use crate::{meshes, node_room, Lent, Lists};

#[derive(Clone, Debug)]
pub struct Hostile {
    pub mesh: Vec<f64>,
    pub materials: Vec<u32>,
    pub lists: Lists,
    pub ray: Ray,
}

impl Hostile {
    pub fn lent(&self) -> Lent<'_> {
        Lent {
            mesh: &self.mesh,
            materials: &self.materials,
            lists: &self.lists,
        }
    }
}

type Make = fn(&mut Random) -> Hostile;

pub const KINDS: [(&str, Make); 5] = [
    ("a built tree, spoiled", spoiled),
    ("links at random", at_random),
    ("many pending", many_pending),
    ("leaves at the list's end", at_the_end),
    ("lengths", lengths),
];

/// A box that most rays of these cases pass.
const WIDE: [f64; 6] = [-1e6, -1e6, -1e6, 1e6, 1e6, 1e6];

/// A built tree and a ray for it: not hostile yet.
pub fn built(r: &mut Random) -> Hostile {
    let n = r.whole(0, 24);
    let mesh = if r.one_in(2) {
        meshes::soup(r, n)
    } else {
        meshes::terrain(r, n)
    };
    let room = node_room(n);
    let mut lists = Lists::rooms(r, n, 6 * room, 3 * room);
    // The first kinds of rays are aimed at the mesh.
    let ray = rays::KINDS[r.below(rays::KINDS.len() - 1)].1(r, &mesh);
    let done = reading::builder::build(&mesh, &mut lists.index, &mut lists.boxes, &mut lists.links);
    let nodes = done.map_or(room, |built| built.nodes);
    lists.boxes.truncate(6 * nodes);
    lists.links.truncate(3 * nodes);
    let materials = meshes::materials(r.bits(), n);
    Hostile {
        mesh,
        materials,
        lists,
        ray,
    }
}

fn spoiled(r: &mut Random) -> Hostile {
    let mut case = built(r);
    if r.one_in(2) {
        // So that the walk comes to what is spoiled.
        for bounds in case.lists.boxes.chunks_exact_mut(6) {
            bounds.copy_from_slice(&WIDE);
        }
    }
    for _ in 0..r.whole(1, 3) {
        spoil(r, &mut case);
    }
    case
}

fn some_word(r: &mut Random, about: usize) -> u32 {
    match r.below(4) {
        0 => r.pick(&[0, 1, 2, u32::MAX, u32::MAX - 1, 1 << 31]),
        1 => r.bits() as u32,
        _ => r.below(about + 3) as u32,
    }
}

fn some_bound(r: &mut Random) -> f64 {
    match r.below(4) {
        0 => r.pick(&[f64::NAN, f64::INFINITY, f64::NEG_INFINITY, -0.0]),
        1 => r.near(2.0_f64.powi(40)) * r.sign(),
        2 => r.wild(),
        _ => r.between(-10.0, 10.0),
    }
}

fn spoil(r: &mut Random, case: &mut Hostile) {
    let Hostile {
        mesh, lists, ray, ..
    } = case;
    let nodes = lists.links.len() / 3;
    let about = nodes.max(lists.index.len());
    match r.below(12) {
        0..=3 => lists.links[3 * r.below(nodes) + r.below(2)] = some_word(r, about),
        4 => lists.links[3 * r.below(nodes) + 2] = r.pick(&[0, 1, 1, 0, 2, u32::MAX]),
        5 | 6 => lists.boxes[r.below(6 * nodes)] = some_bound(r),
        7 => {
            let k = 6 * r.below(nodes);
            let mut bounds = reading::boxes::EMPTY;
            if r.one_in(2) {
                bounds[r.below(6)] = some_bound(r);
            }
            lists.boxes[k..k + 6].copy_from_slice(&bounds);
        }
        8 if !lists.index.is_empty() => {
            let k = r.below(lists.index.len());
            lists.index[k] = some_word(r, mesh.len() / 12);
        }
        9 if !mesh.is_empty() => {
            let k = r.below(mesh.len());
            mesh[k] = r.wild();
        }
        10 => ray[r.below(6)] = r.wild(),
        _ => {
            let length = r.below(lists.index.len() + 3);
            lists.index.resize(length, 0);
        }
    }
}

/// A few nodes that point anywhere: most loop.
fn at_random(r: &mut Random) -> Hostile {
    let mut case = built(r);
    let nodes = r.whole(1, 90);
    let (links, boxes) = (&mut case.lists.links, &mut case.lists.boxes);
    links.clear();
    boxes.clear();
    let leafy = r.whole(2, 5);
    for _ in 0..nodes {
        if r.one_in(leafy) {
            let first = r.below(case.lists.index.len() + 1);
            let count = r.below(case.lists.index.len() - first + 1).min(3);
            links.extend([first as u32, count as u32, 1]);
        } else {
            links.extend([r.below(nodes) as u32, 0, 0]);
        }
        boxes.extend(if r.one_in(12) {
            reading::boxes::EMPTY
        } else {
            WIDE
        });
    }
    if r.one_in(3) {
        spoil(r, &mut case);
    }
    case
}

/// Left-deep, so that each step adds one pending, around 64 of them; or a node
/// that opens itself among enough nodes to come so far.
fn many_pending(r: &mut Random) -> Hostile {
    let mut case = built(r);
    let opened = r.whole(60, 68) as u32;
    let links = &mut case.lists.links;
    links.clear();
    if r.one_in(4) {
        let loops = r.below(40) as u32;
        for k in 0..opened {
            links.extend([if k == loops { k } else { k + 1 }, 0, 0]);
        }
    } else {
        // Node 0, then pairs: the left one of each opens the next.
        links.extend([1, 0, 0]);
        for k in 1..opened {
            links.extend([2 * k + 1, 0, 0, 0, 0, 1]);
        }
        links.extend([0, 0, 1, 0, 0, 1]);
        if r.one_in(4) {
            // One of them a leaf after all: the walk stays within 64.
            let k = 3 * r.below(opened as usize);
            links[k..k + 3].copy_from_slice(&[0, 0, 1]);
        }
    }
    case.lists.boxes = WIDE.repeat(case.lists.links.len() / 3);
    case
}

/// Leaves whose range ends at, or just past, the list; or past u32.
fn at_the_end(r: &mut Random) -> Hostile {
    let mut case = built(r);
    let length = case.lists.index.len();
    let first = match r.below(4) {
        0 => u32::MAX - r.below(3) as u32,
        1 => length as u32 + r.below(2) as u32,
        _ => r.below(length + 1) as u32,
    };
    let count = match r.below(4) {
        0 => u32::MAX - r.below(3) as u32,
        1 => 0,
        _ => (length as u32 + r.below(2) as u32).saturating_sub(first),
    };
    case.lists.links = vec![first, count, 1];
    case.lists.boxes = WIDE.to_vec();
    case
}

/// Materials that are too few, none, or too many.
fn other_materials(r: &mut Random, materials: &mut Vec<u32>) {
    match r.below(3) {
        0 if !materials.is_empty() => materials.truncate(r.below(materials.len())),
        1 if !materials.is_empty() => materials.clear(),
        _ => materials.extend(meshes::materials(r.bits(), r.whole(1, 3))),
    }
}

/// Slices of lengths that no tree has.
fn lengths(r: &mut Random) -> Hostile {
    let mut case = built(r);
    if r.one_in(2) {
        other_materials(r, &mut case.materials);
    }
    let lists = &mut case.lists;
    match r.below(6) {
        0 => lists.links.clear(),
        1 => lists.links.truncate(lists.links.len() - r.whole(1, 2)),
        2 => lists.boxes.extend(&WIDE[..r.whole(1, 6)]),
        3 => lists.boxes.truncate(lists.boxes.len() - r.whole(1, 6)),
        4 => {} // the materials alone
        _ => case.mesh.extend(&WIDE[..r.whole(1, 6)]),
    }
    if r.one_in(3) {
        case.lists.links.clear();
        case.lists.boxes.clear();
    }
    if r.one_in(3) {
        case.ray[r.below(6)] = r.wild();
    }
    case
}

/// The few that need much memory: at and just over 65,536 triangles, materials
/// and 131,071 nodes. Every node of the full tree is met, so the last box test is the last
/// that is allowed.
pub fn large(r: &mut Random) -> Vec<Hostile> {
    let one = meshes::soup(r, 1);
    let sizes = [
        (65_536, 65_536, 131_071),
        (65_537, 65_537, 3),
        (65_537, 65_536, 3),
        (65_536, 65_536, 131_072),
        (65_536, 65_536, 131_073),
        (65_536, 65_537, 131_073),
    ];
    let make = |(triangles, materials, nodes): (usize, usize, usize)| {
        let opened = nodes as u32 / 2;
        let mut links: Vec<u32> = (0..opened).flat_map(|k| [2 * k + 1, 0, 0]).collect();
        links.extend((0..=opened).flat_map(|k| [k.min(65_535), 1, 1]));
        // An even number of nodes has no full tree: the last leaf is left out.
        links.truncate(3 * nodes);
        Hostile {
            mesh: one.repeat(triangles),
            materials: meshes::materials(5, materials),
            lists: Lists {
                index: (0..65_536).collect(),
                boxes: WIDE.repeat(nodes),
                links,
            },
            ray: [0.0, 0.0, 0.0, 0.0, 0.0, 1.0],
        }
    };
    sizes.map(make).into()
}
