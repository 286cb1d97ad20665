//! Rules C of docs/RULES.md: the builder, with its refusals and its buffers.

use crate::boxes::{union, Bounds, EMPTY};
use crate::split::best;
use crate::triangles::{admitted, bounds, centroid, triangle};
use crate::{refuse, triangle_count, Refusal, MOST_DEPTH};

/// Node count 2L-1 and leaf count L.
#[derive(Clone, Copy, Debug, PartialEq, Eq)]
pub struct Built {
    pub nodes: usize,
    pub leaves: usize,
}

/// Builds into the lent buffers. Refusals 1 to 5 leave them unchanged; 6 sets
/// every number of them to zero; success writes the first n indices and the
/// first 2L-1 nodes.
pub fn build(
    triangles: &[f64],
    index: &mut [u32],
    boxes: &mut [f64],
    links: &mut [u32],
) -> Result<Built, Refusal> {
    let n = triangle_count(triangles)?;
    if index.len() < n {
        return refuse(3, 0);
    }
    let room = if n == 0 { 1 } else { 2 * n - 1 };
    if boxes.len() < 6 * room || links.len() < 3 * room {
        return refuse(4, room);
    }
    if let Some(bad) = (0..n).find(|i| !admitted(&triangle(triangles, *i))) {
        return refuse(5, bad);
    }
    let Some(tree) = tree(triangles, n) else {
        index.fill(0);
        boxes.fill(0.0);
        links.fill(0);
        return refuse(6, 0);
    };
    index[..n].copy_from_slice(&tree.index);
    for (k, node) in tree.nodes.iter().enumerate() {
        boxes[6 * k..6 * k + 6].copy_from_slice(&node.bounds);
        links[3 * k..3 * k + 3].copy_from_slice(&node.links);
    }
    Ok(Built {
        nodes: tree.nodes.len(),
        leaves: tree.nodes.len().div_ceil(2),
    })
}

#[derive(Clone, Copy)]
struct Node {
    bounds: Bounds,
    /// `left_or_first`, `count`, kind.
    links: [u32; 3],
}

const BLANK: Node = Node {
    bounds: EMPTY,
    links: [0, 0, 1],
};

struct Tree {
    index: Vec<u32>,
    nodes: Vec<Node>,
}

/// The tree of these rules, or none if it has a node deeper than 63.
fn tree(mesh: &[f64], n: usize) -> Option<Tree> {
    let mut tree = Tree {
        index: (0..n as u32).collect(),
        nodes: vec![BLANK],
    };
    divide(mesh, &mut tree, 0, 0, n, 0)?;
    Some(tree)
}

fn divide(
    mesh: &[f64],
    tree: &mut Tree,
    node: usize,
    start: usize,
    count: usize,
    depth: u32,
) -> Option<()> {
    if depth > MOST_DEPTH {
        return None;
    }
    let range = &mut tree.index[start..start + count];
    let own = |i: &u32| bounds(&triangle(mesh, *i as usize));
    let whole = range.iter().map(own).fold(EMPTY, union);
    let Some(split) = best(mesh, range, whole) else {
        tree.nodes[node] = Node {
            bounds: whole,
            links: [start as u32, count as u32, 1],
        };
        return Some(());
    };
    let at = |i: u32| centroid(&triangle(mesh, i as usize), split.axis);
    let mut taken = partition(range, |i| at(i) < split.position);
    if taken == 0 || taken == count {
        range.sort_by(|a, b| at(*a).total_cmp(&at(*b)).then(a.cmp(b)));
        taken = count / 2;
    }
    let left = tree.nodes.len();
    tree.nodes.extend([BLANK, BLANK]);
    tree.nodes[node] = Node {
        bounds: whole,
        links: [left as u32, 0, 0],
    };
    divide(mesh, tree, left, start, taken, depth + 1)?;
    divide(
        mesh,
        tree,
        left + 1,
        start + taken,
        count - taken,
        depth + 1,
    )
}

/// Goes up while `below`, else exchanges with the right end and lowers it.
/// Answers how many the left side has.
fn partition(range: &mut [u32], below: impl Fn(u32) -> bool) -> usize {
    // `end` is one past the right end, so that it can fall to 0.
    let (mut left, mut end) = (0, range.len());
    while left < end {
        if below(range[left]) {
            left += 1;
        } else {
            end -= 1;
            range.swap(left, end);
        }
    }
    left
}
