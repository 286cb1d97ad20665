//! Trees from elsewhere: valid ones of every shape, with one fault or several of
//! each kind, and garbage. The reading judges.

use crate::calls::{Calls, READING};
use crate::hostile;
use crate::random::Random;
use crate::Lists;
use reading::boxes::{grow, union, Bounds, EMPTY};

#[derive(Clone, Debug)]
pub struct Case {
    pub mesh: Vec<f64>,
    pub lists: Lists,
    pub work: Vec<u32>,
}

/// What a call answers, tells, and leaves in the work room.
type Said = (u32, [u64; 2], Vec<u32>);

pub fn say(calls: &Calls, case: &Case) -> Said {
    let (mut work, mut told) = (case.work.clone(), [u64::MAX; 2]);
    let Lists {
        index,
        boxes,
        links,
    } = &case.lists;
    let number = (calls.accept)(&case.mesh, index, boxes, links, &mut work, &mut told);
    (number, told, work)
}

/// Answers the number and, with 19, the condition.
pub fn check(calls: &Calls, case: &Case) -> Result<(u32, u64), String> {
    let (got, wanted) = (say(calls, case), say(&READING, case));
    if got != wanted {
        return Err(format!(
            "accept answers {} {:?}, the reading {} {:?}, the work room is {}",
            got.0,
            got.1,
            wanted.0,
            wanted.1,
            if got.2 == wanted.2 {
                "the same"
            } else {
                "another"
            }
        ));
    }
    Ok((got.0, if got.0 == 19 { got.1[0] } else { 0 }))
}

/// Small whole coordinates, so that boxes touch.
fn mesh(r: &mut Random, n: usize) -> Vec<f64> {
    let mut numbers = Vec::with_capacity(12 * n);
    for _ in 0..n {
        numbers.extend((0..9).map(|_| r.below(9) as f64 - 4.0));
        numbers.extend((0..3).map(|_| r.below(5) as f64 - 2.0));
    }
    numbers
}

/// How a valid tree is shaped.
#[derive(Clone, Copy)]
pub struct Shape {
    /// A leaf has at most so many.
    pub most: usize,
    /// One leaf beside the rest at each level, up to so many levels; then halves.
    pub chain: usize,
    /// Node numbers and leaf ranges in any order.
    pub shuffled: bool,
}

struct Maker<'a> {
    r: &'a mut Random,
    mesh: &'a [f64],
    shape: Shape,
    pairs: Vec<u32>,
    lists: Lists,
}

impl Maker<'_> {
    fn node(&mut self, node: usize, leaves: &[(usize, usize)], level: usize) -> Bounds {
        let mut bounds = EMPTY;
        let links = if let [(first, count)] = *leaves {
            for p in first..first + count {
                let at = 12 * self.lists.index[p] as usize;
                for v in self.mesh[at..at + 9].chunks_exact(3) {
                    bounds = grow(bounds, [v[0], v[1], v[2]]);
                }
            }
            [first as u32, count as u32, 1]
        } else {
            let left = self.pairs.pop().expect("a pair for each internal node");
            let k = match leaves.len() {
                n if level < self.shape.chain => self.r.pick(&[1, n - 1]),
                n if self.shape.chain > 0 => n / 2,
                n => self.r.whole(1, n - 1),
            };
            let a = self.node(left as usize, &leaves[..k], level + 1);
            let b = self.node(left as usize + 1, &leaves[k..], level + 1);
            bounds = union(a, b);
            [left, 0, 0]
        };
        if self.r.one_in(4) {
            for a in 0..3 {
                bounds[a] -= self.r.below(2) as f64;
                bounds[a + 3] += self.r.below(2) as f64;
            }
        }
        self.lists.links[3 * node..3 * node + 3].copy_from_slice(&links);
        self.lists.boxes[6 * node..6 * node + 6].copy_from_slice(&bounds);
        bounds
    }
}

pub fn valid(r: &mut Random, n: usize, shape: Shape) -> Case {
    let mesh = mesh(r, n);
    let mut index: Vec<u32> = (0..n as u32).collect();
    r.shuffle(&mut index);
    let (mut leaves, mut at) = (Vec::new(), 0);
    while at < n {
        let count = r.whole(1, shape.most).min(n - at);
        leaves.push((at, count));
        at += count;
    }
    if n == 0 {
        leaves.push((0, 0));
    }
    let mut pairs: Vec<u32> = (1..leaves.len() as u32).map(|k| 2 * k - 1).rev().collect();
    if shape.shuffled {
        r.shuffle(&mut leaves);
        r.shuffle(&mut pairs);
    }
    let nodes = 2 * leaves.len() - 1;
    let lists = Lists {
        index,
        boxes: vec![0.0; 6 * nodes],
        links: vec![0; 3 * nodes],
    };
    let mut maker = Maker {
        r,
        mesh: &mesh,
        shape,
        pairs,
        lists,
    };
    maker.node(0, &leaves, 0);
    let mut lists = maker.lists;
    if n == 0 {
        lists.boxes.copy_from_slice(&EMPTY);
    }
    let work = vec![0; nodes + n];
    Case { mesh, lists, work }
}

fn odd_number(r: &mut Random) -> f64 {
    let odd = [0.0, -0.0, 3.0, 2.5, f64::NAN, f64::INFINITY, 5e-324];
    let limit = 1_099_511_627_776.0;
    match r.below(3) {
        0 => r.pick(&odd) * r.sign(),
        1 => r.near(limit) * r.sign(),
        _ => r.wild(),
    }
}

/// One fault, of a kind taken at random.
fn spoil(r: &mut Random, case: &mut Case) {
    let Case { mesh, lists, .. } = case;
    let Lists {
        index,
        boxes,
        links,
    } = lists;
    let (n, nodes, m) = (mesh.len() / 12, links.len() / 3, index.len());
    if nodes == 0 || boxes.len() < 6 * nodes {
        return;
    }
    let (i, j) = (3 * r.below(nodes), 3 * r.below(nodes));
    let leaf = links[i + 2] == 1;
    match r.below(24) {
        0 => links[i + 2] = r.below(3) as u32,
        1 => links[i + 1] = r.pick(&[0, 1, 2, 3, m as u32, u32::MAX]),
        2 => {
            let beyond = [0, 1, nodes - 1, nodes, m].map(|x| x as u32);
            links[i] = if r.one_in(3) {
                u32::MAX
            } else {
                r.pick(&beyond)
            };
        }
        3 => links[i] = r.below(nodes.max(m)) as u32,
        4 => boxes[2 * i + r.below(6)] = odd_number(r),
        5 => boxes[2 * i + r.below(6)] += 0.5 * r.sign(),
        6 => boxes[2 * i..2 * i + 6].copy_from_slice(&EMPTY),
        7 if m > 0 => index[r.below(m)] = r.pick(&[0, n as u32, u32::MAX]),
        8 if m > 0 => index[r.below(m)] = r.below(n + 1) as u32,
        9 => index.truncate(r.below(m + 1)),
        10 => index.extend((0..r.whole(1, 3)).map(|_| r.below(n + 2) as u32)),
        11 if n > 0 => {
            let k = r.below(mesh.len());
            mesh[k] = odd_number(r);
        }
        // Two nodes change their links, with their boxes or without.
        12 | 13 => {
            (0..3).for_each(|k| links.swap(i + k, j + k));
            if r.one_in(2) {
                (0..6).for_each(|k| boxes.swap(2 * i + k, 2 * j + k));
            }
        }
        // Two internal nodes change their children: a loop, or strangers.
        14 if !leaf && links[j + 2] == 0 => links.swap(i, j),
        15 if leaf => links[i] = links[i].wrapping_add(1),
        16 if leaf => links[i] = links[i].wrapping_sub(1),
        17 if leaf => links[i + 1] = links[i + 1].wrapping_add(1),
        18 if leaf => links[i + 1] = links[i + 1].wrapping_sub(1),
        // Two more nodes: a loop of their own, other parents, or leaves.
        19 => {
            let k = r.pick(&[nodes, 0, 1, nodes - 1]) as u32;
            let (a, b) = ([k, 0, 0], [0, 1, 1]);
            let pair = if r.one_in(2) { [a, b] } else { [b, a] };
            links.extend(pair.concat());
            let root = boxes[..6].to_vec();
            boxes.extend(root.repeat(2));
        }
        // A far longer list, the leaves spread over it.
        20 => {
            let times = r.whole(2, 8);
            *index = index.repeat(times);
            for leaf in links.chunks_exact_mut(3).filter(|l| l[2] == 1) {
                leaf[0] = leaf[0].wrapping_mul(times as u32);
                leaf[1] = leaf[1].wrapping_mul(times as u32);
            }
        }
        21 => boxes.truncate(6 * nodes - 1),
        22 => links.truncate(3 * nodes - 1),
        23 => mesh.push(0.0),
        // A fault that there is no place for.
        _ => {}
    }
}

/// Links that point anywhere, over few nodes.
fn garbage(r: &mut Random) -> Case {
    let (n, nodes, m) = (r.below(4), r.whole(1, 7), r.below(6));
    let mut links = Vec::new();
    for _ in 0..nodes {
        if r.one_in(2) {
            links.extend([r.below(nodes) as u32, 0, 0]);
        } else {
            links.extend([r.below(m + 1) as u32, r.below(4) as u32, 1]);
        }
    }
    let lists = Lists {
        index: (0..m).map(|_| r.below(n + 1) as u32).collect(),
        boxes: [-5.0, -5.0, -5.0, 5.0, 5.0, 5.0].repeat(nodes),
        links,
    };
    let mesh = mesh(r, n);
    let work = Vec::new();
    Case { mesh, lists, work }
}

pub fn case(r: &mut Random) -> Case {
    let shuffled = r.one_in(2);
    let mut case = match r.below(12) {
        0 => garbage(r),
        1 => {
            // About 63 levels.
            let n = r.whole(60, 72);
            let (most, chain) = (1, r.whole(58, 70));
            valid(
                r,
                n,
                Shape {
                    most,
                    chain,
                    shuffled,
                },
            )
        }
        2 => {
            let built = hostile::built(r);
            let (mesh, lists, work) = (built.mesh, built.lists, Vec::new());
            Case { mesh, lists, work }
        }
        k => {
            let n = if k == 3 { 0 } else { r.whole(1, 12) };
            let (most, chain) = (r.whole(1, 4), if r.one_in(4) { 9 } else { 0 });
            valid(
                r,
                n,
                Shape {
                    most,
                    chain,
                    shuffled,
                },
            )
        }
    };
    for _ in 0..r.pick(&[0, 1, 1, 1, 2, 3]) {
        spoil(r, &mut case);
    }
    let room = case.lists.links.len() / 3 + case.mesh.len() / 12;
    let length = match r.below(20) {
        0 => room.saturating_sub(1),
        1 => r.below(room + 1),
        2 => room + r.whole(1, 5),
        _ => room,
    };
    case.work = (0..length).map(|_| r.bits() as u32).collect();
    case
}
