//! Section Q of docs/RULES.md: whether a tree built elsewhere is accepted. Each
//! condition is looked at in its order, and each gives the lowest place where it
//! breaks.

use crate::boxes::{usable, Bounds, EMPTY};
use crate::triangles::{admitted, triangle};
use crate::{refuse, triangle_count, Refusal, MOST_DEPTH, MOST_NODES};

/// What is judged, where no refusal but 19 is due.
struct Lent<'a> {
    triangles: &'a [f64],
    n: usize,
    index: &'a [u32],
    boxes: &'a [f64],
    links: &'a [u32],
    nodes: usize,
}

/// The number of a condition, 1 to 6, and the lowest place where it breaks.
#[derive(Clone, Copy, Debug, PartialEq, Eq)]
pub struct Broken {
    pub condition: u32,
    pub place: usize,
}

pub fn accept(
    triangles: &[f64],
    index: &[u32],
    boxes: &[f64],
    links: &[u32],
    work: &mut [u32],
) -> Result<Option<Broken>, Refusal> {
    let n = triangle_count(triangles)?;
    let nodes = links.len() / 3;
    let whole = !links.is_empty() && links.len() % 3 == 0;
    if !whole || nodes > MOST_NODES || boxes.len() != 2 * links.len() {
        return refuse(8, 0);
    }
    if work.len() < nodes + n {
        return refuse(16, 0);
    }
    if let Some(k) = (0..n).find(|k| !admitted(&triangle(triangles, *k))) {
        return refuse(5, k);
    }
    let lent = Lent {
        triangles,
        n,
        index,
        boxes,
        links,
        nodes,
    };
    work.fill(0);
    Ok(lent.broken())
}

impl Lent<'_> {
    fn broken(&self) -> Option<Broken> {
        let conditions: [fn(&Self) -> Option<usize>; 6] = [
            Self::bad_node,
            Self::without_one_parent,
            Self::out_of_reach,
            Self::not_covered_once,
            Self::misplaced,
            Self::not_containing,
        ];
        (1..)
            .zip(conditions)
            .find_map(|(condition, breaks)| breaks(self).map(|place| Broken { condition, place }))
    }

    fn bounds(&self, i: usize) -> Bounds {
        std::array::from_fn(|k| self.boxes[6 * i + k])
    }

    fn leaf(&self, i: usize) -> bool {
        self.links[3 * i + 2] == 1
    }

    fn range(&self, i: usize) -> std::ops::Range<usize> {
        let first = self.links[3 * i] as usize;
        first..first + self.links[3 * i + 1] as usize
    }

    /// The left child of an internal node; the right one is the next.
    fn left(&self, i: usize) -> usize {
        self.links[3 * i] as usize
    }

    /// (i)
    fn bad_node(&self) -> Option<usize> {
        if self.n == 0 {
            let single = self.links == [0, 0, 1] && self.index.is_empty();
            return (!single || self.bounds(0) != EMPTY).then_some(0);
        }
        (0..self.nodes).find(|&i| {
            let (count, kind) = (self.links[3 * i + 1], self.links[3 * i + 2]);
            let bounds = self.bounds(i);
            let fits = match kind {
                1 => count > 0 && self.range(i).end <= self.index.len(),
                0 => count == 0 && self.left(i) + 1 < self.nodes,
                _ => false,
            };
            !fits || !usable(bounds) || bounds == EMPTY
        })
    }

    /// (ii)
    fn without_one_parent(&self) -> Option<usize> {
        let mut parents = vec![0_u32; self.nodes];
        for i in (0..self.nodes).filter(|&i| !self.leaf(i)) {
            parents[self.left(i)] += 1;
            parents[self.left(i) + 1] += 1;
        }
        (0..self.nodes).find(|&j| parents[j] != u32::from(j != 0))
    }

    /// (iii): after (ii) nothing is reached twice, so the way down ends.
    fn out_of_reach(&self) -> Option<usize> {
        let mut depth = vec![u32::MAX; self.nodes];
        let mut pending = vec![(0, 0)];
        while let Some((i, d)) = pending.pop() {
            depth[i] = d;
            if !self.leaf(i) {
                pending.extend([(self.left(i) + 1, d + 1), (self.left(i), d + 1)]);
            }
        }
        (0..self.nodes).find(|&j| depth[j] > MOST_DEPTH)
    }

    /// (iv): how many ranges have begun and not ended, place by place.
    fn not_covered_once(&self) -> Option<usize> {
        let mut change = vec![0_i64; self.index.len() + 1];
        for i in (0..self.nodes).filter(|&i| self.leaf(i)) {
            change[self.range(i).start] += 1;
            change[self.range(i).end] -= 1;
        }
        let mut covering = 0;
        (0..self.index.len()).find(|&p| {
            covering += change[p];
            covering != 1
        })
    }

    /// (v)
    fn misplaced(&self) -> Option<usize> {
        let mut seen = vec![false; self.n];
        let wrong = self
            .index
            .iter()
            .position(|&k| match seen.get_mut(k as usize) {
                None => true,
                Some(seen) => std::mem::replace(seen, true),
            });
        wrong.or_else(|| (self.index.len() < self.n).then_some(self.index.len()))
    }

    /// (vi)
    fn not_containing(&self) -> Option<usize> {
        let holds = |b: &Bounds, low: &[f64], high: &[f64]| {
            (0..3).all(|a| b[a] <= low[a] && high[a] <= b[a + 3])
        };
        (0..self.nodes).find(|&i| {
            let b = self.bounds(i);
            if !self.leaf(i) {
                let child = |j| self.bounds(j);
                let inside = |c: Bounds| holds(&b, &c[..3], &c[3..]);
                return !inside(child(self.left(i))) || !inside(child(self.left(i) + 1));
            }
            self.range(i).any(|p| {
                let at = 12 * self.index[p] as usize;
                let vertices = self.triangles[at..at + 9].chunks_exact(3);
                !vertices.into_iter().all(|v| holds(&b, v, v))
            })
        })
    }
}
