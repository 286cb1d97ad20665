use std::fmt;

/// A condition that a tree built elsewhere must meet (docs/RULES.md, section Q).
#[derive(Clone, Copy, Debug, PartialEq, Eq, Hash)]
pub enum Condition {
    /// (i): no node is bad; where there are triangles, every box is finite and
    /// every leaf holds at least one. No triangles have one leaf with the empty
    /// box, and an empty index list.
    Nodes,
    /// (ii): every node but 0 is a child of exactly one internal node, and 0 of
    /// none.
    Parents,
    /// (iii): every node is reached from 0, none deeper than 63.
    Reach,
    /// (iv): the leaves' ranges cover the index list without overlap.
    Cover,
    /// (v): the index list is a permutation of all triangle numbers.
    Permutation,
    /// (vi): each inner box contains its children's boxes, and each leaf's box
    /// the vertices of its triangles.
    Boxes,
}

impl Condition {
    const ALL: [Self; 6] = [
        Self::Nodes,
        Self::Parents,
        Self::Reach,
        Self::Cover,
        Self::Permutation,
        Self::Boxes,
    ];

    pub(crate) fn new(number: u64) -> Option<Self> {
        let before = usize::try_from(number).ok()?.checked_sub(1)?;
        Self::ALL.get(before).copied()
    }

    /// Its number, 1 to 6.
    #[must_use]
    pub const fn number(self) -> u32 {
        self as u32 + 1
    }

    /// Writes that it breaks at a place, and how.
    pub(crate) fn broken_at(self, place: u64, f: &mut fmt::Formatter) -> fmt::Result {
        match self {
            Self::Nodes => write!(
                f,
                "condition (i) breaks at node {place}: its kind, box, count, range or children cannot be, its box is not finite, it is a leaf without triangles, or, of no triangles, the lists are not those of one empty leaf"
            ),
            Self::Parents => write!(
                f,
                "condition (ii) breaks at node {place}: it is not the child of exactly one internal node, or, node 0, it is a child"
            ),
            Self::Reach => write!(
                f,
                "condition (iii) breaks at node {place}: it is not reached from node 0, or is deeper than 63"
            ),
            Self::Cover => write!(
                f,
                "condition (iv) breaks at entry {place} of the index list: it is in the range of no leaf, or of more than one"
            ),
            Self::Permutation => write!(
                f,
                "condition (v) breaks at entry {place} of the index list: it names no triangle, or one named before, or is the first that is lacking"
            ),
            Self::Boxes => write!(
                f,
                "condition (vi) breaks at node {place}: its box does not contain its children's boxes, or its triangles' vertices"
            ),
        }
    }
}
