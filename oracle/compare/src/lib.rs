//! What the runs share: seeded meshes, rays and hostile lists, and the checks
//! that hold the calls to the published Rust and to the reading.

pub mod accept_check;
pub mod calls;
pub mod foreign_check;
pub mod functions;
pub mod hostile;
pub mod mesh_check;
pub mod meshes;
pub mod normal_check;
pub mod random;
pub mod rays;
pub mod reading_check;
pub mod rearranged_check;
pub mod replay;
pub mod root_check;
pub mod run;
pub mod show;
pub mod sky_check;
pub mod stl_check;
pub mod ties;
pub mod watts_check;
pub mod world;

use random::Random;

/// The buffers of a tree, as lent.
#[derive(Clone, Debug, Default)]
pub struct Lists {
    pub index: Vec<u32>,
    pub boxes: Vec<f64>,
    pub links: Vec<u32>,
}

/// What a walk is lent besides its rays: a mesh with its materials, and a tree.
#[derive(Clone, Copy, Debug)]
pub struct Lent<'a> {
    pub mesh: &'a [f64],
    pub materials: &'a [u32],
    pub lists: &'a Lists,
}

/// R: the nodes that a build of n triangles asks room for.
pub fn node_room(n: usize) -> usize {
    if n == 0 {
        1
    } else {
        2 * n - 1
    }
}

impl Lists {
    /// Rooms of these lengths, each place with a word or number of its own, so
    /// that places exchanged show too. No tree has the words.
    pub fn rooms(r: &mut Random, index: usize, boxes: usize, links: usize) -> Self {
        // What is drawn of `r` does not hang on the lengths.
        let (mut words, mut numbers) = (Random::new(r.bits()), Random::new(r.bits()));
        let mut word = || words.bits() as u32 | 1 << 31;
        Self {
            index: (0..index).map(|_| word()).collect(),
            boxes: numbers.numbers(boxes),
            links: (0..links).map(|_| word()).collect(),
        }
    }

    /// The same to the last bit.
    pub fn same(&self, other: &Self) -> bool {
        let bits = |list: &[f64]| list.iter().map(|x| x.to_bits()).collect::<Vec<_>>();
        self.index == other.index
            && self.links == other.links
            && bits(&self.boxes) == bits(&other.boxes)
    }
}
