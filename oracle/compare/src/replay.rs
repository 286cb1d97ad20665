//! The fixed list of answers that the program `replay` compares itself with;
//! README.md describes the file. Each case is held to the published Rust (where
//! it answers at all) as it is written; a difference stops the command.

use crate::calls::READING;
use crate::hostile::{self, Hostile};
use crate::mesh_check::{self, Case, Tally};
use crate::random::Random;
use crate::rays::{self, Ray};
use crate::sky_check::{self, Sky};
use crate::{foreign_check, functions, meshes, node_room, world, Lent, Lists};
use reading::{Told, WALK_TOLD};
use std::collections::BTreeMap;

pub const SEED: u64 = 8_128;
pub const MAGIC: &[u8; 8] = b"PIGEON02";
/// No case is longer than these, so that the reader's arrays can be fixed.
const MOST: [usize; 4] = [1_024, 128, 1_024, 512];
/// Nor the materials.
const MOST_MATERIALS: usize = 128;
/// Nor the rays and the answer room of a sky.
const MOST_SKY: [usize; 3] = [128, 64, 128];

/// What place k of a lent room holds before a call: a word or a number of its
/// own, so that places exchanged show too.
fn word(k: usize) -> u32 {
    0xa5a5_a5a5 + k as u32
}

fn number(k: usize) -> f64 {
    -7.5 - k as f64
}

pub fn words(n: usize) -> Vec<u32> {
    (0..n).map(word).collect()
}

pub fn numbers(n: usize) -> Vec<f64> {
    (0..n).map(number).collect()
}

pub fn record<const K: usize>() -> [f64; K] {
    std::array::from_fn(number)
}

/// By call and answer.
pub type Answers = BTreeMap<(&'static str, u32), u32>;

#[derive(Default)]
struct File {
    bytes: Vec<u8>,
    cases: u32,
    answers: Answers,
}

impl File {
    fn word(&mut self, x: u32) {
        self.bytes.extend(x.to_le_bytes());
    }

    fn words(&mut self, list: &[u32]) {
        list.iter().for_each(|x| self.word(*x));
    }

    /// Every NaN is written as one.
    fn numbers(&mut self, list: &[f64]) {
        for x in list {
            let x = if x.is_nan() { f64::NAN.abs() } else { *x };
            self.bytes.extend(x.to_bits().to_le_bytes());
        }
    }

    fn told(&mut self, list: &[u64]) {
        list.iter().for_each(|x| self.bytes.extend(x.to_le_bytes()));
    }

    fn start(&mut self, kind: u8) {
        self.cases += 1;
        self.bytes.push(kind);
    }

    fn answer(&mut self, call: &'static str, number: u32) {
        self.word(number);
        *self.answers.entry((call, number)).or_default() += 1;
    }

    fn lengths<const K: usize>(
        &mut self,
        lengths: [usize; K],
        most: [usize; K],
    ) -> Result<(), String> {
        for (length, most) in lengths.into_iter().zip(most) {
            if length > most {
                return Err(format!("a case has a list of {length}, over {most}"));
            }
            self.word(length as u32);
        }
        Ok(())
    }

    /// The lengths of the mesh and of a tree's lists, and the mesh.
    fn mesh(&mut self, mesh: &[f64], lists: &Lists) -> Result<(), String> {
        let [index, links] = [lists.index.len(), lists.links.len()];
        self.lengths([mesh.len(), index, lists.boxes.len(), links], MOST)?;
        self.numbers(mesh);
        Ok(())
    }

    /// A mesh with its materials, and a tree.
    fn lent(&mut self, lent: Lent) -> Result<(), String> {
        self.mesh(lent.mesh, lent.lists)?;
        self.lengths([lent.materials.len()], [MOST_MATERIALS])?;
        self.words(lent.materials);
        self.lists(lent.lists);
        Ok(())
    }

    fn lists(&mut self, lists: &Lists) {
        self.words(&lists.index);
        self.numbers(&lists.boxes);
        self.words(&lists.links);
    }

    fn build(&mut self, mesh: &[f64], [index, boxes, links]: [usize; 3]) -> Result<(), String> {
        let mut lists = Lists {
            index: words(index),
            boxes: numbers(boxes),
            links: words(links),
        };
        self.start(1);
        self.mesh(mesh, &lists)?;
        let mut told = [0; 2];
        let number = (READING.build)(
            mesh,
            &mut lists.index,
            &mut lists.boxes,
            &mut lists.links,
            &mut told,
        );
        self.answer("build", number);
        self.told(&told);
        self.lists(&lists);
        Ok(())
    }

    fn walk(&mut self, lent: Lent, rays: &[Ray]) -> Result<(), String> {
        self.start(2);
        self.lent(lent)?;
        self.word(rays.len() as u32);
        for ray in rays {
            let (mut numbers, mut told): (_, Told) = (record(), [0; WALK_TOLD]);
            let number = READING.walk_lent(lent, ray, &mut numbers, &mut told);
            self.numbers(ray);
            self.answer("walk", number);
            self.numbers(&numbers);
            self.told(&told);
        }
        Ok(())
    }

    fn sky(&mut self, sky: &Sky) -> Result<(), String> {
        let lent = sky.case.lent();
        self.start(5);
        self.lent(lent)?;
        let lengths = [sky.rays.len(), sky.times.len(), sky.told.len()];
        self.lengths(lengths, MOST_SKY)?;
        self.numbers(&sky.rays);
        self.numbers(&sky.times);
        self.told(&sky.told);
        let (mut times, mut told, mut at) = (sky.times.clone(), sky.told.clone(), [u64::MAX]);
        let number = READING.sky_lent(lent, &sky.rays, &mut times, &mut told, &mut at);
        self.answer("sky", number);
        self.told(&at);
        self.numbers(&times);
        self.told(&told);
        Ok(())
    }
}

/// A mesh: its build with room to spare, with a room that is short, and a walk
/// of eight rays.
fn mesh_cases(file: &mut File, r: &mut Random, mesh: Vec<f64>) -> Result<(), String> {
    let kinds = rays::KINDS;
    let rays: Vec<Ray> = (0..8)
        .map(|_| kinds[r.below(kinds.len())].1(r, &mesh))
        .collect();
    let case = Case {
        mesh,
        rays,
        seed: r.bits() >> 8,
    };
    mesh_check::check(&READING, &case, &mut Tally::default())?;
    let mesh = &case.mesh;
    let n = mesh.len() / 12;
    let room = node_room(n);
    file.build(
        mesh,
        [n + r.below(3), 6 * room + r.below(8), 3 * room + r.below(5)],
    )?;
    if n < 10 && r.one_in(2) {
        let mut around = |exact: usize| (exact + r.below(3)).saturating_sub(1);
        file.build(mesh, [around(n), around(6 * room), around(3 * room)])?;
    }
    let mut lists = Lists::rooms(r, n, 6 * room, 3 * room);
    let built = reading::builder::build(mesh, &mut lists.index, &mut lists.boxes, &mut lists.links);
    if let Ok(built) = built {
        lists.boxes.truncate(6 * built.nodes);
        lists.links.truncate(3 * built.nodes);
        let lent = Lent {
            mesh,
            materials: &case.materials(),
            lists: &lists,
        };
        file.walk(lent, &case.rays)?;
    }
    Ok(())
}

/// Counts what was kept of each answer, so that rare ones are there as well.
struct Kept(BTreeMap<u32, u32>, u32);

impl Kept {
    fn wants(&mut self, number: u32) -> bool {
        let kept = self.0.entry(number).or_default();
        *kept += 1;
        *kept <= self.1
    }
}

/// The same party wall twice, in two leaves and in one, and in both orders: a
/// ray along x meets both at one t. And the smallest mesh whose own tree does so.
fn wall_cases(file: &mut File) -> Result<(), String> {
    let low = [8., 0., 0., 8., 4., 0., 8., 0., 4., -1., 0., 0.];
    let high = [8., 4., 4., 8., 0., 4., 8., 4., 0., -1., 0., 0.];
    let mesh = [low, high, low, high].concat();
    let ray = |y: f64, z: f64| [0., y, z, 1., 0., 0.];
    let rays = [ray(1., 1.), ray(3., 3.), ray(2., 2.), ray(0., 4.)];
    let side = [8., 0., 0., 8., 4., 4.];
    for index in [[0, 1, 2, 3], [2, 3, 0, 1], [3, 0, 2, 1], [2, 1, 0, 3]] {
        for links in [vec![0, 4, 1], vec![1, 0, 0, 0, 2, 1, 2, 2, 1]] {
            let lists = Lists {
                index: index.to_vec(),
                boxes: side.repeat(links.len() / 3),
                links,
            };
            let mut case = Hostile {
                mesh: mesh.clone(),
                materials: vec![90, 91, 92, 93],
                lists,
                ray: rays[0],
            };
            for ray in rays {
                case.ray = ray;
                foreign_check::check(&case)?;
            }
            file.walk(case.lent(), &rays)?;
        }
    }
    let (mesh, ray) = meshes::wall_twice();
    let lent = Lent {
        mesh: &mesh,
        materials: &meshes::materials(3, mesh.len() / 12),
        lists: &world::build(&world::triangles(&mesh)).lists(),
    };
    file.walk(lent, &[ray])
}

fn hostile_cases(file: &mut File, r: &mut Random) -> Result<(), String> {
    for (_, make) in hostile::KINDS {
        let mut kept = Kept(BTreeMap::new(), 3);
        for _ in 0..2_000 {
            let case = make(r);
            let (lent, mut told) = (case.lent(), [0; WALK_TOLD]);
            let number = READING.walk_lent(lent, &case.ray, &mut record(), &mut told);
            if kept.wants(number) {
                file.walk(lent, &[case.ray])?;
            }
        }
    }
    Ok(())
}

fn slab_cases(file: &mut File, r: &mut Random) -> Result<(), String> {
    let mut kept = Kept(BTreeMap::new(), 150);
    for _ in 0..4_000 {
        let (bounds, ray) = functions::slab_case(r);
        functions::slab(&READING, &bounds, &ray)?;
        let mut times = record();
        let number = (READING.slab)(&bounds, &ray, &mut times);
        if kept.wants(number) {
            file.start(3);
            file.numbers(&bounds);
            file.numbers(&ray);
            file.answer("slab", number);
            file.numbers(&times);
        }
    }
    Ok(())
}

fn triangle_cases(file: &mut File, r: &mut Random) -> Result<(), String> {
    let mut kept = Kept(BTreeMap::new(), 100);
    for _ in 0..4_000 {
        let (t, ray) = functions::triangle_case(r);
        functions::triangle(&READING, &t, &ray)?;
        let mut numbers = record();
        let number = (READING.triangle)(&t, &ray, &mut numbers);
        if kept.wants(number) {
            file.start(4);
            file.numbers(&t);
            file.numbers(&ray);
            file.answer("triangle", number);
            file.numbers(&numbers);
        }
    }
    Ok(())
}

/// Skies in which the whole call is refused, or some place has an answer that is
/// rare so far. Each ray is held to the published Rust as a single walk.
fn sky_cases(file: &mut File, r: &mut Random) -> Result<(), String> {
    let mut kept = Kept(BTreeMap::new(), 2);
    for _ in 0..2_000 {
        let sky = sky_check::sky(r);
        let (number, outcomes) = sky_check::check(&READING, &sky)?;
        let wanted = match (number, &outcomes[..]) {
            (0, []) => kept.wants(u32::MAX),
            (0, all) => all
                .iter()
                .fold(false, |any, x| kept.wants(*x as u32) || any),
            _ => kept.wants(number),
        };
        if !wanted {
            continue;
        }
        for (ray, outcome) in sky.rays.chunks_exact(6).zip(outcomes) {
            // At the 65th pending (11) the Rust panics.
            if outcome != 11 {
                foreign_check::check(&Hostile {
                    ray: ray.try_into().unwrap(),
                    ..sky.case.clone()
                })?;
            }
        }
        file.sky(&sky)?;
    }
    Ok(())
}

/// The whole file, and how often each call gives each answer in it.
pub fn write() -> Result<(Vec<u8>, Answers), String> {
    let mut file = File::default();
    let mut r = Random::new(SEED);
    for (name, make) in meshes::KINDS {
        // The walls stand last: what was stored before them stays as it was.
        if ["chain, deep", "party walls"].contains(&name) {
            continue;
        }
        for size in [0, 1, 4, 5, 6, 7, 9, 12, 20] {
            let mesh = make(&mut r, size);
            mesh_cases(&mut file, &mut r, mesh)?;
        }
    }
    for n in [66, 67, 68, 72] {
        let mesh = meshes::chain(&mut r, n);
        mesh_cases(&mut file, &mut r, mesh)?;
    }
    for length in [1, 11, 13] {
        file.build(&vec![0.5; length], [2, 12, 6])?;
    }
    hostile_cases(&mut file, &mut r)?;
    slab_cases(&mut file, &mut r)?;
    triangle_cases(&mut file, &mut r)?;
    wall_cases(&mut file)?;
    for size in [5, 6, 12, 20] {
        let mesh = meshes::party_walls(&mut r, size);
        mesh_cases(&mut file, &mut r, mesh)?;
    }
    sky_cases(&mut file, &mut r)?;
    let mut bytes = MAGIC.to_vec();
    bytes.extend(file.cases.to_le_bytes());
    bytes.extend(&file.bytes);
    if bytes.len() > 1_000_000 {
        return Err(format!("{} bytes are over 1 MB", bytes.len()));
    }
    Ok((bytes, file.answers))
}
