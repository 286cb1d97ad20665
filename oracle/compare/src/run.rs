//! A whole seeded run over all checks, with what it compared and what differed.

use crate::calls::Calls;
use crate::mesh_check::{self, Case, Tally};
use crate::random::Random;
use crate::{
    accept_check, foreign_check, functions, hostile, meshes, node_room, normal_check, rays,
    reading_check, rearranged_check, root_check, show, sky_check, stl_check, watts_check, Lists,
};
use std::collections::BTreeMap;

#[derive(Clone, Copy)]
pub struct Plan {
    pub seed: u64,
    pub meshes: usize,
    pub rays_per_mesh: usize,
    pub large_meshes: usize,
    pub hostile: usize,
    pub skies: usize,
    pub watts: usize,
    pub shares: usize,
    pub functions: usize,
    pub roots: usize,
    pub accepts: usize,
    /// Files read, and as many meshes written.
    pub files: usize,
    /// Built trees whose leaves are put together another way.
    pub rearranged: usize,
}

pub const QUICK: Plan = Plan {
    seed: 20_260,
    meshes: 12_000,
    rays_per_mesh: 12,
    large_meshes: 3,
    hostile: 100_000,
    skies: 30_000,
    watts: 10_000,
    shares: 100_000,
    functions: 1_000_000,
    roots: 1_000_000,
    accepts: 300_000,
    files: 5_000,
    rearranged: 1_000,
};

pub const LONG: Plan = Plan {
    seed: 1_000_003,
    meshes: 120_000,
    rays_per_mesh: 12,
    large_meshes: 30,
    hostile: 1_500_000,
    skies: 400_000,
    watts: 200_000,
    shares: 1_000_000,
    functions: 20_000_000,
    roots: 100_000_000,
    accepts: 6_000_000,
    files: 100_000,
    rearranged: 10_000,
};

/// Prints as it goes. Answers how many differed.
pub fn all(calls: &Calls, plan: &Plan) -> u64 {
    let parts = [
        every_mesh(calls, plan),
        large_meshes(calls, plan),
        every_hostile(calls, plan),
        every_sky(calls, plan),
        every_watts(calls, plan),
        every_share(calls, plan),
        every_function(calls, plan),
        every_root(calls, plan),
        every_normal(calls, plan),
        every_accept(calls, plan),
        every_file(calls, plan),
        every_rearranged(calls, plan),
    ];
    parts.iter().sum()
}

/// Differences of one part: counted, and the smallest kept to be shown.
#[derive(Default)]
struct Found {
    count: u64,
    smallest: Option<(usize, String)>,
}

impl Found {
    fn add(&mut self, size: usize, text: impl FnOnce() -> String) {
        self.count += 1;
        if self
            .smallest
            .as_ref()
            .is_none_or(|(least, _)| size < *least)
        {
            self.smallest = Some((size, text()));
        }
    }

    fn end(self) -> u64 {
        if let Some((_, text)) = self.smallest {
            println!("  DIFFERENCES: {}; the smallest:\n{text}", self.count);
        }
        self.count
    }
}

/// Mostly few triangles: boundaries lie there.
fn size(r: &mut Random) -> usize {
    match r.below(40) {
        0 => r.whole(200, 1_200),
        1..=5 => r.whole(40, 200),
        6..=20 => r.whole(10, 40),
        _ => r.below(12),
    }
}

fn every_mesh(calls: &Calls, plan: &Plan) -> u64 {
    let mut found = Found::default();
    let mut whole = Tally::default();
    println!("meshes, seed {}:", plan.seed);
    for (kind, (name, make)) in meshes::KINDS.iter().enumerate() {
        let mut tally = Tally::default();
        for k in 0..plan.meshes.div_ceil(meshes::KINDS.len()) {
            let seed = plan.seed + ((kind * 10_000_000 + k) as u64) * 2;
            let mut r = Random::new(seed);
            let n = size(&mut r);
            let mesh = make(&mut r, n);
            let mut rays = Vec::new();
            for _ in 0..plan.rays_per_mesh {
                let kind = rays::KINDS[r.below(rays::KINDS.len())];
                rays.push(kind.1(&mut r, &mesh));
            }
            let case = Case { mesh, rays, seed };
            if let Err(why) = mesh_check::check(calls, &case, &mut tally) {
                found.add(case.mesh.len(), || {
                    let least = show::smallest(calls, &case);
                    format!("  {name}: {why}\n  {}", show::mesh(&least))
                });
            }
        }
        line(name, &tally);
        whole = plus(whole, tally);
    }
    line("all", &whole);
    println!(
        "  of those by fallback the Rust's own order gives {} other trees, and {} rays another hit there ({} with another t)",
        whole.other_trees, whole.other_hits, whole.other_times
    );
    println!(
        "  {} of the hits are tied at their t, and for {} of them the Rust keeps a higher number",
        whole.ties, whole.moved
    );
    found.end()
}

fn plus(a: Tally, b: Tally) -> Tally {
    Tally {
        meshes: a.meshes + b.meshes,
        triangles: a.triangles + b.triangles,
        refused: a.refused + b.refused,
        refused_as_deep: a.refused_as_deep + b.refused_as_deep,
        fallback: a.fallback + b.fallback,
        other_trees: a.other_trees + b.other_trees,
        other_hits: a.other_hits + b.other_hits,
        other_times: a.other_times + b.other_times,
        rays: a.rays + b.rays,
        hits: a.hits + b.hits,
        ties: a.ties + b.ties,
        moved: a.moved + b.moved,
        rays_refused: a.rays_refused + b.rays_refused,
    }
}

fn line(name: &str, t: &Tally) {
    println!(
        "  {name}: {} meshes of {} triangles ({} refused 5, {} refused 6, {} by fallback), {} rays ({} hits, {} refused 7)",
        t.meshes, t.triangles, t.refused, t.refused_as_deep, t.fallback, t.rays, t.hits, t.rays_refused
    );
}

/// Thousands of triangles each, up to 65,536, and refusal 2 above it.
fn large_meshes(calls: &Calls, plan: &Plan) -> u64 {
    let mut found = Found::default();
    let mut tally = Tally::default();
    let mut r = Random::new(plan.seed ^ 2);
    for k in 0..plan.large_meshes {
        let n = if k < 3 {
            65_536
        } else {
            r.whole(3_001, 20_000)
        };
        let mesh = match k % 3 {
            0 => meshes::terrain(&mut r, n),
            1 => meshes::soup(&mut r, n),
            _ => meshes::ulps(&mut r, n),
        };
        let rays = (0..200)
            .map(|_| rays::KINDS[r.below(rays::KINDS.len())].1(&mut r, &mesh))
            .collect();
        let seed = plan.seed + k as u64;
        let case = Case { mesh, rays, seed };
        if let Err(why) = mesh_check::check(calls, &case, &mut tally) {
            found.add(case.mesh.len(), || {
                format!("  {} triangles, seed {seed}: {why}", n)
            });
        }
    }
    for n in [65_537, 70_001] {
        let mesh = vec![0.25; 12 * n];
        let rooms = Lists::rooms(&mut r, n, 6 * node_room(n), 3 * node_room(n));
        if let Err(why) = reading_check::build(calls, &mesh, &rooms) {
            found.add(mesh.len(), || format!("  {n} triangles: {why}"));
        }
    }
    line(&format!("large, seed {}", plan.seed ^ 2), &tally);
    found.end()
}

fn every_hostile(calls: &Calls, plan: &Plan) -> u64 {
    let mut found = Found::default();
    println!("hostile lists, seed {}:", plan.seed ^ 3);
    // The Rust's panics on the 65th pending are awaited, and not worth a line.
    let hook = std::panic::take_hook();
    std::panic::set_hook(Box::new(|_| {}));
    for (kind, (name, make)) in hostile::KINDS.iter().enumerate() {
        let mut answers = BTreeMap::new();
        let mut r = Random::new((plan.seed ^ 3) + kind as u64 * 1_000_000_007);
        for k in 0..plan.hostile / hostile::KINDS.len() {
            let case = make(&mut r);
            let walk = if k % 8 == 0 {
                reading_check::walk_writes_nothing
            } else {
                reading_check::walk
            };
            match walk(calls, case.lent(), &case.ray) {
                Ok(number) => *answers.entry(number).or_insert(0_u64) += 1,
                Err(why) => found.add(case.lists.links.len() + case.mesh.len(), || {
                    format!("  {name}: {why}\n  {}", show::hostile(&case))
                }),
            }
            if let Err(why) = foreign_check::check(&case) {
                found.add(case.lists.links.len(), || {
                    format!("  {name}: {why}\n  {}", show::hostile(&case))
                });
            }
            if let Err(why) = odd_build(calls, &mut r, &case) {
                found.add(case.mesh.len(), || {
                    format!("  {name}, built: {why}\n  {}", show::hostile(&case))
                });
            }
        }
        println!("  {name}: answers {answers:?} (0 a miss, 100 a hit, else the refusal)");
    }
    std::panic::set_hook(hook);
    println!("  large, seed {}:", plan.seed ^ 5);
    for case in hostile::large(&mut Random::new(plan.seed ^ 5)) {
        match reading_check::walk_writes_nothing(calls, case.lent(), &case.ray) {
            Ok(number) => println!(
                "    {} nodes, {} triangles, {} materials: {number}",
                case.lists.links.len() / 3,
                case.mesh.len() / 12,
                case.materials.len()
            ),
            Err(why) => found.add(usize::MAX, || format!("  large: {why}")),
        }
    }
    found.end()
}

/// A build of whatever triangles a hostile case has, into rooms of any length.
fn odd_build(calls: &Calls, r: &mut Random, case: &hostile::Hostile) -> Result<(), String> {
    let n = case.mesh.len() / 12;
    let room = node_room(n);
    let mut about = |exact: usize| (exact + r.below(4)).saturating_sub(r.below(3));
    let lengths = [about(n), about(6 * room), about(3 * room)];
    let rooms = Lists::rooms(r, lengths[0], lengths[1], lengths[2]);
    reading_check::build(calls, &case.mesh, &rooms).map(|_| ())
}

/// Many rays in one call, over built trees and hostile lists.
fn every_sky(calls: &Calls, plan: &Plan) -> u64 {
    let mut found = Found::default();
    let mut r = Random::new(plan.seed ^ 7);
    let (mut answers, mut outcomes) = (BTreeMap::new(), BTreeMap::new());
    let large = sky_check::large(&mut r);
    let many = (0..plan.skies).map(|_| sky_check::sky(&mut r));
    for sky in large.into_iter().chain(many) {
        match sky_check::check(calls, &sky) {
            Ok((number, places)) => {
                *answers.entry(number).or_insert(0_u64) += 1;
                for outcome in places {
                    *outcomes.entry(outcome).or_insert(0_u64) += 1;
                }
            }
            Err(why) => found.add(sky.rays.len() + sky.case.mesh.len(), || {
                let rays = show::bits(&sky.rays);
                format!("  {why}\n  {}  rays: {rays}", show::hostile(&sky.case))
            }),
        }
    }
    println!(
        "skies of rays, seed {}: answers {answers:?}, places {outcomes:?}",
        plan.seed ^ 7
    );
    found.end()
}

fn every_watts(calls: &Calls, plan: &Plan) -> u64 {
    let mut found = Found::default();
    let mut r = Random::new(plan.seed ^ 14);
    let (mut answers, mut places) = (BTreeMap::new(), 0);
    let large = watts_check::large(&mut r);
    let many = (0..plan.watts).map(|_| watts_check::weighed(&mut r));
    for case in large.into_iter().chain(many) {
        match watts_check::check(calls, &case) {
            Ok((number, n)) => {
                *answers.entry(number).or_insert(0_u64) += 1;
                places += n;
            }
            Err(why) => found.add(case.sky.rays.len() + case.sky.case.mesh.len(), || {
                let rays = show::bits(&case.sky.rays);
                let weights = &case.weights;
                let lists = show::hostile(&case.sky.case);
                format!("  {why}\n  {lists}  rays: {rays}\n  weights: {weights:?}")
            }),
        }
    }
    println!(
        "watts, seed {}: answers {answers:?}, {places} rays weighed, each served call cut in two",
        plan.seed ^ 14
    );
    found.end()
}

fn every_share(calls: &Calls, plan: &Plan) -> u64 {
    let mut found = Found::default();
    let mut r = Random::new(plan.seed ^ 15);
    let mut beyond = 0_u64;
    for _ in 0..plan.shares {
        match watts_check::share(calls, watts_check::share_case(&mut r)) {
            Ok(below) => beyond += u64::from(below == 0),
            Err(why) => found.add(1, || format!("  {why}")),
        }
    }
    println!(
        "shares, seed {}: {} compared, {beyond} beyond 64 bits",
        plan.seed ^ 15,
        plan.shares
    );
    found.end()
}

fn every_function(calls: &Calls, plan: &Plan) -> u64 {
    let mut found = Found::default();
    let mut r = Random::new(plan.seed ^ 4);
    let (mut slabs, mut met) = (0_u64, 0_u64);
    for _ in 0..plan.functions {
        let (bounds, ray) = functions::slab_case(&mut r);
        match functions::slab(calls, &bounds, &ray) {
            Ok(passed) => slabs += u64::from(passed),
            Err(why) => found.add(0, || {
                format!(
                    "  {why}\n  box {}\n  ray {}",
                    show::bits(&bounds),
                    show::bits(&ray)
                )
            }),
        }
        let (t, ray) = functions::triangle_case(&mut r);
        match functions::triangle(calls, &t, &ray) {
            Ok(hit) => met += u64::from(hit),
            Err(why) => found.add(0, || {
                format!(
                    "  {why}\n  triangle {}\n  ray {}",
                    show::bits(&t),
                    show::bits(&ray)
                )
            }),
        }
    }
    println!(
        "functions on arbitrary numbers, seed {}: {} slab tests ({slabs} passed), {} triangle tests ({met} met)",
        plan.seed ^ 4,
        plan.functions,
        plan.functions
    );
    found.end()
}

/// The root beside the machine's: every telling pattern, then seeded ones.
fn every_root(calls: &Calls, plan: &Plan) -> u64 {
    let mut found = Found::default();
    let mut r = Random::new(plan.seed ^ 8);
    let mut patterns = 0_u64;
    let seeded = (0..plan.roots).map(|_| root_check::pattern(&mut r));
    for x in root_check::telling().chain(seeded) {
        patterns += 1;
        if let Err(why) = root_check::root(calls.root, x) {
            found.add(0, || format!("  {why}"));
        }
    }
    println!("roots, seed {}: {patterns} patterns", plan.seed ^ 8);
    found.end()
}

/// `Triangle::new` of arbitrary corners, and the normals of whole meshes.
fn every_normal(calls: &Calls, plan: &Plan) -> u64 {
    let mut found = Found::default();
    let mut r = Random::new(plan.seed ^ 9);
    let mut long = 0_u64;
    for _ in 0..plan.functions {
        let corners = normal_check::corners_case(&mut r);
        match normal_check::corners(calls, &corners) {
            Ok(worked_out) => long += u64::from(worked_out),
            Err(why) => found.add(0, || format!("  {why}\n  corners {}", show::bits(&corners))),
        }
    }
    let mut answers = BTreeMap::new();
    let too_many = vec![0.25; 12 * 65_537];
    let some = (0..plan.meshes).map(|_| normal_check::mesh_case(&mut r));
    for mesh in [too_many].into_iter().chain(some) {
        match normal_check::mesh(calls, &mesh) {
            Ok(number) => *answers.entry(number).or_insert(0_u64) += 1,
            Err(why) => found.add(mesh.len(), || {
                format!("  {why}\n  mesh {}", show::bits(&mesh))
            }),
        }
    }
    println!(
        "normals, seed {}: {} triangles of arbitrary corners ({long} not (0, 1, 0)), meshes {answers:?}",
        plan.seed ^ 9,
        plan.functions
    );
    found.end()
}

/// Trees from elsewhere, valid, with faults and at random.
fn every_accept(calls: &Calls, plan: &Plan) -> u64 {
    let mut found = Found::default();
    let mut r = Random::new(plan.seed ^ 10);
    let mut answers = BTreeMap::new();
    for _ in 0..plan.accepts {
        let case = accept_check::case(&mut r);
        match accept_check::check(calls, &case) {
            Ok(answer) => *answers.entry(answer).or_insert(0_u64) += 1,
            Err(why) => found.add(case.lists.links.len() + case.mesh.len(), || {
                format!("  {why}\n  {case:?}")
            }),
        }
    }
    println!(
        "trees from elsewhere, seed {}: {} judged; by answer and condition {answers:?}",
        plan.seed ^ 10,
        plan.accepts
    );
    found.end()
}

/// Binary STL: files read and meshes written, each the other way round again.
fn every_file(calls: &Calls, plan: &Plan) -> u64 {
    let mut found = Found::default();
    let mut r = Random::new(plan.seed ^ 11);
    let (mut read, mut written) = (BTreeMap::new(), BTreeMap::new());
    // As many triangles as there may be, and one more, with room and without.
    let whole = |n: u32| {
        let mut file = vec![0; 84 + 50 * n as usize];
        file[80..84].copy_from_slice(&n.to_le_bytes());
        file
    };
    let large = [(65_536, 12 * 65_536), (65_537, 12 * 65_537), (65_537, 5)];
    let files = large.map(|(n, room)| (whole(n), room, n as usize));
    let seeded = (0..plan.files).map(|_| stl_check::file_case(&mut r));
    for (k, case) in files.into_iter().chain(seeded).enumerate() {
        match stl_check::file(calls, k as u64, &case) {
            Ok(number) => *read.entry(number).or_insert(0_u64) += 1,
            Err(why) => found.add(case.0.len(), || {
                format!(
                    "  {why}\n  rooms {} {}, file {:02x?}",
                    case.1, case.2, case.0
                )
            }),
        }
    }
    let large = [65_536, 65_537].map(|n| (vec![1.0; 12 * n], 84 + 50 * n));
    let seeded = (0..plan.files).map(|_| stl_check::mesh_case(&mut r));
    for (k, case) in large.into_iter().chain(seeded).enumerate() {
        match stl_check::mesh(calls, k as u64, &case) {
            Ok(number) => *written.entry(number).or_insert(0_u64) += 1,
            Err(why) => found.add(case.0.len(), || {
                format!("  {why}\n  room {}, mesh {}", case.1, show::bits(&case.0))
            }),
        }
    }
    println!(
        "STL, seed {}: files read {read:?}, meshes written {written:?}",
        plan.seed ^ 11
    );
    found.end()
}

/// Built trees beside others with the same leaves, 100 rays each.
fn every_rearranged(calls: &Calls, plan: &Plan) -> u64 {
    let mut found = Found::default();
    let mut r = Random::new(plan.seed ^ 16);
    let mut whole = [0_u64; 2];
    for k in 0..plan.rearranged {
        let n = size(&mut r);
        let mesh = meshes::KINDS[k % meshes::KINDS.len()].1(&mut r, n);
        let rays: Vec<_> = (0..100)
            .map(|_| rays::KINDS[r.below(rays::KINDS.len())].1(&mut r, &mesh))
            .collect();
        match rearranged_check::check(calls, &mut r, &mesh, &rays) {
            Ok([walked, differ]) => whole = [whole[0] + walked, whole[1] + differ],
            Err(why) => found.add(mesh.len(), || format!("  {why}\n  {}", show::bits(&mesh))),
        }
    }
    let [walked, differ] = whole;
    println!(
        "leaves put together another way, seed {}: {} meshes, {walked} rays, {differ} with other box tests",
        plan.seed ^ 16,
        plan.rearranged
    );
    found.end()
}
