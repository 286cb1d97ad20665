//! Meshes of every kind around each boundary of the rules, as lent: twelve
//! numbers a triangle.

use crate::random::Random;

pub type Point = [f64; 3];

/// A material for each of n triangles, no two alike.
pub fn materials(seed: u64, n: usize) -> Vec<u32> {
    // Multiplied by an odd number no two become one.
    let one = |k: usize| (k as u32).wrapping_mul(0x9e37_79b1) ^ seed as u32;
    (0..n).map(one).collect()
}

/// Makes a mesh of about n triangles.
type Make = fn(&mut Random, usize) -> Vec<f64>;

pub const KINDS: [(&str, Make); 13] = [
    ("none to six", |r, _| {
        let n = r.below(7);
        if r.one_in(2) {
            soup(r, n)
        } else {
            lattice(r, n)
        }
    }),
    ("soup", soup),
    ("lattice with ties and -0", lattice),
    ("coincident", coincident),
    ("degenerate", degenerate),
    ("spans near 1e-6", spans),
    ("areas near 1e-12", areas),
    ("ulps apart near 2^40", ulps),
    ("chain, deep", chain),
    ("mixed scales", mixed),
    ("terrain with houses", terrain),
    ("not admitted", spoiled),
    ("party walls", party_walls),
];

fn put(mesh: &mut Vec<f64>, v: [Point; 3]) {
    put_with(mesh, v, normal(v));
}

fn put_with(mesh: &mut Vec<f64>, v: [Point; 3], normal: Point) {
    for p in v {
        mesh.extend(p);
    }
    mesh.extend(normal);
}

/// The unit normal, or (0,0,1) where there is none.
fn normal([a, b, c]: [Point; 3]) -> Point {
    let [e, f] = [b, c].map(|p| [p[0] - a[0], p[1] - a[1], p[2] - a[2]]);
    let n = [
        e[1] * f[2] - e[2] * f[1],
        e[2] * f[0] - e[0] * f[2],
        e[0] * f[1] - e[1] * f[0],
    ];
    let size = (n[0] * n[0] + n[1] * n[1] + n[2] * n[2]).sqrt();
    if size > 0.0 && size.is_finite() {
        n.map(|x| x / size)
    } else {
        [0.0, 0.0, 1.0]
    }
}

pub fn soup(r: &mut Random, n: usize) -> Vec<f64> {
    let reach = 10_f64.powf(r.between(-3.0, 6.0));
    let size = reach * 10_f64.powf(r.between(-3.0, 0.0));
    soup_of(r, n, reach, size)
}

/// Small triangles all over one cube: the benchmark's soup.
pub fn even_soup(r: &mut Random, n: usize) -> Vec<f64> {
    soup_of(r, n, 100.0, 2.0)
}

fn soup_of(r: &mut Random, n: usize, reach: f64, size: f64) -> Vec<f64> {
    let mut mesh = Vec::new();
    for _ in 0..n {
        let c: Point = std::array::from_fn(|_| r.between(-reach, reach));
        put(
            &mut mesh,
            std::array::from_fn(|_| c.map(|x| x + r.between(-size, size))),
        );
    }
    mesh
}

fn lattice(r: &mut Random, n: usize) -> Vec<f64> {
    let reach = r.whole(1, 6) as f64;
    let scale = r.pick(&[1.0, 0.5, 3.0, 1e-6, 65_536.0]);
    let mut at = || {
        let x = r.between(-reach, reach).round() * scale;
        if x == 0.0 {
            r.sign() * 0.0
        } else {
            x
        }
    };
    let mut mesh = Vec::new();
    for _ in 0..n {
        let v = std::array::from_fn(|_| std::array::from_fn(|_| at()));
        let zero = at() * 0.0;
        put_with(
            &mut mesh,
            v,
            [zero, -zero, if zero == 0.0 { 1.0 } else { 2.0 }],
        );
    }
    mesh
}

fn coincident(r: &mut Random, n: usize) -> Vec<f64> {
    let few = r.whole(1, 3);
    let from = soup(r, few);
    let mut mesh = Vec::new();
    for _ in 0..n {
        let k = 12 * r.below(few);
        mesh.extend(&from[k..k + 12]);
    }
    mesh
}

/// Walls across an axis, each modelled by two surveyors: with the same diagonal
/// or the other one, from the same corner or a little on, wound one way or the
/// other, and in any order. A ray along the axis meets both models at one t, in
/// one leaf or in two.
pub fn party_walls(r: &mut Random, n: usize) -> Vec<f64> {
    let axis = r.below(3);
    let (wide, high) = (r.whole(1, 9) as f64, r.whole(1, 9) as f64);
    let mut triangles = Vec::new();
    while triangles.len() < n {
        let [x, y, z] = [0; 3].map(|_: u8| r.whole(0, 8) as f64);
        for on in [0.0, r.pick(&[0.0, 0.0, 2.0])] {
            let at = |i: f64, j: f64| {
                let mut p = [0.0; 3];
                p[axis] = x;
                p[(axis + 1) % 3] = 2.0 * y + on + i * wide;
                p[(axis + 2) % 3] = 2.0 * z + j * high;
                p
            };
            let [a, b, c, d] = [at(0.0, 0.0), at(1.0, 0.0), at(1.0, 1.0), at(0.0, 1.0)];
            let halves = r.pick(&[[[a, b, d], [c, d, b]], [[b, c, a], [d, a, c]]]);
            let turned = r.one_in(2);
            triangles.extend(halves.map(|[p, q, s]| if turned { [p, s, q] } else { [p, q, s] }));
        }
    }
    if r.one_in(2) {
        r.shuffle(&mut triangles);
    }
    triangles.truncate(n);
    let mut mesh = Vec::new();
    for v in triangles {
        put(&mut mesh, v);
    }
    mesh
}

/// The smallest mesh on which the Rust does not name the lowest of two tied:
/// the same wall twice, across x at 10, and three others near 0; and a ray that
/// meets it.
pub fn wall_twice() -> (Vec<f64>, [f64; 6]) {
    let wall = |x: f64| [x, 0., 0., x, 1., 0., x, 0., 1., -1., 0., 0.];
    let mesh = [10., 10., 0., 1., 2.].map(wall).concat();
    (mesh, [5., 0.25, 0.25, 1., 0., 0.])
}

/// Points and lines, some along an axis.
fn degenerate(r: &mut Random, n: usize) -> Vec<f64> {
    let mut mesh = Vec::new();
    for _ in 0..n {
        let a: Point = std::array::from_fn(|_| r.between(-5.0, 5.0));
        let mut b = a;
        if r.one_in(2) {
            b[r.below(3)] += r.between(-3.0, 3.0);
        }
        let v = r.pick(&[[a, a, b], [a, b, b], [a, b, a]]);
        put(&mut mesh, v);
    }
    mesh
}

/// Triangles across one axis, their centroids about 1e-6 apart along it at most
/// and the same along the others; so small across, or a line, that a split pays.
fn spans(r: &mut Random, n: usize) -> Vec<f64> {
    let base = r.pick(&[0.0, 0.0, 1e-3, 1.0]);
    let span = r.near(1e-6);
    let axis = r.below(3);
    let (wide, high) = r.pick(&[(1e-6, 1e-6), (3e-6, 3e-6), (1e-2, 0.0), (1.0, 0.0)]);
    let mut mesh = Vec::new();
    for _ in 0..n {
        let mut v = [[0.0; 3]; 3];
        v[1][(axis + 1) % 3] = wide;
        v[2][(axis + 2) % 3] = high;
        let at = base + r.pick(&[0.0, 0.0, span, span / 2.0, span / 4.0]);
        for p in &mut v {
            p[axis] = at;
        }
        put(&mut mesh, v);
    }
    mesh
}

/// A parent area of about 1e-12 under a centroid span that allows a split.
fn areas(r: &mut Random, n: usize) -> Vec<f64> {
    let long = r.between(1.5e-6, 4e-6);
    let wide = r.near(1e-12 / (2.0 * long));
    let axis = r.below(3);
    let mut mesh = Vec::new();
    for k in 0..n {
        // Both ends are there, so that the area is what was meant.
        let along = match k {
            0 => 0.0,
            1 => long,
            _ => r.between(0.0, long),
        };
        let mut v = [[0.0; 3]; 3];
        v[0][axis] = along;
        v[1][axis] = along;
        v[2][axis] = along;
        v[1][(axis + 1) % 3] = wide;
        put(&mut mesh, v);
    }
    mesh
}

/// Centroids a few units in the last place apart, so that the fallback runs.
pub fn ulps(r: &mut Random, n: usize) -> Vec<f64> {
    let ulp = 2.0_f64.powi(-13);
    let base = r.between(0.6, 0.99) * 2.0_f64.powi(40);
    let steps = r.whole(1, 9);
    let axis = r.below(3);
    let wide = r.pick(&[0.0, 1e-3, 1.0]);
    let mut mesh = Vec::new();
    for _ in 0..n {
        let at = base + ulp * r.below(steps + 1) as f64;
        let mut v = [[0.0; 3]; 3];
        for (k, p) in v.iter_mut().enumerate() {
            p[(axis + 1) % 3] = [0.0, wide, 0.0][k] + r.pick(&[0.0, 0.0, ulp]);
            p[(axis + 2) % 3] = [0.0, 0.0, 1.0][k];
            p[axis] = at;
        }
        put(&mut mesh, v);
    }
    mesh
}

/// The worst case of the fallback: along each axis one centroid in 64 lies a
/// few units in the last place before the others, so that each half has to be
/// put in order again, along x and then along y and z.
pub fn worst(r: &mut Random, n: usize) -> Vec<f64> {
    let ulp = 2.0_f64.powi(-13);
    let (base, side) = (0.75 * 2.0_f64.powi(40), 24.0 * ulp);
    let mut mesh = Vec::new();
    for _ in 0..n {
        let v: Point = std::array::from_fn(|_| {
            let step = if r.one_in(64) { 0.0 } else { 4.0 };
            base + step * ulp
        });
        let [x, y, z] = v;
        put(&mut mesh, [v, [x, y + side, z], [x, y, z + side]]);
    }
    mesh
}

/// Points of which each split can take only one away: six outliers around a
/// cluster, and so on inward. n of them make a tree of depth n - 4, so 67 is
/// the last that is built and 68 is refused.
pub fn chain(r: &mut Random, n: usize) -> Vec<f64> {
    let n = if n < 20 { r.whole(64, 70) } else { n.min(72) };
    let mut scale = r.between(0.9, 1.0) * 2.0_f64.powi(40);
    let mut points = Vec::new();
    while points.len() < n {
        for axis in 0..3 {
            for side in [1.0, -0.9] {
                let mut p = [0.0; 3];
                p[axis] = side * scale;
                points.push(p);
            }
        }
        // The cluster must stay within one bin when it lies at an end.
        scale /= 34.0;
    }
    points.truncate(n);
    if r.one_in(2) {
        r.shuffle(&mut points);
    }
    let mut mesh = Vec::new();
    for p in points {
        put(&mut mesh, [p, p, p]);
    }
    mesh
}

fn mixed(r: &mut Random, n: usize) -> Vec<f64> {
    let most = 2.0_f64.powi(40);
    let mut mesh = Vec::new();
    for _ in 0..n {
        let low = r.pick(&[-60, -20, 0, 30]);
        let mut at = || match r.below(12) {
            0 => most * r.sign(),
            1 => 0.0 * r.sign(),
            _ => r.scaled(low, low.max(39)),
        };
        let v = std::array::from_fn(|_| std::array::from_fn(|_| at()));
        let normal = std::array::from_fn(|_| r.pick(&[0.0, -0.0, 2.0, -2.0, 0.3]));
        put_with(&mut mesh, v, normal);
    }
    mesh
}

/// A grid of hills with boxes and gable roofs on it: about n triangles, n
/// exactly where it is even or large.
pub fn terrain(r: &mut Random, n: usize) -> Vec<f64> {
    let houses = n / 40;
    let ground = n.saturating_sub(houses * 12) / 2;
    let side = (ground as f64).sqrt().ceil().max(1.0) as usize;
    let [a, b] = [r.between(0.05, 0.4), r.between(0.05, 0.4)];
    let high =
        |x: f64, y: f64| 6.0 * (a * x).sin() + 4.0 * (b * y).cos() + 2.0 * (a * b * x * y).sin();
    let mut mesh = Vec::new();
    for k in 0..ground {
        let (x, y) = ((k % side) as f64 * 5.0, (k / side) as f64 * 5.0);
        let at = |dx: f64, dy: f64| [x + dx, y + dy, high(x + dx, y + dy)];
        put(&mut mesh, [at(0.0, 0.0), at(5.0, 0.0), at(0.0, 5.0)]);
        put(&mut mesh, [at(5.0, 0.0), at(5.0, 5.0), at(0.0, 5.0)]);
    }
    let reach = side as f64 * 5.0;
    while mesh.len() / 12 + 12 <= n {
        let (x, y) = (r.between(0.0, reach), r.between(0.0, reach));
        house(r, &mut mesh, [x, y, high(x, y) - 1.0]);
    }
    while mesh.len() / 12 < n {
        let c: Point = std::array::from_fn(|_| r.between(0.0, reach));
        put(
            &mut mesh,
            std::array::from_fn(|_| c.map(|x| x + r.between(-2.0, 2.0))),
        );
    }
    mesh
}

/// Four walls, two gables, a roof of two planes: twelve triangles and upright.
fn house(r: &mut Random, mesh: &mut Vec<f64>, [x, y, z]: Point) {
    let [w, d, h] = [
        r.between(6.0, 14.0),
        r.between(6.0, 14.0),
        r.between(3.0, 9.0),
    ];
    let top = z + h + w / 3.0;
    let p = |i: f64, j: f64, k: f64| [x + i * w, y + j * d, z + k * h];
    let ridge = |j: f64| [x + w / 2.0, y + j * d, top];
    let wall = [p(0., 0., 0.), p(1., 0., 0.), p(1., 1., 0.), p(0., 1., 0.)];
    let eave = [p(0., 0., 1.), p(1., 0., 1.), p(1., 1., 1.), p(0., 1., 1.)];
    for k in 0..4 {
        let next = (k + 1) % 4;
        put(mesh, [wall[k], wall[next], eave[next]]);
        put(mesh, [wall[k], eave[next], eave[k]]);
    }
    put(mesh, [eave[0], eave[1], ridge(0.0)]);
    put(mesh, [eave[2], eave[3], ridge(1.0)]);
    put(mesh, [eave[1], eave[2], ridge(1.0)]);
    put(mesh, [eave[3], eave[0], ridge(0.0)]);
}

/// One of the others with a number or two that is not admitted, or nearly so.
fn spoiled(r: &mut Random, n: usize) -> Vec<f64> {
    let mut mesh = if r.one_in(2) {
        soup(r, n.max(1))
    } else {
        mixed(r, n.max(1))
    };
    for _ in 0..r.whole(1, 2) {
        let k = r.below(mesh.len());
        mesh[k] = match r.below(4) {
            0 => r.near(2.0),
            1 => -r.near(2.0_f64.powi(40)),
            2 => r.pick(&[f64::NAN, f64::INFINITY, f64::NEG_INFINITY]),
            _ => r.wild(),
        };
    }
    mesh
}
