//! Rays for a mesh: origin, direction, as lent.

use crate::random::Random;

pub type Ray = [f64; 6];

/// Makes a ray for a mesh.
type Make = fn(&mut Random, &[f64]) -> Ray;

pub const KINDS: [(&str, Make); 9] = [
    ("through a triangle", |r, m| through(r, m, false)),
    ("through an edge or vertex", |r, m| through(r, m, true)),
    ("along an axis", along),
    ("on a plane", on_plane),
    ("directions around 1e-12", faint),
    ("zero direction", |r, m| {
        let o = point(r, m);
        [o[0], o[1], o[2], 0.0, -0.0 * r.sign(), 0.0]
    }),
    ("anywhere", anywhere),
    ("far ends", far),
    ("not admitted", spoiled),
];

/// A number of the mesh's along each axis, mostly, so that rays meet planes
/// exactly. Not admitted ones are left to the rays that want them.
fn point(r: &mut Random, mesh: &[f64]) -> [f64; 3] {
    std::array::from_fn(|axis| {
        let n = mesh.len() / 12;
        if n == 0 || r.one_in(8) {
            return r.between(-3.0, 3.0);
        }
        let x = mesh[12 * r.below(n) + 3 * r.below(3) + axis];
        if x.abs() <= 2.0_f64.powi(40) {
            x
        } else {
            1.0
        }
    })
}

/// Scaled so that its greatest number is `size`.
fn scaled(d: [f64; 3], size: f64) -> [f64; 3] {
    let most = d.iter().fold(0.0_f64, |m, x| m.max(x.abs()));
    if most > 0.0 && most.is_finite() {
        d.map(|x| (x / most * size).clamp(-2.0, 2.0))
    } else {
        [0.0, 0.0, -1.0]
    }
}

fn ray(o: [f64; 3], d: [f64; 3]) -> Ray {
    let most = 2.0_f64.powi(40);
    let o = o.map(|x| if x.abs() <= most { x } else { most });
    [o[0], o[1], o[2], d[0], d[1], d[2]]
}

fn through(r: &mut Random, mesh: &[f64], on_edge: bool) -> Ray {
    let n = mesh.len() / 12;
    if n == 0 {
        return anywhere(r, mesh);
    }
    let t = &mesh[12 * r.below(n)..][..12];
    let [mut u, mut v] = [r.between(0.0, 1.0), r.between(0.0, 1.0)];
    if on_edge {
        [u, v] = r.pick(&[
            [0.0, 0.0],
            [1.0, 0.0],
            [0.0, 1.0],
            [u, 0.0],
            [0.0, v],
            [0.5, 0.5],
        ]);
    } else if u + v > 1.0 {
        [u, v] = [1.0 - u, 1.0 - v];
    }
    let aim: [f64; 3] =
        std::array::from_fn(|k| t[k] + u * (t[k + 3] - t[k]) + v * (t[k + 6] - t[k]));
    let size = r.pick(&[1.0, 1.0, 2.0, 0.1]);
    if r.one_in(2) {
        let away = std::array::from_fn(|k| aim[k] + r.between(-1.0, 1.0) * aim[k].abs().max(1.0));
        return ray(
            away,
            scaled(std::array::from_fn(|k| aim[k] - away[k]), size),
        );
    }
    let axis = r.below(3);
    let (mut o, mut d) = (aim, [0.0; 3]);
    o[axis] += r.between(-8.0, 8.0);
    d[axis] = size * (aim[axis] - o[axis]).signum();
    ray(o, d)
}

fn along(r: &mut Random, mesh: &[f64]) -> Ray {
    let mut o = point(r, mesh);
    let axis = r.below(3);
    o[axis] += r.between(-5.0, 5.0);
    let mut d = [0.0 * r.sign(), 0.0 * r.sign(), 0.0 * r.sign()];
    d[axis] = r.sign() * r.pick(&[1.0, 2.0, 0.25]);
    ray(o, d)
}

fn on_plane(r: &mut Random, mesh: &[f64]) -> Ray {
    let (o, to) = (point(r, mesh), point(r, mesh));
    let mut d: [f64; 3] = std::array::from_fn(|k| to[k] - o[k]);
    d[r.below(3)] = 0.0 * r.sign();
    ray(o, scaled(d, 1.0))
}

fn faint(r: &mut Random, mesh: &[f64]) -> Ray {
    let o = point(r, mesh);
    let d = std::array::from_fn(|_| match r.below(4) {
        0 => r.sign() * r.between(0.0, 1.0),
        1 => r.sign() * 2.0_f64.powi(-40 + r.below(3) as i32),
        _ => r.sign() * r.near(1e-12),
    });
    ray(o, d)
}

fn anywhere(r: &mut Random, mesh: &[f64]) -> Ray {
    let o = point(r, mesh).map(|x| x + r.between(-4.0, 4.0));
    let d = std::array::from_fn(|_| r.between(-1.0, 1.0));
    ray(o, d)
}

fn far(r: &mut Random, mesh: &[f64]) -> Ray {
    let most = 2.0_f64.powi(40);
    let o = point(r, mesh).map(|x| r.pick(&[x, x, most, -most, 0.0]));
    let to = point(r, mesh);
    let d = std::array::from_fn(|k| to[k] - o[k]);
    ray(o, scaled(d, 2.0))
}

fn spoiled(r: &mut Random, mesh: &[f64]) -> Ray {
    let mut ray = anywhere(r, mesh);
    let k = r.below(6);
    ray[k] = match r.below(4) {
        0 => r.near(2.0),
        1 => r.near(2.0_f64.powi(40)),
        _ => r.wild(),
    };
    ray
}
