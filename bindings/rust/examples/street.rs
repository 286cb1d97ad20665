//! A winter morning in a street: what shades a panel, and when.
//!
//! Reads the triangles of samples/street.bin (samples/street.py draws them), or of
//! the file that is named: a count, then twelve numbers for each. From five points
//! of the panel a ray goes towards the sun at each time of the morning; a row of
//! the table is one of these times.

use std::error::Error;
use std::num::NonZeroUsize;
use std::ops::Range;
use std::{env, fs, thread};

use pigeonmast::{Bvh, Place, Ray, Refusal, Triangle, Vec3};

/// What the triangles are, in the order in which street.py draws them.
const PARTS: [(&str, Range<usize>); 5] = [
    ("ground", 0..8),
    ("house 1", 8..22),
    ("house 2", 22..36),
    ("house 3", 36..50),
    ("wall", 50..52),
];

const POINTS: usize = 5;
const TIMES: u8 = 12;

/// The triangles of a file: their count, and eight bytes for each number.
fn triangles(file: &[u8]) -> Option<Vec<Triangle>> {
    let (count, rest) = file.split_first_chunk()?;
    let bytes = (u32::from_le_bytes(*count) as usize).checked_mul(96)?;
    let number = |at: &[u8]| at.try_into().map_or(f64::NAN, f64::from_le_bytes);
    let triangle = |at: &[u8]| Triangle::from(std::array::from_fn(|k| number(&at[8 * k..][..8])));
    Some(rest.get(..bytes)?.chunks_exact(96).map(triangle).collect())
}

/// Towards the sun, by its direction from north over east and its height, in degrees.
fn sun(direction: f64, height: f64) -> Vec3 {
    let (across, up) = (height.to_radians().cos(), height.to_radians().sin());
    let (east, north) = direction.to_radians().sin_cos();
    Vec3::new(east * across, north * across, up)
}

/// What stands between a ray and the sun.
fn shade(place: &Result<Place, Refusal>) -> String {
    match place.map(|place| place.hit) {
        Err(refusal) => refusal.to_string(),
        Ok(None) => "sun".into(),
        Ok(Some(hit)) => PARTS
            .iter()
            .find(|(_, triangles)| triangles.contains(&hit.triangle))
            .map_or("?", |(name, _)| name)
            .into(),
    }
}

fn main() -> Result<(), Box<dyn Error>> {
    let street = concat!(env!("CARGO_MANIFEST_DIR"), "/../../samples/street.bin");
    let file = fs::read(env::args().nth(1).unwrap_or_else(|| street.into()))?;
    let bvh = Bvh::from_triangles(triangles(&file).ok_or("the file is cut off")?)?;

    let mut rays = Vec::new();
    for time in (0..TIMES).map(f64::from) {
        let towards = sun(96.0 + 7.0 * time, 2.0 + 1.25 * time);
        for point in 0..POINTS {
            let k = point as f64;
            let on_panel = Vec3::new(-12.0 + 1.5 * k, -2.0, 1.0 + 0.25 * k);
            rays.push(Ray::new(on_panel, towards));
        }
    }
    let threads = thread::available_parallelism().unwrap_or(NonZeroUsize::MIN);
    let places = bvh.sky_parallel(&rays, threads)?;

    println!("{} triangles, {} rays", bvh.triangles().len(), rays.len());
    for (time, row) in places.chunks(POINTS).enumerate() {
        let row: Vec<_> = row
            .iter()
            .map(|place| format!("{:8}", shade(place)))
            .collect();
        println!("{}", format!("time {time:2}  {}", row.concat()).trim_end());
    }
    let sunny = places.iter().flatten().filter(|place| place.hit.is_none());
    println!("in the sun: {} of {}", sunny.count(), places.len());
    Ok(())
}
