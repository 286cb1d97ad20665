//! Binary STL: files that are good, cut, overlong or hostile in their count, with
//! patterns of every kind, and meshes whose numbers are binary32s or nearly.

use crate::calls::{all, same, Calls, READING};
use crate::random::Random;

/// The pattern of a binary32, within what is admitted but for one in `bad`.
fn pattern(r: &mut Random, normal: bool, bad: usize) -> u32 {
    let sign = (r.below(2) as u32) << 31;
    let limit: u32 = if normal { 0x4000_0000 } else { 0x5380_0000 };
    let size = if r.one_in(bad) {
        match r.below(6) {
            0 => limit + 1,
            1 => 0x7f80_0000,
            2 => r.whole(0x7f80_0001, 0x7fff_ffff) as u32,
            3 => 0x7fc0_0000,
            4 => r.whole(limit as usize + 1, 0x7f7f_ffff) as u32,
            _ => 0x7f7f_ffff,
        }
    } else {
        match r.below(8) {
            0 => 0,
            1 => r.whole(1, 0x7f_ffff) as u32,
            2 => limit,
            3 => limit - 1,
            4 => 1,
            5 => 0x80_0000,
            _ => r.below(limit as usize) as u32,
        }
    };
    sign | size
}

/// A number of a mesh: mostly a binary32; one in `bad` is not admitted, and one in
/// `bad` is admitted and no binary32, or nearly.
fn number(r: &mut Random, normal: bool, bad: usize) -> f64 {
    if r.one_in(bad) {
        return r.wild();
    }
    let limit: f64 = if normal { 2.0 } else { 1_099_511_627_776.0 };
    let exact = |r: &mut Random| f64::from(f32::from_bits(pattern(r, normal, usize::MAX)));
    if !r.one_in(bad) {
        return exact(r);
    }
    // A power of two about the binary32s' subnormal ones, with so many digits.
    let small = |r: &mut Random| (870 + r.below(30) as u64) << 52;
    match r.below(7) {
        0 => f64::from_bits(1 + r.below(1 << 52) as u64),
        1 => f64::from_bits(exact(r).to_bits() ^ (1 << r.below(32))),
        2 => f64::from_bits(small(r)),
        3 => f64::from_bits(small(r) | (r.bits() >> 12)),
        4 => f64::from_bits(small(r) | ((r.bits() >> 12) & !0 << r.below(52)) & ((1 << 52) - 1)),
        5 => f64::from_bits(limit.to_bits() - 1),
        _ => 0.1,
    }
}

fn few(r: &mut Random) -> usize {
    match r.below(20) {
        0 => 0,
        1 => r.whole(40, 100),
        _ => r.below(8),
    }
}

/// Exact room, too little, or spare.
fn room(r: &mut Random, asked: usize) -> usize {
    match r.below(6) {
        0 => r.below(asked + 1),
        1 => asked,
        _ => asked + r.below(30),
    }
}

/// A file, and the lengths of the two rooms.
pub fn file_case(r: &mut Random) -> (Vec<u8>, usize, usize) {
    let n = few(r);
    let bad = r.pick(&[30, 200, usize::MAX]);
    let mut file: Vec<u8> = (0..84 + 50 * n).map(|_| r.bits() as u8).collect();
    if r.one_in(4) {
        file[..5].copy_from_slice(b"solid");
    }
    let mut count = n as u32;
    for record in file[84..].chunks_exact_mut(50) {
        for (k, word) in record[..48].chunks_exact_mut(4).enumerate() {
            word.copy_from_slice(&pattern(r, k < 3, bad).to_le_bytes());
        }
    }
    match r.below(14) {
        0 => count = r.bits() as u32,
        1 => count = count.wrapping_add(1),
        // 50 times this much more is 0 modulo 2^32
        2 => count |= 1 << 31,
        _ => {}
    }
    file[80..84].copy_from_slice(&count.to_le_bytes());
    match r.below(10) {
        0 => file.truncate(r.below(file.len() + 1)),
        1 => file.resize(file.len() + r.whole(1, 60), 7),
        _ => {}
    }
    (file, room(r, 12 * n), room(r, n))
}

/// A mesh, and the length of the room.
pub fn mesh_case(r: &mut Random) -> (Vec<f64>, usize) {
    let n = few(r);
    let bad = r.pick(&[60, 400, usize::MAX]);
    let mut mesh: Vec<f64> = (0..12 * n).map(|k| number(r, k % 12 >= 9, bad)).collect();
    if r.one_in(12) {
        mesh.truncate(mesh.len().saturating_sub(r.whole(1, 11)));
    }
    let asked = 84 + 50 * (mesh.len() / 12);
    (mesh, room(r, asked))
}

/// The answer. A file that is served is written again as it was, but for a header
/// and attributes of zeros.
pub fn file(calls: &Calls, seed: u64, case: &(Vec<u8>, usize, usize)) -> Result<u32, String> {
    let (file, numbers, materials) = case;
    let run = |calls: &Calls| {
        let mut r = Random::new(seed);
        let mut triangles = r.numbers(*numbers);
        let mut rooms: Vec<u32> = (0..*materials).map(|_| r.bits() as u32).collect();
        let mut told = [99];
        let number = (calls.read_stl)(file, &mut triangles, &mut rooms, &mut told);
        (number, told, triangles, rooms)
    };
    let (ours, wanted) = (run(calls), run(&READING));
    let bits = |list: &[f64]| list.iter().map(|x| x.to_bits()).collect::<Vec<_>>();
    if (ours.0, ours.1, &ours.3) != (wanted.0, wanted.1, &wanted.3)
        || bits(&ours.2) != bits(&wanted.2)
    {
        return Err(format!(
            "reading answers {} {:?}, the reading {} {:?}, or leaves other rooms",
            ours.0, ours.1, wanted.0, wanted.1
        ));
    }
    if ours.0 != 0 {
        return Ok(ours.0);
    }
    let n = ours.1[0] as usize;
    let (mut again, mut told) = (vec![7; file.len()], [99]);
    let number = (calls.write_stl)(&ours.2[..12 * n], &mut again, &mut told);
    let mut zeroed = file.clone();
    zeroed[..80].fill(0);
    for record in zeroed[84..].chunks_exact_mut(50) {
        record[48..].fill(0);
    }
    if (number, told) != (0, [file.len() as u64]) || again != zeroed {
        return Err(format!(
            "written again, it answers {number} {told:?}, or is another file"
        ));
    }
    Ok(0)
}

/// The answer. What was written reads back bit for bit.
pub fn mesh(calls: &Calls, seed: u64, case: &(Vec<f64>, usize)) -> Result<u32, String> {
    let (mesh, room) = case;
    let run = |calls: &Calls| {
        let mut r = Random::new(seed);
        let mut file: Vec<u8> = (0..*room).map(|_| r.bits() as u8).collect();
        let mut told = [99];
        let number = (calls.write_stl)(mesh, &mut file, &mut told);
        (number, told, file)
    };
    let (ours, wanted) = (run(calls), run(&READING));
    if ours != wanted {
        return Err(format!(
            "writing answers {} {:?}, the reading {} {:?}, or leaves another file",
            ours.0, ours.1, wanted.0, wanted.1
        ));
    }
    if ours.0 != 0 {
        return Ok(ours.0);
    }
    let n = mesh.len() / 12;
    let (mut back, mut rooms, mut told) = (vec![7.5; 12 * n], vec![7; n], [99]);
    let file = &ours.2[..ours.1[0] as usize];
    let number = (calls.read_stl)(file, &mut back, &mut rooms, &mut told);
    if (number, told) != (0, [n as u64]) || !all(&back, mesh, same) || rooms != vec![0; n] {
        return Err(format!(
            "read back, it answers {number} {told:?}, or is another mesh"
        ));
    }
    Ok(0)
}
