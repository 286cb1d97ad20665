//! Rules L1 to L5: binary STL, by `f32::from_le_bytes` and the machine's casts.

use crate::triangles::{admitted, triangle};
use crate::{refuse, triangle_count, Refusal, MOST_TRIANGLES};

/// Number k of a triangle of a mesh stands at this place of its record: the
/// normal, which is last in a mesh, is first in a file.
fn place(k: usize) -> usize {
    4 * ((k + 3) % 12)
}

/// The numbers of triangle i of a file that has it.
fn numbers(file: &[u8], i: usize) -> [f64; 12] {
    let record = &file[84 + 50 * i..][..50];
    std::array::from_fn(|k| {
        let at = place(k);
        let bytes = [record[at], record[at + 1], record[at + 2], record[at + 3]];
        f64::from(f32::from_le_bytes(bytes))
    })
}

/// How many triangles were read; refusals 15, 2, 16 and 5 (the lowest triangle),
/// with both rooms unchanged.
pub fn read(file: &[u8], triangles: &mut [f64], materials: &mut [u32]) -> Result<usize, Refusal> {
    if file.len() < 84 {
        return refuse(15, 0);
    }
    let n = u32::from_le_bytes([file[80], file[81], file[82], file[83]]) as usize;
    if file.len() as u64 != 84 + 50 * n as u64 {
        return refuse(15, 0);
    }
    if n > MOST_TRIANGLES {
        return refuse(2, n);
    }
    if triangles.len() < 12 * n || materials.len() < n {
        return refuse(16, 0);
    }
    if let Some(i) = (0..n).find(|&i| !admitted(&numbers(file, i))) {
        return refuse(5, i);
    }
    for (i, t) in triangles.chunks_exact_mut(12).take(n).enumerate() {
        t.copy_from_slice(&numbers(file, i));
    }
    materials[..n].fill(0);
    Ok(n)
}

/// Whether a binary32 has this very number, sign of zero included.
fn single(x: f64) -> bool {
    f64::from(x as f32).to_bits() == x.to_bits()
}

/// How many bytes were written; refusals 1, 2, 5, 17 (the lowest triangle) and 16,
/// with the file unchanged.
pub fn write(triangles: &[f64], file: &mut [u8]) -> Result<usize, Refusal> {
    let n = triangle_count(triangles)?;
    if let Some(i) = (0..n).find(|&i| !admitted(&triangle(triangles, i))) {
        return refuse(5, i);
    }
    if let Some(k) = triangles.iter().position(|x| !single(*x)) {
        return refuse(17, k / 12);
    }
    let whole = 84 + 50 * n;
    if file.len() < whole {
        return refuse(16, 0);
    }
    file[..whole].fill(0);
    file[80..84].copy_from_slice(&(n as u32).to_le_bytes());
    for (t, record) in triangles
        .chunks_exact(12)
        .zip(file[84..].chunks_exact_mut(50))
    {
        for (k, x) in t.iter().enumerate() {
            record[place(k)..][..4].copy_from_slice(&(*x as f32).to_le_bytes());
        }
    }
    Ok(whole)
}
