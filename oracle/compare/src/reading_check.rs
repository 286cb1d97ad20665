//! Build and walk held to the reading: refusals, places, and every lent buffer
//! to the last bit.

use crate::calls::{all, same, Calls, READING};
use crate::rays::Ray;
use crate::{Lent, Lists};
use reading::{HIT_NUMBERS, WALK_TOLD};

/// `rooms` is what the buffers hold before. Answers the number and `told`.
pub fn build(calls: &Calls, mesh: &[f64], rooms: &Lists) -> Result<(u32, [u64; 2]), String> {
    let run = |calls: &Calls| {
        let (mut lists, mut told) = (rooms.clone(), [u64::MAX; 2]);
        let number = (calls.build)(
            mesh,
            &mut lists.index,
            &mut lists.boxes,
            &mut lists.links,
            &mut told,
        );
        (number, told, lists)
    };
    let (number, told, lists) = run(calls);
    let (wanted, wanted_told, wanted_lists) = run(&READING);
    if (number, told) != (wanted, wanted_told) {
        return Err(format!(
            "build answers {number} {told:?}, the reading {wanted} {wanted_told:?}"
        ));
    }
    if !lists.same(&wanted_lists) {
        return Err(format!(
            "build answers {number}, but its buffers are not the reading's"
        ));
    }
    Ok((number, told))
}

pub fn walk(calls: &Calls, lent: Lent, ray: &Ray) -> Result<u32, String> {
    let run = |calls: &Calls| {
        let (mut numbers, mut told) = ([-7.5; HIT_NUMBERS], [u64::MAX; WALK_TOLD]);
        let number = calls.walk_lent(lent, ray, &mut numbers, &mut told);
        (number, told, numbers)
    };
    let (number, told, numbers) = run(calls);
    let (wanted, wanted_told, wanted_numbers) = run(&READING);
    if (number, told) != (wanted, wanted_told) || !all(&numbers, &wanted_numbers, same) {
        return Err(format!(
            "walk answers {number} {told:?} {numbers:?}, the reading {wanted} {wanted_told:?} {wanted_numbers:?}"
        ));
    }
    Ok(number)
}

/// As `walk`, and that it wrote nothing lent.
pub fn walk_writes_nothing(calls: &Calls, lent: Lent, ray: &Ray) -> Result<u32, String> {
    let (mesh, materials) = (lent.mesh.to_vec(), lent.materials.to_vec());
    let (lists, kept_ray) = (lent.lists.clone(), *ray);
    let number = walk(calls, lent, ray)?;
    let bits = |list: &[f64]| list.iter().map(|x| x.to_bits()).collect::<Vec<_>>();
    // Read anew: the compiler may take it that a shared slice never changes.
    let (lent, ray) = std::hint::black_box((lent, ray));
    let stays = bits(lent.mesh) == bits(&mesh) && lent.materials == materials;
    if !stays || !lent.lists.same(&lists) || bits(ray) != bits(&kept_ray) {
        return Err("the walk wrote to what it was lent".into());
    }
    Ok(number)
}
