//! Hostile lists and the published Rust: where the reading finds nothing to
//! refuse, the Rust neither panics nor loops and must answer the same, with
//! rule E1 at a tie; where it refuses the 65th pending, the Rust must
//! panic.

use crate::calls::{all, same, READING};
use crate::hostile::Hostile;
use crate::{ties, world};
use reading::{Numbers, HIT_NUMBERS, WALK_TOLD};
use std::panic::catch_unwind;

pub fn check(case: &Hostile) -> Result<(), String> {
    let (mut numbers, mut told) = ([0.0; HIT_NUMBERS], [0; WALK_TOLD]);
    let number = READING.walk_lent(case.lent(), &case.ray, &mut numbers, &mut told);
    if ![0, 11, 100].contains(&number) {
        return Ok(());
    }
    let answer = catch_unwind(|| {
        let tree = world::foreign(&case.lists);
        let ray = world::ray(&case.ray);
        let triangles = world::with_materials(&case.mesh, &case.materials);
        let ruled = ties::walk(&ray, &tree, &triangles)?;
        let hit = ruled.hit.as_ref();
        let told = world::told(hit, &triangles, ruled.boxes, ruled.tests);
        Ok::<_, String>((told, hit.map(world::numbers)))
    });
    let answer = match answer {
        Ok(ruled) => Some(ruled?),
        Err(_panicked) => None,
    };
    let agrees = match &answer {
        None => number == 11,
        Some((answered, hit)) => {
            let same_hit = |wanted: &Numbers| all(wanted, &numbers, same);
            *answered == (number, told) && hit.as_ref().is_none_or(same_hit)
        }
    };
    if !agrees {
        return Err(format!(
            "oracle: the reading answers {number} {told:?} {numbers:?}, the Rust {answer:?}"
        ));
    }
    Ok(())
}
