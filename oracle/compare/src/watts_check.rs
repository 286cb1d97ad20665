//! The watts of a sky of rays held to the reading: the answer, the report and the
//! answer room whole; and each served call cut at a ray, its parts added up.

use crate::calls::{all, same, Calls, READING};
use crate::random::Random;
use crate::sky_check::{self, Sky};
use reading::{PLACE_TIMES, PLACE_TOLD};

/// A sky, and its weights: one a ray mostly, at their limits often.
#[derive(Clone, Debug)]
pub struct Weighed {
    pub sky: Sky,
    pub weights: Vec<u32>,
    /// Where a served call is cut.
    pub cut: usize,
}

fn weight(r: &mut Random) -> u32 {
    match r.below(6) {
        0 => 0,
        1 => u32::MAX - r.below(2) as u32,
        2 => 1,
        3 => 60 * r.below(200) as u32,
        _ => r.bits() as u32,
    }
}

pub fn weighed(r: &mut Random) -> Weighed {
    let sky = sky_check::sky(r);
    let rays = sky.rays.len() / 6;
    let n = match r.below(8) {
        0 => rays + r.whole(1, 3),
        1 => rays.saturating_sub(r.whole(1, 3)),
        _ => rays,
    };
    Weighed {
        weights: (0..n).map(|_| weight(r)).collect(),
        cut: r.below(rays + 1),
        sky,
    }
}

/// As many rays as a call takes and one more, at full weight, the last of them
/// also with a weight too few.
pub fn large(r: &mut Random) -> Vec<Weighed> {
    let mut small = sky_check::sky(r);
    while small.rays.len() < 6 || small.rays.len() % 6 != 0 {
        small = sky_check::sky(r);
    }
    let most = reading::watts::MOST_RAYS;
    let mut one = |rays: usize, weights: usize| {
        let mut sky = small.clone();
        sky.rays = small.rays[..6].repeat(rays);
        sky.times = vec![-7.5; PLACE_TIMES * rays];
        sky.told = vec![9; PLACE_TOLD * rays];
        Weighed {
            weights: vec![u32::MAX; weights],
            cut: r.below(rays + 1),
            sky,
        }
    };
    vec![
        one(most, most),
        one(most + 1, most + 1),
        one(most + 1, most),
    ]
}

/// Number, at, report, times and told.
type Outcome = (u32, u64, [u64; 6], Vec<f64>, Vec<u64>);

fn run(calls: &Calls, sky: &Sky, rays: &[f64], weights: &[u32], room: (&[f64], &[u64])) -> Outcome {
    let lists = &sky.case.lists;
    let (mut times, mut told) = (room.0.to_vec(), room.1.to_vec());
    let (mut report, mut at) = ([99; 6], [u64::MAX]);
    let number = (calls.watts)(
        &sky.case.mesh,
        &sky.case.materials,
        &lists.index,
        &lists.boxes,
        &lists.links,
        rays,
        weights,
        &mut times,
        &mut told,
        &mut report,
        &mut at,
    );
    (number, at[0], report, times, told)
}

/// The call's number, and the places of a served one.
pub fn check(calls: &Calls, case: &Weighed) -> Result<(u32, usize), String> {
    let sky = &case.sky;
    let whole = |calls: &Calls| {
        let room = (&sky.times[..], &sky.told[..]);
        run(calls, sky, &sky.rays, &case.weights, room)
    };
    let (number, at, report, times, told) = whole(calls);
    let wanted = whole(&READING);
    if (number, at, report) != (wanted.0, wanted.1, wanted.2) {
        return Err(format!(
            "watts answers {number} at {at} {report:?}, the reading {} at {} {:?}",
            wanted.0, wanted.1, wanted.2
        ));
    }
    if told != wanted.4 || !all(&times, &wanted.3, same) {
        return Err(format!("watts answers {number} and leaves other places"));
    }
    if number != 0 {
        let kept = report == [99; 6] && told == sky.told && all(&times, &sky.times, same);
        let untouched = if kept { Ok((number, 0)) } else { Err(()) };
        return untouched.map_err(|()| format!("watts answers {number} and writes"));
    }
    let n = case.weights.len();
    parts(
        calls,
        case,
        &report,
        &times[..PLACE_TIMES * n],
        &told[..PLACE_TOLD * n],
    )?;
    Ok((0, n))
}

/// The two parts at the cut, each in exact room.
fn parts(
    calls: &Calls,
    case: &Weighed,
    report: &[u64; 6],
    times: &[f64],
    told: &[u64],
) -> Result<(), String> {
    let (a, n) = (case.cut, case.weights.len());
    let part = |from: usize, to: usize| {
        let n = to - from;
        let room = (vec![-1.5; PLACE_TIMES * n], vec![7; PLACE_TOLD * n]);
        let rays = &case.sky.rays[6 * from..6 * to];
        run(
            calls,
            &case.sky,
            rays,
            &case.weights[from..to],
            (&room.0, &room.1),
        )
    };
    let (first, others) = (part(0, a), part(a, n));
    let added: Vec<u64> = (0..4).map(|k| first.2[k] + others.2[k]).collect();
    let mut share = [9; 2];
    (calls.share)(added[0], added[1], &mut share);
    let sums = added == report[..4] && share == report[4..];
    let placed = [&first.4[..], &others.4].concat() == told
        && all(&[&first.3[..], &others.3].concat(), times, same);
    if (first.0, others.0) == (0, 0) && sums && placed {
        return Ok(());
    }
    Err(format!(
        "cut at {a} the parts add up to {added:?} {share:?}, the whole has {report:?}"
    ))
}

/// Two numbers: any, few, multiples of one number, or about as high as can be.
pub fn share_case(r: &mut Random) -> [u64; 2] {
    let any = |r: &mut Random| r.bits() >> r.below(64);
    match r.below(5) {
        0 => [any(r), any(r)],
        1 => [r.below(50) as u64, r.below(50) as u64],
        2 => [u64::MAX - r.below(9) as u64, u64::MAX - r.below(9) as u64],
        3 => [u64::MAX - r.below(9) as u64, r.below(9) as u64],
        _ => {
            let common = any(r) >> 32;
            [0; 2].map(|_: u64| common * (any(r) >> 32))
        }
    }
}

/// The lower number.
pub fn share(calls: &Calls, [shaded, open]: [u64; 2]) -> Result<u64, String> {
    let run = |calls: &Calls| {
        let mut share = [9; 2];
        let number = (calls.share)(shaded, open, &mut share);
        (number, share)
    };
    let (ours, wanted) = (run(calls), run(&READING));
    if ours != wanted {
        return Err(format!(
            "the share of {shaded} and {open} is {ours:?}, the reading's {wanted:?}"
        ));
    }
    Ok(ours.1[1])
}
