//! The watts of a sky of rays: they add up, and a refused call writes nothing.

use pigeonmast::{raw, Bvh, Ray, Refusal, Report};

const T: [f64; 12] = [0.0, 0.0, 0.0, 1.0, 0.0, 0.0, 0.0, 1.0, 0.0, 0.0, 0.0, 1.0];

/// Down on the triangle, past it, or refused.
fn ray(k: usize) -> Ray {
    Ray::from([[0.25, 2.0, f64::NAN][k % 3], 0.25, 1.0, 0.0, 0.0, -1.0])
}

fn bvh() -> Bvh {
    Bvh::from_numbers(T.to_vec()).expect("T is admitted")
}

#[test]
fn weights_go_by_how_a_ray_ends() {
    let rays: Vec<Ray> = (0..6).map(ray).collect();
    let watts = bvh().watts(&rays, &[1, 20, 300, 4_000, 50_000, 600_000]);
    let report = watts.expect("it is served").report;
    let figures = [report.shaded, report.open, report.refused, report.total];
    assert_eq!(figures, [4_001, 50_020, 600_300, 654_321]);
    assert_eq!(report.share(), Some((4_001, 54_021)));
}

#[test]
fn weights_at_their_limit_do_not_wrap() {
    let rays = vec![ray(0); 3];
    let report = bvh()
        .watts(&rays, &[u32::MAX; 3])
        .expect("it is served")
        .report;
    assert_eq!(report.shaded, 3 * u64::from(u32::MAX));
    assert_eq!(
        (report.total, report.share()),
        (report.shaded, Some((1, 1)))
    );
}

#[test]
fn parts_add_up_to_the_whole() {
    let rays: Vec<Ray> = (0..20).map(ray).collect();
    let weights: Vec<u32> = (0..20).map(|k| 7 * k * k + 3).collect();
    let whole = bvh().watts(&rays, &weights).expect("it is served");
    for size in 1..=20 {
        let parts = rays.chunks(size).zip(weights.chunks(size));
        let parts: Vec<_> = parts
            .map(|(rays, weights)| bvh().watts(rays, weights).expect("a part is served"))
            .collect();
        let report: Report = parts.iter().map(|part| part.report).sum();
        assert_eq!(
            (report, report.share()),
            (whole.report, whole.report.share())
        );
        let places: Vec<_> = parts.into_iter().flat_map(|part| part.places).collect();
        assert_eq!(places, whole.places);
    }
}

#[test]
fn nothing_answered_is_nought_of_one() {
    assert_eq!(Report::default().share(), Some((0, 1)));
    let report = bvh().watts(&[ray(2)], &[9]).expect("it is served").report;
    assert_eq!((report.refused, report.share()), (9, Some((0, 1))));
    assert_eq!(
        bvh().watts(&[], &[]).expect("it is served").report,
        Report::default()
    );
}

#[test]
fn the_share_is_in_lowest_terms_or_does_not_fit() {
    let share = |shaded, open| {
        let mut share = [9; 2];
        assert_eq!(raw::share(shaded, open, &mut share), 0);
        share
    };
    assert_eq!(share(0, 850), [0, 1]);
    assert_eq!(share(850, 0), [1, 1]);
    assert_eq!(share(600, 400), [3, 5]);
    assert_eq!(share(u64::MAX, u64::MAX), [1, 2]);
    assert_eq!(share(u64::MAX - 1, 1), [u64::MAX - 1, u64::MAX]);
    assert_eq!(share(u64::MAX, 1), [0, 0]);
    let beyond = Report {
        shaded: u64::MAX,
        open: 1,
        ..Report::default()
    };
    assert_eq!(beyond.share(), None);
    assert!(beyond.to_string().ends_with("share   beyond 64 bits"));
}

#[test]
#[should_panic(expected = "the watts pass 64 bits")]
fn a_sum_that_passes_64_bits_is_told() {
    let most = Report {
        open: u64::MAX,
        ..Report::default()
    };
    let _ = most + most;
}

#[test]
fn refusals_are_told_in_their_order_and_write_nothing() {
    let rays = [0.25, 0.25, 1.0, 0.0, 0.0, -1.0].repeat(2);
    let run = |mesh: &[f64], materials: &[u32], rays: &[f64], weights: &[u32], room: usize| {
        let mut times = vec![9.0; raw::PLACE_TIMES * room];
        let mut told = vec![9; raw::PLACE_TOLD * room];
        let (mut report, mut at) = ([9; 6], [9]);
        let number = raw::watts(
            mesh,
            materials,
            &[0],
            &[0.0; 6],
            &[0, 1, 1],
            rays,
            weights,
            &mut times,
            &mut told,
            &mut report,
            &mut at,
        );
        if number != 0 {
            assert!(times.iter().all(|x| *x == 9.0) && told.iter().all(|x| *x == 9));
            assert_eq!((report, at), ([9; 6], [0]));
        }
        number
    };
    assert_eq!(run(&T[1..], &[], &rays[1..], &[1], 0), 1);
    assert_eq!(run(&T, &[], &rays[1..], &[1], 0), 18);
    assert_eq!(run(&T, &[5], &rays[1..], &[1], 0), 14);
    assert_eq!(run(&T, &[5], &rays, &[1], 1), 13);
    assert_eq!(run(&T, &[5], &rays, &[1], 2), 27);
    assert_eq!(run(&T, &[5], &rays, &[1, 2, 3], 2), 27);
    assert_eq!(run(&T, &[5], &rays, &[1, 2], 2), 0);
    let refusal = bvh().watts(&[ray(0)], &[]).unwrap_err();
    assert_eq!((refusal, refusal.number()), (Refusal::WeightsDiffer, 27));
}

#[test]
fn a_ray_more_than_a_million_and_some_is_too_many() {
    let rays = vec![ray(1); 1_048_577];
    let weights = vec![u32::MAX; 1_048_577];
    let most = 1_048_576;
    let report = bvh()
        .watts(&rays[..most], &weights[..most])
        .expect("it is served")
        .report;
    assert_eq!(report.open, 1_048_576 * u64::from(u32::MAX));
    assert_eq!(report.total, report.open);
    let refusal = bvh().watts(&rays, &weights).unwrap_err();
    assert_eq!(
        (refusal, refusal.number(), refusal.at()),
        (Refusal::TooManyRays, 28, 0)
    );
    let refusal = bvh().watts(&rays, &weights[..most]).unwrap_err();
    assert_eq!(refusal.number(), 27);
}
