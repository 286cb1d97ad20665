//! The deepest builds, on a small stack: the builder has no scratch but
//! fixed-size locals, and calls itself 63 levels deep at most.

use pigeonmast::raw;

/// Points of which each split can take only one away: two on each axis around a
/// cluster, and so on inward. n of them make a tree of depth n - 4.
fn chain(n: usize) -> Vec<f64> {
    let mut mesh = Vec::new();
    for k in 0..n {
        let mut point = [0.0; 3];
        let side = [1.0, -0.9][k % 2];
        point[k / 2 % 3] = side * 2.0_f64.powi(39) / 34.0_f64.powi((k / 6) as i32);
        mesh.extend([point, point, point, [0.0, 0.0, 1.0]].as_flattened());
    }
    mesh
}

/// What a build of n such points in exact room answers, with its first number
/// and whether everything lent is zero after it.
fn build(n: usize) -> (u32, u64, bool) {
    let nodes = 2 * n - 1;
    let (mut index, mut boxes, mut links) = (vec![9; n], vec![9.0; 6 * nodes], vec![9; 3 * nodes]);
    let mut told = [0; 2];
    let number = raw::build(&chain(n), &mut index, &mut boxes, &mut links, &mut told);
    let zero = index.iter().chain(&links).all(|k| *k == 0) && boxes.iter().all(|x| *x == 0.0);
    (number, told[0], zero)
}

#[test]
fn of_63_levels_is_served_and_of_64_refused() {
    let answers = || [67, 68].map(build);
    let thread = std::thread::Builder::new().stack_size(96 * 1024);
    let answers = thread.spawn(answers).unwrap().join().unwrap();
    assert_eq!(answers, [(0, 127, false), (6, 0, true)]);
}
