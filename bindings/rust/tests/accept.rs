//! Trees from elsewhere: what is accepted, and the condition and place of what
//! is not.

use pigeonmast::{build_bvh, raw, Bvh, Condition, Refusal, Triangle};

fn row() -> Vec<Triangle> {
    let at = |s| [s, 0.0, 0.0, s + 3.0, 0.0, 0.0, s, 3.0, 0.0, 0.0, 0.0, 1.0];
    [0.0, 16.0, 32.0, 48.0, 64.0]
        .map(at)
        .map(Triangle::from)
        .into()
}

/// The row's lists: index 0, 1, 3, 4, 2; nodes 0 (children 1, 2), leaves of 2
/// and 3.
struct Lists {
    mesh: Vec<f64>,
    index: Vec<u32>,
    boxes: Vec<f64>,
    links: Vec<u32>,
}

fn lists() -> Lists {
    let bvh = build_bvh(&row()).expect("the row is built");
    Lists {
        mesh: Triangle::all_numbers(&row()).to_vec(),
        index: bvh.indices().to_vec(),
        boxes: bvh.boxes().to_vec(),
        links: bvh.links().to_vec(),
    }
}

/// What is said of the row with something changed.
fn with(change: impl Fn(&mut Lists)) -> Result<Bvh, Refusal> {
    let mut l = lists();
    change(&mut l);
    Bvh::from_lists(l.mesh, l.index, l.boxes, l.links)
}

fn broken(condition: Condition, place: u64) -> Result<Bvh, Refusal> {
    Err(Refusal::ConditionBroken { condition, place })
}

#[test]
fn a_built_tree_is_accepted() {
    assert_eq!(with(|_| ()), build_bvh(&row()));
    let none = build_bvh(&[]).expect("no triangles are built");
    let (boxes, links) = (none.boxes().to_vec(), none.links().to_vec());
    assert_eq!(Bvh::from_lists(vec![], vec![], boxes, links), Ok(none));
}

#[test]
fn each_condition_tells_its_lowest_place() {
    use Condition::{Boxes, Cover, Nodes, Parents, Permutation, Reach};
    assert_eq!(with(|l| l.links[7] = 0), broken(Nodes, 2));
    assert_eq!(with(|l| l.links[7] = 4), broken(Nodes, 2));
    assert_eq!(with(|l| l.links[0] = 2), broken(Nodes, 0));
    assert_eq!(with(|l| l.boxes[8] = f64::NAN), broken(Nodes, 1));
    assert_eq!(with(|l| l.mesh.clear()), broken(Nodes, 0));
    assert_eq!(with(|l| l.links[0] = 0), broken(Parents, 0));
    // Two more nodes, which are each other's children and their own.
    let loops = |l: &mut Lists| {
        l.links.extend([3, 0, 0, 0, 1, 1]);
        l.boxes.extend_from_within(..12);
    };
    assert_eq!(with(loops), broken(Reach, 3));
    assert_eq!(with(|l| l.links[4] = 1), broken(Cover, 1));
    assert_eq!(with(|l| l.links[6] = 1), broken(Cover, 1));
    assert_eq!(with(|l| l.index.push(2)), broken(Cover, 5));
    assert_eq!(with(|l| l.index[3] = 5), broken(Permutation, 3));
    assert_eq!(with(|l| l.index[4] = 1), broken(Permutation, 4));
    let lacking = |l: &mut Lists| {
        l.index.pop();
        l.links[7] = 2;
    };
    assert_eq!(with(lacking), broken(Permutation, 4));
    assert_eq!(with(|l| l.boxes[3] = 66.0), broken(Boxes, 0));
    assert_eq!(with(|l| l.boxes[12] = 33.0), broken(Boxes, 2));
    // The first condition goes before the lower place.
    let both = |l: &mut Lists| {
        l.boxes[3] = 66.0;
        l.index[4] = 1;
    };
    assert_eq!(with(both), broken(Permutation, 4));
}

#[test]
fn other_refusals_go_first() {
    let told = |r: Result<Bvh, Refusal>| r.map_err(|r| (r.number(), r.at())).unwrap_err();
    assert_eq!(told(with(|l| l.mesh.truncate(59))), (1, 0));
    assert_eq!(told(with(|l| l.mesh.resize(12 * 65_537, 0.0))), (2, 65_537));
    assert_eq!(told(with(|l| l.links.truncate(8))), (8, 0));
    let late = |l: &mut Lists| {
        l.mesh[12 * 3] = f64::NAN;
        l.links[7] = 0;
    };
    assert_eq!(told(with(late)), (5, 3));
}

#[test]
fn the_work_room_is_zero_or_as_it_was() {
    let mut l = lists();
    let say = |l: &Lists, room: usize| {
        let (mut work, mut told) = (vec![7; room], [7; 2]);
        let number = raw::accept(&l.mesh, &l.index, &l.boxes, &l.links, &mut work, &mut told);
        (number, told, work)
    };
    assert_eq!(say(&l, 7), (16, [0, 0], vec![7; 7]));
    assert_eq!(say(&l, 8), (0, [0, 0], vec![0; 8]));
    assert_eq!(say(&l, 10), (0, [0, 0], vec![0; 10]));
    l.index[0] = 1;
    assert_eq!(say(&l, 10), (19, [5, 1], vec![0; 10]));
    l.mesh[5] = f64::INFINITY;
    assert_eq!(say(&l, 10), (5, [0, 0], vec![7; 10]));
}
