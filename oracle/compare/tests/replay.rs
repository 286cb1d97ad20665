//! The stored replay data is what is written today, can be read from front to
//! back with nothing but the sizes in it, and holds what the reading answers.

use compare::calls::{all, equal, same, READING};
use compare::replay::{numbers, record, words, write, MAGIC};
use compare::{Lent, Lists};
use reading::{HIT_NUMBERS, WALK_TOLD};

const STORED: &[u8] = include_bytes!("../../../crates/replay/data/answers.bin");

struct Reader<'a>(&'a [u8]);

impl Reader<'_> {
    fn bytes<const K: usize>(&mut self) -> [u8; K] {
        let (now, rest) = self.0.split_at(K);
        self.0 = rest;
        now.try_into().unwrap()
    }

    fn word(&mut self) -> u32 {
        u32::from_le_bytes(self.bytes())
    }

    fn words(&mut self, n: usize) -> Vec<u32> {
        (0..n).map(|_| self.word()).collect()
    }

    fn numbers(&mut self, n: usize) -> Vec<f64> {
        (0..n).map(|_| f64::from_le_bytes(self.bytes())).collect()
    }

    fn record<const K: usize>(&mut self) -> [f64; K] {
        self.numbers(K).try_into().unwrap()
    }

    fn longs(&mut self, n: usize) -> Vec<u64> {
        (0..n).map(|_| u64::from_le_bytes(self.bytes())).collect()
    }

    fn told<const K: usize>(&mut self) -> [u64; K] {
        self.longs(K).try_into().unwrap()
    }
}

fn build(r: &mut Reader) {
    let [t, i, b, l] = [0; 4].map(|_: u32| r.word() as usize);
    let mesh = r.numbers(t);
    let (mut index, mut boxes, mut links) = (words(i), numbers(b), words(l));
    let mut told = [0; 2];
    let number = (READING.build)(&mesh, &mut index, &mut boxes, &mut links, &mut told);
    assert_eq!((number, told), (r.word(), r.told()));
    assert_eq!(index, r.words(i));
    assert!(all(&boxes, &r.numbers(b), equal));
    assert_eq!(links, r.words(l));
}

/// A mesh, its materials, and a tree.
fn tree(r: &mut Reader) -> (Vec<f64>, Vec<u32>, Lists) {
    let [t, i, b, l] = [0; 4].map(|_: u32| r.word() as usize);
    let mesh = r.numbers(t);
    let m = r.word() as usize;
    let materials = r.words(m);
    let lists = Lists {
        index: r.words(i),
        boxes: r.numbers(b),
        links: r.words(l),
    };
    (mesh, materials, lists)
}

fn lent((mesh, materials, lists): &(Vec<f64>, Vec<u32>, Lists)) -> Lent<'_> {
    Lent {
        mesh,
        materials,
        lists,
    }
}

fn sky(r: &mut Reader) {
    let tree = tree(r);
    let [y, t, o] = [0; 3].map(|_: u32| r.word() as usize);
    let (rays, mut times) = (r.numbers(y), r.numbers(t));
    let (mut told, mut at) = (r.longs(o), [u64::MAX]);
    let number = READING.sky_lent(lent(&tree), &rays, &mut times, &mut told, &mut at);
    assert_eq!((number, at), (r.word(), r.told()));
    assert!(all(&times, &r.numbers(t), same));
    assert_eq!(told, r.longs(o));
}

fn walk(r: &mut Reader) -> u32 {
    let tree = tree(r);
    let rays = r.word();
    for _ in 0..rays {
        let ray = r.record();
        let (mut numbers, mut told) = (record(), [0; WALK_TOLD]);
        let answer = READING.walk_lent(lent(&tree), &ray, &mut numbers, &mut told);
        assert_eq!(answer, r.word());
        assert!(all(&numbers, &r.numbers(HIT_NUMBERS), same));
        assert_eq!(told, r.told());
    }
    rays
}

#[test]
fn reads_from_front_to_back() {
    let (file, answers) = write().unwrap();
    assert!(
        file == STORED,
        "answers.bin is not what write_replay writes"
    );
    let mut r = Reader(&file);
    assert_eq!(&r.bytes(), MAGIC);
    let cases = r.word();
    let mut compared = 0;
    for _ in 0..cases {
        compared += 1;
        match r.bytes() {
            [1] => build(&mut r),
            [2] => compared += walk(&mut r) - 1,
            [3] => {
                let (bounds, ray, mut times) = (r.record(), r.record(), record());
                assert_eq!((READING.slab)(&bounds, &ray, &mut times), r.word());
                assert!(all(&times, &r.numbers(2), equal));
            }
            [4] => {
                let (t, ray, mut numbers) = (r.record(), r.record(), record());
                assert_eq!((READING.triangle)(&t, &ray, &mut numbers), r.word());
                assert!(all(&numbers, &r.numbers(HIT_NUMBERS), same));
            }
            [5] => sky(&mut r),
            [kind] => panic!("kind {kind}"),
        }
    }
    assert!(r.0.is_empty());
    assert_eq!(answers.values().sum::<u32>(), compared);
    for number in [0, 1, 5, 7, 8, 9, 10, 11, 12, 18, 100] {
        assert!(answers.contains_key(&("walk", number)), "walk {number}");
    }
    for number in [0, 1, 13, 14, 18] {
        assert!(answers.contains_key(&("sky", number)), "sky {number}");
    }
    for number in [0, 1, 3, 4, 5, 6] {
        assert!(answers.contains_key(&("build", number)), "build {number}");
    }
}
