//! Binary STL: what is read, what is written, every refusal and its order, and what
//! stays as it was.

use pigeonmast::{raw, read_stl, read_stl_file, write_stl, write_stl_file};
use pigeonmast::{Refusal, StlError, Triangle};

/// A file of these records: normal, v0, v1, v2, under a header and attributes that
/// are not zero.
fn file(records: &[[u32; 12]]) -> Vec<u8> {
    let mut file = vec![b's'; 80];
    file[..5].copy_from_slice(b"solid");
    file.extend((records.len() as u32).to_le_bytes());
    for record in records {
        file.extend(record.iter().flat_map(|word| word.to_le_bytes()));
        file.extend([1, 2]);
    }
    file
}

const ONE: u32 = 0x3f80_0000;
const TWO_TO_40: u32 = 0x5380_0000;

/// Telling patterns: both zeros, the least and the greatest subnormal number, the
/// least normal one, and the limits themselves.
const TELLING: [u32; 12] = [
    0x8000_0000,
    0x4000_0000,
    0xc000_0000,
    0,
    1,
    0x807f_ffff,
    0x0080_0000,
    TWO_TO_40,
    0x8000_0001,
    ONE,
    0xd380_0000,
    2,
];

fn bits(numbers: &[f64]) -> Vec<u64> {
    numbers.iter().map(|x| x.to_bits()).collect()
}

#[test]
fn reads_each_number_exactly() {
    let (mut triangles, mut materials, mut told) = ([9.0; 14], [9; 2], [9]);
    let answer = raw::read_stl(&file(&[TELLING]), &mut triangles, &mut materials, &mut told);
    assert_eq!((answer, told, materials), (0, [1], [0, 9]));
    let wide = |k: usize| f64::from(f32::from_bits(TELLING[k])).to_bits();
    let wanted: Vec<u64> = (3..12).chain(0..3).map(wide).collect();
    assert_eq!(bits(&triangles[..12]), wanted);
    assert_eq!(triangles[12..], [9.0, 9.0]);
}

#[test]
fn reads_back_what_was_written() {
    let mesh = read_stl(&file(&[TELLING, [ONE; 12]])).expect("both are admitted");
    let written = write_stl(&mesh).expect("every number came from a binary32");
    // The file with its header and its attributes zeroed.
    let mut zeroed = file(&[TELLING, [ONE; 12]]);
    zeroed[..80].fill(0);
    for i in 0..2 {
        zeroed[84 + 50 * i + 48..84 + 50 * i + 50].fill(0);
    }
    assert_eq!(written, zeroed);
    let again = read_stl(&written).expect("it was written");
    let numbers = |mesh: &[Triangle]| bits(Triangle::all_numbers(mesh));
    assert_eq!(numbers(&again), numbers(&mesh));
}

/// The answer of a reading with so much room, which stays as it was.
fn refused(file: &[u8], triangles: usize, materials: usize) -> (u32, u64) {
    let (mut numbers, mut rooms, mut told) = (vec![9.0; triangles], vec![9; materials], [9]);
    let number = raw::read_stl(file, &mut numbers, &mut rooms, &mut told);
    assert!(number == 0 || numbers.iter().all(|x| *x == 9.0) && rooms.iter().all(|m| *m == 9));
    (number, told[0])
}

#[test]
fn refuses_to_read_in_order() {
    let good = file(&[[ONE; 12]; 2]);
    assert_eq!(refused(&good, 24, 2), (0, 2));
    for cut in [0, 83, 84, good.len() - 1] {
        assert_eq!(refused(&good[..cut], 24, 2), (15, 0), "cut to {cut}");
    }
    assert_eq!(refused(&[&good[..], &[0]].concat(), 24, 2), (15, 0));
    // 50 times 2^31 + 2 is 100, modulo 2^32.
    let mut wraps = good.clone();
    wraps[83] = 0x80;
    assert_eq!(refused(&wraps, 24, 2), (15, 0));
    // 2 before 16, 16 before 5, either room
    let many = file(&vec![[ONE; 12]; 65_537]);
    assert_eq!(refused(&many, 0, 0), (2, 65_537));
    let mut bad = [[ONE; 12]; 3];
    bad[1][11] = TWO_TO_40 + 1;
    bad[2][0] = 0x7fc0_0000;
    assert_eq!(refused(&file(&bad), 35, 3), (16, 0));
    assert_eq!(refused(&file(&bad), 36, 2), (16, 0));
    assert_eq!(refused(&file(&bad), 36, 3), (5, 1));
    for pattern in [
        0x7f80_0000,
        0xff80_0000,
        0x7f80_0001,
        0xffc0_0000,
        0x4000_0001,
    ] {
        let mut normal = [[ONE; 12]];
        normal[0][1] = pattern;
        assert_eq!(refused(&file(&normal), 12, 1), (5, 0), "{pattern:x}");
    }
}

#[test]
fn refuses_to_write_in_order() {
    let write = |numbers: &[f64], room: usize| {
        let (mut file, mut told) = (vec![9; room], [9]);
        let number = raw::write_stl(numbers, &mut file, &mut told);
        assert!(number == 0 || file.iter().all(|byte| *byte == 9));
        (number, told[0])
    };
    let mut mesh = vec![1.0; 36];
    assert_eq!(write(&mesh, 234), (0, 234));
    assert_eq!(write(&mesh, 233), (16, 0));
    mesh[13] = 0.1;
    mesh[26] = 0.1;
    assert_eq!(write(&mesh, 233), (17, 1));
    mesh[35] = 2.5;
    assert_eq!(write(&mesh, 233), (5, 2));
    assert_eq!(write(&mesh[..35], 233), (1, 0));
    assert_eq!(write(&vec![0.1; 12 * 65_537], 0), (2, 65_537));
    // Not by magnitude alone: 1 + 2^-24 has a digit more than a binary32, and 2^-150 is below the least.
    for x in [
        1.0 + 2f64.powi(-24),
        2f64.powi(-150),
        3.0 * 2f64.powi(-150),
        f64::MIN_POSITIVE,
    ] {
        assert_eq!(write(&[x; 12], 134), (17, 0), "{x:e}");
    }
    for x in [
        2f64.powi(-149),
        -0.0,
        3.0 * 2f64.powi(-149),
        1.0 + 2f64.powi(-23),
    ] {
        assert_eq!(write(&[x; 12], 134), (0, 134), "{x:e}");
    }
}

#[test]
fn tells_a_text_from_a_cut_file() {
    let text = b"  solid roof\n  facet normal 0 0 1\n    outer loop\n";
    let error = read_stl(text).expect_err("it is text");
    assert!(matches!(error, StlError::Ascii));
    assert_eq!(error.refusal(), Some(Refusal::FileLength));
    assert!(error.to_string().contains("ASCII STL"), "{error}");
    let cut = read_stl(&[0; 100]).expect_err("it is cut");
    assert!(matches!(cut, StlError::Refused(Refusal::FileLength)));
}

#[test]
fn a_path() {
    let path = std::env::temp_dir().join(format!("pigeonmast-{}.stl", std::process::id()));
    let mesh = [Triangle::from([0.5; 12]), Triangle::from([-0.0; 12])];
    write_stl_file(&path, &mesh).expect("the folder can be written");
    assert_eq!(read_stl_file(&path).expect("it was written"), mesh);
    let error =
        write_stl_file(&path, &[Triangle::from([0.1; 12])]).expect_err("0.1 is no binary32");
    assert_eq!(error.refusal(), Some(Refusal::NotSingle { triangle: 0 }));
    assert_eq!(read_stl_file(&path).expect("it is as it was").len(), 2);
    std::fs::remove_file(&path).expect("it is there");
    let gone = read_stl_file(&path).expect_err("it is gone");
    assert!(matches!(gone, StlError::Io(_)) && gone.refusal().is_none());
}
