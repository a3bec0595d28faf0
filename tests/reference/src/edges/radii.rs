//! Disks for the cutting radius (document 02, item 3): for every whole R, S at R²E² and as near to it as disks of letters come.

use super::records::{writing, Numbers, Points, Writing};

const SAYS: &str = "the cutting radius is the least whole R with R²E² greater than S (02, item 3)";

pub fn writings() -> impl Iterator<Item = Writing> {
    let triples = TRIPLES.iter().map(|&(numbers, support, radius)| writing(SAYS, 53, numbers, support, Ok(()), Ok(radius)));
    opposite_points().chain(triples).chain(around_a_point())
}

/// For every whole radius that a letter can have, points that are opposite on its circle, where there are some, else at the nearest square of
/// a distance above: the cutting radius is R + 1. And at the nearest square below: it is R.
fn opposite_points() -> impl Iterator<Item = Writing> {
    let steps = steps_of_squares();
    (1..=1448).flat_map(move |r: usize| {
        let square = 4 * r * r;
        let below = steps[..square].iter().rev().find_map(|&step| step);
        let from_there = steps[square..].iter().find_map(|&step| step);
        let r = r as u64;
        let rows = [below.map(|step| (step, r)), from_there.map(|step| (step, r + 1))];
        rows.into_iter().flatten().map(|(step, radius)| pair(step, radius))
    })
}

/// By the square of the distance of two points of the em box: how far one is to the right of the other, and how far above.
fn steps_of_squares() -> Vec<Option<(i16, i16)>> {
    let mut steps = vec![None; 8_388_609];
    for (right, up) in (0..=2048).flat_map(|right| (0..=2048).map(move |up| (right, up))) {
        steps[right * right + up * up] = Some((right as i16, up as i16));
    }
    steps
}

/// The lower left corner of the em box and a point to the right and above: E is 1 where their middle is whole, else 2.
fn pair((right, up): (i16, i16), radius: u64) -> Writing {
    let (x, y) = (i128::from(right), i128::from(up));
    let square = (x * x + y * y).unsigned_abs();
    let is_whole = x % 2 == 0 && y % 2 == 0;
    let numbers = if is_whole { (x / 2, y / 2 - 512, 1, square / 4) } else { (x, y - 1024, 2, square) };
    writing(SAYS, 53, numbers, &[(0, -512), (right, up - 512)], Ok(()), Ok(radius))
}

/// Disks about a single point or beside it, S at R²E², a step below and a step above: no letter has them.
fn around_a_point() -> impl Iterator<Item = Writing> {
    let says = "the smallest disk of the named corners is the disk. 15 when it fails (02, item 9)";
    let disks = [0, 1, 2, 707, 708, 1447, 1448].into_iter().flat_map(|r| [(r, 0, 1), (r, 1, 2), (r, 1, 8_388_607)]);
    let beside = disks.flat_map(|(r, x, e): (i128, i128, i128)| {
        let s = (r * e).unsigned_abs().pow(2);
        [s.checked_sub(1), Some(s), Some(s + 1)].into_iter().flatten().map(move |s| (x, 0, e, s))
    });
    // S 0 about the point itself is letter A.
    let wrong = beside.filter(|&(.., e, s)| (e, s) != (1, 0));
    wrong.map(move |numbers| writing(says, 53, numbers, &[(0, 0)], Err(15), Err(15)))
}

/// Acute triangles, with E larger than pairs have it, and the cutting radius.
#[rustfmt::skip]
const TRIPLES: [(Numbers, Points, u64); 31] = [
    // S is R²E²: R + 1
    ((39, -1187, 5, 4_225), &[(0, -227), (11, -250), (19, -244)], 14),
    ((364, -977, 5, 207_025), &[(0, -250), (119, -117), (161, -173)], 92),
    ((2384, 538, 5, 8_880_400), &[(0, -250), (304, 678), (976, -218)], 597),
    ((425, -2177, 13, 1_221_025), &[(0, -89), (53, -250), (77, -240)], 86),
    ((4536, 3869, 13, 53_949_025), &[(0, 742), (488, -250), (837, 13)], 566),
    ((1256, -1895, 17, 7_123_561), &[(0, -250), (61, 45), (211, -35)], 158),
    ((9381, 4075, 17, 89_019_225), &[(0, 299), (810, 731), (813, -250)], 556),
    ((12324, 243, 25, 151_905_625), &[(0, 16), (631, 483), (912, -250)], 494),
    ((11193, 3410, 29, 238_918_849), &[(0, -250), (309, 645), (909, 15)], 534),
    ((16060, 9121, 29, 303_770_041), &[(0, 548), (760, -250), (989, 729)], 602),
    // S is R²E² + 1: R + 1
    ((1, 12, 3, 145), &[(0, 0), (0, 8), (3, 1)], 5),
    ((1, 8, 4, 65), &[(0, 0), (0, 4), (2, 1)], 3),
    ((1, 18, 6, 325), &[(0, 0), (0, 6), (3, 2)], 4),
    ((97, -56, 7, 12_545), &[(0, 0), (14, -24), (14, 8)], 17),
    ((967, -44, 44, 937_025), &[(0, 0), (22, -23), (22, 21)], 23),
    ((412, 391, 71, 322_625), &[(0, 0), (3, 13), (13, 9)], 9),
    // S is R²E² − 4, − 5 or − 6: R
    ((26, 7, 3, 725), &[(0, 0), (1, 7), (17, -1)], 9),
    ((11, 10, 5, 221), &[(0, 0), (0, 4), (5, 1)], 3),
    ((53, 34, 7, 3_965), &[(0, 0), (1, 11), (16, 8)], 9),
    ((49, 86, 9, 9_797), &[(0, 0), (2, 20), (15, 15)], 11),
    ((38, -24, 3, 2_020), &[(0, 0), (18, -22), (18, 6)], 15),
    ((9, 13, 4, 250), &[(0, 0), (1, 7), (6, 2)], 4),
    // S is below R²E² by less than E² / 100: R
    ((94_372_036, 63_055_593, 207_084, 4_015_465_894_852_345), &[(191, 151), (398, 605), (752, 381)], 306),
    ((247_137_691, 152_385_385, 632_370, 63_663_176_817_038_786), &[(263, -137), (328, 635), (723, 462)], 399),
    ((549_109_925, 244_950_763, 1_057_118, 236_462_669_229_376_850), &[(149, -41), (300, 636), (971, 144)], 460),
    ((4_911_550_417, 1_337_072_451, 5_358_178, 31_172_362_043_426_802_250), &[(24, -288), (581, 1236), (1957, 191)], 1042),
    ((5_236_784_533, 1_640_807_119, 5_430_382, 31_589_406_116_234_100_602), &[(141, -325), (1152, 1320), (1877, -186)], 1035),
    // S is above R²E² by less than E² / 100: R + 1
    ((5_107_328_065, 5_530_808_691, 5_098_438, 27_845_497_680_398_308_090), &[(4, 1360), (837, 63), (2017, 1286)], 1036),
    ((58_546_359, -12_082_331, 128_150, 415_175_289_311_042), &[(298, -101), (542, 40), (569, -207)], 160),
    ((535_497_575, 195_308_017, 767_802, 174_460_165_934_513_570), &[(154, 279), (956, 733), (969, -217)], 545),
    ((645_955_167, 132_649_265, 1_284_202, 412_293_707_920_696_850), &[(91, -180), (362, 583), (967, -83)], 501),
];
