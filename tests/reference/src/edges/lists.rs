//! Lists for the engine: the edges of the em box, disks at the ends of E and S (02, item 10), and the checks in their order.

use super::{Answer, Edge};
use crate::engine::flat;
use crate::letters::points;
use crate::lists::orders;

/// X Y E S, or the number of the refusal.
type Solving = Edge<Vec<i16>, Answer<[i128; 4]>>;

type Pair = (i16, i16);

pub fn solvings() -> Vec<Solving> {
    let rows = ROWS.iter().flat_map(|(says, rows)| rows.iter().map(move |row| (says, row)));
    let of_points = rows.map(|(says, (list, gives))| Edge { says, given: flat(&points(list)), gives: *gives });
    of_points.chain(triangles()).chain(lengths()).collect()
}

/// The list, and what is given.
type Row = (&'static [Pair], Answer<[i128; 4]>);

#[rustfmt::skip]
const ROWS: [(&str, &[Row]); 5] = [
    ("The em box becomes x 0 to 2048 and y −512 to 1536: each edge passes", &[
        (&[(2048, 0)], Ok([2048, 0, 1, 0])),
        (&[(0, 0)], Ok([0, 0, 1, 0])),
        (&[(0, -512)], Ok([0, -512, 1, 0])),
        (&[(0, 1536)], Ok([0, 1536, 1, 0])),
        (&[(0, -512), (2048, 1536)], Ok([1024, 512, 1, 2_097_152])),
        (&[(2048, -512), (0, 1536)], Ok([1024, 512, 1, 2_097_152])),
        (&[(0, -512), (2048, -512), (0, 1536), (2048, 1536)], Ok([1024, 512, 1, 2_097_152])),
        (&[(0, 512), (2048, 512)], Ok([1024, 512, 1, 1_048_576])),
        (&[(1024, -512), (1024, 1536)], Ok([1024, 512, 1, 1_048_576])),
        (&[(0, -512), (2047, 1536)], Ok([2047, 1024, 2, 8_384_513])),
    ]),
    ("The em box becomes x 0 to 2048 and y −512 to 1536: by one beyond it", &[
        (&[(2049, 0)], Err(3)),
        (&[(-1, 0)], Err(3)),
        (&[(0, -513)], Err(3)),
        (&[(0, 1537)], Err(3)),
        (&[(0, 0), (7, 7), (2049, 1536)], Err(3)),
        (&[(0, 0), (2048, 1537), (7, 7)], Err(3)),
        (&[(2048, -513), (0, 0)], Err(3)),
    ]),
    ("The em box becomes ..: beyond 1000, −250 and 750", &[
        (&[(1001, 0)], Ok([1001, 0, 1, 0])),
        (&[(0, -251)], Ok([0, -251, 1, 0])),
        (&[(0, 751)], Ok([0, 751, 1, 0])),
        (&[(1001, 751), (1001, -251)], Ok([1001, 250, 1, 251_001])),
        (&[(0, -250), (1001, 750)], Ok([1001, 500, 2, 2_002_001])),
    ]),
    ("K keeps its four corners", &[
        (&[(0, -250), (1000, -250), (0, 750), (1000, 750)], Ok([500, 250, 1, 500_000])),
    ]),
    ("S no longer fits 64 bits: others inside, between two, and again", &[
        (&[(1024, 512), (0, -512), (2048, -509), (1, 1536)], Ok([8_577_370_109, 4_290_778_103, 8_388_602, 147_286_249_292_406_046_810])),
        (&[(0, -512), (0, -512), (2048, -509), (1024, -511), (1, 1536), (2048, -509)], Ok([8_577_370_109, 4_290_778_103, 8_388_602, 147_286_249_292_406_046_810])),
        (&[(178, -143), (1400, 300), (2023, -249), (2007, 864), (1100, 360)], Ok([4_631_689_451, 1_209_566_027, 4_103_578, 18_446_744_364_319_027_250])),
    ]),
];

/// Acute triangles with a large E, in every order: S below 2⁶³ and above, below 2⁶⁴ and above, and up to its end.
fn triangles() -> Vec<Solving> {
    let rows: [([Pair; 3], [i128; 4]); 8] = [
        ([(0, -250), (1000, -247), (1, 750)], [997_008_997, 499_002_491, 1_999_994, 1_992_029_920_117_928_090]),
        ([(183, 950), (1583, 1347), (1692, 135)], [3_530_416_535, 2_383_782_281, 3_480_146, 9_223_371_907_131_237_050]),
        ([(132, -42), (1723, 874), (1950, -7)], [3_335_589_081, 731_664_755, 3_219_206, 9_223_372_097_824_983_970]),
        ([(544, 557), (1449, -480), (1887, 1423)], [6_656_579_637, 2_191_374_377, 4_352_842, 18_446_741_001_380_373_610]),
        ([(178, -143), (2007, 864), (2023, -249)], [4_631_689_451, 1_209_566_027, 4_103_578, 18_446_744_364_319_027_250]),
        ([(81, 533), (1801, 1460), (1892, -414)], [8_022_869_867, 3_256_216_661, 6_615_274, 56_128_409_488_275_358_090]),
        ([(64, 10), (2025, -415), (2034, 1527)], [9_223_040_943, 4_268_006_749, 7_624_174, 93_872_757_707_766_523_330]),
        ([(0, -512), (2048, -509), (1, 1536)], [8_577_370_109, 4_290_778_103, 8_388_602, 147_286_249_292_406_046_810]),
    ];
    let says = "E goes to 8,388,608 and S/E² to 2,097,152. S no longer fits 64 bits";
    let all_ways = |(three, disk): ([Pair; 3], [i128; 4])| {
        orders(&points(&three)).into_iter().map(move |list| Edge { says, given: flat(&list), gives: Ok(disk) })
    };
    rows.into_iter().flat_map(all_ways).collect()
}

/// Lists of an odd length, with no point and with too many.
fn lengths() -> [Solving; 7] {
    let says = "Engine: 9, 5, 4, 3";
    [
        (vec![2049; 8_193], Err(9)),
        (vec![1; 8_193], Err(9)),
        (vec![0, 0, 2049], Err(9)),
        (vec![], Err(5)),
        (vec![2049; 8_194], Err(4)),
        (vec![1; 8_194], Err(4)),
        ([vec![1; 8_190], vec![0, 1537]].concat(), Err(3)),
    ]
    .map(|(given, gives)| Edge { says, given, gives })
}
