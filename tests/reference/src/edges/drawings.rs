//! Points from a drawing program, how many points are there and the length of the lent list (02, item 2).

use super::{Answer, Edge};
use crate::drawing::DrawnPoint::{self, Drawn, Whole};
use crate::inputs::AppendCase;

/// The point that is put behind the others, or the number of the refusal.
type Appending = Edge<AppendCase, Answer<(i16, i16)>>;

/// More numbers than a list has to have.
const AMPLE: usize = 8_200;

pub fn drawings() -> Vec<Appending> {
    [floats(), wholes(), orders(), places(), letters()].concat()
}

fn appending(says: &'static str, point: DrawnPoint, n: u64, room: usize, gives: Answer<(i16, i16)>) -> Appending {
    Edge { says, given: AppendCase { point, n, room, front: vec![] }, gives }
}

/// A float by its bits, and what it gives as x beside y 0, and as y beside x 0.
type Row = (u64, Answer<i16>, Answer<i16>);

#[rustfmt::skip]
const FLOATS: [(&str, &[Row]); 6] = [
    ("A float is taken only when it stands for a whole number exactly; minus zero is 0", &[
        (0x0000_0000_0000_0000, Ok(0), Ok(0)),
        (0x8000_0000_0000_0000, Ok(0), Ok(0)),
        (0x3FF0_0000_0000_0000, Ok(1), Ok(1)),       // 1
        (0x4008_0000_0000_0000, Ok(3), Ok(3)),       // 3
        (0x4087_7000_0000_0000, Ok(750), Ok(750)),   // 750
        (0x4087_7800_0000_0000, Ok(751), Ok(751)),   // 751
        (0x408F_4800_0000_0000, Ok(1001), Ok(1001)), // 1001
        (0x4098_0000_0000_0000, Ok(1536), Ok(1536)), // 1536
    ]),
    ("3: a corner outside the em box", &[
        (0x4098_0400_0000_0000, Ok(1537), Err(3)),   // 1537
        (0x40A0_0000_0000_0000, Ok(2048), Err(3)),   // 2048
        (0x40A0_0200_0000_0000, Err(3), Err(3)),     // 2049
        (0xBFF0_0000_0000_0000, Err(3), Ok(-1)),     // −1
        (0xC06F_6000_0000_0000, Err(3), Ok(-251)),   // −251
        (0xC080_0000_0000_0000, Err(3), Ok(-512)),   // −512
        (0xC080_0800_0000_0000, Err(3), Err(3)),     // −513
        (0x40F0_0000_0000_0000, Err(3), Err(3)),     // 2^16
        (0xC0F0_0000_0000_0000, Err(3), Err(3)),     // −2^16
        (0x40F0_0050_0000_0000, Err(3), Err(3)),     // 2^16 + 5
        (0x41E0_0000_0000_0000, Err(3), Err(3)),     // 2^31
        (0x41F0_0000_0000_0000, Err(3), Err(3)),     // 2^32
    ]),
    ("11 for .. a float with a fraction", &[
        (0x3FE0_0000_0000_0000, Err(11), Err(11)),   // 0.5
        (0xBFE0_0000_0000_0000, Err(11), Err(11)),   // −0.5
        (0x3FB9_9999_9999_999A, Err(11), Err(11)),   // 0.1
        (0x409F_FFFF_FFFF_FFFF, Err(11), Err(11)),   // the float below 2048
        (0x40A0_0000_0000_0001, Err(11), Err(11)),   // the one above
        (0x4097_FFFF_FFFF_FFFF, Err(11), Err(11)),   // the float below 1536
        (0x4098_0000_0000_0001, Err(11), Err(11)),   // the one above
        (0xC07F_FFFF_FFFF_FFFF, Err(11), Err(11)),   // the float above −512
        (0xC080_0000_0000_0001, Err(11), Err(11)),   // the one below
        (0x3FF0_0000_0000_0001, Err(11), Err(11)),   // the float above 1
        (0x432F_FFFF_FFFF_FFFF, Err(11), Err(11)),   // 2^52 − 1/2, the largest with a fraction
        (0xC32F_FFFF_FFFF_FFFF, Err(11), Err(11)),
    ]),
    ("11 for .. a float with a fraction: subnormals, and the least normal float", &[
        (0x0000_0000_0000_0001, Err(11), Err(11)),
        (0x8000_0000_0000_0001, Err(11), Err(11)),
        (0x000F_FFFF_FFFF_FFFF, Err(11), Err(11)),
        (0x0010_0000_0000_0000, Err(11), Err(11)),
    ]),
    ("11 for a NaN, an infinity", &[
        (0x7FF0_0000_0000_0000, Err(11), Err(11)),
        (0xFFF0_0000_0000_0000, Err(11), Err(11)),
        (0x7FF8_0000_0000_0000, Err(11), Err(11)),
        (0xFFF8_0000_0000_0000, Err(11), Err(11)),
        (0x7FF0_0000_0000_0001, Err(11), Err(11)),
        (0xFFFF_FFFF_FFFF_FFFF, Err(11), Err(11)),
    ]),
    ("11 for .. a float with a fraction: none has one from 2^52 on, so these are whole, and outside the em box", &[
        (0x4330_0000_0000_0000, Err(3), Err(3)),     // 2^52
        (0x433F_FFFF_FFFF_FFFF, Err(3), Err(3)),     // 2^53 − 1
        (0x4340_0000_0000_0000, Err(3), Err(3)),     // 2^53
        (0xC340_0000_0000_0000, Err(3), Err(3)),
        (0x4340_0000_0000_0001, Err(3), Err(3)),     // 2^53 + 2
        (0x43DF_FFFF_FFFF_FFFF, Err(3), Err(3)),     // the float below 2^63
        (0x43E0_0000_0000_0000, Err(3), Err(3)),     // 2^63
        (0xC3E0_0000_0000_0000, Err(3), Err(3)),     // −2^63
        (0xC3E0_0000_0000_0001, Err(3), Err(3)),
        (0x43F0_0000_0000_0000, Err(3), Err(3)),     // 2^64
        (0x7E37_E43C_8800_759C, Err(3), Err(3)),     // 1e300
        (0xFE37_E43C_8800_759C, Err(3), Err(3)),
        (0x7FEF_FFFF_FFFF_FFFF, Err(3), Err(3)),     // the largest float
        (0xFFEF_FFFF_FFFF_FFFF, Err(3), Err(3)),
    ]),
];

fn floats() -> Vec<Appending> {
    let rows = FLOATS.iter().flat_map(|(says, rows)| rows.iter().map(move |row| (says, row)));
    let both = |(says, (bits, x, y)): (&&'static str, &Row)| {
        let v = f64::from_bits(*bits);
        [appending(says, Drawn(v, 0.0), 3, AMPLE, x.map(|x| (x, 0))), appending(says, Drawn(0.0, v), 3, AMPLE, y.map(|y| (0, y)))]
    };
    rows.flat_map(both).collect()
}

fn wholes() -> Vec<Appending> {
    let says = "hands over a corner .. as two whole numbers. 3: a corner outside the em box";
    let rows = [
        ((0, 0), Ok((0, 0))),
        ((2048, -512), Ok((2048, -512))),
        ((0, 1536), Ok((0, 1536))),
        ((1001, 751), Ok((1001, 751))),
        ((1001, -251), Ok((1001, -251))),
        ((2049, 0), Err(3)),
        ((-1, 0), Err(3)),
        ((0, 1537), Err(3)),
        ((0, -513), Err(3)),
        ((65_536, 0), Err(3)),
        ((0, 65_536), Err(3)),
        ((-65_536, 5), Err(3)),
        ((i32::MAX, 0), Err(3)),
        ((i32::MIN, 0), Err(3)),
        ((0, i32::MAX), Err(3)),
        ((0, i32::MIN), Err(3)),
    ];
    rows.map(|((x, y), gives)| appending(says, Whole(x, y), 3, AMPLE, gives)).into()
}

/// Two faults at once.
fn orders() -> Vec<Appending> {
    let says = "Checks: 8 first, as for the loader; 11 ..; then 3; then 4 when 4,096 or more are there";
    let nan = f64::NAN;
    let rows = [
        // 8 with 11, 3 and 4
        (Drawn(nan, nan), 0, 8_191, Err(8)),
        (Drawn(0.5, 0.0), 0, 0, Err(8)),
        (Drawn(0.0, f64::INFINITY), 4_096, 8_190, Err(8)),
        (Drawn(1e300, 0.0), 0, 8_191, Err(8)),
        (Whole(2049, 0), 0, 8_191, Err(8)),
        (Whole(0, 0), 4_096, 8_191, Err(8)),
        (Whole(0, 0), u64::MAX, 0, Err(8)),
        // 11 with 3
        (Drawn(nan, 5_000.0), 0, AMPLE, Err(11)),
        (Drawn(5_000.0, nan), 0, AMPLE, Err(11)),
        (Drawn(5_000.0, 0.5), 0, AMPLE, Err(11)),
        (Drawn(0.5, 5_000.0), 0, AMPLE, Err(11)),
        (Drawn(1e300, f64::NEG_INFINITY), 0, AMPLE, Err(11)),
        (Drawn(f64::INFINITY, -1e300), 0, AMPLE, Err(11)),
        // 11 with 4, and with both
        (Drawn(0.5, 0.0), 4_096, AMPLE, Err(11)),
        (Drawn(0.0, -0.5), u64::MAX, AMPLE, Err(11)),
        (Drawn(5_000.0, 0.5), 4_097, AMPLE, Err(11)),
        // 3 with 4
        (Whole(2049, 0), 4_096, AMPLE, Err(3)),
        (Drawn(0.0, 1537.0), 4_096, AMPLE, Err(3)),
        (Drawn(1e300, 0.0), u64::MAX, AMPLE, Err(3)),
        (Drawn(0.0, -1e300), 4_097, 8_192, Err(3)),
    ];
    rows.map(|(point, n, room, gives)| appending(says, point, n, room, gives)).into()
}

/// The first place, the last, and beyond.
fn places() -> Vec<Appending> {
    let says = "it puts the corner behind them, leaves the rest, and returns the new number .. 4 when 4,096 or more are there";
    let four = [4_096, 4_097, 8_192, 1 << 32, 1 << 63, u64::MAX];
    let refused = four.iter().flat_map(|&n| [8_192, AMPLE].map(|room| (n, room, Err(4))));
    let taken = [0, 1, 4_094, 4_095].into_iter().flat_map(|n| [8_192, 8_193, AMPLE].map(|room| (n, room, Ok((7, -8)))));
    let both = |(n, room, gives)| [Whole(7, -8), Drawn(7.0, -8.0)].map(|point| appending(says, point, n, room, gives));
    refused.chain(taken).flat_map(both).collect()
}

/// The last corner of letter F, and of a list whose first corner the engine refuses: the call does not look at it.
fn letters() -> Vec<Appending> {
    let says =
        "Whole and float corners of equal value, put behind the same corners, lead to the same disk, rim, record and count";
    let fronts = [vec![0, 0, 4, 0], vec![2049, 0, 4, 0], vec![0, 0, 4, 0, 9, 9, -5]];
    let with = |front: Vec<i16>| {
        [Whole(2, 3), Drawn(2.0, 3.0)].map(|point| {
            let given = AppendCase { point, n: 2, room: 8_193, front: front.clone() };
            Edge { says, given, gives: Ok((2, 3)) }
        })
    };
    fronts.into_iter().flat_map(with).collect()
}
