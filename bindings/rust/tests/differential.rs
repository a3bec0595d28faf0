//! The wrappers against the independent implementation in `tests/reference`, on drawn input. Every case has a fixed seed; a failure
//! names it.

mod belonging;
mod hull;
mod point_lists;
mod previews;
mod records;
mod sheet_estimate;
mod sheet_run;
mod sheets;
mod stretch;

use reference::chosen;
use reference::damage;
use reference::drawing;
use reference::engine::{flat, points_of, solve};
use reference::geometry::{Disk as ExpectedDisk, Point as ExpectedPoint};
use reference::inputs::AppendCase;
use reference::limits::EM;
use reference::random::Random;
use reference::traced;
use reference::{description, edges, figures, letters, lists, record, refusal, sheet};
use volkhidar::*;

fn number<T>(answer: Result<T, refusal::Refusal>) -> Result<T, u8> {
    answer.map_err(|refusal| refusal.number())
}

fn ours<T>(answer: Result<T, Refusal>) -> Result<T, u8> {
    answer.map_err(|refusal| refusal.number())
}

fn disk_of(disk: Disk) -> ExpectedDisk {
    ExpectedDisk { x: disk.x.into(), y: disk.y.into(), e: disk.e.into(), s: disk.s }
}

fn point_of(point: Point) -> ExpectedPoint {
    ExpectedPoint::new(point.x, point.y)
}

fn points(support: SupportSet) -> Vec<ExpectedPoint> {
    support.points().into_iter().map(point_of).collect()
}

/// The disk and support set for our calls, where their types can hold them.
fn lent(disk: &ExpectedDisk, support: &[ExpectedPoint]) -> Option<(Disk, SupportSet)> {
    let at = |i: usize| Point { x: support[i].x, y: support[i].y };
    let set = match support.len() {
        1 => SupportSet::One(at(0)),
        2 => SupportSet::Two(at(0), at(1)),
        3 => SupportSet::Three(at(0), at(1), at(2)),
        _ => return None,
    };
    let (x, y) = (disk.x.try_into().ok()?, disk.y.try_into().ok()?);
    Some((Disk { x, y, e: disk.e.try_into().ok()?, s: disk.s }, set))
}

/// The engine on a list, then radius, preview and record of what it found.
fn compare_list(list: &[i16], name: &str) {
    let (mut left, mut expected_left) = (list.to_vec(), list.to_vec());
    let found = ours(smallest_disk(&mut left));
    let expected = number(solve(&mut expected_left));
    assert_eq!(left, expected_left, "order left: {name}");
    let seen = found.map(|f| (disk_of(f.disk), points(f.support), f.tests));
    assert_eq!(seen, expected.map(|a| (a.disk, a.support, a.tests)), "{name}");
    if let Ok(found) = found {
        compare_figures(found.disk, found.support, name);
        compare_writer(found.disk, found.support, 60, name);
    }
}

fn compare_figures(disk: Disk, support: SupportSet, name: &str) {
    let (d, t) = (disk_of(disk), points(support));
    assert_eq!(ours(whole_radius(disk, support)), number(figures::whole_radius(&d, &t)), "radius: {name}");
    let bits = |p: Preview| [p.x, p.y, p.radius].map(f64::to_bits);
    let expected = number(figures::preview(&d, &t)).map(|p| p.bits());
    assert_eq!(ours(preview(disk, support)).map(bits), expected, "preview: {name}");
}

fn compare_writer(disk: Disk, support: SupportSet, room: usize, name: &str) {
    let (mut buffer, mut expected_buffer) = (vec![0xEE; room], vec![0xEE; room]);
    let written = ours(write_record(disk, support, &mut buffer));
    let expected = number(record::write(&disk_of(disk), &points(support), &mut expected_buffer));
    assert_eq!((written, &buffer), (expected, &expected_buffer), "writer: {name}");
    if written.is_ok() {
        assert_eq!(read_record(&buffer[..RECORD_LENGTH]), Ok((disk, support)), "read back: {name}");
    }
}

/// A record's form in 53 bytes: for one of 45 the same numbers, with eight zeros before S.
fn widened(bytes: &[u8]) -> Vec<u8> {
    let zeros = if bytes.len() == OLD_RECORD_LENGTH { vec![0; RECORD_LENGTH - OLD_RECORD_LENGTH] } else { vec![] };
    [&bytes[..bytes.len().min(24)], &zeros, &bytes[bytes.len().min(24)..]].concat()
}

/// A record that is read gives its form in 53 bytes again, and is what the engine gives for its points alone.
fn compare_reader(bytes: &[u8], name: &str) {
    let seen = ours(read_record(bytes));
    let expected = number(record::read(bytes));
    assert_eq!(seen.map(|(d, t)| (disk_of(d), points(t))), expected, "reader: {name}");
    if let Ok((disk, support)) = seen {
        let mut again = [0; RECORD_LENGTH];
        assert_eq!(write_record(disk, support, &mut again), Ok(()), "{name}");
        assert_eq!(again[..], widened(bytes), "written again: {name}");
        assert_eq!(read_record(&again), Ok((disk, support)), "read again: {name}");
        let found = smallest_disk(&mut flat(&points(support))).unwrap();
        assert_eq!((found.disk, found.support), (disk, support), "its points alone: {name}");
    }
}

/// What the whole way gives by the reference's calls, one after the other.
fn expected_record(text: &[u8], buffer: &mut [u8]) -> Result<(), u8> {
    if buffer.len() < RECORD_LENGTH {
        return Err(8);
    }
    let mut list = flat(&number(description::points_of(text))?);
    let answer = number(solve(&mut list))?;
    number(record::write(&answer.disk, &answer.support, buffer))
}

fn compare_description(text: &[u8], room: usize, name: &str) {
    let (mut list, mut expected_list) = (vec![-7; room], vec![-7; room]);
    let loaded = ours(load(text, &mut list));
    assert_eq!(loaded, number(description::load(text, &mut expected_list)), "loader: {name}");
    assert_eq!(list, expected_list, "the loader's list: {name}");
    for length in [53, 60, 52, 45] {
        let (mut buffer, mut expected_buffer) = (vec![0xEE; length], vec![0xEE; length]);
        let written = ours(record_of(text, &mut buffer));
        let expected = expected_record(text, &mut expected_buffer);
        assert_eq!((written, buffer), (expected, expected_buffer), "whole way: {name}");
    }
}

fn drawn_point(point: drawing::DrawnPoint) -> DrawnPoint {
    match point {
        drawing::DrawnPoint::Whole(x, y) => DrawnPoint::Whole(x, y),
        drawing::DrawnPoint::Drawn(x, y) => DrawnPoint::Drawn(x, y),
    }
}

/// A point behind others, and then what they all lead to.
fn compare_append(case: &AppendCase, name: &str) {
    let (mut list, mut expected_list) = (case.list(), case.list());
    let count = ours(append_point(drawn_point(case.point), &mut list, case.n as usize));
    assert_eq!(count, number(drawing::append(case.point, &mut expected_list, case.n)), "append: {name}");
    assert_eq!(list, expected_list, "the list appended to: {name}");
    if let Ok(count) = count {
        compare_list(&list[..2 * count], name);
    }
}

fn chosen_points(chosen: chosen::Chosen) -> Chosen {
    let point = |p: ExpectedPoint| Point { x: p.x, y: p.y };
    match chosen {
        chosen::Chosen::One(a) => Chosen::One(point(a)),
        chosen::Chosen::Two(a, b) => Chosen::Two(point(a), point(b)),
    }
}

/// The same points chosen in another way: one twice, or two in the other order.
fn chosen_otherwise(chosen: Chosen) -> Chosen {
    match chosen {
        Chosen::One(a) => Chosen::Two(a, a),
        Chosen::Two(a, b) if a == b => Chosen::One(a),
        Chosen::Two(a, b) => Chosen::Two(b, a),
    }
}

/// The disk with chosen points on its boundary, then what radius, preview and record make of it with these points as its set.
fn compare_chosen(list: &[i16], chosen: chosen::Chosen, name: &str) {
    let expected = number(chosen::smallest_disk_through(list, chosen));
    let ways = [chosen_points(chosen), chosen_otherwise(chosen_points(chosen))];
    for way in ways {
        let read = list.to_vec();
        let disk = ours(smallest_disk_through(&read, way));
        assert_eq!(disk.map(disk_of), expected, "{way:?}: {name}");
        assert_eq!(read, list, "the list with {way:?}: {name}");
    }
    if let Ok(expected) = expected {
        let mut set = chosen.set();
        set.sort_unstable();
        let (disk, support) = lent(&expected, &set).unwrap();
        compare_figures(disk, support, name);
        compare_writer(disk, support, 60, name);
    }
}

/// The disk of traced points, with the list unchanged; then radius, preview and record of it with the support set of the squares' corners,
/// whose disk it is. Answers the number of the refusal, or 0.
fn compare_traced(list: &[i16], name: &str) -> u8 {
    let read = list.to_vec();
    let found = ours(smallest_disk_of_traced(&read));
    assert_eq!(found.map(disk_of), number(traced::smallest_disk_of_traced(list)), "{name}");
    assert_eq!(read, list, "the list: {name}");
    if let Ok(disk) = found {
        let of_corners = smallest_disk(&mut corners_of_squares(list)).unwrap();
        assert_eq!(of_corners.disk, disk, "corners: {name}");
        assert!(whole_radius(disk, of_corners.support).is_ok(), "limits: {name}");
        compare_figures(disk, of_corners.support, name);
        compare_writer(disk, of_corners.support, 60, name);
    }
    found.err().unwrap_or(0)
}

/// The four corners of the square of each traced point.
fn corners_of_squares(list: &[i16]) -> Vec<i16> {
    let corners = |three: &[i16]| {
        let (x, y, t) = (three[0], three[1], three[2]);
        [x - t, y - t, x + t, y - t, x - t, y + t, x + t, y + t]
    };
    list.chunks_exact(3).flat_map(corners).collect()
}

/// The points of a list by threes, each with t 0, lead to the answer of the points alone.
fn compare_without_tolerances(list: &[i16], name: &str) {
    let zeros: Vec<i16> = list.chunks_exact(3).flat_map(|three| [three[0], three[1], 0]).collect();
    let mut alone: Vec<i16> = list.chunks_exact(3).flat_map(|three| [three[0], three[1]]).collect();
    let plain = smallest_disk(&mut alone).map(|found| found.disk);
    assert_eq!(smallest_disk_of_traced(&zeros), plain, "every t 0: {name}");
}

/// Points of any kind with tolerances that are all 0, all equal or each its own. Those whose squares would leave the em box are moved
/// until these touch its edges. In three cases of ten the list is then damaged.
fn drawn_traced(longest: usize, random: &mut Random) -> Vec<i16> {
    let n = 1 + random.below(longest);
    let points = lists::draw(random.pick(&lists::KINDS), n, random);
    let common = match random.below(5) {
        0 => Some(0),
        1 => Some(MOST_TOLERANCE),
        2 => Some(random.coordinate(1, 49)),
        _ => None,
    };
    let mut list = Vec::with_capacity(3 * n);
    for p in points {
        let t = common.unwrap_or_else(|| random.coordinate(0, MOST_TOLERANCE));
        list.extend([p.x.clamp(EM.left + t, EM.right - t), p.y.clamp(EM.foot + t, EM.top - t), t]);
    }
    if random.chance(30) {
        damage_traced(&mut list, random);
    }
    list
}

/// One to three points are made faulty, and at times the list is cut, goes on or is empty.
fn damage_traced(list: &mut Vec<i16>, random: &mut Random) {
    for _ in 0..1 + random.below(3) {
        let at = 3 * random.below(list.len() / 3);
        let t = list[at + 2].clamp(0, MOST_TOLERANCE);
        match random.below(3) {
            0 => list[at] = random.pick(&[EM.left + t - 1, EM.right - t + 1, i16::MIN, i16::MAX]),
            1 => list[at + 1] = random.pick(&[EM.foot + t - 1, EM.top - t + 1, i16::MIN, i16::MAX]),
            _ => list[at + 2] = random.pick(&[-1, MOST_TOLERANCE + 1, i16::MIN, i16::MAX]),
        }
    }
    match random.below(10) {
        0 => list.clear(),
        1 => list.truncate(random.below(list.len())),
        2 => list.extend(vec![random.word() as i16; 1 + random.below(2)]),
        _ => (),
    }
}

fn compare_sheet(bytes: &[u8], k: usize, name: &str) {
    assert_eq!(ours(glyph(bytes, k)), number(sheet::glyph(bytes, k)), "sheet: {name}");
}

fn drawn_bytes(random: &mut Random, longest: usize, from: &[u8]) -> Vec<u8> {
    let length = random.below(longest + 1);
    (0..length).map(|_| if from.is_empty() { random.word() as u8 } else { random.pick(from) }).collect()
}

#[test]
fn letters_of_the_papers() {
    for letter in &letters::LETTERS {
        let mut list = flat(&letters::points(letter.list));
        let found = smallest_disk(&mut list).unwrap();
        let (x, y, e, s) = letter.disk;
        assert_eq!(disk_of(found.disk), ExpectedDisk { x, y, e, s }, "{}", letter.name);
        assert_eq!(points(found.support), letters::points(letter.support), "{}", letter.name);
        assert_eq!(whole_radius(found.disk, found.support), Ok(letter.radius), "{}", letter.name);
        assert_eq!(found.tests, letter.tests, "{}", letter.name);
        assert_eq!(points_of(&list), letters::points(letter.left), "{}", letter.name);
    }
}

#[test]
fn drawn_lists() {
    for case in lists::mixed(200_000, 24) {
        compare_list(&flat(&case.points), &case.name);
    }
}

#[test]
fn long_lists() {
    for case in lists::long() {
        compare_list(&flat(&case.points), &case.name);
    }
}

#[test]
fn damaged_lists() {
    for seed in 0..50_000 {
        compare_list(&damage::point_list(&mut Random::new(seed)), &format!("seed {seed}"));
    }
    for length in [0, 1, 2, 8_191, 8_192, 8_193, 8_194] {
        compare_list(&vec![7; length], &format!("{length} numbers"));
        compare_list(&vec![-1; length], &format!("{length} numbers outside"));
    }
}

#[test]
fn drawn_descriptions() {
    for seed in 0..50_000 {
        let mut random = Random::new(seed);
        let text = damage::description(&mut random);
        let room = random.pick(&[8_192, 8_192, 8_192, 8_193, 8_191, 0]);
        compare_description(&text, room, &format!("seed {seed}"));
    }
}

#[test]
fn descriptions_at_the_limits() {
    for count in [4_095, 4_096, 4_097] {
        let mut text = b"1 2\n".repeat(count);
        compare_description(&text, 8_192, &format!("{count} points"));
        text.extend(b"\n  \n2049 0\nx");
        compare_description(&text, 8_192, &format!("{count} points and faults"));
    }
    for length in [65_534, 65_535, 65_536] {
        let mut text = vec![b' '; length];
        compare_description(&text, 8_192, &format!("{length} spaces"));
        text[..3].copy_from_slice(b"0 0");
        compare_description(&text, 8_192, &format!("{length} bytes with a point"));
    }
}

#[test]
fn descriptions_of_one_set() {
    for seed in 0..20_000 {
        let mut random = Random::new(seed);
        let n = 1 + random.below(9);
        let mut points = lists::draw(random.pick(&lists::KINDS), n, &mut random);
        let text = damage::styled(&points, &mut random);
        let repeated = random.pick(&points);
        points.push(repeated);
        random.shuffle(&mut points);
        let other = damage::styled(&points, &mut random);
        let (mut record, mut other_record) = ([0; RECORD_LENGTH], [1; RECORD_LENGTH]);
        assert_eq!(record_of(&text, &mut record), Ok(()), "seed {seed}");
        assert_eq!(record_of(&other, &mut other_record), Ok(()), "seed {seed}");
        assert_eq!(record, other_record, "seed {seed}");
    }
}

#[test]
fn points_from_a_drawing_program() {
    for seed in 0..50_000 {
        compare_append(&damage::append(&mut Random::new(seed)), &format!("seed {seed}"));
    }
    for edge in edges::drawings() {
        compare_append(&edge.given, edge.says);
    }
}

/// A whole number as a float leads to the same answers, whatever stands in the lists behind the points.
#[test]
fn whole_numbers_as_floats() {
    for seed in 0..20_000 {
        let mut random = Random::new(seed);
        let (x, y) = (random.between(-1, 2_049) as i32, random.between(-513, 1_537) as i32);
        let points = random.below(9);
        let front = flat(&lists::draw(random.pick(&lists::KINDS), points + 1, &mut random))[..2 * points].to_vec();
        let (mut list, mut other) = (vec![9; 8_192], vec![-9; 8_200]);
        list[..2 * points].copy_from_slice(&front);
        other[..2 * points].copy_from_slice(&front);
        let whole = append_point(DrawnPoint::Whole(x, y), &mut list, points);
        let drawn = append_point(DrawnPoint::Drawn(x.into(), y.into()), &mut other, points);
        assert_eq!(whole, drawn, "seed {seed}");
        if let Ok(count) = whole {
            assert_eq!(smallest_disk(&mut list[..2 * count]), smallest_disk(&mut other[..2 * count]), "seed {seed}");
        }
    }
}

#[test]
fn drawn_choices() {
    for seed in 0..50_000 {
        let mut random = Random::new(seed);
        let longest = random.pick(&[4, 12, 40]);
        let case = chosen::draw(longest, &mut random);
        compare_chosen(&case.list, case.chosen, &format!("seed {seed}"));
    }
    for edge in edges::choices() {
        compare_chosen(&edge.given.list, edge.given.chosen, edge.says);
    }
}

#[test]
fn choices_from_long_lists() {
    for seed in 0..100 {
        let case = chosen::draw(MOST_POINTS, &mut Random::new(seed));
        compare_chosen(&case.list, case.chosen, &format!("seed {seed}"));
    }
}

/// The first centre is (1024, −524,287.5): all three points are 524,288.5 away from it. The second is above and to the left of the em box,
/// with S above 2⁶⁴. No record can hold such a disk.
#[test]
fn centres_far_outside_the_em_box() {
    assert_far_outside([0, 0, 1_024, 1, 2_048, 0], Disk { x: 2_048, y: -1_048_575, e: 2, s: 1_048_577 * 1_048_577 });
    let wide = Disk { x: -1_993_793_141, y: 5_067_292_949, e: 2_000_342, s: 41_081_194_129_818_256_690 };
    assert_far_outside([0, -512, 1_301, 300, 2_048, 1_535], wide);
}

/// The disk of three points in rising order with the second chosen.
fn assert_far_outside(list: [i16; 6], disk: Disk) {
    let [a, top, b] = [0, 2, 4].map(|at| Point { x: list[at], y: list[at + 1] });
    assert_eq!(smallest_disk_through(&list, Chosen::One(top)), Ok(disk));
    compare_chosen(&list, chosen::Chosen::One(point_of(top)), &format!("{disk:?}"));
    for support in [SupportSet::One(top), SupportSet::Three(a, top, b)] {
        let mut buffer = [0xEE; RECORD_LENGTH];
        assert_eq!(whole_radius(disk, support), Err(Refusal::BadRecord));
        assert_eq!(preview(disk, support), Err(Refusal::BadRecord));
        assert_eq!(write_record(disk, support, &mut buffer), Err(Refusal::BadRecord));
        assert_eq!(buffer, [0xEE; RECORD_LENGTH]);
    }
}

#[test]
fn drawn_traced_lists() {
    let mut times = [0; 15];
    for seed in 0..50_000 {
        let mut random = Random::new(seed);
        let longest = random.pick(&[4, 12, 40]);
        let list = drawn_traced(longest, &mut random);
        let name = format!("seed {seed}");
        times[usize::from(compare_traced(&list, &name))] += 1;
        compare_without_tolerances(&list, &name);
    }
    assert!([0, 3, 5, 9, 14].iter().all(|&number| times[number] > 1_000), "{times:?}");
}

#[test]
fn long_traced_lists() {
    for seed in 0..100 {
        let list = drawn_traced(MOST_TRACED, &mut Random::new(seed));
        compare_traced(&list, &format!("seed {seed}"));
        compare_without_tolerances(&list, &format!("seed {seed}"));
    }
}

#[test]
fn traced_lists_at_the_limits() {
    for length in [0, 1, 2, 3, 3_071, 3_072, 3_073, 3_074, 3_075, 3_078] {
        for number in [0, 50, 51, -1] {
            compare_traced(&vec![number; length], &format!("{length} times {number}"));
        }
    }
    let disk = Disk { x: 50, y: 50, e: 1, s: 5_000 };
    assert_eq!(smallest_disk_of_traced(&[MOST_TOLERANCE; 3 * MOST_TRACED]), Ok(disk));
    assert_eq!(smallest_disk_of_traced(&[MOST_TOLERANCE + 1; 3 * MOST_TRACED]), Err(Refusal::BadTolerance));
    assert_eq!(smallest_disk_of_traced(&[MOST_TOLERANCE; 3 * MOST_TRACED + 3]), Err(Refusal::TooMany));
}

/// Squares of side 100 in the four corners of the em box: the disk is as large as one can be.
#[test]
fn the_largest_disk_of_traced_points() {
    let list = [50, -462, 50, 1_998, -462, 50, 50, 1_486, 50, 1_998, 1_486, 50];
    let disk = Disk { x: 1_024, y: 512, e: 1, s: 2_097_152 };
    assert_eq!(smallest_disk_of_traced(&list), Ok(disk));
    let (foot, top) = (Point { x: 0, y: -512 }, Point { x: 2_048, y: 1_536 });
    assert_eq!(whole_radius(disk, SupportSet::Two(foot, top)), Ok(1_449));
    assert_eq!(whole_radius(disk, SupportSet::One(Point { x: 50, y: -462 })), Err(Refusal::PointsDoNotFit));
    compare_traced(&list, "squares in the corners of the em box");
}

/// 9 and 4 come before the points; then the first faulty point decides, and for that one its tolerance before its square.
#[test]
fn traced_points_refused_by_hand() {
    let cases: [(&[i16], u8); 16] = [
        (&[-1; 3_076], 9),
        (&[-1; 3_075], 4),
        (&[-1; 3_072], 14),
        (&[-1, 0, 51], 14),
        (&[0, 0, -1], 14),
        (&[i16::MAX; 3], 14),
        (&[i16::MIN; 3], 14),
        (&[i16::MAX, i16::MAX, 50], 3),
        (&[i16::MIN, i16::MIN, 50], 3),
        (&[49, 0, 50], 3),
        (&[1_999, 0, 50], 3),
        (&[500, -463, 50], 3),
        (&[500, 1_487, 50], 3),
        (&[500, 0, 50, 1, 0, 2, 500, 0, 51], 3),
        (&[500, 0, 50, 500, 0, 51, 1, 0, 2], 14),
        (&[2_049, 0, 0], 3),
    ];
    for (list, refusal) in cases {
        let name = format!("{} numbers, {:?}", list.len(), &list[..list.len().min(9)]);
        assert_eq!(ours(smallest_disk_of_traced(list)), Err(refusal), "{name}");
        compare_traced(list, &name);
    }
}

#[test]
fn drawn_sheets() {
    for seed in 0..200_000 {
        let case = damage::sheet(&mut Random::new(seed));
        compare_sheet(&case.bytes, case.k.into(), &format!("seed {seed}"));
    }
    for length in [65_535, 65_536] {
        compare_sheet(&vec![0; length], 0, &format!("{length} zeros"));
        compare_sheet(&vec![255; length], usize::MAX, &format!("{length} times 255"));
    }
}

#[test]
fn drawn_records() {
    for seed in 0..200_000 {
        compare_reader(&damage::record(&mut Random::new(seed)), &format!("seed {seed}"));
    }
}

#[test]
fn drawn_disks_to_write() {
    for seed in 0..200_000 {
        let case = damage::writer(&mut Random::new(seed));
        if let Some((disk, support)) = lent(&case.disk, &case.support) {
            let name = format!("seed {seed}");
            compare_writer(disk, support, case.room.into(), &name);
            compare_figures(disk, support, &name);
        }
    }
}

/// Bytes with no plan behind them, into every call.
#[test]
fn fuzzed_bytes() {
    for seed in 0..100_000 {
        let mut random = Random::new(seed);
        let name = format!("seed {seed}");
        let any = drawn_bytes(&mut random, 110, &[]);
        compare_reader(&any, &name);
        compare_sheet(&any, random.below(4), &name);
        let few = drawn_bytes(&mut random, 60, &[0, 0, 0, 0, 1, 2, 6, 10]);
        compare_reader(&few, &name);
        compare_sheet(&few, random.below(4), &name);
        compare_record_like(&mut random, &name);
        let list: Vec<i16> = any.chunks(2).map(|pair| i16::from(pair[0]) - 20).collect();
        compare_list(&list, &name);
        compare_traced(&list, &name);
        let small: Vec<i16> = few.iter().map(|&byte| byte.into()).collect();
        compare_traced(&small, &name);
        for list in [&list, &small] {
            let _ = hull::compare_hull(list, &name);
            let _ = stretch::compare_stretch(list, &name);
        }
        if seed % 4 == 0 {
            compare_description(&any, 8_192, &name);
            compare_description(&drawn_bytes(&mut random, 40, b"0123 \n\n -9+x\t\r\0"), 8_192, &name);
        }
        compare_any_choice(&list, &mut random, &name);
        for bytes in [&any, &few] {
            sheet_run::compare_any_run(bytes, &mut random, &name);
            sheet_estimate::try_any_estimate(bytes, &mut random, &name);
        }
    }
}

/// Any two neighbours of the list's numbers as a chosen point, or any numbers at all.
fn compare_any_choice(list: &[i16], random: &mut Random, name: &str) {
    let point = |random: &mut Random| match list[random.below(list.len() + 1)..] {
        [x, y, ..] => ExpectedPoint::new(x, y),
        _ => ExpectedPoint::new(random.word() as i16, random.word() as i16),
    };
    let (a, b) = (point(random), point(random));
    compare_chosen(list, random.pick(&[chosen::Chosen::One(a), chosen::Chosen::Two(a, b)]), name);
}

/// Any numbers at all as a disk and a support set.
fn compare_record_like(random: &mut Random, name: &str) {
    let small = |random: &mut Random| random.word() >> random.below(64);
    let s = (u128::from(random.word()) << 64 | u128::from(random.word())) >> random.below(128);
    let disk = Disk { x: small(random) as i64, y: small(random) as i64, e: small(random), s };
    let point = |random: &mut Random| Point { x: random.word() as i16, y: random.word() as i16 };
    let (a, b, c) = (point(random), point(random), point(random));
    let support = random.pick(&[SupportSet::One(a), SupportSet::Two(a, b), SupportSet::Three(a, b, c)]);
    let room = random.below(70);
    compare_writer(disk, support, room, name);
    compare_figures(disk, support, name);
}
