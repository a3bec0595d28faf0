//! The cases that the repository keeps, and further ones by their seed.

mod estimates;
mod hull_and_stretch;
mod previews;
mod runs;

use crate::chosen::{self, Chosen};
use crate::damage;
use crate::description::describe;
use crate::edges;
use crate::engine::{flat, points_of};
use crate::geometry::Point;
use crate::hull;
use crate::inputs::{ChosenCase, FixedCase};
use crate::letters;
use crate::limits::{EM, LIST_LENGTH, MOST_POINTS, MOST_TOLERANCE, MOST_TRACED};
use crate::lists::{self, Kind, KINDS};
use crate::random::Random;
use crate::stretch;
use crate::traced::{self, TracedPoint};
use crate::two_fixed;
use crate::vectors::{
    append, chosen, engine, estimate, fixed, from_description, hull, loader, open_sheet, part, reader, run, stretch, traced,
    writer, Vector,
};
use crate::worst;
use estimates::{edges_to_estimate, stored_to_estimate, to_estimate};
use hull_and_stretch::{for_hull, for_stretch, stored_for_hull, stored_for_stretch};
use previews::{near_the_bound, stored_previews};
use runs::{edges_to_run, stored_to_run, to_run};

/// The cases that the repository keeps.
pub fn stored() -> Vec<Vector> {
    let texts = letter_texts().into_iter().chain(edge_texts());
    let lists = circles_in_every_order().into_iter().chain(stored_lists()).map(|points| describe(&points));
    let mut vectors: Vec<Vector> = texts.chain(lists).map(from_description).collect();
    vectors.extend(edges());
    vectors.extend(damaged(&mut Random::new(1), 500));
    vectors.extend(appended(&mut Random::new(2), 1_000));
    vectors.extend(stored_with_two_fixed().chain(long_with_two_fixed()).map(|case| fixed(&case)));
    vectors.extend(edges::choices().iter().map(|edge| chosen(&edge.given)));
    vectors.extend(stored_with_chosen().chain(long_with_chosen()).map(|case| chosen(&case)));
    vectors.extend(edges::tracings().iter().map(|edge| traced(&edge.given)));
    vectors.extend(stored_traced().iter().chain(&long_traced()).map(|list| traced(list)));
    vectors.extend(edges::reductions().into_iter().map(|edge| hull(edge.given)));
    vectors.extend(stored_for_hull().into_iter().chain(hull::long()).map(hull));
    vectors.extend(stored_records());
    vectors.extend(edges::stretches().iter().map(|edge| stretch(&edge.given)));
    vectors.extend(stored_for_stretch().iter().chain(&stretch::long()).map(|list| stretch(list)));
    vectors.extend(edges_to_run().chain(stored_to_run()).map(|case| run(&case)));
    vectors.extend(edges_to_estimate().chain(stored_to_estimate()).map(|case| estimate(&case)));
    vectors.extend(stored_previews().map(|case| writer(&case)));
    vectors
}

/// `count` cases for each call, and a tenth as many for previews near their bound, by a seed: for runs beyond the stored cases.
pub fn drawn(seed: u64, count: usize) -> Vec<Vector> {
    let mut random = Random::new(seed);
    let mut vectors = damaged(&mut random, count);
    vectors.extend(appended(&mut random, count));
    vectors.extend(with_two_fixed(&mut random, count).iter().map(fixed));
    for _ in 0..count {
        let longest = random.pick(&[4, 12, 40, 300]);
        let n = 1 + random.below(longest);
        vectors.push(from_description(describe(&lists::draw(random.pick(&KINDS), n, &mut random))));
    }
    vectors.extend(with_chosen(&mut random, count).iter().map(chosen));
    vectors.extend(drawn_traced(&mut random, count).iter().map(|list| traced(list)));
    vectors.extend(for_hull(&mut random, count).into_iter().map(hull));
    vectors.extend(records(&mut random, count));
    vectors.extend(for_stretch(&mut random, count).iter().map(|list| stretch(list)));
    vectors.extend(to_run(&mut random, count).iter().map(run));
    vectors.extend(to_estimate(&mut random, count).iter().map(estimate));
    vectors.extend(near_the_bound(&mut random, count / 10).iter().map(writer));
    vectors
}

/// `count` cases for each call from descriptions, sheets and records, many of them damaged; the records have any numbers.
fn damaged(random: &mut Random, count: usize) -> Vec<Vector> {
    let mut vectors = Vec::new();
    for _ in 0..count {
        vectors.push(from_description(damage::description(random)));
        vectors.push(engine(damage::point_list(random)));
        vectors.push(loader(&damage::loader(random)));
        vectors.push(open_sheet(&damage::sheet(random)));
        vectors.push(part(&damage::part(random)));
        vectors.push(reader(damage::any_record(random)));
        vectors.push(writer(&damage::any_writer(random)));
    }
    vectors
}

/// `count` records and as many cases for the writer, most of them of drawn lists, right and with faults.
fn records(random: &mut Random, count: usize) -> Vec<Vector> {
    (0..count).flat_map(|_| [reader(damage::record(random)), writer(&damage::writer(random))]).collect()
}

fn stored_records() -> Vec<Vector> {
    records(&mut Random::new(10), 1_000)
}

/// `count` points from a drawing program, many of them faulty.
fn appended(random: &mut Random, count: usize) -> Vec<Vector> {
    (0..count).map(|_| append(&damage::append(random))).collect()
}

/// `count` lists of none to 40 points for the procedure with two points fixed.
fn with_two_fixed(random: &mut Random, count: usize) -> Vec<FixedCase> {
    (0..count).map(|_| two_fixed::draw(random.pick(&[3, 12, 40]), random)).collect()
}

fn stored_with_two_fixed() -> impl Iterator<Item = FixedCase> {
    with_two_fixed(&mut Random::new(3), 1_000).into_iter()
}

/// Lists of 4,096 points with two points fixed: two corners of the em box; two points of its edge next to each other, whose disk has its
/// centre far away; two such points in its middle, with no disk.
fn long_with_two_fixed() -> [FixedCase; 3] {
    let at = |x: i16, y: i16| Point::new(EM.left + x, EM.foot + y);
    let half = EM.side() / 2;
    let pairs = [(at(0, 0), at(EM.side(), 0)), (at(0, 0), at(1, 0)), (at(half, half), at(half + 1, half))];
    pairs.map(|(a, b)| FixedCase { a, b, points: above_the_foot(&mut Random::new(4)) })
}

/// 4,096 points of the em box, none of them on its lower edge.
fn above_the_foot(random: &mut Random) -> Vec<Point> {
    let mut points = lists::draw(Kind::Uniform, MOST_POINTS, random);
    points.iter_mut().for_each(|p| p.y = p.y.max(EM.foot + 1));
    points
}

/// `count` lists of up to 45 points with one or two chosen.
fn with_chosen(random: &mut Random, count: usize) -> Vec<ChosenCase> {
    (0..count).map(|_| chosen::draw(random.pick(&[4, 12, 40, 40]), random)).collect()
}

fn stored_with_chosen() -> impl Iterator<Item = ChosenCase> {
    with_chosen(&mut Random::new(5), 1_000).into_iter()
}

/// Lists of 4,096 points with chosen ones: a point of the em box's edge, and two next to each other, whose disks have their centres far
/// away; a point in its middle, with no disk.
fn long_with_chosen() -> [ChosenCase; 3] {
    let half = EM.side() / 2;
    let [one, next, middle] = [(half, 0), (half + 1, 0), (half, half)].map(|(x, y)| Point::new(EM.left + x, EM.foot + y));
    [Chosen::One(one), Chosen::Two(one, next), Chosen::One(middle)].map(|chosen| {
        let set = chosen.set();
        let mut points = above_the_foot(&mut Random::new(6));
        points[MOST_POINTS / 2..][..set.len()].copy_from_slice(&set);
        ChosenCase { chosen, unused: one, list: flat(&points) }
    })
}

/// `count` lists of up to 40 traced points.
fn drawn_traced(random: &mut Random, count: usize) -> Vec<Vec<i16>> {
    (0..count).map(|_| traced::draw(random.pick(&[4, 12, 40, 40]), random)).collect()
}

fn stored_traced() -> Vec<Vec<i16>> {
    drawn_traced(&mut Random::new(7), 1_000)
}

/// Lists of 1,024 traced points: from the inside out with every tolerance zero, and round and round with all tolerances by turns; around a
/// circle with all by turns, and outlines with every one 50.
fn long_traced() -> [Vec<i16>; 4] {
    let all: Vec<i16> = (0..=MOST_TOLERANCE).collect();
    let lists = [(Kind::ByDistance, &[0][..]), (Kind::Growing, &all), (Kind::Convex, &all), (Kind::Outline, &[MOST_TOLERANCE])];
    lists.map(|(kind, by_turns)| {
        let points = lists::draw(kind, MOST_TRACED, &mut Random::new(8));
        let traced = points.into_iter().zip(by_turns.iter().cycle()).map(|(p, &t)| traced::fitted(p, t));
        traced::flat(&traced.collect::<Vec<TracedPoint>>())
    })
}

fn letter_texts() -> Vec<Vec<u8>> {
    letters::LETTERS.iter().map(|letter| describe(&letters::points(letter.list))).collect()
}

/// The descriptions at the edges of document 01, those for lists of other lengths left out, and those of the short lists for the engine.
fn edge_texts() -> impl Iterator<Item = Vec<u8>> {
    let edges = edges::descriptions().into_iter().map(|edge| edge.given).filter(|given| given.room > LIST_LENGTH);
    let lists = edges::solvings().into_iter().map(|edge| edge.given).filter(|list| list.len() < 20);
    edges.map(|given| given.text).chain(lists.map(|list| describe(&points_of(&list))))
}

/// The edges of document 01, each for its own call.
fn edges() -> Vec<Vector> {
    let mut vectors: Vec<Vector> = Vec::new();
    vectors.extend(edges::solvings().into_iter().map(|edge| engine(edge.given)));
    vectors.extend(edges::descriptions().iter().map(|edge| loader(&edge.given)));
    vectors.extend(edges::fixings().iter().map(|edge| fixed(&edge.given)));
    vectors.extend(edges::drawings().iter().map(|edge| append(&edge.given)));
    vectors.extend(edges::sheets().iter().map(|edge| open_sheet(&edge.given)));
    vectors.extend(edges::parts().iter().map(|edge| part(&edge.given)));
    vectors.extend(edges::readings().into_iter().map(|edge| reader(edge.given)));
    vectors.extend(edges::writings().iter().map(|edge| writer(&edge.given)));
    vectors
}

/// Points on a common circle in every order: letter D, and five of the lattice points of a circle of radius 5.
fn circles_in_every_order() -> Vec<Vec<Point>> {
    let square = [(0, 0), (10, 0), (0, 10), (10, 10)];
    let circle = [(10, 5), (8, 9), (5, 10), (1, 8), (2, 1)];
    let lists = [&square[..], &circle[..]].map(letters::points);
    lists.iter().flat_map(|points| lists::orders(points)).collect()
}

/// Short lists of every kind, some lists of a few hundred points, three of 4,096, and lists that cost many tests.
fn stored_lists() -> Vec<Vec<Point>> {
    let mut stored: Vec<Vec<Point>> = Vec::new();
    stored.extend(lists::mixed(1_600, 14).map(|case| case.points));
    stored.extend(lists::mixed(300, 80).map(|case| case.points));
    stored.extend(lists::mixed(20, 400).map(|case| case.points));
    for kind in [Kind::Uniform, Kind::Outline, Kind::ByDistance] {
        stored.push(lists::draw(kind, MOST_POINTS, &mut Random::new(3)));
    }
    stored.extend(worst::short_lists());
    stored
}

#[cfg(test)]
mod tests {
    use super::*;
    use crate::chosen::smallest_disk_through;
    use crate::geometry::Disk;
    use crate::listing;
    use crate::refusal::Refusal;
    use crate::traced::smallest_disk_of_traced;
    use crate::vectors::{input, output, Call};
    use std::path::Path;

    #[test]
    fn the_files_are_those_that_the_command_writes() {
        let folder = Path::new(env!("CARGO_MANIFEST_DIR")).join("../../crates/vectors");
        let read = |file: &str| std::fs::read(folder.join(file)).unwrap();
        let vectors = stored();
        assert!(read("stdin") == input(&vectors), "stdin");
        assert!(read("stdout") == output(&vectors).as_bytes(), "stdout");
    }

    #[test]
    fn lists_without_a_disk_through_two_points_and_far_centres_are_among_the_cases() {
        let is_without = |case: &FixedCase| two_fixed::smallest_through(case).is_none();
        let (without, with): (Vec<_>, Vec<_>) = stored_with_two_fixed().partition(is_without);
        let has_circles = |case: &&FixedCase| fixed(case).printed.starts_with("disk");
        assert!(without.len() >= 200 && without.iter().filter(has_circles).count() >= 100);
        let far = |disk: &Disk| disk.y.abs().max(disk.x.abs()) > 10_000 * disk.e;
        assert!(with.iter().filter_map(two_fixed::smallest_through).filter(far).count() >= 100);
        let long = long_with_two_fixed().map(|case| two_fixed::smallest_through(&case));
        assert!(matches!(long, [Some(_), Some(_), None]));
        assert!(long[1].is_some_and(|disk| far(&disk)));
    }

    fn through_chosen(case: &ChosenCase) -> Result<Disk, Refusal> {
        smallest_disk_through(&case.list, case.chosen)
    }

    #[test]
    fn chosen_points_with_every_kind_of_answer_are_among_the_cases() {
        let cases: Vec<ChosenCase> = stored_with_chosen().collect();
        let refused = |refusal: Refusal| cases.iter().filter(|case| through_chosen(case) == Err(refusal)).count();
        assert!(refused(Refusal::NoDisk) >= 200 && refused(Refusal::NotInList) >= 40);
        assert!([Refusal::OutsideBox, Refusal::NoPoint, Refusal::OddLength].into_iter().all(|refusal| refused(refusal) >= 5));
        let through = |size: usize| {
            let of_size = cases.iter().filter(move |case| case.chosen.set().len() == size);
            of_size.filter_map(|case| through_chosen(case).ok()).collect::<Vec<Disk>>()
        };
        let [one, two] = [through(1), through(2)];
        assert!(one.len() >= 250 && two.len() >= 250);
        let is_outside = |disk: &&Disk| !Disk { s: 0, ..**disk }.is_within(&EM);
        assert!([one, two].iter().all(|disks| disks.iter().filter(is_outside).count() >= 20));
    }

    #[test]
    fn long_lists_with_chosen_points_have_far_centres_or_no_disk() {
        let answers = long_with_chosen().map(|case| through_chosen(&case));
        let is_far = |disk: &Disk| disk.y > 10_000 * disk.e;
        assert!(answers[..2].iter().all(|answer| answer.as_ref().is_ok_and(is_far)), "{answers:?}");
        assert_eq!(answers[2], Err(Refusal::NoDisk));
    }

    #[test]
    fn traced_points_with_every_kind_of_answer_are_among_the_cases() {
        let lists = stored_traced();
        let answers: Vec<Result<Disk, Refusal>> = lists.iter().map(|list| smallest_disk_of_traced(list)).collect();
        let refused = |refusal: Refusal| answers.iter().filter(|answer| **answer == Err(refusal)).count();
        assert!(refused(Refusal::BadTolerance) >= 50 && refused(Refusal::OutsideBox) >= 40);
        assert!(refused(Refusal::NoPoint) >= 15 && refused(Refusal::OddLength) >= 30);
        let has_disk = |plain: bool| {
            let is_plain = |list: &[i16]| list.iter().skip(2).step_by(3).all(|&t| t == 0);
            lists.iter().zip(&answers).filter(|(list, answer)| is_plain(list) == plain && answer.is_ok()).count()
        };
        assert!(has_disk(true) >= 50 && has_disk(false) >= 500);
    }

    #[test]
    fn long_lists_of_traced_points_have_other_disks_than_their_points_unless_all_is_exact() {
        for (i, list) in long_traced().into_iter().enumerate() {
            let exact: Vec<i16> = list.chunks(3).flat_map(|three| [three[0], three[1], 0]).collect();
            assert_eq!(list.len(), 3_072);
            assert_eq!(smallest_disk_of_traced(&list) == smallest_disk_of_traced(&exact), i == 0, "list {i}");
        }
    }

    /// The writer's answer is the line before the last.
    #[test]
    fn records_and_writers_with_every_kind_of_answer_are_among_the_cases() {
        let answer = |vector: &Vector| {
            let lines: Vec<&str> = vector.printed.lines().collect();
            lines[if vector.call == Call::Reader { 0 } else { lines.len() - 2 }].to_string()
        };
        let vectors = stored_records();
        let times = |call: Call, start: &str| vectors.iter().filter(|v| v.call == call && answer(v).starts_with(start)).count();
        let read = ["disk", "refused 7", "refused 15"].map(|start| times(Call::Reader, start));
        let written = ["written", "refused 7", "refused 8", "refused 15"].map(|start| times(Call::Writer, start));
        assert!(read.iter().all(|&number| number >= 200) && written.iter().all(|&number| number >= 120), "{read:?} {written:?}");
    }

    /// S of the disks that a case prints.
    fn printed_squares(vector: &Vector) -> impl Iterator<Item = u128> + '_ {
        let disks = vector.printed.lines().filter_map(|line| line.strip_prefix("disk "));
        disks.filter_map(|numbers| numbers.rsplit(' ').next()?.parse().ok())
    }

    #[test]
    fn an_s_above_64_bits_is_among_the_cases_of_each_call() {
        let vectors = stored();
        let times = |call: Call, least: u128, most: u128| {
            let is_so = |v: &&Vector| v.call == call && printed_squares(v).any(|s| (least..=most).contains(&s));
            vectors.iter().filter(is_so).count()
        };
        use Call::*;
        for call in [Listing, Engine, Append, Fixed, Chosen, Traced, Hull, Reader] {
            let [half, above] = [times(call, 1 << 63, u64::MAX.into()), times(call, 1 << 64, u128::MAX)];
            assert!(half >= 2 && above >= 10, "{call:?}: {half} {above}");
        }
        let is_written = |v: &&Vector| v.call == Writer && v.printed.contains("written") && v.bytes[26..34] != [0; 8];
        assert!(vectors.iter().filter(is_written).count() >= 20);
    }

    /// Of 45 bytes, and of 53.
    #[test]
    fn records_of_both_forms_with_every_kind_of_answer_are_among_the_cases() {
        let vectors = stored();
        for length in [45, 53] {
            for start in ["disk", "refused 7", "refused 15"] {
                let is_so = |v: &&Vector| v.call == Call::Reader && v.bytes.len() == length && v.printed.starts_with(start);
                let times = vectors.iter().filter(is_so).count();
                assert!(times >= 150, "{length} bytes, {start}: {times}");
            }
        }
        let other = |v: &&Vector| v.call == Call::Reader && ![45, 53].contains(&v.bytes.len());
        assert!(vectors.iter().filter(other).all(|v| v.printed == "refused 7\n"));
        assert!([0, 1, 44, 46, 52, 54, 106].iter().all(|length| vectors.iter().filter(other).any(|v| v.bytes.len() == *length)));
    }

    /// All but 16, which is a glyph's and stands in a list of numbers.
    #[test]
    fn every_answer_and_every_refusal_is_among_the_cases() {
        let vectors = stored();
        let lists = vectors.iter().filter(|v| v.call == Call::Listing && v.printed.starts_with("disk")).count();
        assert!(lists >= 2_000);
        use Refusal::*;
        for refusal in [
            TooLong,
            BadLine,
            OutsideBox,
            TooMany,
            NoPoint,
            BadSheet,
            BadRecord,
            NoRoom,
            OddLength,
            NoGlyph,
            NotWhole,
            NotInList,
            NoDisk,
            BadTolerance,
            PointsDoNotFit,
            TooMuch,
        ] {
            let line = listing::refused(refusal);
            assert!(vectors.iter().any(|v| v.printed.contains(&line)), "{refusal:?}");
        }
    }
}
