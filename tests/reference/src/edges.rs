//! The edges of documents 01 and 02 by hand: their words, an input that they settle, and what must come out, side by side.
//!
//! Each edge is a test of this implementation (below) and a stored case of the product ([`crate::stored`]). What must come out is
//! taken from neither.

mod belonging;
mod chosen;
mod descriptions;
mod drawings;
mod estimates;
mod glyphs;
mod hull;
mod lists;
mod previews;
mod radii;
mod records;
mod runs;
mod sheets;
mod stretch;
mod traced;
mod two_fixed;

pub use chosen::choices;
pub use descriptions::descriptions;
pub use drawings::drawings;
pub use estimates::estimates;
pub use glyphs::sheet_of;
pub use hull::reductions;
pub use lists::solvings;
pub use previews::previews;
pub use records::{readings, writings};
pub use runs::runs;
pub use sheets::{parts, sheets};
pub use stretch::stretches;
pub use traced::tracings;
pub use two_fixed::fixings;

/// The words of document 01 or 02 (where they leave a point open, of docs/DECISIONS.md), what a call is given, and what it must give.
#[derive(Clone)]
pub struct Edge<Input, Output> {
    pub says: &'static str,
    pub given: Input,
    pub gives: Output,
}

/// A value, or the number of a refusal.
pub type Answer<Value> = Result<Value, u8>;

#[cfg(test)]
mod tests {
    use super::*;
    use crate::chosen::smallest_disk_through;
    use crate::estimate::{estimate_sheet, Estimate};
    use crate::geometry::Disk;
    use crate::hull::reduce_to_hull;
    use crate::letters::points;
    use crate::preview_error::{centre_deviations, Deviation};
    use crate::procedure::{self, Cover};
    use crate::record::LONG;
    use crate::refusal::Refusal;
    use crate::run::{run_sheet, SheetRun};
    use crate::stretch::{widest_stretch, Stretch};
    use crate::traced::smallest_disk_of_traced;
    use crate::{description, drawing, engine, engine::flat, figures, record, sheet};

    fn disk([x, y, e, s]: [i128; 4]) -> Disk {
        Disk { x, y, e, s: s.unsigned_abs() }
    }

    #[test]
    fn the_loader_keeps_to_them() {
        for Edge { says, given, gives } in descriptions() {
            let before = vec![77; given.room];
            let mut list = before.clone();
            let answer = description::load(&given.text, &mut list).map_err(Refusal::number);
            assert_eq!(answer, gives.as_ref().map(Vec::len).map_err(|number| *number), "{says}");
            let written = flat(&gives.unwrap_or_default());
            assert_eq!(list, [&written, &before[written.len()..]].concat(), "{says}");
        }
    }

    #[test]
    fn the_engine_keeps_to_them() {
        for Edge { says, given, gives } in solvings() {
            let mut list = given.clone();
            let answer = engine::solve(&mut list).map(|answer| answer.disk).map_err(Refusal::number);
            assert_eq!(answer, gives.map(disk), "{says}: {} numbers, {:?}", given.len(), &given[..given.len().min(12)]);
            assert!(gives.is_ok() || list == given, "{says}");
        }
    }

    #[test]
    fn the_procedure_with_two_points_fixed_keeps_to_them() {
        for Edge { says, given, gives } in fixings() {
            let mut left = given.points.clone();
            let run = procedure::run_with(&mut left, &[given.a, given.b]);
            let disk = gives.0.map(disk);
            assert_eq!(run.cover, disk.map_or(Cover::NoCircle, Cover::Disk), "{says}: {given:?}");
            assert_eq!((run.tests, left), (given.points.len() as u64, gives.1), "{says}: {given:?}");
        }
    }

    #[test]
    fn the_call_for_chosen_points_keeps_to_them() {
        for Edge { says, given, gives } in choices() {
            let answer = smallest_disk_through(&given.list, given.chosen).map_err(Refusal::number);
            assert_eq!(answer, gives.map(disk), "{says}: {:?} of {} numbers", given.chosen, given.list.len());
        }
    }

    #[test]
    fn the_call_for_traced_points_keeps_to_them() {
        for Edge { says, given, gives } in tracings() {
            let answer = smallest_disk_of_traced(&given).map_err(Refusal::number);
            assert_eq!(answer, gives.map(disk), "{says}: {} numbers, {:?}", given.len(), &given[..given.len().min(15)]);
        }
    }

    #[test]
    fn the_call_for_the_hull_keeps_to_them() {
        for Edge { says, given, gives } in reductions() {
            let mut list = given.clone();
            let answer = reduce_to_hull(&mut list).map_err(Refusal::number);
            let shown = &given[..given.len().min(30)];
            assert_eq!(answer, gives.as_ref().map(Vec::len).map_err(|number| *number), "{says}: {shown:?}");
            let expected = gives.map_or(given.clone(), |kept| {
                let kept = flat(&points(&kept));
                [&kept[..], &vec![0; given.len() - kept.len()]].concat()
            });
            assert_eq!(list, expected, "{says}: {shown:?}");
        }
    }

    #[test]
    fn the_call_for_the_widest_stretch_keeps_to_them() {
        for Edge { says, given, gives } in stretches() {
            let answer = widest_stretch(&given).map(|Stretch { a, b, w }| ((a.x, a.y), (b.x, b.y), w)).map_err(Refusal::number);
            assert_eq!(answer, gives, "{says}: {} numbers, {:?}", given.len(), &given[..given.len().min(30)]);
        }
    }

    #[test]
    fn the_call_for_drawn_points_keeps_to_them() {
        for Edge { says, given, gives } in drawings() {
            let (before, mut list) = (given.list(), given.list());
            let answer = drawing::append(given.point, &mut list, given.n).map_err(Refusal::number);
            assert_eq!(answer, gives.map(|_| given.n as usize + 1), "{says}: {:?}", given.point);
            let expected = match gives {
                Ok((x, y)) => {
                    let n = given.n as usize;
                    [&before[..2 * n], &[x, y], &before[2 * n + 2..]].concat()
                }
                Err(_) => before,
            };
            assert_eq!(list, expected, "{says}: {:?}", given.point);
        }
    }

    #[test]
    fn the_sheet_opener_keeps_to_them() {
        for Edge { says, given, gives } in sheets() {
            let answer = sheet::glyph(&given.bytes, given.k.into()).map_err(Refusal::number);
            assert_eq!(answer.map(|part| (part.start, given.bytes[part].to_vec())), gives, "{says}");
        }
    }

    #[test]
    fn the_run_of_a_sheet_keeps_to_them() {
        for Edge { says, given, gives } in runs() {
            let (before, numbers_before) = given.lent();
            let (mut buffer, mut numbers) = given.lent();
            let answer = run_sheet(&given.sheet, given.allowance, &mut buffer, &mut numbers).map_err(Refusal::number);
            let shown = (given.allowance, given.buffer, given.numbers, &given.sheet[..given.sheet.len().min(60)]);
            let expected = gives.as_ref().map(|ran| SheetRun { worked: ran.worked, left: ran.left }).map_err(|number| *number);
            assert_eq!(answer, expected, "{says}: {shown:?}");
            let (records, list) = gives.map(|ran| (ran.records, ran.numbers)).unwrap_or_default();
            assert!(buffer == [&records, &before[records.len()..]].concat(), "{says}: {shown:?}");
            assert!(numbers == [&list, &numbers_before[list.len()..]].concat(), "{says}: {shown:?} {numbers:?}");
        }
    }

    #[test]
    fn the_estimate_of_a_sheet_keeps_to_them() {
        for Edge { says, given, gives } in estimates() {
            let [before, refusals_before] = given.lent();
            let [mut points, mut refusals] = given.lent();
            let answer = estimate_sheet(&given.sheet, &mut points, &mut refusals).map_err(Refusal::number);
            let shown = (given.points, given.refusals, &given.sheet[..given.sheet.len().min(60)]);
            let expected =
                gives.as_ref().map(|taken| Estimate { bytes: taken.bytes, tests: taken.tests }).map_err(|number| *number);
            assert_eq!(answer, expected, "{says}: {shown:?}");
            let (list, own) = gives.map(|taken| (taken.points, taken.refusals)).unwrap_or_default();
            assert!(points == [&list, &before[list.len()..]].concat(), "{says}: {shown:?} {points:?}");
            assert!(refusals == [&own, &refusals_before[own.len()..]].concat(), "{says}: {shown:?} {refusals:?}");
        }
    }

    #[test]
    fn the_parts_of_sheets_keep_to_them() {
        for Edge { says, given, gives } in parts() {
            assert_eq!(sheet::part(&given.bytes, given.start, given.length), gives, "{says}");
        }
    }

    #[test]
    fn writer_cutting_radius_and_preview_keep_to_them() {
        for Edge { says, given, gives } in writings() {
            let before = vec![0xAA; given.room.into()];
            let mut buffer = before.clone();
            let (disk, support) = (&given.disk, &given.support);
            let answer = record::write(disk, support, &mut buffer).map_err(Refusal::number);
            assert_eq!(answer, gives.written, "{says}: {disk:?} with {support:?}");
            let filled = if answer.is_ok() { record::bytes_of(&LONG, disk, support) } else { vec![] };
            assert_eq!(buffer, [&filled, &before[filled.len()..]].concat(), "{says}");
            let radius = figures::whole_radius(disk, support).map_err(Refusal::number);
            assert_eq!(radius, gives.radius, "{says}: {disk:?} with {support:?}");
            let preview = figures::preview(disk, support).map_err(Refusal::number);
            assert_eq!(preview.map(|seen| seen.radius), gives.radius.map(|radius| radius as f64), "{says}");
        }
    }

    /// The disk is that of its points alone.
    #[test]
    fn previews_keep_to_them() {
        for Edge { says, given, gives } in previews() {
            let (disk, support) = (&given.disk, &given.support);
            let answer = engine::solve(&mut flat(support)).unwrap();
            assert_eq!((&answer.disk, &answer.support), (disk, support), "{says}");
            let seen = figures::preview(disk, support).unwrap();
            assert_eq!(seen.bits(), [gives.bits[0], gives.bits[1], (gives.radius as f64).to_bits()], "{says}: {disk:?}");
            assert_eq!(centre_deviations(disk, &seen), gives.by, "{says}: {disk:?}");
            assert!(gives.by.iter().all(Deviation::is_within_bound), "{says}: {disk:?}");
        }
    }

    #[test]
    fn the_record_reader_keeps_to_them() {
        for Edge { says, given, gives } in readings() {
            assert_eq!(record::read(&given).map_err(Refusal::number), gives, "{says}: {given:?}");
        }
    }

    /// 53 bytes give themselves; 45 their 53-byte form, with eight zeros before S.
    #[test]
    fn records_that_are_read_are_written_again() {
        for Edge { says, given, gives } in readings() {
            let Ok((disk, support)) = gives else { continue };
            let mut buffer = [0xAA; 64];
            assert_eq!(record::write(&disk, &support, &mut buffer), Ok(()), "{says}: {given:?}");
            let form = if given.len() == 45 { [&given[..24], &[0; 8], &given[24..]].concat() } else { given };
            assert_eq!(buffer[..], [&form[..], &[0xAA; 11]].concat(), "{says}");
        }
    }
}
