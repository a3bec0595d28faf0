//! How true the preview is: what its floats stand for against X/E, Y/E and R, in the reference's whole numbers.

use super::{disk_of, lent};
use reference::drawing::whole;
use reference::engine::flat;
use reference::preview_error::{deviation, Deviation};
use reference::random::Random;
use reference::{damage, edges, letters, lists, near_bound};
use volkhidar::*;

/// By how much the centre deviates from X/E and Y/E: each within the bound, and not at it. The radius is R.
fn deviations(disk: Disk, support: SupportSet, name: &str) -> [Deviation; 2] {
    let seen = preview(disk, support).unwrap_or_else(|refusal| panic!("{refusal:?}: {name}"));
    assert_eq!(whole(seen.radius), whole_radius(disk, support).ok().map(i128::from), "radius: {name}");
    let exact = disk_of(disk);
    [(seen.x, exact.x), (seen.y, exact.y)].map(|(v, z)| {
        let by = deviation(v, z, exact.e).unwrap();
        assert!(by.is_within_bound() && by.n.abs() < by.d, "{v} beside {z}/{}: {name}", exact.e);
        by
    })
}

/// Those beyond half the bound show that no smaller power of two would do.
#[test]
fn answers_of_the_engine_are_shown_within_the_bound() {
    let mut times = [0; 5];
    for case in lists::mixed(100_000, 24) {
        let found = smallest_disk(&mut flat(&case.points)).unwrap();
        for by in deviations(found.disk, found.support, &case.name) {
            let kinds = [by.n == 0, by.n < 0, by.n > 0, by.is_beyond(1, 2), by.is_beyond(99, 100)];
            times.iter_mut().zip(kinds).for_each(|(times, is_so)| *times += u32::from(is_so));
        }
    }
    assert!(times[..4].iter().all(|&number| number > 5_000) && times[4] > 50, "{times:?}");
}

/// Whatever a caller hands in is refused or shown within the bound.
#[test]
fn disks_of_callers_are_shown_within_the_bound() {
    let mut times = [0; 2];
    for seed in 0..50_000 {
        let case = damage::writer(&mut Random::new(seed));
        let Some((disk, support)) = lent(&case.disk, &case.support) else { continue };
        let is_taken = preview(disk, support).is_ok();
        if is_taken {
            deviations(disk, support, &format!("seed {seed}"));
        }
        times[usize::from(is_taken)] += 1;
    }
    assert!(times.iter().all(|&number| number > 10_000), "{times:?}");
}

#[test]
fn disks_near_the_bound() {
    let mut random = Random::new(1_400);
    for i in 0..2_000 {
        let (disk, support) = near_bound::draw(&mut random);
        let name = format!("disk {i}");
        let found = smallest_disk(&mut flat(&support)).unwrap();
        assert_eq!(Some((found.disk, found.support)), lent(&disk, &support), "{name}");
        assert!(deviations(found.disk, found.support, &name).iter().any(|by| by.is_beyond(999, 1_000)), "{name}");
    }
}

/// The disk of the points alone; then the bits and the deviations as they stand there.
#[test]
fn edges_by_hand() {
    for edge in edges::previews() {
        let name = format!("{}: {:?}", edge.says, edge.given.disk);
        let found = smallest_disk(&mut flat(&edge.given.support)).unwrap();
        assert_eq!(Some((found.disk, found.support)), lent(&edge.given.disk, &edge.given.support), "{name}");
        let seen = preview(found.disk, found.support).unwrap();
        let [x, y] = edge.gives.bits;
        let expected = [x, y, (edge.gives.radius as f64).to_bits()];
        assert_eq!([seen.x, seen.y, seen.radius].map(f64::to_bits), expected, "{name}");
        assert_eq!(deviations(found.disk, found.support, &name), edge.gives.by, "{name}");
    }
}

#[test]
fn letters_of_the_papers() {
    for letter in &letters::LETTERS {
        let found = smallest_disk(&mut flat(&letters::points(letter.list))).unwrap();
        deviations(found.disk, found.support, letter.name);
    }
}
