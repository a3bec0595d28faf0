//! Welzl's move-to-front procedure (source 000, B_MTFDISK; document 01, "Welzl's procedure and the count"), word for word: by the
//! last point of the list, with document 01's inequality for the test.

use crate::geometry::{Disk, Point};

/// What the procedure gives for a disk.
#[derive(Clone, Copy, PartialEq, Eq, Debug)]
pub enum Cover {
    /// The empty disk: every point is outside it.
    Empty,
    Disk(Disk),
    /// Three points in a row have no circle, and the text has no disk there. No point is outside (docs/DECISIONS.md, 6).
    NoCircle,
}

/// What the procedure gives, beside the list that it leaves.
#[derive(Clone, Copy, PartialEq, Eq, Debug)]
pub struct Run {
    pub cover: Cover,
    pub tests: u64,
}

/// The procedure started on the list as given, with no point fixed. The list is left as the procedure leaves it.
pub fn run(list: &mut [Point]) -> Run {
    run_with(list, &[])
}

/// The same with the points of the set fixed.
pub fn run_with(list: &mut [Point], fixed: &[Point]) -> Run {
    if list.len() <= 256 {
        return b_mtfdisk(list, fixed);
    }
    on_a_deep_stack(|| b_mtfdisk(list, fixed))
}

/// The recursion goes as deep as the list is long.
fn on_a_deep_stack<T: Send>(work: impl FnOnce() -> T + Send) -> T {
    const STACK: usize = 64 << 20;
    std::thread::scope(|scope| {
        let thread = std::thread::Builder::new().stack_size(STACK);
        let running = thread.spawn_scoped(scope, work).expect("a thread starts");
        running.join().expect("the procedure ends")
    })
}

/// B_MTFDISK on the list P with the set R fixed on the boundary.
fn b_mtfdisk(p_list: &mut [Point], r_set: &[Point]) -> Run {
    if p_list.is_empty() || r_set.len() == 3 {
        return Run { cover: boundary_disk(r_set), tests: 0 };
    }
    let last = p_list.len() - 1;
    let p = p_list[last];
    let mut result = b_mtfdisk(&mut p_list[..last], r_set);
    result.tests += 1;
    if is_outside(p, &result.cover) {
        let with_p = [r_set, &[p]].concat();
        let again = b_mtfdisk(&mut p_list[..last], &with_p);
        result = Run { cover: again.cover, tests: result.tests + again.tests };
        move_to_front(p_list);
    }
    result
}

fn is_outside(p: Point, cover: &Cover) -> bool {
    match cover {
        Cover::Empty => true,
        Cover::Disk(disk) => !disk.holds(p),
        Cover::NoCircle => false,
    }
}

/// The last point comes first, each other one place back.
fn move_to_front(list: &mut [Point]) {
    list.rotate_right(1);
}

/// The smallest disk with the set on its boundary.
fn boundary_disk(set: &[Point]) -> Cover {
    match *set {
        [] => Cover::Empty,
        [a] => Cover::Disk(Disk::of_one(a)),
        [a, b] => Cover::Disk(Disk::of_two(a, b)),
        [a, b, c] => Disk::of_three(a, b, c).map_or(Cover::NoCircle, Cover::Disk),
        _ => unreachable!("the procedure fixes at most three points"),
    }
}

/// The greatest count that demand 3 allows for n points: (n³ + 5n) / 6.
pub fn most_tests(n: u64) -> u64 {
    (n * n * n + 5 * n) / 6
}

#[cfg(test)]
mod tests {
    use super::*;
    use crate::{lists, smallest::smallest_disk};

    fn assert_run_is_right(name: &str, points: &[Point]) {
        let mut left = points.to_vec();
        let run = run(&mut left);
        assert_eq!(run.cover, Cover::Disk(smallest_disk(points)), "{name}");
        assert!(run.tests >= points.len() as u64, "{name}");
        assert!(run.tests <= most_tests(points.len() as u64), "{name}");
        let mut before = points.to_vec();
        before.sort_unstable();
        left.sort_unstable();
        assert_eq!(left, before, "{name}");
    }

    #[test]
    fn the_procedure_ends_on_the_smallest_disk() {
        for case in lists::mixed(5_000, 80) {
            assert_run_is_right(&case.name, &case.points);
        }
    }

    #[test]
    fn long_lists_too() {
        for case in lists::long() {
            assert_run_is_right(&case.name, &case.points);
        }
    }
}
