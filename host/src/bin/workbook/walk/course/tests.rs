//! Going back shows what was shown before, and a walk stays within its bounds.

use super::*;
use workbook_host::source;

/// Adds 1 to a long, again and again.
const ENDLESS: &str = "max_stack 4\nmax_locals 2\ndescriptor (J)J\nargument long 5\ncode\n\
    again:\nlload_0\nlconst_1\nladd\nlstore_0\ngoto again\n";

fn course() -> Course {
    let sheet = source::sheet(ENDLESS).unwrap();
    Course::new(Walk::open_with_log(sheet, 0).unwrap())
}

/// What a screen shows.
fn shown(course: &Course) -> impl PartialEq + std::fmt::Debug {
    let written = (course.written_locals(), course.written_stack());
    (course.pc(), course.locals(), course.stack(), written)
}

#[test]
fn back_shows_what_was_shown_before() {
    let (mut course, mut stages) = (course(), vec![]);
    course.most_kept = 5;
    for _ in 0..50 {
        stages.push(shown(&course));
        assert_eq!(course.forward(), Answer::Granted);
    }
    for stage in stages.iter().rev() {
        assert_eq!(course.back(), Answer::Granted);
        assert_eq!(&shown(&course), stage);
        assert!(course.kept.len() <= 5);
    }
    assert_eq!(course.back(), Answer::Refused(Refusal::START));
    // Forward and back where nothing is kept, because the way was long.
    for step in [17, 3, 0, 49] {
        assert_eq!(course.go(step, &mut || false), Way::Reached);
        assert_eq!(shown(&course), stages[step as usize]);
    }
    let _ = course.back();
    assert_eq!(shown(&course), stages[48]);
}

#[test]
fn a_way_is_stopped() {
    let (mut course, mut looks) = (course(), 0);
    let mut third = || {
        looks += 1;
        looks == 3
    };
    assert_eq!(course.go(u64::MAX, &mut third), Way::Stopped);
    assert_eq!(course.count(), 3 * STEPS_A_LOOK);
}

#[test]
fn a_walk_has_a_last_step() {
    let mut course = course();
    let full = Answer::Refused(Refusal::LOG_FULL);
    assert_eq!(course.go(u64::MAX, &mut || false), Way::Ended(full));
    assert_eq!(course.forward(), full);
    assert_eq!(course.count(), MOST_STEPS);
    assert_eq!(course.log.len() as u64, MOST_STEPS);
}
