//! A session: a walk, and what the last key gave.

use super::command::Command;
use super::course::Course;
use super::message;
use super::screen::{Screen, Size};
use workbook_host::{mnemonics, Answer};

/// A session.
pub struct Session {
    course: Course,
    screen: Screen,
    message: String,
}

impl Session {
    /// At the start of a walk.
    pub fn new(course: Course) -> Session {
        Session {
            screen: Screen::of(course.sheet(), course.return_type()),
            course,
            message: format!("{}; ? shows the keys", message::START),
        }
    }

    /// The lines of the screen.
    pub fn lines(&self, size: Size) -> Vec<String> {
        self.screen.lines(&self.course, &self.message, size)
    }

    /// Puts a message in the place of the last one.
    pub fn say(&mut self, message: String) {
        self.message = message;
    }

    /// Does what a command asks for. What stops a way of many steps is asked now and then.
    pub fn press(&mut self, command: Command, stopped: &mut dyn FnMut() -> bool) {
        let course = &mut self.course;
        self.message = match command {
            Command::Forward => forward(course),
            Command::Back => back(course),
            Command::Start => {
                course.restart();
                message::START.to_string()
            }
            Command::End => {
                let way = course.go(u64::MAX, stopped);
                message::end(way, course.count())
            }
            Command::Go(step) => {
                let way = course.go(step, stopped);
                message::go(way, step, course.count())
            }
            Command::Keys => message::keys(),
            Command::Wrong(what) => what,
            Command::Quit => return,
        };
    }
}

fn forward(course: &mut Course) -> String {
    let (name, throws) = (next_name(course), course.divides_by_zero());
    match course.forward() {
        Answer::Granted => message::forward(&name, throws.then(|| course.pc())),
        answer => message::outcome(answer),
    }
}

fn back(course: &mut Course) -> String {
    match course.back() {
        Answer::Granted => message::back(&next_name(course)),
        answer => message::outcome(answer),
    }
}

/// The name of the next instruction: its operands stand in the listing.
fn next_name(course: &Course) -> String {
    let text = mnemonics::instruction(course.code(), course.pc());
    let mut words = text.split(' ');
    match words.next() {
        Some("wide") => format!("wide {}", words.next().unwrap_or("")),
        word => word.unwrap_or("").to_string(),
    }
}
