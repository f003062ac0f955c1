//! What is said on standard error: one line each, with a level in front where the journal reads it.

use std::fmt;
use std::io::Write;

/// How much something matters (syslog(3)).
#[derive(Clone, Copy, Debug, PartialEq, Eq)]
pub enum Level {
    Error = 3,
    Warning = 4,
    Notice = 5,
    Info = 6,
}

/// sd-daemon(3): with this variable standard error goes to the journal.
const JOURNAL: &str = "JOURNAL_STREAM";

/// Says a line. What can't be written is lost, and ends nothing.
pub fn say(level: Level, line: fmt::Arguments) {
    let text = line.to_string();
    let mut shown = String::new();
    if std::env::var_os(JOURNAL).is_some() {
        shown.push_str(&format!("<{}>", level as u8));
    } else {
        shown.push_str("dhcpcd-link: ");
    }
    shown.extend(text.chars().map(|letter| if letter.is_control() { '?' } else { letter }));
    shown.push('\n');
    let _ = std::io::stderr().write_all(shown.as_bytes());
}

/// `say!(Level, "form", words..)`
#[macro_export]
macro_rules! say {
    ($level:ident, $($form:tt)*) => {
        $crate::journal::say($crate::journal::Level::$level, format_args!($($form)*))
    };
}
