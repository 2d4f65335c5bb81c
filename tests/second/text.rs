//! The program's text.

use super::events::{self, Answer};
use super::state::{self, Reason};
use super::{sheet, Broken};
use std::fmt::{self, Display, Formatter, Write};

impl Display for Reason {
    fn fmt(&self, f: &mut Formatter) -> fmt::Result {
        match self {
            Reason::Fetch(address) => write!(f, "fetch {address}"),
            Reason::Read(address) => write!(f, "read {address}"),
            Reason::Write(address) => write!(f, "write {address}"),
            Reason::Kind(byte) => write!(f, "kind {byte}"),
            Reason::Register(byte) => write!(f, "register {byte}"),
            Reason::Channel(byte) => write!(f, "channel {byte}"),
        }
    }
}

impl Display for Answer {
    fn fmt(&self, f: &mut Formatter) -> fmt::Result {
        match self {
            Answer::Ran(d) => write!(f, "ran {d}"),
            Answer::Waits(d) => write!(f, "waits {d}"),
            Answer::Halted(d) => write!(f, "halted {d}"),
            Answer::Faulted(d, reason) => write!(f, "faulted {d} {reason}"),
            Answer::Switched(d) => write!(f, "switched {d}"),
            Answer::Taken(d) => write!(f, "taken {d}"),
            Answer::Full(d) => write!(f, "full {d}"),
            Answer::NoDomain(b) => write!(f, "no domain {b}"),
            Answer::Idle => write!(f, "idle"),
        }
    }
}

impl Display for Broken {
    fn fmt(&self, f: &mut Formatter) -> fmt::Result {
        write!(f, "{} at {}", self.number, self.offset)
    }
}

/// What the program prints for these files, whose cut is the caller's; the memory becomes the last one. The order is the sheet, then 9,
/// then the trace.
pub fn transcript(sheet: &[u8], memory: &mut [u8], trace: &[u8]) -> String {
    let (map, grid) = match sheet::read(sheet) {
        Ok(read) => read,
        Err(broken) => return format!("{broken}\n"),
    };
    if let Err(number) = map.test_memory(memory) {
        return format!("{number}\n");
    }
    let mut state = match state::start(&map, &grid) {
        Ok(state) => state,
        Err(number) => return format!("{number}\n"),
    };
    let mut text = String::new();
    // Writing to a string cannot fail.
    let played = events::follow(&map, &grid, &mut state, memory, trace, |event, answer| {
        let _ = writeln!(text, "{event} {answer}");
    });
    if let Some(broken) = played.broken {
        let _ = writeln!(text, "{broken}");
    }
    let _ = writeln!(text, "active {}", state.active);
    text
}
