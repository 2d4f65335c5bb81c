//! The state: contexts, boxes, the active domain, and the switch.

use super::map::{Grid, Map};
use super::Number;

/// Why a domain is faulted: an address for an access, a byte for the rest.
#[derive(Clone, Copy, Debug, PartialEq, Eq)]
pub enum Reason {
    Fetch(u64),
    Read(u64),
    Write(u64),
    Kind(u8),
    Register(u8),
    Channel(u8),
}

#[derive(Clone, Copy, Debug, Default, PartialEq, Eq)]
pub enum Status {
    #[default]
    Halted,
    Ready,
    Waiting,
    Faulted(Reason),
}

/// "A box holding at most one word with its sender." The marks stand apart so that a malformed box can be held and refused.
#[derive(Clone, Copy, Debug, Default, PartialEq, Eq)]
pub struct WordBox {
    pub full: bool,
    pub word: u32,
    pub sender: u8,
}

#[derive(Clone, Copy, Debug, Default, PartialEq, Eq)]
pub struct Context {
    pub registers: [u32; 8],
    pub counter: u32,
    pub status: Status,
    pub word_box: WordBox,
}

impl Context {
    /// Fills the box if it is empty and says whether it was. "A waiting receiver becomes ready, whoever fills its box."
    #[inline]
    pub(super) fn take(&mut self, word: u32, sender: u8) -> bool {
        if self.word_box.full {
            return false;
        }
        self.word_box = WordBox {
            full: true,
            word,
            sender,
        };
        if self.status == Status::Waiting {
            self.status = Status::Ready;
        }
        true
    }
}

/// The default one is what a refused start gives: active 0 and every context zero and halted.
#[derive(Clone, Copy, Debug, Default, PartialEq, Eq)]
pub struct State {
    pub active: u8,
    pub contexts: [Context; 8],
}

impl State {
    /// Refusal 13; the map has been accepted.
    pub(super) fn test(&self, map: &Map) -> Result<(), Number> {
        if self.well_formed(map.count as usize) {
            Ok(())
        } else {
            Err(13)
        }
    }

    fn well_formed(&self, count: usize) -> bool {
        let (used, unused) = self.contexts.split_at(count);
        let ready = |context: &Context| context.status == Status::Ready;
        let active = match usize::from(self.active) {
            0 => !used.iter().any(ready),
            number => number <= count && ready(&used[number - 1]),
        };
        active
            && used.iter().all(|context| {
                let WordBox { full, word, sender } = context.word_box;
                if full {
                    usize::from(sender) <= count && context.status != Status::Waiting
                } else {
                    word == 0 && sender == 0
                }
            })
            && unused.iter().all(|context| *context == Context::default())
    }

    /// "Switching takes the first ready domain after the active one, going round and ending at itself; with none, active becomes 0."
    #[inline]
    pub(super) fn switch(&mut self, map: &Map) {
        let ready = |&number: &u8| self.contexts[usize::from(number) - 1].status == Status::Ready;
        self.active = (self.active + 1..=map.count as u8)
            .chain(1..=self.active)
            .find(ready)
            .unwrap_or(0);
    }
}

/// "All ready, registers 0, counter at the entry, boxes empty, domain 1 active."
pub fn start(map: &Map, grid: &Grid) -> Result<State, Number> {
    map.accept(grid)?;
    let mut state = State {
        active: 1,
        ..State::default()
    };
    let used = &map.domains[..map.count as usize];
    for (context, domain) in state.contexts.iter_mut().zip(used) {
        context.counter = domain.entry;
        context.status = Status::Ready;
    }
    Ok(state)
}
