//! Events, the trace that carries them, and the batch.

use super::instructions;
use super::map::{Grid, Map};
use super::state::{Reason, State};
use super::{Broken, Number};

#[derive(Clone, Copy, Debug, PartialEq, Eq)]
pub enum Answer {
    Ran(u8),
    Waits(u8),
    Halted(u8),
    Faulted(u8, Reason),
    Switched(u8),
    Taken(u8),
    Full(u8),
    NoDomain(u8),
    Idle,
}

#[derive(Clone, Copy, Debug, PartialEq, Eq)]
pub enum Event {
    Step,
    Tick,
    WordIn { domain: u8, word: u32 },
}

impl Event {
    /// The event at `offset`, which lies inside the trace, and the offset after it. 11 is told before anything after the kind byte is
    /// looked at.
    pub(super) fn read(trace: &[u8], offset: usize) -> Result<(Event, usize), Broken> {
        let rest = &trace[offset + 1..];
        match trace[offset] {
            1 => Ok((Event::Step, offset + 1)),
            2 => Ok((Event::Tick, offset + 1)),
            3 => match *rest {
                [domain, a, b, c, d, ..] => {
                    let word = u32::from_le_bytes([a, b, c, d]);
                    Ok((Event::WordIn { domain, word }, offset + 6))
                }
                _ => Err(Broken { number: 12, offset }),
            },
            _ => Err(Broken { number: 11, offset }),
        }
    }

    /// The event on an accepted state.
    pub(super) fn happen(
        self,
        map: &Map,
        grid: &Grid,
        state: &mut State,
        memory: &mut [u8],
    ) -> Answer {
        match self {
            Event::Step => instructions::step(map, grid, state, memory),
            Event::Tick if state.active == 0 => Answer::Idle,
            Event::Tick => {
                state.switch(map);
                Answer::Switched(state.active)
            }
            Event::WordIn { domain, word } => fill(map, state, domain, word),
        }
    }
}

/// "Word in, from sender 0; if idle and the receiver becomes ready, it becomes active."
fn fill(map: &Map, state: &mut State, domain: u8, word: u32) -> Answer {
    if domain == 0 || u32::from(domain) > map.count {
        return Answer::NoDomain(domain);
    }
    let context = &mut state.contexts[usize::from(domain) - 1];
    let before = context.status;
    if !context.take(word, 0) {
        return Answer::Full(domain);
    }
    // A halted or faulted receiver keeps its status, and the node stays idle.
    if state.active == 0 && context.status != before {
        state.active = domain;
    }
    Answer::Taken(domain)
}

/// "Test the map as the writer would meet it, then 9, 13."
fn accept(map: &Map, grid: &Grid, state: &State, memory: &[u8]) -> Result<(), Number> {
    map.accept(grid)?;
    map.test_memory(memory)?;
    state.test(map)
}

pub fn step(
    map: &Map,
    grid: &Grid,
    state: &mut State,
    memory: &mut [u8],
) -> Result<Answer, Number> {
    accept(map, grid, state, memory)?;
    Ok(Event::Step.happen(map, grid, state, memory))
}

pub fn tick(
    map: &Map,
    grid: &Grid,
    state: &mut State,
    memory: &mut [u8],
) -> Result<Answer, Number> {
    accept(map, grid, state, memory)?;
    Ok(Event::Tick.happen(map, grid, state, memory))
}

/// A number that is no domain is answered, not refused.
pub fn word_in(
    map: &Map,
    grid: &Grid,
    state: &mut State,
    memory: &mut [u8],
    domain: u8,
    word: u32,
) -> Result<Answer, Number> {
    accept(map, grid, state, memory)?;
    Ok(Event::WordIn { domain, word }.happen(map, grid, state, memory))
}

/// How far a trace went: `broken` is 11 or 12 with the offset, and the events before it stand.
#[derive(Clone, Copy, Debug, PartialEq, Eq)]
pub struct Played {
    pub events: u64,
    pub broken: Option<Broken>,
}

pub fn play(
    map: &Map,
    grid: &Grid,
    state: &mut State,
    memory: &mut [u8],
    trace: &[u8],
) -> Result<Played, Number> {
    accept(map, grid, state, memory)?;
    Ok(follow(map, grid, state, memory, trace, |_, _| {}))
}

/// Plays a trace on an accepted state and tells every event's number and answer.
pub(super) fn follow(
    map: &Map,
    grid: &Grid,
    state: &mut State,
    memory: &mut [u8],
    trace: &[u8],
    mut tell: impl FnMut(u64, Answer),
) -> Played {
    let mut events = 0;
    let mut offset = 0;
    while offset < trace.len() {
        match Event::read(trace, offset) {
            Ok((event, next)) => {
                events += 1;
                tell(events, event.happen(map, grid, state, memory));
                offset = next;
            }
            Err(broken) => {
                return Played {
                    events,
                    broken: Some(broken),
                }
            }
        }
    }
    Played {
        events,
        broken: None,
    }
}

/// "It reports how many steps were not idle, and spent if that equals the limit, else idle."
#[derive(Clone, Copy, Debug, PartialEq, Eq)]
pub enum Batch {
    Spent(u64),
    Idle(u64),
}

impl Batch {
    pub fn steps(self) -> u64 {
        match self {
            Batch::Spent(steps) | Batch::Idle(steps) => steps,
        }
    }
}

pub fn batch(
    map: &Map,
    grid: &Grid,
    state: &mut State,
    memory: &mut [u8],
    limit: u64,
) -> Result<Batch, Number> {
    accept(map, grid, state, memory)?;
    for steps in 0..limit {
        if instructions::step(map, grid, state, memory) == Answer::Idle {
            return Ok(Batch::Idle(steps));
        }
    }
    Ok(Batch::Spent(limit))
}
