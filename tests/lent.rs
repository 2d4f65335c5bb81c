//! What is lent to the library: both sides of one node, and memory between guards.

use crate::counts::{Call, Counts};
use crate::library::{self, AnswerBlock, GridBlock, MapBlock, StateBlock};
use crate::second::events::{self, Answer, Batch, Event};
use crate::second::map::{Grid, Map};
use crate::second::state::State;
use std::fmt::Debug;

/// What differed, and both values.
pub struct Mismatch {
    pub what: String,
    pub second: String,
    pub library: String,
}

pub type Checked<T = ()> = Result<T, Mismatch>;

pub fn same<T: PartialEq + Debug>(what: &str, second: T, library: T) -> Checked {
    if second == library {
        return Ok(());
    }
    Err(Mismatch {
        what: what.into(),
        second: format!("{second:?}"),
        library: format!("{library:?}"),
    })
}

/// What a number that a call is to set holds before the call. A refused call leaves "counts 0", and no other number set.
pub const UNSET: u64 = 77;

pub fn same_bytes(what: &str, second: &[u8], library: &[u8]) -> Checked {
    if second == library {
        return Ok(());
    }
    let place = second.iter().zip(library).position(|(a, b)| a != b);
    let place = place.unwrap_or(second.len().min(library.len()));
    let show = |bytes: &[u8]| {
        let end = bytes.len().min(place + 16);
        format!(
            "{} bytes, from {place}: {:?}",
            bytes.len(),
            &bytes[place.min(end)..end]
        )
    };
    Err(Mismatch {
        what: what.into(),
        second: show(second),
        library: show(library),
    })
}

const GUARD: usize = 16;

/// Bytes with guards on both sides, which no call may touch.
pub struct Lent {
    bytes: Vec<u8>,
}

impl Lent {
    pub fn new(content: &[u8]) -> Lent {
        let mut bytes = vec![0xa5; content.len() + 2 * GUARD];
        bytes[GUARD..GUARD + content.len()].copy_from_slice(content);
        Lent { bytes }
    }

    pub fn pointer(&mut self) -> *mut u8 {
        self.bytes[GUARD..].as_mut_ptr()
    }

    pub fn length(&self) -> usize {
        self.bytes.len() - 2 * GUARD
    }

    pub fn check(&self, what: &str, second: &[u8]) -> Checked {
        let (front, rest) = self.bytes.split_at(GUARD);
        let (content, back) = rest.split_at(self.length());
        same_bytes(what, second, content)?;
        same_bytes("the guard in front", &[0xa5; GUARD], front)?;
        same_bytes("the guard behind", &[0xa5; GUARD], back)
    }
}

const UNSET_ANSWER: AnswerBlock = AnswerBlock {
    kind: 77,
    domain: 77,
    reason: 77,
    number_low: 77,
    number_high: 77,
};

/// One node on both sides.
pub struct Both {
    map: Map,
    grid: Grid,
    pub state: State,
    pub memory: Vec<u8>,
    map_block: MapBlock,
    grid_block: GridBlock,
    block: StateBlock,
    lent: Lent,
}

impl Both {
    pub fn new(map: &Map, grid: &Grid, state: &State, memory: &[u8]) -> Both {
        // Any byte but 0 is a mark.
        let mut grid_block = library::grid_block(grid);
        for (byte, mark) in grid_block.iter_mut().zip([1, 255, 2].into_iter().cycle()) {
            *byte *= mark;
        }
        Both {
            map: *map,
            grid: *grid,
            state: *state,
            memory: memory.to_vec(),
            map_block: MapBlock::from(map),
            grid_block,
            block: StateBlock::from(state),
            lent: Lent::new(memory),
        }
    }

    /// A block that no state is written as; the second implementation gets a state that it must refuse with the same number.
    pub fn with_block(map: &Map, grid: &Grid, block: &StateBlock, memory: &[u8]) -> Both {
        let malformed = State {
            active: 255,
            ..State::default()
        };
        let mut both = Both::new(map, grid, &malformed, memory);
        both.block = *block;
        both
    }

    /// Everything that was lent, after a call that the second implementation refused or did not. `before` is the block as it was.
    fn check(&self, what: &str, refused: bool, before: &StateBlock) -> Checked {
        let block = if refused {
            *before
        } else {
            StateBlock::from(&self.state)
        };
        if block != self.block {
            same(&format!("{what}: active"), block.active, self.block.active)?;
            for (number, (second, library)) in
                (1..).zip(block.contexts.iter().zip(&self.block.contexts))
            {
                same(&format!("{what}: context {number}"), second, library)?;
            }
        }
        self.lent.check(&format!("{what}: memory"), &self.memory)
    }

    pub fn event(&mut self, event: Event, counts: &mut Counts) -> Checked<Option<Answer>> {
        let before = self.block;
        let kind = self.next_kind();
        let (map, grid) = (&self.map, &self.grid);
        let (state, memory) = (&mut self.state, &mut self.memory[..]);
        let (map_block, grid_block, block) = (&self.map_block, &self.grid_block, &mut self.block);
        let (pointer, length) = (self.lent.pointer(), self.lent.length());
        let mut told = UNSET_ANSWER;
        let (what, call, answer, number) = match event {
            Event::Step => {
                let answer = events::step(map, grid, state, memory);
                let number = unsafe {
                    library::arcovinda_step(
                        map_block, grid_block, block, pointer, length, &mut told,
                    )
                };
                ("step", Call::Step, answer, number)
            }
            Event::Tick => {
                let answer = events::tick(map, grid, state, memory);
                let number = unsafe {
                    library::arcovinda_tick(
                        map_block, grid_block, block, pointer, length, &mut told,
                    )
                };
                ("tick", Call::Tick, answer, number)
            }
            Event::WordIn { domain, word } => {
                let answer = events::word_in(map, grid, state, memory, domain, word);
                let number = unsafe {
                    library::arcovinda_word_in(
                        map_block, grid_block, block, pointer, length, domain, word, &mut told,
                    )
                };
                ("word in", Call::WordIn, answer, number)
            }
        };
        if let (Ok(Answer::Ran(_) | Answer::Waits(_) | Answer::Halted(_)), Some(kind)) =
            (answer, kind)
        {
            counts.kind(kind);
        }
        counts.call(call, answer.err().unwrap_or(0));
        same(
            &format!("{what}: number"),
            u32::from(answer.err().unwrap_or(0)),
            number,
        )?;
        match answer {
            Ok(answer) => {
                counts.answer(answer);
                same(&format!("{what}: answer {answer:?}"), answer.into(), told)?;
            }
            Err(_) => same(
                &format!("{what}: answer of a refused call"),
                UNSET_ANSWER,
                told,
            )?,
        }
        self.check(what, answer.is_err(), &before)?;
        Ok(answer.ok())
    }

    /// The kind byte that a step would meet, if there is one.
    fn next_kind(&self) -> Option<u8> {
        let index = usize::from(self.state.active).checked_sub(1)?;
        let counter = self.state.contexts.get(index)?.counter;
        self.memory.get(counter as usize).copied()
    }

    pub fn play(&mut self, trace: &[u8], counts: &mut Counts) -> Checked {
        let before = self.block;
        let (state, memory) = (&mut self.state, &mut self.memory[..]);
        let played = events::play(&self.map, &self.grid, state, memory, trace);
        let (number, events, offset) = match played {
            Err(number) => (number, 0, 0),
            Ok(played) => match played.broken {
                None => (0, played.events, 0),
                Some(broken) => (broken.number, played.events, broken.offset as u64),
            },
        };
        let (mut told_events, mut told_offset) = (UNSET, UNSET);
        let mut lent_trace = Lent::new(trace);
        let told = unsafe {
            library::arcovinda_play(
                &self.map_block,
                &self.grid_block,
                &mut self.block,
                self.lent.pointer(),
                self.lent.length(),
                lent_trace.pointer(),
                trace.len(),
                &mut told_events,
                &mut told_offset,
            )
        };
        counts.call(Call::Play, number);
        same(
            "play: number, events, offset",
            (u32::from(number), events, offset),
            (told, told_events, told_offset),
        )?;
        lent_trace.check("play: trace", trace)?;
        self.check("play", played.is_err(), &before)
    }

    /// The second implementation's answer.
    pub fn batch(&mut self, limit: u64, counts: &mut Counts) -> Checked<Option<Batch>> {
        let before = self.block;
        let (state, memory) = (&mut self.state, &mut self.memory[..]);
        let batch = events::batch(&self.map, &self.grid, state, memory, limit);
        let (number, steps) = match batch {
            Ok(batch) => (0, batch.steps()),
            Err(number) => (number, 0),
        };
        let mut told_steps = UNSET;
        let told = unsafe {
            library::arcovinda_batch(
                &self.map_block,
                &self.grid_block,
                &mut self.block,
                self.lent.pointer(),
                self.lent.length(),
                limit,
                &mut told_steps,
            )
        };
        counts.call(Call::Batch, number);
        same(
            &format!("batch of {limit}: number, steps"),
            (u32::from(number), steps),
            (told, told_steps),
        )?;
        self.check("batch", batch.is_err(), &before)?;
        Ok(batch.ok())
    }
}
