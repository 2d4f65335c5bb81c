//! The library under test: the declarations of its C interface and the blocks that its functions take.

#![allow(dead_code)]

use crate::second::events::Answer;
use crate::second::map::{Domain, Grid, Map, Region};
use crate::second::state::{Reason, State, Status};

#[repr(C)]
#[derive(Clone, Copy, Debug, Default, PartialEq, Eq)]
pub struct DomainBlock {
    pub code_begin: u32,
    pub code_end: u32,
    pub data_begin: u32,
    pub data_end: u32,
    pub entry: u32,
}

#[repr(C)]
#[derive(Clone, Copy, Debug, Default, PartialEq, Eq)]
pub struct MapBlock {
    pub length: u32,
    pub kernel_begin: u32,
    pub kernel_end: u32,
    pub count: u32,
    pub domains: [DomainBlock; 8],
}

pub type GridBlock = [u8; 64];

#[repr(C)]
#[derive(Clone, Copy, Debug, Default, PartialEq, Eq)]
pub struct ContextBlock {
    pub registers: [u32; 8],
    pub counter: u32,
    pub status: u32,
    pub number_low: u32,
    pub number_high: u32,
    pub full: u32,
    pub word: u32,
    pub sender: u32,
}

#[repr(C)]
#[derive(Clone, Copy, Debug, Default, PartialEq, Eq)]
pub struct StateBlock {
    pub active: u32,
    pub contexts: [ContextBlock; 8],
}

#[repr(C)]
#[derive(Clone, Copy, Debug, Default, PartialEq, Eq)]
pub struct AnswerBlock {
    pub kind: u32,
    pub domain: u32,
    pub reason: u32,
    pub number_low: u32,
    pub number_high: u32,
}

/// The shape that the three questions share.
pub type Question = unsafe extern "C" fn(
    map: *const MapBlock,
    grid: *const GridBlock,
    domain: u8,
    address: u64,
    yes: *mut u32,
) -> u32;

/// The shape that step and tick share.
pub type Stepper = unsafe extern "C" fn(
    map: *const MapBlock,
    grid: *const GridBlock,
    state: *mut StateBlock,
    memory: *mut u8,
    memory_length: usize,
    answer: *mut AnswerBlock,
) -> u32;

extern "C" {
    pub fn arcovinda_read(
        sheet: *const u8,
        sheet_length: usize,
        map: *mut MapBlock,
        grid: *mut GridBlock,
        at: *mut u64,
    ) -> u32;
    pub fn arcovinda_write(
        map: *const MapBlock,
        grid: *const GridBlock,
        buffer: *mut u8,
        buffer_length: usize,
        wrote: *mut u64,
    ) -> u32;
    pub fn arcovinda_may_read(
        map: *const MapBlock,
        grid: *const GridBlock,
        domain: u8,
        address: u64,
        yes: *mut u32,
    ) -> u32;
    pub fn arcovinda_may_write(
        map: *const MapBlock,
        grid: *const GridBlock,
        domain: u8,
        address: u64,
        yes: *mut u32,
    ) -> u32;
    pub fn arcovinda_may_fetch(
        map: *const MapBlock,
        grid: *const GridBlock,
        domain: u8,
        address: u64,
        yes: *mut u32,
    ) -> u32;
    pub fn arcovinda_view(
        map: *const MapBlock,
        grid: *const GridBlock,
        memory: *const u8,
        memory_length: usize,
        domain: u8,
        begin: *mut u64,
        length: *mut u64,
    ) -> u32;
    pub fn arcovinda_start(
        map: *const MapBlock,
        grid: *const GridBlock,
        state: *mut StateBlock,
    ) -> u32;
    pub fn arcovinda_step(
        map: *const MapBlock,
        grid: *const GridBlock,
        state: *mut StateBlock,
        memory: *mut u8,
        memory_length: usize,
        answer: *mut AnswerBlock,
    ) -> u32;
    pub fn arcovinda_tick(
        map: *const MapBlock,
        grid: *const GridBlock,
        state: *mut StateBlock,
        memory: *mut u8,
        memory_length: usize,
        answer: *mut AnswerBlock,
    ) -> u32;
    pub fn arcovinda_word_in(
        map: *const MapBlock,
        grid: *const GridBlock,
        state: *mut StateBlock,
        memory: *mut u8,
        memory_length: usize,
        domain: u8,
        word: u32,
        answer: *mut AnswerBlock,
    ) -> u32;
    pub fn arcovinda_play(
        map: *const MapBlock,
        grid: *const GridBlock,
        state: *mut StateBlock,
        memory: *mut u8,
        memory_length: usize,
        trace: *const u8,
        trace_length: usize,
        events: *mut u64,
        at: *mut u64,
    ) -> u32;
    pub fn arcovinda_batch(
        map: *const MapBlock,
        grid: *const GridBlock,
        state: *mut StateBlock,
        memory: *mut u8,
        memory_length: usize,
        limit: u64,
        steps: *mut u64,
    ) -> u32;
    pub fn arcovinda_transcript(
        sheet: *const u8,
        sheet_length: usize,
        memory: *mut u8,
        memory_length: usize,
        trace: *const u8,
        trace_length: usize,
        text: *mut u8,
        text_length: usize,
    ) -> usize;
}

impl From<&Map> for MapBlock {
    fn from(map: &Map) -> MapBlock {
        MapBlock {
            length: map.length,
            kernel_begin: map.kernel.begin,
            kernel_end: map.kernel.end,
            count: map.count,
            domains: map.domains.map(|domain| DomainBlock {
                code_begin: domain.code.begin,
                code_end: domain.code.end,
                data_begin: domain.data.begin,
                data_end: domain.data.end,
                entry: domain.entry,
            }),
        }
    }
}

impl From<&MapBlock> for Map {
    fn from(block: &MapBlock) -> Map {
        Map {
            length: block.length,
            kernel: Region {
                begin: block.kernel_begin,
                end: block.kernel_end,
            },
            count: block.count,
            domains: block.domains.map(|domain| Domain {
                code: Region {
                    begin: domain.code_begin,
                    end: domain.code_end,
                },
                data: Region {
                    begin: domain.data_begin,
                    end: domain.data_end,
                },
                entry: domain.entry,
            }),
        }
    }
}

/// "Byte 8 f + t is not 0 where domain f + 1 may send to domain t + 1."
pub fn grid_block(grid: &Grid) -> GridBlock {
    let mut block = [0; 64];
    for (byte, &mark) in block.iter_mut().zip(grid.iter().flatten()) {
        *byte = u8::from(mark);
    }
    block
}

pub fn grid(block: &GridBlock) -> Grid {
    let mut grid = Grid::default();
    for (mark, &byte) in grid.iter_mut().flatten().zip(block) {
        *mark = byte != 0;
    }
    grid
}

/// The number that a reason has as a status, and its address or byte.
fn reason_numbers(reason: Reason) -> (u32, u64) {
    match reason {
        Reason::Fetch(address) => (3, address),
        Reason::Read(address) => (4, address),
        Reason::Write(address) => (5, address),
        Reason::Kind(byte) => (6, byte.into()),
        Reason::Register(byte) => (7, byte.into()),
        Reason::Channel(byte) => (8, byte.into()),
    }
}

fn status_numbers(status: Status) -> (u32, u64) {
    match status {
        Status::Halted => (0, 0),
        Status::Ready => (1, 0),
        Status::Waiting => (2, 0),
        Status::Faulted(reason) => reason_numbers(reason),
    }
}

/// None where no status is written so.
fn status(number: u32, value: u64) -> Option<Status> {
    let byte = u8::try_from(value).ok();
    let reason = match number {
        0 if value == 0 => return Some(Status::Halted),
        1 if value == 0 => return Some(Status::Ready),
        2 if value == 0 => return Some(Status::Waiting),
        3 => Reason::Fetch(value),
        4 => Reason::Read(value),
        5 => Reason::Write(value),
        6 => Reason::Kind(byte?),
        7 => Reason::Register(byte?),
        8 => Reason::Channel(byte?),
        _ => return None,
    };
    Some(Status::Faulted(reason))
}

impl From<&State> for StateBlock {
    fn from(state: &State) -> StateBlock {
        StateBlock {
            active: state.active.into(),
            contexts: state.contexts.map(|context| {
                let (status, number) = status_numbers(context.status);
                ContextBlock {
                    registers: context.registers,
                    counter: context.counter,
                    status,
                    number_low: number as u32,
                    number_high: (number >> 32) as u32,
                    full: context.word_box.full.into(),
                    word: context.word_box.word,
                    sender: context.word_box.sender.into(),
                }
            }),
        }
    }
}

/// The state that a block is written for; None for "a block that no state is written as".
pub fn state(block: &StateBlock) -> Option<State> {
    let mut state = State {
        active: u8::try_from(block.active).ok()?,
        ..State::default()
    };
    for (context, from) in state.contexts.iter_mut().zip(&block.contexts) {
        context.registers = from.registers;
        context.counter = from.counter;
        let number = u64::from(from.number_high) << 32 | u64::from(from.number_low);
        context.status = status(from.status, number)?;
        context.word_box.full = match from.full {
            0 => false,
            1 => true,
            _ => return None,
        };
        context.word_box.word = from.word;
        context.word_box.sender = u8::try_from(from.sender).ok()?;
    }
    Some(state)
}

impl From<Answer> for AnswerBlock {
    fn from(answer: Answer) -> AnswerBlock {
        let (kind, domain) = match answer {
            Answer::Idle => (0, 0),
            Answer::Ran(domain) => (1, domain),
            Answer::Waits(domain) => (2, domain),
            Answer::Halted(domain) => (3, domain),
            Answer::Faulted(domain, _) => (4, domain),
            Answer::Switched(domain) => (5, domain),
            Answer::Taken(domain) => (6, domain),
            Answer::Full(domain) => (7, domain),
            Answer::NoDomain(byte) => (8, byte),
        };
        let (reason, number) = match answer {
            Answer::Faulted(_, reason) => reason_numbers(reason),
            _ => (0, 0),
        };
        AnswerBlock {
            kind,
            domain: domain.into(),
            reason,
            number_low: number as u32,
            number_high: (number >> 32) as u32,
        }
    }
}
