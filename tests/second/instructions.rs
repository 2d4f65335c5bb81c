//! One instruction of the active domain.
//!
//! The step and its helpers are always inlined: a batch's loop took up to half as long again where they were called.

use super::events::Answer;
use super::map::{Domain, Grid, Map};
use super::state::{Reason, State, Status, WordBox};
use super::wrong::{self, Wrong};

/// What an instruction that did not fault leaves to its step.
enum Effect {
    /// The counter moves past the instruction, which is so many bytes long.
    Advance(u32),
    /// "A jump only sets the counter."
    Jump(u32),
    /// Kind 18: "advance, then switch".
    GiveWay,
    /// Receive from an empty box: "sets waiting, leaves the counter, and switches".
    Wait,
    /// Kind 19: "halt, counter unmoved, switch".
    Halt,
}

/// A step of an accepted state.
#[inline(always)]
pub(super) fn step(map: &Map, grid: &Grid, state: &mut State, memory: &mut [u8]) -> Answer {
    let number = state.active;
    if number == 0 {
        return Answer::Idle;
    }
    let index = usize::from(number) - 1;
    match execute(map, grid, state, memory, index) {
        Ok(Effect::Advance(length)) => {
            state.contexts[index].counter += length;
            Answer::Ran(number)
        }
        Ok(Effect::Jump(target)) => {
            state.contexts[index].counter = target;
            Answer::Ran(number)
        }
        Ok(Effect::GiveWay) => {
            state.contexts[index].counter += 1;
            state.switch(map);
            Answer::Ran(number)
        }
        Ok(Effect::Wait) => {
            state.contexts[index].status = Status::Waiting;
            state.switch(map);
            Answer::Waits(number)
        }
        Ok(Effect::Halt) => {
            state.contexts[index].status = Status::Halted;
            state.switch(map);
            Answer::Halted(number)
        }
        // "A fault sets the status, changes nothing else of the domain, memory or boxes, and switches."
        Err(reason) => {
            state.contexts[index].status = Status::Faulted(reason);
            state.switch(map);
            Answer::Faulted(number, reason)
        }
    }
}

/// "Fetch of the kind byte, kind above 19, fetch of the body, registers above 7 in body order, then access or channel." Nothing is set
/// before the last of these tests has passed.
#[inline(always)]
fn execute(
    map: &Map,
    grid: &Grid,
    state: &mut State,
    memory: &mut [u8],
    index: usize,
) -> Result<Effect, Reason> {
    let domain = &map.domains[index];
    let context = &mut state.contexts[index];
    let registers = &mut context.registers;
    let at = u64::from(context.counter);
    let [kind] = fetch(domain, memory, at)?;
    let body = at + 1;
    if wrong::is(Wrong::RegistersFirst) {
        wrong::registers_first(memory, kind, body)?;
    }
    match kind {
        0 => Ok(Effect::Advance(1)),
        1 => {
            let [r, a, b, c, d] = fetch(domain, memory, body)?;
            registers[register(r)?] = u32::from_le_bytes([a, b, c, d]);
            Ok(Effect::Advance(6))
        }
        2..=8 => {
            let [r, s] = fetch(domain, memory, body)?;
            let (r, s) = (register(r)?, register(s)?);
            let (x, y) = (registers[r], registers[s]);
            registers[r] = match kind {
                2 => y,
                3 => x.wrapping_add(y),
                4 => x.wrapping_sub(y),
                5 => x & y,
                6 => x | y,
                7 => x ^ y,
                _ => u32::from(x < y),
            };
            Ok(Effect::Advance(3))
        }
        9..=12 => {
            let [r, s, offset] = fetch(domain, memory, body)?;
            let (r, s) = (register(r)?, register(s)?);
            let base = registers[s];
            match kind {
                9 => {
                    let [byte] = load(domain, memory, base, offset)?;
                    registers[r] = u32::from(byte);
                }
                10 => registers[r] = u32::from_le_bytes(load(domain, memory, base, offset)?),
                11 => store(domain, memory, base, offset, [registers[r] as u8])?,
                _ => store(domain, memory, base, offset, registers[r].to_le_bytes())?,
            }
            Ok(Effect::Advance(4))
        }
        13 => {
            let target = u16::from_le_bytes(fetch(domain, memory, body)?);
            Ok(Effect::Jump(target.into()))
        }
        14 => {
            let [r, low, high] = fetch(domain, memory, body)?;
            if registers[register(r)?] != 0 {
                Ok(Effect::Jump(u16::from_le_bytes([low, high]).into()))
            } else {
                Ok(Effect::Advance(4))
            }
        }
        15 => {
            let [r] = fetch(domain, memory, body)?;
            Ok(Effect::Jump(registers[register(r)?]))
        }
        16 => {
            let [to, r] = fetch(domain, memory, body)?;
            let r = register(r)?;
            send(map, grid, state, index, to, r)?;
            Ok(Effect::Advance(3))
        }
        17 => {
            let [r, s] = fetch(domain, memory, body)?;
            let (r, s) = (register(r)?, register(s)?);
            let WordBox { full, word, sender } = context.word_box;
            if !full {
                return Ok(Effect::Wait);
            }
            // "Word into r, then sender into s": where r is s the sender stays.
            registers[r] = word;
            registers[s] = sender.into();
            context.word_box = WordBox::default();
            Ok(Effect::Advance(3))
        }
        18 => Ok(Effect::GiveWay),
        19 => Ok(Effect::Halt),
        _ => Err(Reason::Kind(kind)),
    }
}

/// "Send faults as channel if d is not 1 to N or not granted; otherwise R0 becomes 1 and the box is filled, or R0 becomes 0 if it was full."
#[inline(always)]
fn send(
    map: &Map,
    grid: &Grid,
    state: &mut State,
    index: usize,
    to: u8,
    r: usize,
) -> Result<(), Reason> {
    if to == 0 || u32::from(to) > map.count || !grid[index][usize::from(to) - 1] {
        return Err(Reason::Channel(to));
    }
    if wrong::is(Wrong::AnswerFirst) {
        state.contexts[index].registers[0] = 1;
    }
    // Read before R0 is set, since r may be R0.
    let word = state.contexts[index].registers[r];
    let taken = state.contexts[usize::from(to) - 1].take(word, index as u8 + 1);
    state.contexts[index].registers[0] = u32::from(taken);
    Ok(())
}

#[inline(always)]
fn register(byte: u8) -> Result<usize, Reason> {
    if byte > 7 {
        return Err(Reason::Register(byte));
    }
    Ok(usize::from(byte))
}

/// Fetches `N` bytes as one access.
#[inline(always)]
fn fetch<const N: usize>(domain: &Domain, memory: &[u8], at: u64) -> Result<[u8; N], Reason> {
    let length = N as u64;
    if domain.code.holds(at, length) {
        return Ok(bytes(memory, at));
    }
    Err(Reason::Fetch(domain.code.lowest_outside(at, length)))
}

/// Loads `N` bytes from base + offset.
#[inline(always)]
fn load<const N: usize>(
    domain: &Domain,
    memory: &[u8],
    base: u32,
    offset: u8,
) -> Result<[u8; N], Reason> {
    let address = readable(domain, base, offset, N as u64).map_err(Reason::Read)?;
    Ok(bytes(memory, address))
}

/// Stores `N` bytes to base + offset, all or none.
#[inline(always)]
fn store<const N: usize>(
    domain: &Domain,
    memory: &mut [u8],
    base: u32,
    offset: u8,
    value: [u8; N],
) -> Result<(), Reason> {
    let address = match writable(domain, base, offset, N as u64) {
        Ok(address) => address as usize,
        Err(denied) => {
            if wrong::is(Wrong::PartialStore) {
                wrong::store_allowed(domain, memory, sum(base, offset), &value);
            }
            return Err(Reason::Write(denied));
        }
    };
    memory[address..address + N].copy_from_slice(&value);
    Ok(())
}

/// The address from which all the bytes may be read, or the lowest denied one. "Code next to data may be read across."
#[inline(always)]
fn readable(domain: &Domain, base: u32, offset: u8, length: u64) -> Result<u64, u64> {
    if let Some(answer) = wrong::readable(domain, base, offset, length) {
        return answer;
    }
    let address = sum(base, offset);
    if domain.data.holds(address, length) || domain.code.holds(address, length) {
        return Ok(address);
    }
    match (address..address + length).find(|&byte| !domain.may_read(byte)) {
        Some(denied) => Err(denied),
        None => Ok(address),
    }
}

/// The address from which all the bytes may be written, or the lowest denied one.
#[inline(always)]
fn writable(domain: &Domain, base: u32, offset: u8, length: u64) -> Result<u64, u64> {
    if let Some(answer) = wrong::writable(domain, base, offset, length) {
        return answer;
    }
    let address = sum(base, offset);
    if domain.data.holds(address, length) {
        return Ok(address);
    }
    Err(domain.data.lowest_outside(address, length))
}

/// "An address is register plus offset as a whole number, never reduced; it may exceed 32 bits."
#[inline(always)]
fn sum(base: u32, offset: u8) -> u64 {
    u64::from(base) + u64::from(offset)
}

/// The bytes of an allowed access: every region lies inside the memory.
#[inline(always)]
fn bytes<const N: usize>(memory: &[u8], first: u64) -> [u8; N] {
    let first = first as usize;
    let mut bytes = [0; N];
    bytes.copy_from_slice(&memory[first..first + N]);
    bytes
}
