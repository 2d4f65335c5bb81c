//! The comparisons of one case.

use crate::cases::Node;
use crate::counts::{Call, Counts};
use crate::damage;
use crate::lent::{same, same_bytes, Both, Checked, Lent, UNSET};
use crate::library::{self, GridBlock, MapBlock, Question, StateBlock};
use crate::program::Program;
use crate::random::Random;
use crate::second::events::{Answer, Batch, Event};
use crate::second::map::{self, Grid, Map};
use crate::second::state::{self, State};
use crate::second::{sheet, text, Number};

pub fn case(seed: u64, counts: &mut Counts, program: Option<&mut Program>) -> Checked {
    let random = &mut Random::new(seed);
    let node = Node::new(random);
    reading(random, &node, counts)?;
    let (mut map, mut grid) = (node.map, node.grid);
    maps(random, &node, &map, &grid, counts)?;
    damage::map(random, &mut map, &mut grid);
    maps(random, &node, &map, &grid, counts)?;
    running(random, &node, counts)?;
    refusals(random, &node, counts)?;
    texts(random, &node, counts, program)
}

/// The sheet's reader.
fn reading(random: &mut Random, node: &Node, counts: &mut Counts) -> Checked {
    let whole = damage::plain_sheet(&node.map, &node.grid);
    let damaged = damage::sheet(random, &node.map, &node.grid);
    for bytes in [whole, damaged] {
        let read = sheet::read(&bytes);
        let (number, offset) = match read {
            Ok(_) => (0, 0),
            Err(broken) => (broken.number, broken.offset as u64),
        };
        // "On refusal the map is all zero and the grid all no."
        let (map, grid) = read.unwrap_or_default();
        let mut map_block = MapBlock::from(&node.map);
        let mut grid_block = [1; 64];
        let mut at = UNSET;
        let mut lent = Lent::new(&bytes);
        let told = unsafe {
            library::arcovinda_read(
                lent.pointer(),
                bytes.len(),
                &mut map_block,
                &mut grid_block,
                &mut at,
            )
        };
        counts.call(Call::Read, number);
        same(
            "read: number, offset",
            (u32::from(number), offset),
            (told, at),
        )?;
        same("read: map", MapBlock::from(&map), map_block)?;
        same_bytes("read: grid", &library::grid_block(&grid), &grid_block)?;
        lent.check("read: sheet", &bytes)?;
    }
    Ok(())
}

/// The calls that need no state: write, the questions, view and start.
fn maps(random: &mut Random, node: &Node, map: &Map, grid: &Grid, counts: &mut Counts) -> Checked {
    let map_block = MapBlock::from(map);
    let mut grid_block = library::grid_block(grid);
    // Any byte but 0 is a mark.
    for byte in &mut grid_block {
        *byte *= random.pick(&[1, 1, 2, 128, 255]);
    }
    let lent = (map_block, grid_block);
    writing(random, map, grid, &lent, counts)?;
    asking(random, node, map, grid, &lent, counts)?;
    viewing(random, node, map, grid, &lent, counts)?;

    let started = state::start(map, grid);
    // "A refused start gives active 0 and every context zero and halted", whatever stood there.
    let mut block = StateBlock::from(&node.state(random));
    let told = unsafe { library::arcovinda_start(&lent.0, &lent.1, &mut block) };
    counts.call(Call::Start, started.err().unwrap_or(0));
    same("start: number", u32::from(started.err().unwrap_or(0)), told)?;
    same(
        "start: state",
        StateBlock::from(&started.unwrap_or_default()),
        block,
    )?;

    same("the lent map", &map_block, &lent.0)?;
    same_bytes("the lent grid", &grid_block, &lent.1)
}

fn writing(
    random: &mut Random,
    map: &Map,
    grid: &Grid,
    lent: &(MapBlock, GridBlock),
    counts: &mut Counts,
) -> Checked {
    let exact = damage::plain_sheet(map, grid).len() as u64;
    let (less, any) = (random.below(exact + 1), random.below(500));
    let lengths = [
        exact,
        exact.saturating_sub(1),
        random.pick(&[0, exact + 1, 351, less, any]),
    ];
    for length in lengths {
        let before: Vec<u8> = (0..length).map(|_| random.byte()).collect();
        let mut buffer = before.clone();
        let mut lent_buffer = Lent::new(&before);
        let written = sheet::write(map, grid, &mut buffer);
        let (number, wrote) = match written {
            Ok(wrote) => (0, wrote as u64),
            Err(number) => (number, 0),
        };
        let mut told_wrote = UNSET;
        let told = unsafe {
            library::arcovinda_write(
                &lent.0,
                &lent.1,
                lent_buffer.pointer(),
                lent_buffer.length(),
                &mut told_wrote,
            )
        };
        counts.call(Call::Write, number);
        same(
            "write: number, count",
            (u32::from(number), wrote),
            (told, told_wrote),
        )?;
        lent_buffer.check("write: buffer", &buffer)?;
    }
    Ok(())
}

fn domain(random: &mut Random, map: &Map) -> u8 {
    let count = map.count.min(8);
    match random.below(8) {
        0 => 0,
        1 => count as u8 + 1,
        2 => random.pick(&[8, 9, 255, 128]),
        _ => random.between(1, count.max(1).into()) as u8,
    }
}

fn asking(
    random: &mut Random,
    node: &Node,
    map: &Map,
    grid: &Grid,
    lent: &(MapBlock, GridBlock),
    counts: &mut Counts,
) -> Checked {
    type Second = fn(&Map, &Grid, u8, u64) -> Result<bool, Number>;
    let questions: [(&str, Second, Question); 3] = [
        ("may read", map::may_read, library::arcovinda_may_read),
        ("may write", map::may_write, library::arcovinda_may_write),
        ("may fetch", map::may_fetch, library::arcovinda_may_fetch),
    ];
    for _ in 0..6 {
        let domain = domain(random, map);
        let index = usize::from(domain).clamp(1, node.map.count as usize) - 1;
        let mut address = node.address(random, index);
        match random.below(10) {
            // The same address with something above 32 bits.
            0 => address |= 1 << random.between(32, 63),
            1 => address = random.next() >> random.below(60),
            2 => address = u64::MAX - random.below(3),
            _ => {}
        }
        for (what, second, question) in questions {
            let answer = second(map, grid, domain, address);
            let number = answer.err().unwrap_or(0);
            let mut yes = UNSET as u32;
            let told = unsafe { question(&lent.0, &lent.1, domain, address, &mut yes) };
            counts.call(Call::Question, number);
            let what = format!("{what}: domain {domain}, address {address}");
            same(&what, u32::from(number), told)?;
            // A refused question has no answer, and sets none.
            same(&what, answer.map_or(UNSET as u32, u32::from), yes)?;
        }
    }
    Ok(())
}

fn viewing(
    random: &mut Random,
    node: &Node,
    map: &Map,
    grid: &Grid,
    lent: &(MapBlock, GridBlock),
    counts: &mut Counts,
) -> Checked {
    for _ in 0..3 {
        let mut memory = node.memory.clone();
        if random.once_in(4) {
            damage::memory(random, &mut memory);
        }
        let domain = domain(random, map);
        let number = map::view_number(map, grid, &memory, domain);
        let front = memory.as_ptr() as u64;
        let part = map::view(map, grid, &mut memory, domain);
        let (begin, length) = (part.as_ptr() as u64 - front, part.len() as u64);
        let mut lent_memory = Lent::new(&memory);
        let (mut told_begin, mut told_length) = (UNSET, UNSET);
        let told = unsafe {
            library::arcovinda_view(
                &lent.0,
                &lent.1,
                lent_memory.pointer(),
                lent_memory.length(),
                domain,
                &mut told_begin,
                &mut told_length,
            )
        };
        counts.call(Call::View, number);
        same(
            &format!("view of domain {domain}: number, begin, length"),
            (u32::from(number), begin, length),
            (told, told_begin, told_length),
        )?;
        lent_memory.check("view: memory", &memory)?;
    }
    Ok(())
}

/// The events of a trace, as far as its records are whole.
fn whole_events(trace: &[u8]) -> Vec<Event> {
    let mut events = Vec::new();
    let mut rest = trace;
    loop {
        rest = match *rest {
            [1, ref rest @ ..] => {
                events.push(Event::Step);
                rest
            }
            [2, ref rest @ ..] => {
                events.push(Event::Tick);
                rest
            }
            [3, domain, a, b, c, d, ref rest @ ..] => {
                let word = u32::from_le_bytes([a, b, c, d]);
                events.push(Event::WordIn { domain, word });
                rest
            }
            _ => return events,
        };
    }
}

/// Accepted nodes: every event of a trace on its own, then the trace as a whole, then batches.
fn running(random: &mut Random, node: &Node, counts: &mut Counts) -> Checked {
    let started = state::start(&node.map, &node.grid);
    same("a case's map must be accepted", true, started.is_ok())?;
    let states = [started.unwrap_or_default(), node.state(random)];
    for state in &states {
        let both = || Both::new(&node.map, &node.grid, state, &node.memory);
        let mut trace = node.trace(random);
        if random.once_in(2) {
            damage::trace(random, &mut trace);
        }
        let mut one = both();
        // A long trace is for the whole call; its events alone would only repeat themselves.
        let mut idle = 0;
        for event in whole_events(&trace).into_iter().take(300) {
            let step = event == Event::Step;
            if step && idle > 3 && one.state.active == 0 {
                continue;
            }
            if one.event(event, counts)? == Some(Answer::Idle) {
                idle += 1;
            }
        }
        both().play(&trace, counts)?;

        let limits = [
            random.pick(&[0, 1, 2, 3]),
            random.below(20),
            random.below(300),
            random.between(1_000, 4_000),
        ];
        let mut idle = false;
        for limit in limits {
            idle |= matches!(both().batch(limit, counts)?, Some(Batch::Idle(_)));
        }
        if idle {
            both().batch(u64::MAX, counts)?;
        }
        // A batch goes on from where events left the node.
        one.batch(random.below(100), counts)?;
    }
    Ok(())
}

/// Calls in which something lent is damaged: mostly they must be refused, and nothing may change.
fn refusals(random: &mut Random, node: &Node, counts: &mut Counts) -> Checked {
    for _ in 0..4 {
        let (mut map, mut grid) = (node.map, node.grid);
        let mut memory = node.memory.clone();
        let mut state = node.state(random);
        let which = random.below(8);
        if which == 0 || random.once_in(6) {
            damage::map(random, &mut map, &mut grid);
        }
        if which == 1 || random.once_in(6) {
            damage::memory(random, &mut memory);
        }
        if which >= 2 {
            damage::state(random, node.map.count, &mut state);
        }
        damaged_calls(random, &Damaged { map, grid, memory }, &state, None, counts)?;

        let mut block = StateBlock::from(&state);
        damage::block(random, &mut block);
        if library::state(&block).is_none() {
            let damaged = Damaged {
                map,
                grid,
                memory: if random.once_in(2) {
                    node.memory.clone()
                } else {
                    Vec::new()
                },
            };
            damaged_calls(random, &damaged, &state, Some(&block), counts)?;
        }
    }
    Ok(())
}

struct Damaged {
    map: Map,
    grid: Grid,
    memory: Vec<u8>,
}

fn damaged_calls(
    random: &mut Random,
    damaged: &Damaged,
    state: &State,
    block: Option<&StateBlock>,
    counts: &mut Counts,
) -> Checked {
    let Damaged { map, grid, memory } = damaged;
    let both = || match block {
        Some(block) => Both::with_block(map, grid, block, memory),
        None => Both::new(map, grid, state, memory),
    };
    both().event(Event::Step, counts)?;
    both().event(Event::Tick, counts)?;
    let domain = random.pick(&[0, 1, 2, 8, 9, 255]);
    let word = random.word();
    both().event(Event::WordIn { domain, word }, counts)?;
    // A broken trace is met after everything else.
    let trace = random.pick(&[&[][..], &[1], &[1, 2, 3, 1, 5, 0, 0, 0], &[0], &[3]]);
    both().play(trace, counts)?;
    both().batch(random.below(3), counts)?;
    Ok(())
}

/// The number of the refusal in a text, 0 where there is none.
fn number_in(text: &str) -> u8 {
    let mut lines = text.lines().rev();
    let last = lines.next().unwrap_or("");
    let line = if last.starts_with("active") {
        // A refusal's second word is "at"; an event's is its answer.
        lines.next().filter(|line| line.contains(" at "))
    } else {
        Some(last)
    };
    line.and_then(|line| line.split(' ').next()?.parse().ok())
        .unwrap_or(0)
}

/// The text, from the library and from the program.
fn texts(
    random: &mut Random,
    node: &Node,
    counts: &mut Counts,
    program: Option<&mut Program>,
) -> Checked {
    let sheet = if random.once_in(3) {
        damage::sheet(random, &node.map, &node.grid)
    } else {
        damage::plain_sheet(&node.map, &node.grid)
    };
    let mut memory = node.memory.clone();
    if random.once_in(10) {
        damage::memory(random, &mut memory);
    }
    let mut trace = node.trace(random);
    if random.once_in(3) {
        damage::trace(random, &mut trace);
    }

    let mut last = memory.clone();
    let expected = text::transcript(&sheet, &mut last, &trace);
    counts.call(Call::Transcript, number_in(&expected));
    let room = match random.below(4) {
        0 => random.below(expected.len() as u64 + 1) as usize,
        1 => expected.len(),
        _ => expected.len() + 40,
    };
    let mut buffer = vec![0x5a; room];
    let mut lent_text = Lent::new(&buffer);
    let mut lent_sheet = Lent::new(&sheet);
    let mut lent_memory = Lent::new(&memory);
    let mut lent_trace = Lent::new(&trace);
    let told = unsafe {
        library::arcovinda_transcript(
            lent_sheet.pointer(),
            sheet.len(),
            lent_memory.pointer(),
            memory.len(),
            lent_trace.pointer(),
            trace.len(),
            lent_text.pointer(),
            room,
        )
    };
    let length = expected.len().min(room);
    buffer[..length].copy_from_slice(&expected.as_bytes()[..length]);
    same("transcript: length", length, told)?;
    lent_text.check("transcript: text", &buffer)?;
    lent_memory.check("transcript: memory", &last)?;
    lent_sheet.check("transcript: sheet", &sheet)?;
    lent_trace.check("transcript: trace", &trace)?;

    match program {
        Some(program) => {
            let expected = program.check(random, sheet, memory, trace)?;
            counts.call(Call::Program, number_in(&expected));
            Ok(())
        }
        None => Ok(()),
    }
}
