//! Damaged cases: each sort of damage that a refusal number stands for, several at once sometimes, so that the order of the tests shows.

use crate::library::{ContextBlock, StateBlock};
use crate::random::Random;
use crate::second::map::{Domain, Grid, Map, Region};
use crate::second::state::{Context, Reason, State, Status};

/// A number at an edge of the map.
fn number(random: &mut Random, map: &Map) -> u32 {
    let near = random.pick(&[
        0,
        255,
        256,
        65_536,
        map.length,
        map.kernel.begin,
        map.kernel.end,
        map.domains[0].code.end,
        map.domains[0].data.begin,
        u32::MAX,
    ]);
    match random.below(4) {
        0 => near.wrapping_add(1),
        1 => near.wrapping_sub(1),
        2 if random.once_in(4) => random.word(),
        _ => near,
    }
}

/// Some region of the map, the kernel among them.
fn region<'a>(random: &mut Random, map: &'a mut Map) -> &'a mut Region {
    let index = random.below(map.count.clamp(1, 8).into()) as usize;
    match random.below(5) {
        0 => &mut map.kernel,
        1 | 2 => &mut map.domains[index].code,
        _ => &mut map.domains[index].data,
    }
}

/// A map, or its grid, that mostly must be refused.
pub fn map(random: &mut Random, map: &mut Map, grid: &mut Grid) {
    let times = random.pick(&[1, 1, 1, 2, 3]);
    for _ in 0..times {
        one_of_map(random, map, grid);
    }
}

fn one_of_map(random: &mut Random, map: &mut Map, grid: &mut Grid) {
    let edge = number(random, map);
    let length = map.length;
    let index = random.below(map.count.clamp(1, 8).into()) as usize;
    match random.below(14) {
        0 => {
            let count = map.count;
            map.count = random.pick(&[
                0,
                9,
                255,
                256,
                256 + count,
                u32::MAX,
                count.wrapping_sub(1),
                count.wrapping_add(1),
            ]);
        }
        1 => {
            let unused = &mut map.domains[random.between(index as u64, 7) as usize];
            let value = random.pick(&[1, edge, 256, 1 << 16, 1 << 31]);
            match random.below(5) {
                0 => unused.code.begin = value,
                1 => unused.code.end = value,
                2 => unused.data.begin = value,
                3 => unused.data.end = value,
                _ => unused.entry = value,
            }
        }
        2 => {
            map.length = random.pick(&[
                0,
                255,
                256,
                65_536,
                65_537,
                u32::MAX,
                edge,
                length.wrapping_sub(1),
                length.wrapping_add(1),
            ]);
        }
        3 => {
            let region = region(random, map);
            (region.begin, region.end) = (region.end.wrapping_add(1), region.begin);
        }
        4 => {
            let beyond = random.pick(&[length.wrapping_add(1), u32::MAX, length]);
            region(random, map).end = beyond;
        }
        5 | 6 => {
            let Domain { code, entry, .. } = &mut map.domains[index];
            *entry = random.pick(&[
                code.end,
                code.begin.wrapping_sub(1),
                code.end.wrapping_add(1),
                0,
                u32::MAX,
                entry.wrapping_add(1 << 16),
            ]);
        }
        7 => {
            let region = region(random, map);
            region.begin = region.begin.saturating_sub(random.pick(&[1, 2, 40]));
        }
        8 => {
            let more = random.pick(&[1, 2, 40]);
            let region = region(random, map);
            region.end = region.end.saturating_add(more).min(length);
        }
        9 => {
            // A region over another one, or inside it.
            let other = *region(random, map);
            let part = Region {
                begin: other.begin,
                end: other.begin.saturating_add(1),
            };
            let chosen = random.pick(&[other, part]);
            *region(random, map) = chosen;
        }
        10 => {
            // Empty code holds no entry.
            let code = &mut map.domains[index].code;
            code.end = code.begin;
        }
        11 | 12 => {
            let count = map.count.clamp(1, 8);
            let (row, column) = (random.below(8) as usize, random.below(8) as usize);
            let from = random.pick(&[index, row, count as usize - 1]);
            let to = random.pick(&[from, column, count.min(7) as usize]);
            grid[from][to] = !grid[from][to] || random.once_in(2);
        }
        _ => {
            let region = region(random, map);
            *(if random.once_in(2) {
                &mut region.begin
            } else {
                &mut region.end
            }) = edge;
        }
    }
}

/// A memory of the wrong length, mostly.
pub fn memory(random: &mut Random, memory: &mut Vec<u8>) {
    let length = memory.len();
    let wrong = match random.below(6) {
        0 => 0,
        1 => length + 1,
        2 => length - 1,
        3 => random.below(600) as usize,
        4 => 256,
        _ => length.saturating_sub(random.below(100) as usize),
    };
    memory.resize(wrong, 7);
}

/// A state that mostly is not well formed.
pub fn state(random: &mut Random, count: u32, state: &mut State) {
    let times = random.pick(&[1, 1, 1, 2]);
    for _ in 0..times {
        one_of_state(random, count as usize, state);
    }
}

fn one_of_state(random: &mut Random, count: usize, state: &mut State) {
    let index = random.below(count as u64) as usize;
    let sort = random.below(12);
    if sort >= 8 && count < 8 {
        let past = random.between(count as u64, 7) as usize;
        past_the_last(random, &mut state.contexts[past]);
        return;
    }
    let context = &mut state.contexts[index];
    match sort {
        0 => state.active = random.pick(&[0, count as u8 + 1, 8, 9, 255]),
        1 => state.active = random.between(0, count as u64) as u8,
        // The active domain is ready no more, or an idle node has a ready one.
        2 => context.status = random.pick(&[Status::Halted, Status::Ready, Status::Waiting]),
        3 => {
            context.status = Status::Waiting;
            context.word_box.full = true;
        }
        4 => {
            context.word_box.full = false;
            context.word_box.word = 1 << random.below(32);
        }
        5 => {
            context.word_box.full = false;
            context.word_box.sender = random.pick(&[1, 255, 128]);
        }
        6 => {
            context.word_box.full = true;
            context.word_box.sender = random.pick(&[count as u8 + 1, 9, 255]);
        }
        _ => {
            for context in &mut state.contexts[..count] {
                if context.status == Status::Ready {
                    context.status = Status::Faulted(Reason::Kind(20));
                }
            }
        }
    }
}

/// "Contexts past N are zero and halted."
fn past_the_last(random: &mut Random, context: &mut Context) {
    match random.below(6) {
        0 => context.registers[random.below(8) as usize] = random.pick(&[1, 1 << 31]),
        1 => context.counter = random.pick(&[1, 32, 1 << 31]),
        2 => context.status = random.pick(&[Status::Ready, Status::Waiting]),
        3 => context.status = Status::Faulted(random.pick(&[Reason::Fetch(0), Reason::Channel(0)])),
        4 => context.word_box.full = true,
        _ if random.once_in(2) => context.word_box.word = 1,
        _ => context.word_box.sender = 1,
    }
}

/// A block that no state is written as.
pub fn block(random: &mut Random, block: &mut StateBlock) {
    let index = random.below(8) as usize;
    let over = random.pick(&[256, 1 << 16, 1 << 31]);
    let ContextBlock {
        status,
        number_low,
        number_high,
        full,
        sender,
        ..
    } = &mut block.contexts[index];
    match random.below(8) {
        0 => *status = random.pick(&[9, 10, 256, 257, u32::MAX]),
        1 => *full = random.pick(&[2, 255, 256, 257, u32::MAX]),
        2 => *sender |= over,
        3 => block.active = random.pick(&[block.active | over, 300]),
        4 | 5 => {
            *status = random.below(3) as u32;
            if random.once_in(2) {
                *number_low = random.pick(&[1, 256, u32::MAX]);
            } else {
                *number_high = random.pick(&[1, 256, u32::MAX]);
            }
        }
        _ => {
            *status = random.between(6, 8) as u32;
            if random.once_in(2) {
                *number_low |= over;
            } else {
                *number_high |= random.pick(&[1, over]);
            }
        }
    }
}

/// One record of a sheet.
type Record = Vec<u8>;

fn records(map: &Map, grid: &Grid) -> Vec<Record> {
    let record = |kind: u8, words: &[u32]| {
        let mut record = vec![kind];
        record.extend(words.iter().flat_map(|word| word.to_le_bytes()));
        record
    };
    let mut records = vec![
        record(1, &[map.length]),
        record(2, &[map.kernel.begin, map.kernel.end]),
    ];
    for Domain { code, data, entry } in &map.domains[..map.count.min(8) as usize] {
        let words = [code.begin, code.end, data.begin, data.end, *entry];
        records.push(record(3, &words));
    }
    for (from, row) in (1..).zip(grid) {
        for (to, &mark) in (1..).zip(row) {
            if mark {
                records.push(vec![4, from, to]);
            }
        }
    }
    records.push(vec![5]);
    records
}

/// The sheet of a map and grid, whatever they hold.
pub fn plain_sheet(map: &Map, grid: &Grid) -> Vec<u8> {
    records(map, grid).concat()
}

/// A sheet that mostly must be refused.
pub fn sheet(random: &mut Random, map: &Map, grid: &Grid) -> Vec<u8> {
    let (mut map, mut grid) = (*map, *grid);
    // A damaged map as a sheet: values that the reader must find.
    if random.once_in(3) {
        self::map(random, &mut map, &mut grid);
    }
    let mut records = records(&map, &grid);
    for _ in 0..random.pick(&[0, 1, 1, 2]) {
        one_of_records(random, &map, &mut records);
    }
    let mut sheet = records.concat();
    match random.below(10) {
        0 | 1 => sheet.truncate(random.below(sheet.len() as u64 + 1) as usize),
        2 => {
            let more = random.pick(&[1, 1, 2, 21, 400]);
            sheet.extend((0..more).map(|_| random.pick(&[0, 1, 3, 4, 5, 255])));
        }
        3 if !sheet.is_empty() => {
            let place = random.below(sheet.len() as u64) as usize;
            let any = random.byte();
            sheet[place] = random.pick(&[0, 1, 2, 3, 4, 5, 6, 255, any]);
        }
        4 if random.once_in(3) => {
            sheet = (0..random.below(400)).map(|_| random.byte()).collect();
        }
        _ => {}
    }
    sheet
}

fn one_of_records(random: &mut Random, map: &Map, records: &mut Vec<Record>) {
    if records.is_empty() {
        return;
    }
    let place = random.below(records.len() as u64) as usize;
    let edge = number(random, map);
    match random.below(9) {
        0 => {
            records.remove(place);
        }
        1 => {
            // A ninth domain, a second kernel, a channel twice.
            let record = records[place].clone();
            records.insert(place, record);
        }
        2 => {
            let other = random.below(records.len() as u64) as usize;
            records.swap(place, other);
        }
        3 => records[place][0] = random.pick(&[0, 1, 2, 3, 4, 5, 6, 255]),
        4 | 5 => {
            // A channel at any place, mostly among the others.
            let count = map.count.min(8) as u8;
            let mut end = || random.pick(&[0, 1, 2, count, count.wrapping_add(1), 255]);
            let channel = vec![4, end(), end()];
            let last = records.len() as u64 - 1;
            let place = random.between(last.saturating_sub(3), last) as usize;
            records.insert(place, channel);
        }
        6 => {
            // Domains until there are nine.
            let domains = records.iter().filter(|record| record[0] == 3).count();
            for _ in domains..9 {
                let record = [3, 0, 0, 0, 0];
                let mut record = record.to_vec();
                record.resize(21, 0);
                let place = records.iter().rposition(|record| record[0] == 3);
                records.insert(place.map_or(0, |place| place + 1), record);
            }
        }
        _ => {
            let record = &mut records[place];
            let words = record.len() / 4;
            if words > 0 {
                let word = 1 + 4 * random.below(words as u64) as usize;
                record[word..word + 4].copy_from_slice(&edge.to_le_bytes());
            }
        }
    }
}

/// A trace with a broken record in it, mostly.
pub fn trace(random: &mut Random, trace: &mut Vec<u8>) {
    let place = random.below(trace.len() as u64 + 1) as usize;
    match random.below(6) {
        0 => trace.insert(place, random.pick(&[0, 4, 5, 255])),
        1 => trace.truncate(place),
        2 => {
            // A word in that ends early.
            let length = random.below(5);
            trace.push(3);
            trace.extend((0..length).map(|_| random.below(4) as u8));
        }
        3 => trace.push(random.pick(&[0, 4, 5, 128, 255])),
        4 if random.once_in(3) => {
            *trace = (0..random.below(200)).map(|_| random.byte()).collect();
        }
        _ => {
            if let Some(byte) = trace.get_mut(place) {
                *byte = random.below(6) as u8;
            }
        }
    }
}
