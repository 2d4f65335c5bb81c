//! The sheet's reader and writer.

use super::map::{Domain, Grid, Map, Region};
use super::{Broken, Number};

/// Which record stood last; it decides which kinds may follow.
#[derive(Clone, Copy)]
enum Last {
    Nothing,
    Length,
    Kernel,
    Domain,
    Channel(u8, u8),
}

/// "Order: one 1, one 2, one to eight 3, any number of 4, one 5, nothing after."
fn allowed(kind: u8, last: Last, count: u32) -> bool {
    match last {
        Last::Nothing => kind == 1,
        Last::Length => kind == 2,
        Last::Kernel => kind == 3,
        Last::Domain => kind == 3 && count < 8 || kind == 4 || kind == 5,
        Last::Channel(..) => kind == 4 || kind == 5,
    }
}

/// The body's length; the kind has been allowed, so it is 1 to 5.
fn body_length(kind: u8) -> usize {
    match kind {
        1 => 4,
        2 => 8,
        3 => 20,
        4 => 2,
        _ => 0,
    }
}

fn word(body: &[u8], index: usize) -> u32 {
    let bytes = &body[4 * index..4 * index + 4];
    u32::from_le_bytes([bytes[0], bytes[1], bytes[2], bytes[3]])
}

fn region(body: &[u8], index: usize) -> Region {
    Region {
        begin: word(body, index),
        end: word(body, index + 1),
    }
}

/// "The reader goes front to back: kind byte present (1), kind allowed (2), body present (1), then the values in number order."
pub fn read(sheet: &[u8]) -> Result<(Map, Grid), Broken> {
    let mut map = Map::default();
    let mut grid = Grid::default();
    let mut last = Last::Nothing;
    let mut offset = 0;
    loop {
        let broken = |number| Broken { number, offset };
        let kind = *sheet.get(offset).ok_or(broken(1))?;
        if !allowed(kind, last, map.count) {
            return Err(broken(2));
        }
        let end = offset + 1 + body_length(kind);
        let body = sheet.get(offset + 1..end).ok_or(broken(1))?;
        match kind {
            1 => {
                map.length = word(body, 0);
                map.test_length().map_err(broken)?;
                last = Last::Length;
            }
            2 => {
                map.kernel = region(body, 0);
                map.test_kernel().map_err(broken)?;
                last = Last::Kernel;
            }
            3 => {
                let index = map.count as usize;
                map.domains[index] = Domain {
                    code: region(body, 0),
                    data: region(body, 2),
                    entry: word(body, 4),
                };
                map.count += 1;
                map.test_domain(index).map_err(broken)?;
                last = Last::Domain;
            }
            4 => {
                let (from, to) = (body[0], body[1]);
                let ends = 1..=map.count as u8;
                let rises = match last {
                    Last::Channel(f, t) => (f, t) < (from, to),
                    _ => true,
                };
                if !ends.contains(&from) || !ends.contains(&to) || from == to || !rises {
                    return Err(broken(7));
                }
                grid[usize::from(from) - 1][usize::from(to) - 1] = true;
                last = Last::Channel(from, to);
            }
            _ if end < sheet.len() => {
                // "For 8, of the first byte after."
                return Err(Broken {
                    number: 8,
                    offset: end,
                });
            }
            _ => return Ok((map, grid)),
        }
        offset = end;
    }
}

/// "With N domains and G channels a sheet has 15 + 21N + 3G bytes."
fn length(map: &Map, grid: &Grid) -> usize {
    let channels = grid.iter().flatten().filter(|&&mark| mark).count();
    15 + 21 * map.count as usize + 3 * channels
}

/// Returns how many bytes it set. "The writer sets exactly the sheet's bytes and leaves the rest."
pub fn write(map: &Map, grid: &Grid, buffer: &mut [u8]) -> Result<usize, Number> {
    map.accept(grid)?;
    let length = length(map, grid);
    if buffer.len() < length {
        return Err(10);
    }
    let mut at = 0;
    let mut put = |bytes: &[u8]| {
        buffer[at..at + bytes.len()].copy_from_slice(bytes);
        at += bytes.len();
    };
    put(&[1]);
    put(&map.length.to_le_bytes());
    put(&[2]);
    put(&map.kernel.begin.to_le_bytes());
    put(&map.kernel.end.to_le_bytes());
    for domain in &map.domains[..map.count as usize] {
        put(&[3]);
        put(&domain.code.begin.to_le_bytes());
        put(&domain.code.end.to_le_bytes());
        put(&domain.data.begin.to_le_bytes());
        put(&domain.data.end.to_le_bytes());
        put(&domain.entry.to_le_bytes());
    }
    for (from, row) in (1..).zip(grid) {
        for (to, &mark) in (1..).zip(row) {
            if mark {
                put(&[4, from, to]);
            }
        }
    }
    put(&[5]);
    Ok(length)
}
