//! Seeded cases that the machine accepts: nodes (map, grid, memory with programs in it), states and traces, all biased to their edges.

use crate::random::Random;
use crate::second::map::{Domain, Grid, Map, Region};
use crate::second::state::{Context, Reason, State, Status, WordBox};

/// A map and a grid that are accepted, a memory as long as the map says, and programs in it.
pub struct Node {
    pub map: Map,
    pub grid: Grid,
    pub memory: Vec<u8>,
    /// Where instructions begin, for each domain.
    starts: [Vec<u32>; 8],
}

impl Node {
    pub fn new(random: &mut Random) -> Node {
        let map = map(random);
        let grid = grid(random, map.count);
        let memory = background(random, map.length as usize);
        let mut node = Node {
            map,
            grid,
            memory,
            starts: Default::default(),
        };
        // A calm node seldom faults, so that many steps run; a wild one tries everything.
        let wild = random.pick(&[2, 4, 10, 40, 1000]);
        let codes: Vec<_> = (0..map.count as usize)
            .map(|index| node.program(random, index, wild))
            .collect();
        // A program that goes past its code leaves bytes there for a fetch that is not allowed. The codes themselves come last.
        let spill = random.once_in(2);
        for (index, code) in codes.iter().enumerate() {
            let begin = map.domains[index].code.begin as usize;
            let room = if spill { node.memory.len() - begin } else { 0 };
            let length = code.len().min(room);
            node.memory[begin..begin + length].copy_from_slice(&code[..length]);
        }
        for (index, code) in codes.iter().enumerate() {
            let Region { begin, end } = map.domains[index].code;
            let part = &mut node.memory[begin as usize..end as usize];
            let length = part.len();
            part.copy_from_slice(&code[..length]);
        }
        node
    }

    /// At least as many bytes as the domain's code has.
    fn program(&mut self, random: &mut Random, index: usize, wild: u64) -> Vec<u8> {
        let Region { begin, end } = self.map.domains[index].code;
        let length = (end - begin) as usize;
        let mut code = Vec::new();
        let mut looped = random.once_in(4);
        while code.len() < length {
            self.starts[index].push(begin + code.len() as u32);
            let left = length - code.len();
            if !looped && !code.is_empty() && (3..=14).contains(&left) {
                // Back to the front or to the first instructions, so that the program goes round.
                let first = self.starts[index].len().div_ceil(2);
                let target = random.pick(&self.starts[index][..first]);
                let target = if random.once_in(3) { target } else { begin };
                code.push(13);
                code.extend(&target.to_le_bytes()[..2]);
                looped = true;
            } else {
                self.instruction(random, index, wild, &mut code);
            }
        }
        // What a cut instruction would go on with.
        code.extend((0..5).map(|_| random.byte()));
        code
    }

    fn instruction(&self, random: &mut Random, index: usize, wild: u64, code: &mut Vec<u8>) {
        let is_wild = random.once_in(wild);
        let kind = match random.below(32) {
            0 => 0,
            1 | 2 => 1,
            3 => 2,
            4 => 3,
            5 => 4,
            6 => 5,
            7 => 6,
            8 => 7,
            9 => 8,
            10..=12 => 9,
            13..=15 => 10,
            16..=18 => 11,
            19..=21 => 12,
            22 => 13,
            23 => 14,
            24 => 15,
            25..=27 => 16,
            28 | 29 => 17,
            30 => 18,
            _ if is_wild || random.once_in(4) => 19,
            _ => 18,
        };
        if is_wild && random.once_in(6) {
            let kind = random.pick(&[20, 21, 255, 128, 20]);
            code.push(kind);
            return;
        }
        let r = register(random, is_wild);
        let s = register(random, is_wild);
        match kind {
            0 | 18 | 19 => code.push(kind),
            1 => {
                code.extend([kind, r]);
                code.extend(self.value(random, index).to_le_bytes());
            }
            2..=8 => code.extend([kind, r, s]),
            9..=12 => self.access(random, index, is_wild, [kind, r, s], code),
            13 | 14 => {
                let target = if is_wild && random.once_in(2) {
                    self.address(random, index) as u32
                } else {
                    self.earlier(random, index)
                };
                code.push(kind);
                if kind == 14 {
                    code.push(r);
                }
                code.extend(&target.to_le_bytes()[..2]);
            }
            15 => {
                // A calm one has its target set just before.
                if !is_wild {
                    code.extend([1, r]);
                    code.extend(self.earlier(random, index).to_le_bytes());
                }
                code.extend([kind, r]);
            }
            16 => {
                let granted: Vec<u8> = (1..=8)
                    .filter(|&to| self.grid[index][usize::from(to) - 1])
                    .collect();
                let to = if granted.is_empty() || is_wild && random.once_in(2) {
                    random.pick(&[0, 1, 2, self.map.count as u8, self.map.count as u8 + 1, 255])
                } else {
                    random.pick(&granted)
                };
                // Without a channel a calm domain seldom sends.
                if granted.is_empty() && !is_wild && !random.once_in(4) {
                    code.push(18);
                } else {
                    code.extend([kind, to, random.pick(&[r, r, 0])]);
                }
            }
            _ => code.extend([kind, r, s]),
        }
    }

    /// The begin of an instruction before the one that is being written, if there is one.
    fn earlier(&self, random: &mut Random, index: usize) -> u32 {
        let starts = &self.starts[index];
        random.pick(&starts[..(starts.len() - 1).max(1)])
    }

    /// A load or store, mostly with the register that makes the address set just before.
    fn access(
        &self,
        random: &mut Random,
        index: usize,
        is_wild: bool,
        [kind, r, s]: [u8; 3],
        code: &mut Vec<u8>,
    ) {
        let data = self.map.domains[index].data;
        let address = if is_wild || data.end - data.begin < 4 {
            self.address(random, index)
        } else {
            random.between(data.begin.into(), u64::from(data.end) - 4)
        };
        if address <= 255 && random.once_in(3) {
            code.extend([kind, r, s, address as u8]);
            return;
        }
        let any = random.byte();
        let mut offset = random.pick(&[0, 1, 3, 4, 255, any]);
        // The register holds 32 bits; the sum with its offset is the address where that is possible.
        if u64::from(offset) > address {
            offset = 0;
        }
        let mut base = address - u64::from(offset);
        if base > u32::MAX.into() {
            base = u32::MAX.into();
            offset = (address - base).min(255) as u8;
        }
        if s < 8 {
            code.extend([1, s]);
            code.extend((base as u32).to_le_bytes());
        }
        code.extend([kind, r, s, offset]);
    }

    /// An address at an edge: of the domain's own regions, of any other, or of 32 bits.
    pub fn address(&self, random: &mut Random, index: usize) -> u64 {
        let own = &self.map.domains[index];
        let other = &self.map.domains[random.below(self.map.count.into()) as usize];
        let region = match random.below(8) {
            0 | 1 => own.code,
            2..=4 => own.data,
            5 => other.code,
            6 => other.data,
            _ => self.map.kernel,
        };
        let near =
            |edge: u32, random: &mut Random| (u64::from(edge) + random.below(7)).saturating_sub(5);
        match random.below(10) {
            0..=3 => near(region.begin, random),
            4..=7 => near(region.end, random),
            // Reduced modulo 2^32 this would be near an edge again.
            8 => {
                let wrapped = near(random.pick(&[region.begin, region.end, 0]), random);
                (1 << 32) + wrapped.min(254)
            }
            9 if random.once_in(2) => u64::from(u32::MAX) - random.below(6),
            _ => random.pick(&[
                u64::from(u32::MAX),
                u64::from(self.map.length),
                u64::from(self.map.length) - 1,
                0,
            ]),
        }
    }

    /// A register's content: an edge address, less an offset sometimes, or a number at an edge of 32 bits.
    fn value(&self, random: &mut Random, index: usize) -> u32 {
        match random.below(6) {
            0 => random.word(),
            1 => random.below(3) as u32,
            2 => u32::MAX - random.below(260) as u32,
            3 => (self.address(random, index) as u32).wrapping_sub(random.byte().into()),
            _ => self.address(random, index) as u32,
        }
    }

    /// Any well-formed state of the node.
    pub fn state(&self, random: &mut Random) -> State {
        let count = self.map.count as usize;
        let mut state = State::default();
        let ready = random.pick(&[1, 2, 2, 4, 9]);
        for index in 0..count {
            state.contexts[index] = self.context(random, index, ready);
        }
        let ready: Vec<u8> = (1..=count as u8)
            .filter(|&number| state.contexts[usize::from(number) - 1].status == Status::Ready)
            .collect();
        if !ready.is_empty() {
            state.active = random.pick(&ready);
        }
        state
    }

    fn context(&self, random: &mut Random, index: usize, ready: u64) -> Context {
        let domain = &self.map.domains[index];
        let status = match random.below(ready + 3) {
            0 => Status::Waiting,
            1 => Status::Halted,
            2 => Status::Faulted(reason(random)),
            _ => Status::Ready,
        };
        let mut registers = [0; 8];
        for register in &mut registers {
            *register = self.value(random, index);
        }
        let counter = match random.below(10) {
            0 => domain.entry,
            1 => domain.code.end,
            2 => domain.code.end - 1,
            3 => domain.code.begin.wrapping_sub(1),
            4 => random.between(domain.code.begin.into(), domain.code.end.into()) as u32,
            5 if random.once_in(3) => self.value(random, index),
            _ => random.pick(&self.starts[index]),
        };
        let mut word_box = WordBox::default();
        if status != Status::Waiting && random.once_in(3) {
            word_box = WordBox {
                full: true,
                word: self.value(random, index),
                sender: random.between(0, self.map.count.into()) as u8,
            };
        }
        Context {
            registers,
            counter,
            status,
            word_box,
        }
    }

    /// The bytes of a whole trace.
    pub fn trace(&self, random: &mut Random) -> Vec<u8> {
        let events = match random.below(20) {
            0 => 0,
            1..=4 => random.below(12),
            5..=16 => random.below(120),
            17 | 18 => random.below(600),
            _ if random.once_in(6) => random.between(3_000, 17_000),
            _ => random.below(1_500),
        };
        let others = random.pick(&[3, 6, 12, 1000]);
        let mut trace = Vec::new();
        for _ in 0..events {
            if !random.once_in(others) {
                trace.push(1);
            } else if random.once_in(2) {
                trace.push(2);
            } else {
                let count = self.map.count as u8;
                let domain = match random.below(12) {
                    0 => random.pick(&[0, count + 1, 255]),
                    1 => random.byte(),
                    _ => random.between(1, count.into()) as u8,
                };
                trace.extend([3, domain]);
                trace.extend(self.value(random, 0).to_le_bytes());
            }
        }
        trace
    }
}

/// Mostly 0 to 7.
fn register(random: &mut Random, is_wild: bool) -> u8 {
    if is_wild && random.once_in(5) {
        return random.pick(&[8, 255, 9, 128]);
    }
    random.below(8) as u8
}

/// "A fault's own numbers aren't tested."
fn reason(random: &mut Random) -> Reason {
    let address = random.pick(&[0, 96, u64::from(u32::MAX) + 1, u64::MAX, 1 << 63]);
    match random.below(6) {
        0 => Reason::Fetch(address),
        1 => Reason::Read(address),
        2 => Reason::Write(address),
        3 => Reason::Kind(random.byte()),
        4 => Reason::Register(random.byte()),
        _ => Reason::Channel(random.byte()),
    }
}

fn background(random: &mut Random, length: usize) -> Vec<u8> {
    match random.below(3) {
        0 => vec![0; length],
        1 => (0..length).map(|_| random.byte()).collect(),
        // Bytes that are kinds and registers.
        _ => (0..length).map(|_| random.below(24) as u8).collect(),
    }
}

/// Regions in some order with small gaps or none between them.
fn map(random: &mut Random) -> Map {
    let length = match random.below(20) {
        0..=8 => 256,
        9..=12 => random.between(257, 1024),
        13..=15 => random.between(1025, 16_384),
        16 => 16_384,
        17 => random.between(16_385, 65_535),
        18 => 65_536,
        _ => random.pick(&[256, 257, 16_384, 16_385, 65_535, 65_536]),
    } as u32;
    let count = match random.below(8) {
        0 | 1 => 1,
        2 => 8,
        _ => random.between(2, 8),
    } as u32;
    // The kernel is 0, then code and data of each domain.
    let mut order: Vec<usize> = (0..=2 * count as usize).collect();
    match random.below(4) {
        0 => random.shuffle(&mut order),
        1 => order.reverse(),
        2 => order.rotate_left(1),
        _ => {}
    }
    let large = length > 1024 || count < 4;
    let mut sizes: Vec<[u64; 2]> = order
        .iter()
        .map(|&region| {
            let any = random.below(9);
            let gap = random.pick(&[0, 0, 0, 0, 1, 2, 3, any]);
            let size = match region {
                0 => random.pick(&[0, 1, 8, 32]),
                odd if odd % 2 == 1 && large => random.pick(&[1, 7, 16, 32, 48, 60]),
                odd if odd % 2 == 1 => random.pick(&[1, 2, 6, 10, 16, 24, 32]),
                _ => random.pick(&[0, 1, 3, 4, 5, 8, 16, 32]),
            };
            [gap, size]
        })
        .collect();
    let total = |sizes: &[[u64; 2]]| sizes.iter().flatten().sum::<u64>();
    while total(&sizes) > length.into() {
        for [gap, size] in &mut sizes {
            *gap /= 2;
            *size = size.div_ceil(2);
        }
    }
    let slack = u64::from(length) - total(&sizes);
    // Addresses below 256 can be reached by an offset alone, so most nodes lie at the front.
    let mut at = match random.below(5) {
        0 => slack,
        1 => random.between(0, slack),
        _ => 0,
    };
    let mut map = Map {
        length,
        count,
        ..Map::default()
    };
    for (&region, [gap, size]) in order.iter().zip(sizes) {
        at += gap;
        let mut place = Region {
            begin: at as u32,
            end: (at + size) as u32,
        };
        at += size;
        if size == 0 && random.once_in(2) {
            // "An empty region overlaps nothing", so it may lie anywhere.
            let inside = random.between(0, length.into()) as u32;
            let anywhere = random.pick(&[0, length, inside]);
            place = Region {
                begin: anywhere,
                end: anywhere,
            };
        }
        match (region, region % 2) {
            (0, _) => map.kernel = place,
            (_, 1) => map.domains[region / 2].code = place,
            _ => map.domains[region / 2 - 1].data = place,
        }
    }
    for Domain { code, entry, .. } in &mut map.domains[..count as usize] {
        *entry = match random.below(8) {
            0 => code.end - 1,
            1 => random.between(code.begin.into(), u64::from(code.end) - 1) as u32,
            _ => code.begin,
        };
    }
    map
}

fn grid(random: &mut Random, count: u32) -> Grid {
    let share = random.pick(&[0, 1, 2, 4, 4]);
    let mut grid = Grid::default();
    for from in 0..count as usize {
        for to in 0..count as usize {
            grid[from][to] = from != to && random.below(4) < share;
        }
    }
    grid
}
