//! The paper's own cases: case L and "both sides of each edge", with what the paper says of them. Here both sides can be wrong.

use crate::counts::Counts;
use crate::damage::plain_sheet;
use crate::lent::{same, Both, Checked, Mismatch};
use crate::library::{self, MapBlock};
use crate::program::{File, Program};
use crate::second::events::{Answer, Event};
use crate::second::map::{Domain, Grid, Map, Region};
use crate::second::state::{self, Reason, State};
use crate::second::text;

const TRACE: [u8; 13] = [1, 1, 1, 1, 3, 2, 5, 0, 0, 0, 1, 1, 1];

const TEXT: &str = "1 ran 1
2 faulted 1 write 128
3 waits 2
4 idle
5 taken 2
6 ran 2
7 halted 2
8 idle
active 0
";

/// Memory 256, kernel 0-32, domain 1 code 32-64, data 64-96, domain 2 code 96-128, data 128-160, channel 1 to 2.
fn case_l() -> (Map, Grid) {
    let region = |begin, end| Region { begin, end };
    let mut map = Map {
        length: 256,
        kernel: region(0, 32),
        count: 2,
        ..Map::default()
    };
    map.domains[0] = Domain {
        code: region(32, 64),
        data: region(64, 96),
        entry: 32,
    };
    map.domains[1] = Domain {
        code: region(96, 128),
        data: region(128, 160),
        entry: 96,
    };
    let mut grid = Grid::default();
    grid[0][1] = true;
    (map, grid)
}

pub fn check(counts: &mut Counts, program: Option<&mut Program>) -> Checked {
    let said = |result: Checked| {
        result.map_err(|mismatch| Mismatch {
            what: format!("the paper's own cases: {}", mismatch.what),
            ..mismatch
        })
    };
    said(transcript(program))?;
    said(maps())?;
    said(steps(counts))
}

fn transcript(program: Option<&mut Program>) -> Checked {
    let (map, grid) = case_l();
    let sheet = plain_sheet(&map, &grid);
    same("L's sheet", 60, sheet.len())?;
    let mut memory = vec![0; 256];
    memory[32..42].copy_from_slice(&[1, 1, 128, 0, 0, 0, 11, 2, 1, 0]);
    memory[96..100].copy_from_slice(&[17, 3, 4, 19]);
    let written = text::transcript(&sheet, &mut memory.clone(), &TRACE);
    same("L's text, the paper's and the second's", TEXT, &written)?;
    let mut buffer = [0; 1000];
    let length = unsafe {
        library::arcovinda_transcript(
            sheet.as_ptr(),
            sheet.len(),
            memory.clone().as_mut_ptr(),
            memory.len(),
            TRACE.as_ptr(),
            TRACE.len(),
            buffer.as_mut_ptr(),
            buffer.len(),
        )
    };
    let told = String::from_utf8_lossy(&buffer[..length]);
    same("L's text", TEXT, &told)?;
    if let Some(program) = program {
        let files = [sheet, memory, TRACE.to_vec()].map(File::Bytes);
        program.run(files)?;
    }
    Ok(())
}

fn start(what: &str, map: &Map, grid: &Grid, number: u8) -> Checked {
    let second = state::start(map, grid).err().unwrap_or(0);
    same(
        &format!("{what}, the paper's and the second's"),
        number,
        second,
    )?;
    let mut block = library::StateBlock::default();
    let told = unsafe {
        library::arcovinda_start(&MapBlock::from(map), &library::grid_block(grid), &mut block)
    };
    same(what, u32::from(number), told)
}

fn maps() -> Checked {
    let (map, grid) = case_l();
    for (length, number) in [(255, 3), (256, 0), (65_536, 0), (65_537, 3)] {
        let map = Map { length, ..map };
        start(&format!("memory length {length}"), &map, &grid, number)?;
    }
    let mut over = map;
    over.domains[0].data.begin = 63;
    start("domain 1 data 63-96", &over, &grid, 6)
}

/// One of the edges that a step shows: the domain that runs, where its instruction lies, its R1, and what is answered.
struct Edge {
    what: &'static str,
    domain: u8,
    at: u32,
    code: &'static [u8],
    r1: u32,
    answers: &'static [Answer],
}

const fn edge(
    what: &'static str,
    code: &'static [u8],
    r1: u32,
    answers: &'static [Answer],
) -> Edge {
    Edge {
        what,
        domain: 1,
        at: 32,
        code,
        r1,
        answers,
    }
}

const EDGES: [Edge; 10] = [
    edge(
        "stores 4 bytes at 92",
        &[12, 2, 1, 0],
        92,
        &[Answer::Ran(1)],
    ),
    edge(
        "stores 4 bytes at 93",
        &[12, 2, 1, 0],
        93,
        &[Answer::Faulted(1, Reason::Write(96))],
    ),
    edge(
        "stores 4 bytes at 62",
        &[12, 2, 1, 0],
        62,
        &[Answer::Faulted(1, Reason::Write(62))],
    ),
    edge("loads 4 bytes at 62", &[10, 2, 1, 0], 62, &[Answer::Ran(1)]),
    edge(
        "loads a byte at 4,294,967,295 + 1",
        &[9, 2, 1, 1],
        u32::MAX,
        &[Answer::Faulted(1, Reason::Read(4_294_967_296))],
    ),
    edge(
        "jumps to 64",
        &[13, 64, 0],
        0,
        &[Answer::Ran(1), Answer::Faulted(1, Reason::Fetch(64))],
    ),
    edge("kind 20", &[20], 0, &[Answer::Faulted(1, Reason::Kind(20))]),
    Edge {
        at: 63,
        ..edge(
            "kind 1 at 63",
            &[1],
            0,
            &[Answer::Faulted(1, Reason::Fetch(64))],
        )
    },
    Edge {
        domain: 2,
        at: 96,
        ..edge(
            "domain 2 sends to 1",
            &[16, 1, 1],
            0,
            &[Answer::Faulted(2, Reason::Channel(1))],
        )
    },
    // The other side of the last: this channel is granted.
    edge("domain 1 sends to 2", &[16, 2, 1], 0, &[Answer::Ran(1)]),
];

fn steps(counts: &mut Counts) -> Checked {
    let (map, grid) = case_l();
    for edge in &EDGES {
        let mut state: State = state::start(&map, &grid).unwrap_or_default();
        state.active = edge.domain;
        let context = &mut state.contexts[usize::from(edge.domain) - 1];
        context.counter = edge.at;
        context.registers[1] = edge.r1;
        let mut memory = vec![0; 256];
        let at = edge.at as usize;
        memory[at..at + edge.code.len()].copy_from_slice(edge.code);
        let mut both = Both::new(&map, &grid, &state, &memory);
        for &answer in edge.answers {
            let second = both.event(Event::Step, counts)?;
            same(edge.what, Some(answer), second)?;
        }
    }
    Ok(())
}
