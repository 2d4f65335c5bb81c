//! Nanoseconds a step: the library's batch against the second implementation's, on the same programs in the same run, and a single step
//! with its whole acceptance test.

#[path = "../tests/library.rs"]
mod library;
#[path = "../tests/second/mod.rs"]
mod second;

use library::{AnswerBlock, GridBlock, MapBlock, StateBlock};
use second::events;
use second::map::{Domain, Grid, Map, Region};
use second::state::{self, State};
use std::hint::black_box;
use std::time::Instant;

const ROUNDS: usize = 9;
const STEPS: u64 = 4_000_000;
const CALLS: u64 = 300_000;

/// A program that runs for ever, and the map it runs on.
struct Program {
    name: &'static str,
    map: Map,
    grid: Grid,
    memory: Vec<u8>,
}

impl Program {
    /// Memory 4096; the kernel has the first 256 bytes, and every domain 128 bytes of code and 128 of data after it.
    fn new(name: &'static str, count: u32, codes: &[&[u8]]) -> Program {
        let mut map = Map {
            length: 4096,
            kernel: Region { begin: 0, end: 256 },
            count,
            ..Map::default()
        };
        let mut grid = Grid::default();
        let mut memory = vec![0; 4096];
        for index in 0..count as usize {
            let begin = begin(index);
            let middle = begin + 128;
            map.domains[index] = Domain {
                code: Region { begin, end: middle },
                data: Region {
                    begin: middle,
                    end: middle + 128,
                },
                entry: begin,
            };
            for to in 0..count as usize {
                grid[index][to] = index != to;
            }
            let code = codes[index % codes.len()];
            memory[begin as usize..begin as usize + code.len()].copy_from_slice(code);
        }
        Program {
            name,
            map,
            grid,
            memory,
        }
    }
}

/// Where domain `index`, counted from 0, begins.
fn begin(index: usize) -> u32 {
    256 + 256 * index as u32
}

/// A program of one domain: R1 is the begin of its data, R2 is 1, R5 is far from 0; then the loop.
fn looping(body: &[u8], ending: impl Fn(u8, u8) -> Vec<u8>) -> Vec<u8> {
    let [low, high, ..] = (begin(0) + 128).to_le_bytes();
    let mut code = vec![1, 1, low, high, 0, 0];
    code.extend([1, 2, 1, 0, 0, 0]);
    code.extend([1, 5, 255, 255, 255, 255]);
    let [low, high, ..] = (begin(0) + code.len() as u32).to_le_bytes();
    code.extend(body);
    code.extend(ending(low, high));
    code
}

fn programs() -> Vec<Program> {
    let jump = |low, high| vec![13, low, high];
    let sums = looping(&[3, 3, 2, 4, 5, 2, 3, 4, 3], |low, high| {
        vec![14, 5, low, high]
    });
    let words = looping(&[10, 3, 1, 0, 12, 3, 1, 4, 10, 4, 1, 9, 12, 4, 1, 14], jump);
    let bytes = looping(&[9, 3, 1, 0, 11, 3, 1, 4, 9, 4, 1, 9, 11, 4, 1, 14], jump);
    let [low, high, ..] = begin(0).to_le_bytes();
    let sends = [16, 2, 1, 17, 3, 4, 13, low, high];
    let gives = [18, 18, 18, 18, 13, low, high];
    let [low, high, ..] = begin(1).to_le_bytes();
    let answers = [17, 3, 4, 16, 1, 3, 13, low, high];
    let takes = [18, 18, 18, 18, 13, low, high];
    vec![
        Program::new("add, sub, jump if", 1, &[&sums]),
        Program::new("load and store words", 1, &[&words]),
        Program::new("load and store bytes", 1, &[&bytes]),
        Program::new("two domains send and receive", 2, &[&sends, &answers]),
        Program::new("two domains give way", 2, &[&gives, &takes]),
    ]
}

/// The times of both sides in nanoseconds, a pair a round.
#[derive(Default)]
struct Times {
    library: Vec<f64>,
    second: Vec<f64>,
}

impl Times {
    fn row(mut self, name: &str) {
        let summary = |times: &mut Vec<f64>| {
            times.sort_by(f64::total_cmp);
            (times[0], times[times.len() / 2])
        };
        let (library, library_median) = summary(&mut self.library);
        let (second, second_median) = summary(&mut self.second);
        println!(
            "| {name} | {library:.2} | {library_median:.2} | {second:.2} | {second_median:.2} | {:.2} | {:.2} |",
            library / second,
            library_median / second_median
        );
    }
}

/// One side's run: nanoseconds for each of `count`, and what it left.
struct Run {
    nanoseconds: f64,
    state: StateBlock,
    memory: Vec<u8>,
}

fn timed(count: u64, work: impl FnOnce()) -> f64 {
    let begin = Instant::now();
    work();
    begin.elapsed().as_nanos() as f64 / count as f64
}

fn start(program: &Program) -> State {
    state::start(&program.map, &program.grid).expect("the map is accepted")
}

fn second_run(
    program: &Program,
    count: u64,
    work: fn(&Map, &Grid, &mut State, &mut [u8], u64),
) -> Run {
    let mut state = start(program);
    let mut memory = program.memory.clone();
    let nanoseconds = timed(count, || {
        work(
            black_box(&program.map),
            black_box(&program.grid),
            black_box(&mut state),
            black_box(&mut memory),
            black_box(count),
        )
    });
    Run {
        nanoseconds,
        state: StateBlock::from(&state),
        memory,
    }
}

fn library_run(
    program: &Program,
    count: u64,
    work: fn(&MapBlock, &GridBlock, &mut StateBlock, &mut [u8], u64),
) -> Run {
    let map = MapBlock::from(&program.map);
    let grid = library::grid_block(&program.grid);
    let mut state = StateBlock::from(&start(program));
    let mut memory = program.memory.clone();
    let nanoseconds = timed(count, || work(&map, &grid, &mut state, &mut memory, count));
    Run {
        nanoseconds,
        state,
        memory,
    }
}

fn second_batch(map: &Map, grid: &Grid, state: &mut State, memory: &mut [u8], count: u64) {
    let answer = events::batch(map, grid, state, memory, count);
    assert_eq!(answer, Ok(events::Batch::Spent(count)));
}

fn library_batch(
    map: &MapBlock,
    grid: &GridBlock,
    state: &mut StateBlock,
    memory: &mut [u8],
    count: u64,
) {
    let mut steps = 0;
    let number = unsafe {
        library::arcovinda_batch(
            map,
            grid,
            state,
            memory.as_mut_ptr(),
            memory.len(),
            count,
            &mut steps,
        )
    };
    assert_eq!((number, steps), (0, count));
}

/// Every call tests the map, the memory's length and the state anew.
fn second_calls(map: &Map, grid: &Grid, state: &mut State, memory: &mut [u8], count: u64) {
    for _ in 0..count {
        let answer = events::step(black_box(map), black_box(grid), state, memory);
        assert!(black_box(answer).is_ok());
    }
}

fn library_calls(
    map: &MapBlock,
    grid: &GridBlock,
    state: &mut StateBlock,
    memory: &mut [u8],
    count: u64,
) {
    for _ in 0..count {
        let mut answer = AnswerBlock::default();
        let number = unsafe {
            library::arcovinda_step(
                map,
                grid,
                state,
                memory.as_mut_ptr(),
                memory.len(),
                &mut answer,
            )
        };
        assert_eq!(number, 0);
        black_box(answer);
    }
}

/// The same behind C's blocks, as the library has them: read, tested, stepped and written again at every call.
fn second_block_calls(
    map: &MapBlock,
    grid: &GridBlock,
    state: &mut StateBlock,
    memory: &mut [u8],
    count: u64,
) {
    for _ in 0..count {
        let (map, grid) = (Map::from(black_box(map)), library::grid(black_box(grid)));
        let mut own = library::state(state).expect("a state");
        let answer = events::step(&map, &grid, &mut own, memory);
        *state = StateBlock::from(&own);
        black_box(AnswerBlock::from(answer.expect("accepted")));
    }
}

/// Rounds in which the two take turns at going first; both must leave the same state and memory.
fn rounds(name: &str, library: impl Fn() -> Run, second: impl Fn() -> Run) {
    let mut times = Times::default();
    for round in 0..ROUNDS {
        let (one, two) = if round % 2 == 0 {
            let one = library();
            (one, second())
        } else {
            let two = second();
            (library(), two)
        };
        assert!(one.state == two.state, "{name}: states differ");
        assert!(one.memory == two.memory, "{name}: memory differs");
        times.library.push(one.nanoseconds);
        times.second.push(two.nanoseconds);
    }
    times.row(name);
}

fn head(what: &str) {
    println!(
        "| {what} | library, min | median | Rust, min | median | ratio of minima | of medians |"
    );
    println!("|---|---|---|---|---|---|---|");
}

fn main() {
    println!("Batch, nanoseconds a step, {ROUNDS} rounds of {STEPS} steps:\n");
    head("program");
    for program in &programs() {
        rounds(
            program.name,
            || library_run(program, STEPS, library_batch),
            || second_run(program, STEPS, second_batch),
        );
    }
    println!("\nSingle steps with the whole acceptance test, nanoseconds a call, {ROUNDS} rounds of {CALLS} calls:\n");
    head("map");
    let sums = programs().swap_remove(0);
    let eight = Program::new("add, sub, jump if; 8 domains", 8, &[&sums.memory[256..384]]);
    for program in &[sums, eight] {
        rounds(
            program.name,
            || library_run(program, CALLS, library_calls),
            || second_run(program, CALLS, second_calls),
        );
        rounds(
            &format!("{}, Rust behind C's blocks too", program.name),
            || library_run(program, CALLS, library_calls),
            || library_run(program, CALLS, second_block_calls),
        );
    }
}
