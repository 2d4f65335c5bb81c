//! What the cases reached. A comparison that reaches nothing cannot fail, so a gap here is a failure too.

use crate::second::events::Answer;
use crate::second::state::Reason;

#[derive(Clone, Copy)]
pub enum Call {
    Read,
    Write,
    Question,
    View,
    Start,
    Step,
    Tick,
    WordIn,
    Play,
    Batch,
    Transcript,
    Program,
}

/// Each call's name and the refusals that it can give.
const CALLS: [(&str, &[u8]); 12] = [
    ("read", &[1, 2, 3, 4, 5, 6, 7, 8]),
    ("write", &[2, 3, 4, 5, 6, 7, 10]),
    ("question", &[2, 3, 4, 5, 6, 7, 14]),
    ("view", &[2, 3, 4, 5, 6, 7, 9, 14]),
    ("start", &[2, 3, 4, 5, 6, 7]),
    ("step", &[2, 3, 4, 5, 6, 7, 9, 13]),
    ("tick", &[2, 3, 4, 5, 6, 7, 9, 13]),
    ("word in", &[2, 3, 4, 5, 6, 7, 9, 13]),
    ("play", &[2, 3, 4, 5, 6, 7, 9, 11, 12, 13]),
    ("batch", &[2, 3, 4, 5, 6, 7, 9, 13]),
    ("transcript", &[1, 2, 3, 4, 5, 6, 7, 8, 9, 11, 12]),
    ("program", &[1, 2, 3, 4, 5, 6, 7, 8, 9, 11, 12]),
];

const ANSWERS: [&str; 9] = [
    "ran",
    "waits",
    "halted",
    "faulted",
    "switched",
    "taken",
    "full",
    "no domain",
    "idle",
];

const REASONS: [&str; 6] = ["fetch", "read", "write", "kind", "register", "channel"];

#[derive(Default)]
pub struct Counts {
    calls: [[u64; 15]; 12],
    answers: [u64; 9],
    reasons: [u64; 6],
    /// Instructions that did not fault, by kind.
    kinds: [u64; 20],
}

impl Counts {
    /// A call that gave this refusal, or 0.
    pub fn call(&mut self, call: Call, number: u8) {
        self.calls[call as usize][usize::from(number)] += 1;
    }

    pub fn answer(&mut self, answer: Answer) {
        let index = match answer {
            Answer::Ran(_) => 0,
            Answer::Waits(_) => 1,
            Answer::Halted(_) => 2,
            Answer::Faulted(_, reason) => {
                self.reasons[match reason {
                    Reason::Fetch(_) => 0,
                    Reason::Read(_) => 1,
                    Reason::Write(_) => 2,
                    Reason::Kind(_) => 3,
                    Reason::Register(_) => 4,
                    Reason::Channel(_) => 5,
                }] += 1;
                3
            }
            Answer::Switched(_) => 4,
            Answer::Taken(_) => 5,
            Answer::Full(_) => 6,
            Answer::NoDomain(_) => 7,
            Answer::Idle => 8,
        };
        self.answers[index] += 1;
    }

    pub fn kind(&mut self, kind: u8) {
        self.kinds[usize::from(kind)] += 1;
    }

    pub fn add(&mut self, other: &Counts) {
        let add = |sums: &mut [u64], more: &[u64]| {
            for (sum, number) in sums.iter_mut().zip(more) {
                *sum += number;
            }
        };
        add(self.calls.as_flattened_mut(), other.calls.as_flattened());
        add(&mut self.answers, &other.answers);
        add(&mut self.reasons, &other.reasons);
        add(&mut self.kinds, &other.kinds);
    }

    /// Prints the table and returns what never occurred. Without a program there is nothing of it to reach.
    pub fn table(&self, with_program: bool) -> Vec<String> {
        let mut missing = Vec::new();
        println!("refusals by call, 0 where nothing was refused:");
        print!("{:10}", "");
        for number in 0..15 {
            print!("{number:>8}");
        }
        println!();
        for ((name, possible), row) in CALLS.iter().zip(&self.calls) {
            if *name == "program" && !with_program {
                continue;
            }
            print!("{name:10}");
            for (number, &count) in (0..).zip(row) {
                if number == 0 || possible.contains(&number) {
                    print!("{count:>8}");
                    if count == 0 {
                        missing.push(format!("{name} with {number}"));
                    }
                } else {
                    print!("{:>8}", "-");
                }
            }
            println!();
        }
        let mut line = |title: &str, names: &mut dyn Iterator<Item = String>, counts: &[u64]| {
            let entries: Vec<_> = names
                .zip(counts)
                .map(|(name, &count)| {
                    if count == 0 {
                        missing.push(format!("{title} {name}"));
                    }
                    format!("{name} {count}")
                })
                .collect();
            println!("{title}: {}", entries.join(", "));
        };
        line(
            "answers",
            &mut ANSWERS.map(String::from).into_iter(),
            &self.answers,
        );
        line(
            "reasons",
            &mut REASONS.map(String::from).into_iter(),
            &self.reasons,
        );
        let kinds = &mut (0..20).map(|kind| format!("[{kind}]"));
        line("instructions without a fault", kinds, &self.kinds);
        missing
    }
}
