//! The program under test, run in a folder with a case's three files.

use crate::lent::{same, same_bytes, Checked, Mismatch};
use crate::random::Random;
use crate::second::text;
use std::fs;
use std::io;
use std::path::{Path, PathBuf};
use std::process::{Command, Stdio};

pub struct Program {
    command: Vec<String>,
    folder: PathBuf,
}

/// What stands where a file should be.
pub enum File {
    Bytes(Vec<u8>),
    Missing,
    Directory,
}

impl Program {
    /// One folder for all the cases of a thread.
    pub fn new(command: &[String], thread: u64) -> io::Result<Program> {
        let name = format!("compare-{}-{thread}", std::process::id());
        let folder = std::env::temp_dir().join(name);
        fs::create_dir_all(&folder)?;
        Ok(Program {
            command: command.to_vec(),
            folder,
        })
    }

    /// Runs the program on the files, some of which become longer, missing or unreadable; returns the text that it must print.
    pub fn check(
        &mut self,
        random: &mut Random,
        sheet: Vec<u8>,
        memory: Vec<u8>,
        trace: Vec<u8>,
    ) -> Checked<String> {
        self.run([
            vary(random, sheet, 352),
            vary(random, memory, 16_384),
            vary(random, trace, 16_384),
        ])
    }

    /// Runs the program on the sheet, the memory and the trace.
    pub fn run(&mut self, files: [File; 3]) -> Checked<String> {
        let failed = |error: io::Error| Mismatch {
            what: "program: cannot be run".into(),
            second: String::new(),
            library: error.to_string(),
        };
        let [sheet, memory, trace] = files;
        let sheet = self.file("node.sheet", 352, sheet).map_err(failed)?;
        let mut memory = self.file("node.mem", 16_384, memory).map_err(failed)?;
        let trace = self.file("node.trace", 16_384, trace).map_err(failed)?;
        let expected = text::transcript(&sheet, &mut memory, &trace);
        let output = Command::new(&self.command[0])
            .args(&self.command[1..])
            .current_dir(&self.folder)
            .stdin(Stdio::null())
            .stderr(Stdio::inherit())
            .output()
            .map_err(failed)?;
        same_bytes("program: output", expected.as_bytes(), &output.stdout)?;
        same("program: exit status", Some(0), output.status.code())?;
        Ok(expected)
    }

    /// Puts a file into the folder and returns what the program may see of it: "the first bytes; a missing file is empty".
    fn file(&self, name: &str, limit: usize, file: File) -> io::Result<Vec<u8>> {
        let path = self.folder.join(name);
        if path.is_dir() {
            fs::remove_dir(&path)?;
        }
        match file {
            File::Bytes(mut bytes) => {
                fs::write(&path, &bytes)?;
                bytes.truncate(limit);
                Ok(bytes)
            }
            File::Missing => remove(&path).map(|()| Vec::new()),
            File::Directory => {
                remove(&path)?;
                fs::create_dir(&path)?;
                Ok(Vec::new())
            }
        }
    }
}

impl Drop for Program {
    fn drop(&mut self) {
        // What cannot be removed stays in the folder for temporary files.
        let _ = fs::remove_dir_all(&self.folder);
    }
}

fn remove(path: &Path) -> io::Result<()> {
    match fs::remove_file(path) {
        Err(error) if error.kind() != io::ErrorKind::NotFound => Err(error),
        _ => Ok(()),
    }
}

fn vary(random: &mut Random, mut bytes: Vec<u8>, limit: usize) -> File {
    match random.below(60) {
        0 => File::Missing,
        1 => File::Directory,
        2 => {
            // Up to the limit, at it and past it.
            let length = limit + random.pick(&[0, 1, 2, 5, 4_000]) - random.pick(&[0, 1]);
            bytes.resize(length.max(bytes.len()), random.pick(&[1, 3, 5]));
            File::Bytes(bytes)
        }
        3 if bytes.len() == limit => {
            bytes.extend([0; 100]);
            File::Bytes(bytes)
        }
        _ => File::Bytes(bytes),
    }
}
