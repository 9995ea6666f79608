//! Our side: the C driver, which calls the export on many files, and programs, one file at a time.
use crate::listing::Answered;
use std::io::{self, Read, Write};
use std::path::Path;
use std::process::{Command, Stdio};

/// A program's output for this input. It is fed from a thread of its own, so that neither side waits
/// for the other with full pipes.
fn fed(command: &mut Command, input: &[u8]) -> io::Result<Vec<u8>> {
    let mut child = command
        .stdin(Stdio::piped())
        .stdout(Stdio::piped())
        .spawn()?;
    let (to, from) = (child.stdin.take(), child.stdout.take());
    let mut output = vec![];
    std::thread::scope(|scope| {
        // A program that ends early does not read all of it; what it wrote tells.
        scope.spawn(move || to.map(|mut to| to.write_all(input)));
        from.map_or(Ok(0), |mut from| from.read_to_end(&mut output))
    })?;
    let status = child.wait()?;
    if !status.success() {
        return Err(io::Error::other(format!("it ended with {status}")));
    }
    Ok(output)
}

/// Files one behind the other, each behind its length.
fn framed(files: &[&[u8]]) -> Vec<u8> {
    let mut stream = vec![];
    for file in files {
        stream.extend((file.len() as u32).to_le_bytes());
        stream.extend(*file);
    }
    stream
}

/// What the export answered to a file.
#[derive(Clone, Debug, Eq, PartialEq)]
pub struct Ours {
    pub number: u64,
    pub listing: Vec<u8>,
}

impl Ours {
    pub fn is(&self, answered: &Answered) -> bool {
        match answered {
            Answered::Number(number) => self.number == *number && self.listing.is_empty(),
            Answered::Listed { text, .. } => self.number == 0 && self.listing == text.as_bytes(),
        }
    }
}

fn take<'a>(from: &mut &'a [u8], count: usize) -> io::Result<&'a [u8]> {
    let missing = || io::Error::other("the driver's answer ends too soon");
    let (taken, rest) = from.split_at_checked(count).ok_or_else(missing)?;
    *from = rest;
    Ok(taken)
}

fn number(bytes: &[u8]) -> u64 {
    bytes
        .iter()
        .rev()
        .fold(0, |n, &byte| n << 8 | u64::from(byte))
}

/// The export's answers to these files. The driver tries slices of other lengths itself, on one in
/// `every` of them, and fails where one is wrong.
pub fn by_driver(driver: &Path, every: u64, files: &[&[u8]]) -> io::Result<Vec<Ours>> {
    let mut command = Command::new(driver);
    let output = fed(command.arg(every.to_string()), &framed(files))?;
    let mut left = &output[..];
    let mut all = vec![];
    for _ in files {
        let answer = number(take(&mut left, 8)?);
        let length = number(take(&mut left, 4)?) as usize;
        all.push(Ours {
            number: answer,
            listing: take(&mut left, length)?.to_vec(),
        });
    }
    Ok(all)
}

/// What a program prints for a file.
pub fn by_program(program: &Path, file: &[u8]) -> io::Result<Vec<u8>> {
    fed(&mut Command::new(program), file)
}

/// What `tools/plan numbers` says of each of these files: `37`, `38` or `ok`.
pub fn by_tool(tool: &Path, files: &[&[u8]]) -> io::Result<Vec<String>> {
    let output = fed(Command::new(tool).arg("numbers"), &framed(files))?;
    let text = String::from_utf8_lossy(&output);
    Ok(text.lines().map(str::to_string).collect())
}
